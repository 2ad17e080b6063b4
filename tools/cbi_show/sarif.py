"""The bugs for code review, as SARIF 2.1.0, and for editors, as file:line: text; a ranking alone by its rows. Not proved."""
import hashlib
import json
import os
import pathlib
import urllib.parse
from typing import Any, Dict, Iterator, List, Optional, Tuple

import cbi_show.broke
import cbi_show.told
from cbi_show.answer import BugShown, Stated
from cbi_show.broke import Broke, Call
from cbi_show.files import VERSION, count_of
from cbi_show.rows import Shown, View
from cbi_show.seen import Place
from cbi_show.told import counts, ended_of_row, likely
from cbi_show.where import Spot

BASE = "%SRCROOT%"
# From which importance of a row on it is an error, and a warning, in millionths; and from which strength on a bug is an error: half of a correlation.
ERROR, WARNING, STRONG = 500000, 100000, 250000
# For each scheme what its facts say, in short, in full, and what to do; and the same for what else is told.
RULES = {
    "branches": ("A condition", "Runs fail more often where this condition had this truth value.",
                 "Look at what the condition lets through, and at what follows it on this side."),
    "returns": ("A returned value", "Runs fail more often where this call returned such a value, beside 0.",
                "Look at whether the value is checked before it is used, and at why it was returned."),
    "pairs": ("Two values", "Runs fail more often where a variable's new value stood in this relation to another variable or to a constant.",
              "Look at whether the two may stand like this at all, and at the bounds that the code relies on."),
    "hang": ("A hang", "Runs that hang were last seen here.", "Look at what is to end the loop."),
    "reach": ("A line that failing runs come to", "Failing runs come to this line more often than others.", "Look at what leads there."),
}


def repository_of(path: str) -> Optional[str]:
    """The folder of the repository that a file stands in."""
    folder = os.path.dirname(os.path.abspath(path))
    while True:
        if os.path.exists(os.path.join(folder, ".git")):
            return folder
        above = os.path.dirname(folder)
        if above == folder:
            return None
        folder = above


def location_of(path: str, folder: str = "") -> Tuple[Dict[str, Any], Dict[str, Any]]:
    """Where a file is, for `artifactLocation`, and what that stands on, for `originalUriBaseIds`: the top of its repository, or the folder where the hunt was made."""
    whole = os.path.abspath(os.path.join(folder, path))
    top = repository_of(whole) or (folder if folder and whole.startswith(os.path.join(folder, "")) else None)
    if top is None:
        return {"uri": pathlib.Path(whole).as_uri()}, {}
    relative = os.path.relpath(whole, top).replace(os.sep, "/")
    return {"uri": urllib.parse.quote(relative), "uriBaseId": BASE}, {BASE: {"uri": pathlib.Path(top).as_uri().rstrip("/") + "/"}}


def folder_of(view: View) -> str:
    return view.hunted.folder if view.hunted else ""


def place_of(view: View, spot: Spot) -> Dict[str, Any]:
    region: Dict[str, Any] = {"startLine": spot.line}
    text = view.where.text(spot)
    if text is not None:
        region["snippet"] = {"text": text}
    return {"artifactLocation": location_of(spot.file, folder_of(view))[0], "region": region}


def result(view: View, rule: str, level: str, rank: float, said: str, spot: Spot, function: str) -> Dict[str, Any]:
    return {"ruleId": rule, "ruleIndex": list(RULES).index(rule), "level": level, "rank": rank, "message": {"text": said},
            "locations": [{"physicalLocation": place_of(view, spot), "logicalLocations": [{"name": function, "kind": "function"}]}]}


def hashed(*pieces: str) -> Dict[str, str]:
    """What stays when lines are put in above: scheme, function, predicate and the text of its line."""
    return {"cbiPredicate/v1": hashlib.sha256("\n".join(pieces).encode("utf-8", "surrogateescape")).hexdigest()}


def fingerprint_of(said: Stated, scheme: str, view: View) -> Dict[str, str]:
    return hashed(scheme, said.told.function, said.found.text, (view.where.text(said.told.spot) or "").strip())


# Bugs and lines

def scheme_of(said: Stated, view: View) -> str:
    return view.seen.table.sites[said.found.predicate].scheme if view.seen else "branches"


def level_of_bug(bug: BugShown) -> str:
    """What may be chance is a note, whatever its strength."""
    return "note" if bug.weak() else "error" if bug.lead.found.strength >= STRONG else "warning"


def result_of_bug(bug: BugShown, view: View) -> Dict[str, Any]:
    title, about = cbi_show.told.title_of(bug, view), dict(cbi_show.told.about(bug, view))
    parts = [title.endless, f"{title.doubt}{title.said.told.fact.past()}.", cbi_show.told.counts_of_bug(bug, view), cbi_show.told.doubt(bug, view)]
    parts += [f"{cbi_show.told.capital(what)}: {'; '.join(told)}." for what, told in about.items() if what in ("perhaps the same bug", "ended by", "failing inputs") or what.startswith("changed since ")]
    if view.hunted and view.hunted.since:
        parts.insert(0, f"Fails in the new version alone, not in {view.hunted.since.old}.")
    found = bug.lead.found
    one = result(view, scheme_of(bug.lead, view), level_of_bug(bug), found.strength / 10000, " ".join(part for part in parts if part), bug.lead.told.spot, bug.lead.told.function)
    one["partialFingerprints"] = fingerprint_of(bug.lead, one["ruleId"], view)
    one["properties"] = {"predicate": found.predicate, "strength": found.strength, "expectedByChance": round(bug.expected, 6), "failingRuns": len(bug.runs), "endings": bug.endings}
    related = [("also", cbi_show.told.brief(said, view), said) for said in bug.also] + [("on the way there", cbi_show.told.way_step(said, view), said) for said in bug.way]
    if related:
        one["relatedLocations"] = [{"id": number, "physicalLocation": place_of(view, said.told.spot), "message": {"text": f"{what}: {text}"}}
                                   for number, (what, text, said) in enumerate(related, 1)]
    example = view.hunted.example_of(bug.number) if view.hunted else None
    if example and example.broke:
        said = [f"{what}: {text}" for what, text in cbi_show.broke.lines_of(example.broke)]
        one["message"]["text"] += "".join(f" {cbi_show.told.capital(text)}." for text in said)
        if example.broke.exact and example.broke.calls:
            one["stacks"] = [stack_of(example.broke, view)]
    files = [file for file in cbi_show.told.files_of(bug, view) if ":" not in os.path.basename(file.path)][:1]
    if files:
        one["attachments"] = [{"artifactLocation": location_of(files[0].path, folder_of(view))[0], "description": {"text": "the smallest failing input"}}]
    return one


def stack_of(broke: Broke, view: View) -> Dict[str, Any]:
    """The calls that were active where the smallest failing input broke, the innermost first."""
    frames = [{"location": {"physicalLocation": place_of(view, Spot(call.file, call.line)), "logicalLocations": [{"name": call.function, "kind": "function"}]}} for call in broke.calls]
    return {"message": {"text": "the calls that were active where the smallest failing input broke"}, "frames": frames}


def loops_of(view: View) -> List[Tuple[str, Call]]:
    """The loops that failing runs never leave, each as a sentence with its place; or where they aren't known, where such runs were seen last."""
    hunted = view.hunted
    found = [(cbi_show.told.endless_of(example), (example.broke.loop or example.broke.calls[0]) if example.broke else None) for example in (hunted.examples if hunted else [])
             if cbi_show.told.endless_of(example)]
    loops = {(call.file, call.line): (said, call) for said, call in found if said and call}
    seen = [(f"A run hangs, and was last seen at {one.statement} ({one.times} of those that were looked at).", Call(one.file, one.line, one.function, one.statement))
            for one in (hunted.hanging if hunted else []) if one.line]
    return list(loops.values()) or seen


def result_of_line(said: Stated, view: View) -> Dict[str, Any]:
    one = result(view, scheme_of(said, view), "note", said.found.strength / 10000, f"Suspicious: {cbi_show.told.line_of(said, view)}.", said.told.spot, said.told.function)
    return {**one, "partialFingerprints": fingerprint_of(said, one["ruleId"], view), "properties": {"predicate": said.found.predicate, "strength": said.found.strength}}


def result_of_hang(said: str, at: Call, view: View) -> Dict[str, Any]:
    return result(view, "hang", "error", 100.0, said, Spot(at.file, at.line), at.function)


def result_of_place(place: Place, view: View) -> Dict[str, Any]:
    said = cbi_show.told.place_line(place, view.totals, view.where) if view.totals else ""
    return result(view, "reach", "warning" if place.sure() else "note", 0.0, f"Failing runs go there{'' if place.sure() else ', perhaps by chance'}: {said}.", place.spot, place.function)


def other_lines(view: View) -> List[Stated]:
    """The suspicious lines that are no bug's."""
    told = view.answer
    taken = {(bug.lead.told.spot, bug.lead.told.function) for bug in told.bugs} if told else set()
    return [said for said in told.lines if (said.told.spot, said.told.function) not in taken] if told else []


def results_of(view: View) -> List[Dict[str, Any]]:
    told = view.answer
    if told is None:
        return [result_of_row(shown, view) for shown in users(view)]
    found = [result_of_hang(said, at, view) for said, at in loops_of(view)]
    if told.told_apart():
        found += [] if told.strong() else [result_of_place(place, view) for place in cbi_show.told.places_of(view)]
        found += [result_of_bug(bug, view) for bug in told.bugs] + [result_of_line(said, view) for said in other_lines(view)]
    return found


# Rows

def level_of(shown: Shown) -> str:
    importance = shown.row.importance
    return "note" if shown.weak() else "error" if importance >= ERROR else "warning" if importance >= WARNING else "note"


def result_of_row(shown: Shown, view: View) -> Dict[str, Any]:
    row = shown.row
    said = [f"{shown.text}: {counts(shown)}", likely(shown, view)] + [text for text in (ended_of_row(shown),) if text]
    text = ". ".join(text[0].upper() + text[1:] if place else text for place, text in enumerate(said)) + "."
    one = result(view, row.scheme, level_of(shown), row.importance / 10000, text, shown.spot, shown.function)
    one["partialFingerprints"] = hashed(row.scheme, shown.function, row.text, (shown.source or "").strip())
    one["properties"] = {"predicate": row.predicate, "importance": row.importance}
    related = [{"id": number, "physicalLocation": place_of(view, near.spot), "message": {"text": f"falls with it: {near.fact.text()}"}}
               for number, near in enumerate(shown.near, 1) if near.spot and not near.spot.added]
    return {**one, "relatedLocations": related} if related else one


def users(view: View) -> List[Shown]:
    """The rows in their order, but for those of what a port added, which are at no line of a person's."""
    return sorted((shown for shown in view.every() if not shown.spot.added), key=lambda shown: shown.row.rank)


def sarif_of(view: View) -> Iterator[str]:
    """SARIF 2.1.0: a rule for each scheme, and a result for each bug and each suspicious line, or for each row."""
    bases = location_of(view.where.main, folder_of(view))[1]
    rules = [{"id": scheme, "shortDescription": {"text": short + "."}, "fullDescription": {"text": full}, "help": {"text": help_text}}
             for scheme, (short, full, help_text) in RULES.items()]
    run: Dict[str, Any] = {"tool": {"driver": {"name": "cbi", "version": VERSION, "rules": rules}}, "columnKind": "utf16CodeUnits"}
    if bases:
        run["originalUriBaseIds"] = bases
    first = [said for said in (view.hunted.warning if view.hunted else "", cbi_show.told.since_line(view)) if said]
    if first:
        run["properties"] = {"notes": first}
    if view.hunted and view.hunted.since:
        run["properties"]["since"] = view.hunted.since._asdict()
    run["results"] = results_of(view)
    yield json.dumps({"$schema": "https://json.schemastore.org/sarif-2.1.0.json", "version": "2.1.0", "runs": [run]}, indent=2)


def quickfix_of(view: View) -> Iterator[str]:
    """The bugs, and then the suspicious lines that are no bug's; a ranking alone by its rows."""
    if view.answer is None:
        for shown in users(view):
            yield f"{shown.spot.file}:{shown.spot.line}: {shown.text}: {counts(shown)}{' (weak)' if shown.weak() else ''}"
        return
    for endless, at in loops_of(view):
        yield f"{from_here(at.file, view)}:{at.line}: {endless}"
    if view.answer.told_apart():
        yield from (fix_of(bug, view) for bug in view.answer.strong())
        for said in other_lines(view):
            yield f"{from_here(said.told.spot.file, view)}:{said.told.spot.line}: suspicious: {said.told.fact.past()} ({said.found.a} failing, {count_of(said.found.b, 'other')})"
        yield from (fix_of(bug, view) for bug in view.answer.weak())


def fix_of(bug: BugShown, view: View) -> str:
    title = cbi_show.told.title_of(bug, view)
    return f"{from_here(title.spot.file, view)}:{title.spot.line}: {title.doubt}{title.said.told.fact.past()}: {cbi_show.told.counts_of_bug(bug, view)}"


def from_here(path: str, view: View) -> str:
    """A path as an editor opens it that is called where we are."""
    folder = folder_of(view)
    return path if not folder or os.path.abspath(folder) == os.getcwd() else os.path.relpath(os.path.join(folder, path))
