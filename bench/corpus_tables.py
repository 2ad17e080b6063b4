"""The tables and plots of docs/EVIDENCE.md and docs/reference/FAULTS.md, of what was measured.

Each document has its own words; between `<!-- made: NAME -->` and `<!-- end -->` stands what is made here.
"""
import os
import re
from statistics import mean, median
from typing import Any, Callable, Dict, List, Optional, Sequence, Tuple

import corpus_plots
import corpus_words as words
from corpus_files import KINDS, NEW_KINDS, read_corpus
from corpus_words import by_lines_of_chance, capped, percent, table
from pages import fill_in

Results = Dict[str, Any]
WITHIN = (("function", 5), ("line", 5), ("near", 1), ("near", 3), ("near", 5), ("near", 10))
SHOWN = 1000  # runs of which tables without a number in their name and plots are made, where there are so many
WAYS = (("rows {rate} {runs}", "`rank`"), ("lines {rate} {runs}", "`lines`"), ("own-lines {rate} {runs}", "the same as `cbi-hunt` asks for it"),
        ("bugs {rate} {runs}", "`bugs`, its leaders"), ("also {rate} {runs}", "`bugs`, its places as they are printed"),
        ("own-also {rate} {runs}", "the same as `cbi-hunt` asks for it"),
        ("shown {rate} {runs}", "`rank` as `cbi-hunt` shows it"), ("narrow {rate} {runs}", "`rank` of branches and returns alone"),
        ("card {rate} {runs}", "the first card of `cards`"), ("pair {rate} {runs}", "`pairs`"),
        ("importance {rate} {runs}", "predicates by Importance, nothing set aside"), ("increase {rate} {runs}", "predicates by Increase alone"),
        ("reach {rate} {runs}", "lines with sites by reach (Ochiai of being observed)"),
        ("truth {rate} {runs}", "lines with sites by Ochiai of a predicate's truth"), ("thin-truth {rate} {runs}", "the same, thinned"),
        ("chi {rate} {runs}", "lines with sites by the chi-square of a predicate's truth"), ("thin-chi {rate} {runs}", "the same, thinned"),
        ("turns {rate} {runs}", "`rank` and reach by turns"),
        ("Ochiai {runs}", "Ochiai over gcov"), ("thin-Ochiai {runs}", "the same, thinned"), ("Tarantula {runs}", "Tarantula over gcov"),
        ("DStar {runs}", "DStar over gcov"))


def told(value: Optional[float]) -> str:
    if value is None:
        return "-"
    return f"{value:.0f}" if value == int(value) or value >= 10 else f"{value:.1f}"


def where(line: Optional[int], function: str, text: str) -> str:
    """A predicate for a cell of a table, in which a bar would end the cell."""
    return f"`{text}`, {function}".replace("|", "\\|") + (f" {line}" if line else "")


def faults_of(results: Results, chosen: Callable[[Any], bool] = lambda fault: True) -> List[Any]:
    return [fault for _, fault in sorted(results["faults"].items()) if chosen(fault)]


def counts_of(results: Results) -> List[int]:
    """The numbers of runs with each visit observed, rising."""
    return sorted({int(way.split()[2]) for fault in results["faults"].values() for way in fault["ways"] if way.startswith("rows 1 ")})


def way_of(fault: Any, way: str) -> Optional[Any]:
    return fault["ways"].get(way)


def within(faults: Sequence[Any], way: str, what: str, most: int) -> str:
    """How many faults are found among the first so many."""
    values = [found[what] for found in (way_of(fault, way) for fault in faults) if found is not None]
    return str(sum(value is not None and value <= most for value in values)) if values else ""


def exams(faults: Sequence[Any], way: str, what: str = "walk") -> List[float]:
    return [found[what] for found in (way_of(fault, way) for fault in faults) if found is not None and found.get(what) is not None]


def add_turns(fault: Any) -> None:
    """A row and a line by reach in turn, row first."""
    ways = fault["ways"]
    for way in [way for way in ways if way.startswith(("rows ", "again rows "))]:
        rows, reach = ways[way], ways.get(way.replace("rows", "reach"))
        if reach is None:
            continue
        found: Dict[str, Optional[float]] = {}
        for what in ("line", "near", "function"):
            places = [2 * one - less for one, less in ((rows[what], 1), (reach[what], 0)) if one is not None]
            found[what] = min(places) if places else None
        ways[way.replace("rows", "turns")] = found


def by_way(faults: Sequence[Any], runs: int) -> str:
    rows = []
    for form, name in WAYS:
        way = form.format(rate=1, runs=runs)
        there = sum(way in fault["ways"] for fault in faults)
        if there:
            walks, alone = exams(faults, way), exams(faults, way, "alone")
            rows.append([name if there == len(faults) else f"{name} ({there} of the faults)"]
                        + [within(faults, way, what, most) for what, most in WITHIN]
                        + ([percent(median(walks)), percent(mean(walks))] if walks else ["", ""]) + [percent(median(alone)) if alone else ""])
    rows.append(["lines by chance"] + [by_lines_of_chance(faults, what, most) for what, most in WITHIN] + [""] * 3)
    return table(["Way", "the function in 5", "the line in 5", "near in 1", "in 3", "in 5", "in 10", "EXAM, median", "mean", "line by line, median"], rows)


def rates_of(faults: Sequence[Any]) -> List[Tuple[int, int]]:
    """Numbers of runs and rates, rising, that were measured of all these faults."""
    ways = {(int(way.split()[2]), int(way.split()[1])) for fault in faults for way in fault["ways"] if way.startswith("rows ")}
    return sorted(one for one in ways if all(f"rows {one[1]} {one[0]}" in fault["ways"] for fault in faults))


def by_rate(faults: Sequence[Any]) -> str:
    rows = []
    for runs, rate in rates_of(faults):
        way = f"rows {rate} {runs}"
        rows.append([f"{runs:,}", str(rate)] + [within(faults, way, "near", most) for most in (1, 3, 5)]
                    + [within(faults, way, "function", 5), percent(median(exams(faults, way)))]
                    + [within(faults, f"lines {rate} {runs}", "near", most) for most in (1, 3, 5)]
                    + [within(faults, f"lines {rate} {runs}", "function", 5)]
                    + [within(faults, f"{other} {rate} {runs}", "near", 5) if words.has(faults, f"{other} {rate} {runs}") else ""
                       for other in ("bugs", "also", "narrow", "card", "importance", "reach", "truth")]
                    + [within(faults, f"Ochiai {runs}", "near", 5) if rate == 1 else ""])
    return table(["Runs", "Rate", "rows: near in 1", "in 3", "in 5", "the function in 5", "EXAM, median", "`lines`: near in 1", "in 3", "in 5", "the function in 5",
                  "leaders of `bugs`: near in 5", "places of `bugs`", "rows without pairs", "first card", "Importance", "reach", "truth", "Ochiai"], rows)


def by_policy(faults: Sequence[Any]) -> str:
    rows = []
    for runs, rate in rates_of(faults):
        words = [f"{runs:,}", str(rate)]
        for policy in ("rows", "failing", "relabel"):
            words += [within(faults, f"{policy} {rate} {runs}", "near", most) for most in (1, 3, 5, 10)]
        rows.append(words)
    return table(["Runs", "Rate", "`all`: near in 1", "in 3", "in 5", "in 10", "`failing`: in 1", "in 3", "in 5", "in 10", "`relabel`: in 1", "in 3", "in 5", "in 10"],
                 rows)


def by_inputs(faults: Sequence[Any]) -> str:
    """So many runs, each on an input of its own, beside as many on fewer inputs, and beside as few runs."""
    found = {tuple(map(int, way.split()[2:])) for fault in faults for way in fault["ways"] if way.startswith("again rows ")}
    rows = []
    for rate, runs, times in sorted(found):
        fewer = runs // times
        for inputs, form in ((runs, f"{{}} {rate} {runs}"), (fewer, f"again {{}} {rate} {runs} {times}"), (fewer, f"{{}} {rate} {fewer}")):
            made = fewer if form == f"{{}} {rate} {fewer}" else runs
            if all(form.format("rows") in fault["ways"] for fault in faults):
                rows.append([str(rate), f"{made:,}", f"{inputs:,}"] + [within(faults, form.format(way), "near", most) for way, most in
                                                                      (("rows", 1), ("rows", 3), ("rows", 5), ("lines", 5), ("also", 5), ("truth", 5))])
    return table(["Rate", "Runs", "Inputs", "rows: near in 1", "in 3", "in 5", "`lines`", "places of `bugs`", "truth"], rows)


def by_failures(faults: Sequence[Any]) -> str:
    """By how many failing runs a fault had, over all numbers of runs, with each visit observed."""
    rows = []
    for least, most, name in ((0, 0, "none"), (1, 1, "1"), (2, 4, "2 to 4"), (5, 9, "5 to 9"), (10, 29, "10 to 29"), (30, 99, "30 to 99"), (100, 10 ** 9, "100 and more")):
        words, some = [name], [(fault, count) for fault in faults for count, failing in fault["failing"].items() if least <= failing <= most]
        for form in ("rows 1 {}", "lines 1 {}", "also 1 {}", "reach 1 {}", "truth 1 {}", "Ochiai {}"):
            words.append(str(sum(capped(fault["ways"][form.format(count)]["near"]) <= 5 for fault, count in some)))
        rows.append(words[:1] + [str(len(some))] + words[1:])
    return table(["Failing runs", "cases", "rows: near in 5", "`lines`", "places of `bugs`", "reach", "truth", "Ochiai"], rows)


SECTIONS = (("", "leading"), ("unrelated", "pairs that no statement brings together"), ("unimportant", "Importance 0"), ("weak", "as strong by chance"),
            ("added", "of what the port added"))


def by_section(faults: Sequence[Any]) -> str:
    """How often a row is right, by where `cbi-hunt` shows it."""
    rows = []
    for runs, rate in rates_of(faults):
        words = [f"{runs:,}", str(rate)]
        for section, _ in SECTIONS:
            some = [row for fault in faults for row in fault["judged"][f"{rate} {runs}"][:10] if row[4] == section]
            words.append(f"{sum(row[3] for row in some)} of {len(some)}" if some else "-")
        rows.append(words)
    return table(["Runs", "Rate"] + [name for _, name in SECTIONS], rows)


def by_kind(faults: Sequence[Any], runs: int) -> str:
    rows = []
    row, line, also, coverage = (form.format(runs) for form in ("rows 1 {}", "lines 1 {}", "also 1 {}", "Ochiai {}"))
    for kind in (*KINDS, *NEW_KINDS):
        some = [fault for fault in faults if fault["kind"] == kind]
        if some:
            rows.append([kind, str(len(some)), within(some, row, "near", 5), within(some, line, "near", 5), within(some, line, "function", 5), within(some, line, "line", 5)]
                        + [within(some, f"lines {rate} {runs}", "near", 5) for rate in (5, 100)] + [within(some, also, "near", 5), within(some, coverage, "near", 5), within(some, f"thin-{coverage}", "near", 5)]
                        + [percent(median(exams(some, way))) for way in (row, line, coverage)])
    return table(["Kind", "Faults", "rows: near in 5", "`lines`: near in 5", "the function in 5", "the line in 5", "near at rate 5", "at rate 100", "places of `bugs`: near in 5", "Ochiai: near in 5", "thinned",
                  "EXAM of rows, median", "of `lines`", "of Ochiai"], rows)


BANDS = ((0, 0, "0"), (1, 99999, "below 0.1"), (100000, 299999, "0.1 to 0.3"), (300000, 499999, "0.3 to 0.5"), (500000, 1000000, "0.5 and more"))


def by_importance(faults: Sequence[Any], runs: int) -> str:
    """How often a row is right, by its importance and its place; 10 rows a fault are looked at."""
    rows = []
    for least, most, name in BANDS:
        words = [name]
        for first, last in ((1, 1), (2, 3), (4, 10)):
            some = [row for fault in faults for row in fault["judged"][f"1 {runs}"][first - 1:last] if least <= row[0] <= most]
            words.append(f"{sum(near for _, _, _, near, _ in some)} of {len(some)}" if some else "-")
        rows.append(words)
    return table(["Importance", "first rows near the fault", "second and third", "fourth to tenth"], rows)


def by_failing(faults: Sequence[Any], runs: int) -> str:
    """The same by the number of failing runs that a row has."""
    rows = []
    for least, most, name in ((1, 1, "1"), (2, 2, "2"), (3, 4, "3 or 4"), (5, 9, "5 to 9"), (10, 10 ** 9, "10 and more")):
        words = [name]
        for first, last in ((1, 1), (2, 3), (4, 10)):
            some = [row for fault in faults for row in fault["judged"][f"1 {runs}"][first - 1:last] if least <= row[1] <= most]
            words.append(f"{sum(near for _, _, _, near, _ in some)} of {len(some)}" if some else "-")
        rows.append(words)
    return table(["Failing runs of the row", "first rows near the fault", "second and third", "fourth to tenth"], rows)


def by_fault(faults: Sequence[Any], runs: int) -> str:
    rows = []
    for fault in faults:
        ways, listed = fault["ways"], fault["listed"][f"lines 1 {runs}"]
        found, lines = ways[f"lines 1 {runs}"], ways[f"Ochiai {runs}"]
        text = where(*listed[0][:3]) if listed else "none"
        fails = percent(fault["failed"] / max(1, fault["runs"] - fault["cut"]))
        rows.append([f"{fault['program']}/{fault['fault']}", fault["kind"], fails, told(found["line"]), told(found["near"]), told(found["function"]),
                     percent(found["walk"]), told(ways[f"also 1 {runs}"]["near"]), told(ways[f"rows 1 {runs}"]["near"]), told(lines["line"]), told(lines["near"]), percent(lines["walk"]), text])
    return table(["Fault", "Kind", "fails", "`lines`: line", "near", "function", "EXAM", "`bugs`: near", "rows: near", "Ochiai: line", "near", "EXAM", "the first of `lines`"], rows)


def apart(faults: Sequence[Any], runs: int) -> str:
    """Which faults `lines` and Ochiai have among their first five."""
    names: Dict[Tuple[bool, bool], List[str]] = {}
    for fault in faults:
        found = [capped(fault["ways"][way]["near"]) <= 5 for way in (f"lines 1 {runs}", f"Ochiai {runs}")]
        names.setdefault((found[0], found[1]), []).append(f"{fault['program']}/{fault['fault']}")
    rows = []
    for name, which in (("both", (True, True)), ("`lines` alone", (True, False)), ("Ochiai alone", (False, True)), ("neither", (False, False))):
        some = names.get(which, [])
        rows.append([name, str(len(some)), ", ".join(some)])
    return table(["Near in five", "Faults", "Which"], rows)


def three_of(results: Results) -> Tuple[int, List[Any]]:
    """The most runs that programs with three faults had, and what was measured of these."""
    most = max((three["runs"] for three in results["three"].values()), default=0)
    return most, [three for _, three in sorted(results["three"].items()) if three["runs"] == most]


def three_at_once(results: Results) -> str:
    listed = (("printed", "own"), ("printed", "named"), ("printed", "also", "near"), ("printed", "lines", "near"), ("Ochiai", "near"))
    rows = []
    for three in three_of(results)[1]:
        for place, fault in enumerate(three["faults"]):
            rows.append([three["program"] if place == 0 else "", fault["fault"], str(fault["failing alone"]), told(fault["own"]), told(fault["near"]),
                         *(told(picked(*keys)(fault)) for keys in listed)])
    return table(["Program", "Fault", "failing runs", "row of its own", "row near it", "bug of its own", "that has a place near it", "place of `bugs` near it",
                  "`lines`: near", "Ochiai: near"], rows)


Value = Callable[[Any], Optional[float]]


def picked(*keys: str) -> Value:
    """What stands under these keys, one within the other."""
    def value(fault: Any) -> Optional[float]:
        for key in keys:
            fault = fault[key]
        found: Optional[float] = fault
        return found
    return value


THREE_WAYS: Sequence[Tuple[str, Value]] = (
    ("a row of its own, by its runs", picked("own")),
    ("the same, under the policy `failing`", picked("policies", "failing", "own")),
    ("the same, under `relabel`", picked("policies", "relabel", "own")),
    ("a row near it", picked("near")),
    ("the same, under `failing`", picked("policies", "failing", "near")),
    ("the same, under `relabel`", picked("policies", "relabel", "near")),
    ("a row in its function", picked("function")),
    ("a bug of its own, by its runs", picked("printed", "own")),
    ("a bug of its own that has a place near it", picked("printed", "named")),
    ("a leader of `bugs` near it", picked("printed", "bugs", "near")),
    ("a place of `bugs` near it, as they are printed", picked("printed", "also", "near")),
    ("a leader of `bugs` in its function", picked("printed", "bugs", "function")),
    ("one of `lines` near it", picked("printed", "lines", "near")),
    ("Ochiai, near", picked("Ochiai", "near")),
    ("Tarantula, near", picked("Tarantula", "near")),
    ("DStar, near", picked("DStar", "near")))


def three_summed(results: Results) -> str:
    there = three_of(results)[1]
    every = [fault for three in there for fault in three["faults"]]

    def last(three: Any, value: Value) -> Optional[float]:
        values = [value(fault) for fault in three["faults"]]
        known = [one for one in values if one is not None]
        return max(known) if len(known) == len(values) else None

    rows = []
    for name, value in THREE_WAYS:
        thirds = [last(three, value) for three in there]
        known = sorted(third for third in thirds if third is not None)
        rows.append([name, f"{sum(capped(value(fault)) <= 5 for fault in every)} of {len(every)}",
                     f"{sum(capped(third) <= 5 for third in thirds)} of {len(there)}",
                     f"{len(known)} of {len(there)}", told(median(known)) if known else "-"])
    return table(["What", "faults in the first 5", "programs with all three in the first 5", "programs where the third comes at all",
                  "its place, median of these"], rows)


def bug_by_predicate(three: Any) -> str:
    rows = []
    for number, row in enumerate(three["table"][:6], 1):
        line, function, text, failing, successful, *shares = row
        rows.append([str(number), where(line, function, text), str(failing), str(successful)] + [str(count) for count in shares])
    return table(["Row", "Predicate", "f", "s"] + [f"{fault['fault']} ({fault['failing alone']})" for fault in three["faults"]], rows)


def speeds(results: Results, runs: int) -> str:
    """Seconds of a processor."""
    rows = []
    for rate in sorted({rate for _, rate in rates_of(faults_of(results))}):
        key = f"runs {rate} {runs}"
        seconds = [fault["times"][key] for fault in results["faults"].values() if key in fault["times"]]
        lines = [fault["site lines"][str(rate)] for fault in results["faults"].values()]
        rows.append([f"runs at rate {rate}", f"{runs / median(seconds):.0f} a second", f"{min(seconds):.1f} to {max(seconds):.1f} s", f"{median(lines):.0f}"])
    ranks = [fault["times"][f"rank 1 {runs}"] for fault in results["faults"].values()]
    rows.append([f"`rank` of {runs:,} runs", f"{median(ranks):.1f} s", f"{min(ranks):.2f} to {max(ranks):.2f} s", ""])
    covers = [fault["times"][f"coverage {runs}"] for fault in results["faults"].values()]
    what = f"{runs:,} runs of gcc's build with coverage, and gcov of each"
    rows.append([what, f"{runs / median(covers):.0f} a second", f"{min(covers):.1f} to {max(covers):.1f} s", ""])
    return table(["What, in CPU seconds", "median", "from, to", "sites observed a run, median"], rows)


def corpus_table() -> str:
    rows = []
    for subject in read_corpus():
        for place, fault in enumerate(subject.faults):
            lines = ", ".join(map(str, fault.lines()))
            rows.append([subject.name if place == 0 else "", str(len(subject.lines)) if place == 0 else "", fault.name, fault.kind, lines,
                         "new" if fault.new else "yes" if fault.kept else "", fault.says])
    return table(["Program", "Lines", "Fault", "Kind", "At line", "Kept back", "What"], rows)


def plots(faults: Sequence[Any], runs: int) -> List[Tuple[str, str]]:
    drawn = (("lines {rate} {runs}", "lines"), ("also {rate} {runs}", "places of bugs"), ("rows {rate} {runs}", "rows of rank"), ("reach {rate} {runs}", "lines by reach"),
             ("increase {rate} {runs}", "Increase alone"), ("Ochiai {runs}", "Ochiai"), ("Tarantula {runs}", "Tarantula"), ("DStar {runs}", "DStar"))
    rows, looks = [], []
    for form, name in drawn:
        way = form.format(rate=1, runs=runs)
        places = [capped(fault["ways"][way]["near"]) for fault in faults]
        rows.append((name, [(float(k), sum(place <= k for place in places) / len(faults)) for k in range(1, 21)]))
        looks.append((name, corpus_plots.share_curve(exams(faults, way), 0.5, 50)))
    rows.append(("chance", [(float(k), words.expected_by_chance(faults, "near", k) / len(faults)) for k in range(1, 21)]))
    of = f"({len(faults)} faults, {runs:,} runs)"
    return [("evidence-rows.svg", corpus_plots.plot(f"Faults within five lines of one of the first k rows, or lines {of}", "k", rows,
                                                    [(float(k), str(k)) for k in (1, 3, 5, 10, 15, 20)], 1, 20)),
            ("evidence-lines.svg", corpus_plots.plot(f"Faults whose line is met by looking at so many of the lines {of}", "share of the lines with code",
                                                     looks, [(k / 100, f"{k} %") for k in (0, 10, 20, 30, 40, 50)], 0, 0.5))]


def counted(new: Sequence[Any]) -> str:
    """Of how many faults of the second set that is kept back there are measurements."""
    every = sum(fault.new for subject in read_corpus() for fault in subject.faults)
    return f"All {every} are measured." if len(new) == every else f"{len(new)} of the {every} are measured by now, those whose runs take longest first; the others aren't."


def shown_count(results: Results) -> int:
    counts = counts_of(results)
    return SHOWN if SHOWN in counts else counts[-1]


def of_faults(faults: Sequence[Any], runs: int, most: int, prefix: str) -> Dict[str, str]:
    """The tables of some faults, of so many runs; and some of the most runs."""
    made = {"measured": f"{words.measured(faults, runs)}, each visit observed.", "by way": by_way(faults, runs), "by kind": by_kind(faults, runs),
            "by importance": by_importance(faults, runs), "by failing": by_failing(faults, runs), "by fault": by_fault(faults, runs), "apart": apart(faults, runs),
            "beside Ochiai": words.beside_ochiai(faults, runs), "of chance": words.of_chance(faults, runs), "thinned": words.of_thinned(faults, runs),
            "of rankings": words.of_rankings(faults, runs), "unseen": words.kinds_unseen(faults, runs), "gcc alone": words.by_gcc_alone(faults),
            "by rate": by_rate(faults), "by policy": by_policy(faults), "by inputs": by_inputs(faults),
            "by failures": by_failures(faults), "by section": by_section(faults)}
    if most != runs:
        made.update({"by way of most": f"{words.measured(faults, most)}.\n\n{by_way(faults, most)}", "by kind of most": by_kind(faults, most)})
    for name, way in (("by policy", "failing"), ("by section", "shown")):
        if not words.has(faults, f"{way} 1 {runs}"):
            del made[name]
    return {prefix + name: text for name, text in made.items() if not is_empty(text)}


def is_empty(text: str) -> bool:
    """Whether it is a table without a row."""
    return text.startswith("| ") and text.count("\n") < 2


def parts(results: Results) -> Dict[str, str]:
    """Each table, and each sentence with numbers, by its name."""
    runs, most = shown_count(results), counts_of(results)[-1]
    opened, kept = faults_of(results, lambda fault: not fault["kept"]), faults_of(results, lambda fault: fault["kept"] and not fault.get("new"))
    new = faults_of(results, lambda fault: bool(fault.get("new")))
    for fault in opened + kept + new:
        add_turns(fault)
    made = {"three": three_at_once(results), "three summed": three_summed(results), "speeds": speeds(results, most), "corpus": corpus_table(),
            "headline": words.headline(opened, kept, new, three_of(results)[1], runs), "decided": words.decided(new, kept, opened, runs),
            "aims": words.aims(new, kept, opened, three_of(results)[1], runs, False), "aims reached": words.aims(new, kept, opened, three_of(results)[1], runs, True),
            "new counted": counted(new)}
    if words.has(new, f"lines 1 {runs}"):
        made["headline in short"] = words.headline_in_short(new, runs)
    for some, prefix in ((opened, ""), (kept, "kept "), (new, "new ")):
        if some:
            made.update(of_faults(some, runs, most, prefix))
    for name, three in results["tables"].items():
        made[f"table {name}"] = bug_by_predicate(three)
    return made


def summary(results: Results) -> str:
    if not results["faults"]:
        return f"nothing measured; not taken: {results['not taken']}"
    made = parts(results)
    lacking = f"\nnot taken: {results['not taken']}" if results["not taken"] else ""
    wanted = ["headline", "decided"] + [prefix + name for prefix in ("", "kept ") for name in ("by way", "by rate", "by policy", "by inputs")] + ["three summed"]
    return "\n\n".join(f"{name}\n{made[name]}" for name in wanted if name in made) + lacking


def write_documents(results: Results, paths: Sequence[str]) -> None:
    """Fills in what is made, and writes the plots that a document shows beside it."""
    made, runs = parts(results), shown_count(results)
    opened = faults_of(results, lambda fault: not fault["kept"])

    for path in paths:
        text = fill_in(path, made)
        for name, svg in plots(opened, runs) if opened else []:
            if name in text:
                with open(os.path.join(os.path.dirname(path), name), "w", encoding="utf-8") as file:
                    file.write(svg)
