"""Tries of wrong bodies: all bodies of a crate that stand in functions whose proofs are apart, in one copy and one check of these functions."""
import hashlib
import json
import os
import re
import shutil
import subprocess
import tempfile
from typing import Dict, List, NamedTuple, Optional, Set, Tuple

from bodies_laid import NO_GOAL, Texts, lay, leave_out, offer_nothing
from bodies_read import PARTS, Bad, Body, Function, apply, crate_functions, is_named, read
from house_crates import below, edges

# Rises with each change of how a try is made or judged: what was kept before is tried again.
VERSION = 4
# How a goal was refused, by the prover's own words, the strongest first.
WAYS = (("values", re.compile(r"allow values at which this goal is false|the goal fails, at|the goal does not follow from what it read")),
        ("types", re.compile(r"two types (?:first )?differ|differ only where")),
        ("search", re.compile(r"`(?:search|grind|omega)` (?:gave up|did not|found no|went on)|search` did not prove|no proof within its bounds|has no proof|does not match|expected|mismatch")),
        ("limit", re.compile(r"ran out of|outgrew the memory limit|stopped at the step limit|could not tell")))
# What a proof file says where it names something that the change took away: no contract speaks there.
NAMES = re.compile(r"has no field|is not in scope|has no `|was not admitted|is no name")
NOTE = re.compile(r"(?:note|warning|error): (?:\./)?(src/\S+?\.rt):(\d+):\d+: (.*)|(?:\./)?(src/\S+?\.rt):(\d+):\d+: error: (.*)")
PROOF = re.compile(r"(?:note: )?(?:\./)?proofs/(\S+?)/(?:Answers|Invariants|Proof)\.antt:\d+:\d+: (?:error: )?(.*)")
LEMMA = re.compile(r"\S*?(\w+/)?proofs/(\S+)\.antt:\d+:\d+: error: (.*)")
STATUS = re.compile(r"fn (\S+): (proved|not proved|no proof|could not tell)(.*)")


class Refusal(NamedTuple):
    """What refused a body: the function, the goal of its proof, how, and the first thing that the prover said of it."""
    function: str
    goal: str
    way: str
    said: str


class Outcome(NamedTuple):
    """What a try came to for one body: what refused it, one goal a function, the other goals of these functions that are open, or why it is not taken as refused."""
    body: str
    refusals: Tuple[Refusal, ...]
    fault: str
    others: Tuple[Refusal, ...] = ()


class Try(NamedTuple):
    """Bodies of one crate that are looked at in one check."""
    crate: str
    bodies: Tuple[Body, ...]


def changed_in(root: str, body: Body) -> Set[str]:
    """The functions of its own crate whose code a body changes; `*` where it changes anything else, as a definition, a constant or a contract, on which others may rest."""
    found: Set[str] = set()
    for each in body.changes:
        if each.crate != body.crate or not each.path.startswith("src/"):
            return {"*"}
        text = read(os.path.join(root, "crates", each.crate, each.path))
        line = text.count("\n", 0, max(text.find(each.old), 0)) + 1
        inside = [it.path for it in crate_functions(root, each.crate, {}) if it.file == each.path and it.first <= line <= it.last and stands_in_code(it.text, each.old)]
        if not inside:
            return {"*"}
        found |= set(inside)
    return found


def stands_in_code(text: str, part: str) -> bool:
    """Whether a text stands in a function behind the head, which has the contract."""
    opened = re.search(r"(?m)\{$", text)
    return bool(opened) and text.find(part) >= (opened.start() if opened else 0)


def looked_at(root: str, body: Body, every: List[Function]) -> Set[str]:
    """The functions whose proofs a body needs: those that it changes and those that have to refuse it."""
    return changed_in(root, body) | {it.path for it in every for name in body.refused if is_named(it.path, name)}


def tries(root: str, bodies: List[Body]) -> List[Try]:
    """The tries of all bodies: of a crate as few as can be, since a check loads its libraries each time."""
    made: List[Try] = []
    for crate in sorted({it.crate for it in bodies}):
        every = crate_functions(root, crate, {})
        rings = {it.path: it.ring for it in every if it.ring}
        groups: List[Tuple[List[Body], Set[str]]] = []
        for body in (it for it in bodies if it.crate == crate):
            own = {rings.get(it, it) for it in looked_at(root, body, every)}
            room = next((it for it in groups if not meet(own, it[1]) and fits(root, [*it[0], body])), None)
            if room is None:
                groups.append(([body], set(own)))
            else:
                room[0].append(body)
                room[1].update(own)
        made += [Try(crate, tuple(group)) for group, _ in groups]
    return made


def fits(root: str, bodies: List[Body]) -> bool:
    """Whether bodies can be applied to one copy: what one puts in may be what another looks for."""
    texts: Texts = {}
    try:
        for body in bodies:
            apply(texts, root, body)
    except Bad:
        return False
    return True


def meet(one: Set[str], other: Set[str]) -> bool:
    """Whether bodies that need these proofs have to be tried apart. Of two functions of which one calls the other each has a proof of its own, over the other's contract."""
    return "*" in one or "*" in other or bool(one & other)


class Kit(NamedTuple):
    """Where the toolchain is, and its line."""
    folder: str
    line: str


def kit() -> Optional[Kit]:
    """The kit whose `rt` is on the path."""
    if not shutil.which("rt"):
        return None
    page = subprocess.run(["rt", "doc"], stdout=subprocess.PIPE, universal_newlines=True, check=True).stdout.strip()
    line = subprocess.run(["rt", "version"], stdout=subprocess.PIPE, universal_newlines=True, check=True).stdout.strip()
    return Kit(os.path.dirname(page), line)


def sum_of(root: str, crate: str) -> str:
    """A sum of what a crate is made of, with its line in crates.txt."""
    made = hashlib.sha256(repr(edges()[crate]).encode())
    for part in PARTS:
        for folder, folders, names in os.walk(os.path.join(root, "crates", crate, part)):
            folders.sort()
            for name in sorted(names):
                file = os.path.join(folder, name)
                with open(file, "rb") as it:
                    made.update(repr((os.path.relpath(file, root), hashlib.sha256(it.read()).hexdigest())).encode())
    return made.hexdigest()


def key(root: str, each: Try, tools: Kit, sums: Dict[str, str]) -> str:
    """A sum of all that a try reads: kit, how it is judged, the crate and those below, and the wrong bodies."""
    crates = [each.crate, *sorted(below(each.crate))]
    for crate in crates:
        if crate not in sums:
            sums[crate] = sum_of(root, crate)
    told = (tools.line, VERSION, [(it, sums[it]) for it in crates], [(it.name, it.text) for it in each.bodies])
    return hashlib.sha256(repr(told).encode()).hexdigest()


def command(root: str, libraries: str, each: Try, names: List[str], tools: Kit, sources: Dict[str, str]) -> List[str]:
    """The check of these functions over the libraries that the gate has left, and over those that are given as sources."""
    crates, standing = edges(), below(each.crate)
    used = set(crates[each.crate]).union(*(crates[it] for it in sources))
    words = [os.path.join(tools.folder, "bin", "rattle"), "check", "--crate-name", each.crate, "src/lib.rt"]
    for name in ("std", *sorted(it for it in used if it not in crates)):
        words += ["--extern", f"{name}={tools.folder}/rlibs/{name}.rlib"]
    words += ["-L", f"dependency={tools.folder}/rlibs"]
    for name in standing:
        place = os.path.join(libraries, "crates", name, "out", "rlib")
        if name in sources:
            words += ["--lib", f"{name}={sources[name]}/src/lib.rt"]
        elif name in used:
            words += ["--extern", f"{name}={place}/{name}.rlib"]
        words += ["-L", f"dependency={place}"]
    words += ["--antt-project", f"{tools.folder}/rattle/logic/antt-project.json", "--logic-built", f"{tools.folder}/logic_built", "--jobs", "1"]
    return words + [it for name in names for it in ("--only", name)]


def between(crate: str, changed: Set[str]) -> Set[str]:
    """The crates below this one that are changed or stand on a changed one."""
    return {it for it in below(crate) if it in changed or changed.intersection(below(it))}


def look(root: str, libraries: str, each: Try, tools: Kit) -> Tuple[List[Outcome], str]:
    """Tries the bodies, and gives what came of each and what the checks said. One that isn't refused beside others, in a crate of which much is left out, is tried in the whole crate alone."""
    outcomes, said = look_once(root, libraries, each, tools, False)
    for at, body in enumerate(each.bodies):
        if outcomes[at].fault and fits(root, [body]):
            (outcomes[at],), more = look_once(root, libraries, Try(each.crate, (body,)), tools, True)
            said += more
    return outcomes, said


def look_once(root: str, libraries: str, each: Try, tools: Kit, whole: bool) -> Tuple[List[Outcome], str]:
    """Tries the bodies in one check, in a copy of the whole crate or of what they need of it."""
    texts: Texts = {}
    try:
        for body in each.bodies:
            apply(texts, root, body)
    except Bad as why:
        return [Outcome(it.name, (), f"it can't be applied: {why}") for it in each.bodies], ""
    with tempfile.TemporaryDirectory(prefix="wrong-bodies-") as room:
        sources = {it: os.path.join(room, it) for it in between(each.crate, {of for of, _ in texts} - {each.crate})}
        for crate in (each.crate, *sources):
            lay(root, crate, texts, os.path.join(room, crate))
        every = crate_functions(root, each.crate, texts)
        names = sorted({name for body in each.bodies for name in body.refused})
        kept = set().union(*(looked_at(root, it, every) for it in each.bodies))
        if not whole and "*" not in kept:
            leave_out(os.path.join(room, each.crate), every, kept)
        if not whole:
            offer_nothing(os.path.join(room, each.crate), each.crate, [it for it in every if any(is_named(it.path, name) for name in names)])
        ran = subprocess.run(command(root, libraries, each, names, tools, sources), cwd=os.path.join(room, each.crate), stdin=subprocess.DEVNULL,
                             stdout=subprocess.PIPE, stderr=subprocess.STDOUT, universal_newlines=True, errors="replace", check=False)
    return judge(each, every, ran.stdout, ran.returncode), ran.stdout


def way(said: str) -> str:
    """How a goal was refused, by the prover's words."""
    return next((name for name, words in WAYS if words.search(said)), "names" if NAMES.search(said) else "search")


def strength(name: str) -> int:
    """The place of a way among the ways, the strongest first."""
    return [it for it, _ in WAYS].index(name)


def told(every: List[Function], lines: List[str]) -> Dict[str, List[Refusal]]:
    """What the prover said of each function's own goals, by the function's path."""
    found: Dict[str, List[Refusal]] = {}
    for line in lines:
        note, proof = NOTE.match(line), PROOF.match(line)
        if note:
            file, number, what = (note[1], int(note[2]), note[3]) if note[1] else (note[4], int(note[5]), note[6])
            owner = [it for it in every if it.file == file and it.first <= number <= it.last]
            goal = re.search(r"\(`([^`]+)`\)", what)
            if owner and "it is not proved" in what:
                found.setdefault(owner[-1].path, []).append(Refusal(owner[-1].path, goal[1] if goal else "", way(what), what))
        elif proof and not re.search(r"must prove", line):
            named = re.match(r"`([^`]+)`: (.*)", proof[2])
            of = proof[1].replace("/", "::")
            if of.split("::")[-1].startswith("+"):
                # functions that call one another have one proof, whose goals begin with their names
                of = "::".join([*of.split("::")[:-1], named[1].split("-")[0] if named else ""])
            for it in [it for it in every if it.path == of][:1]:
                # a line that names no answer, as of an import, is of no goal
                how = way(proof[2]) if named else "names"
                found.setdefault(it.path, []).append(Refusal(it.path, named[1] if named else "", how, proof[2]))
    return found


def judge(each: Try, every: List[Function], said: str, status: int) -> List[Outcome]:
    """What a check came to: a body is refused where each function that it names has a goal of its own that is not proved."""
    lines = [it for it in said.splitlines() if NO_GOAL not in it]
    front = next((it for it in lines if re.search(r"\berror\[[\w-]+\]", it)), "")
    unread = next((it for it in lines if re.match(r"(?:\./)?(?:src|specs)/\S+:\d+:\d+: error: ", it) and not NOTE.match(it)), "")
    last = lines[-1] if lines else ""
    if front or unread or not last.startswith("only="):
        why = front or unread or f"the check ended with status {status}: {last[:160]}"
        return [Outcome(it.name, (), f"it does not compile or read: {why[:300]}") for it in each.bodies]
    own = told(every, lines)
    for body in each.bodies:
        if any(it.path.startswith("specs/") for it in body.changes):
            add_lemmas(own, every, body, lines)
    statuses = {found[1].partition("::")[2]: (found[2], found[3]) for found in map(STATUS.match, lines) if found}
    named = {path for path in (it.path for it in every) for body in each.bodies for name in body.refused if is_named(path, name)}
    strays = sorted(path for path, refusals in own.items() if path not in named and statuses.get(path, ("", ""))[0] != "proved" and any(it.way != "names" for it in refusals))
    return [judged(body, every, own, statuses, strays) for body in each.bodies]


def add_lemmas(own: Dict[str, List[Refusal]], every: List[Function], body: Body, lines: List[str]) -> None:
    """Adds the lemmas that a wrong definition breaks to what is said of the laws that it names: their proofs cite them."""
    for found in filter(None, map(LEMMA.match, lines)):
        named = re.match(r"`([^`]+)`: (.*)", found[3])
        for path in (it.path for it in every for name in body.refused if is_named(it.path, name)):
            what = named[2] if named else found[3]
            own.setdefault(path, []).append(Refusal(path, f"{found[2]}.{named[1] if named else ''}".rstrip("."), way(what), what))


def unrefused(path: str, names: List[Refusal], status: Tuple[str, str], strays: List[str]) -> str:
    """Why a function without an open goal refuses nothing. In a try no function has its whole proof: one of which nothing else is said is still proved, or what it calls isn't."""
    if status[0] != "proved" and names:
        return f"{path} is not proved, but only because a proof file names what the change took away: {names[0].said[:160]}"
    others = f"; it breaks {', '.join(strays)}" if strays else ""
    if status[0] == "proved" or status[0] == "not proved" and not status[1].strip(" ;:") and not strays:
        return f"{path} is still proved{others}"
    return f"{path} is still proved, or only what its proof rests on isn't: no goal of its own is left open ({''.join(status)}){others}"


def judged(body: Body, every: List[Function], own: Dict[str, List[Refusal]], statuses: Dict[str, Tuple[str, str]], strays: List[str]) -> Outcome:
    """What the check says of one body."""
    refusals: List[Refusal] = []
    others: List[Refusal] = []
    for name in body.refused:
        paths = [it.path for it in every if is_named(it.path, name)]
        if len(paths) != 1:
            return Outcome(body.name, (), f"`refused: {name}` names {len(paths)} functions of {body.crate}")
        path = paths[0]
        status = statuses.get(path, ("", "nothing is said of it"))
        goals = [it for it in own.get(path, ()) if it.way != "names"]
        if not goals or status[0] == "proved":
            return Outcome(body.name, (), unrefused(path, own.get(path, []), status, strays))
        goals.sort(key=lambda it: (strength(it.way), it.goal))
        refusals.append(goals[0])
        others += goals[1:]
    if strays:
        return Outcome(body.name, (), f"it breaks another function than it says, {', '.join(strays)}")
    return Outcome(body.name, tuple(refusals), "", tuple(others))


def as_text(outcomes: List[Outcome]) -> str:
    return json.dumps([[it.body, [list(refusal) for refusal in it.refusals], it.fault, [list(refusal) for refusal in it.others]] for it in outcomes])


def from_text(text: str) -> List[Outcome]:
    return [Outcome(body, refusals_in(first), fault, refusals_in(others)) for body, first, fault, others in json.loads(text)]


def refusals_in(rows: List[List[str]]) -> Tuple[Refusal, ...]:
    return tuple(Refusal(function, goal, way(said), said) for function, goal, _, said in rows)
