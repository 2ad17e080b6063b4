"""Sentences and small tables of docs/EVIDENCE.md, docs/reference/FAULTS.md and README that have numbers in them, of what was measured."""
import re
from math import comb
from statistics import median
from typing import Any, List, NamedTuple, Optional, Sequence, Tuple

from corpus_scores import within_by_chance

Faults = Sequence[Any]
FEW = 5  # failing runs
SURE = 0.05
LATE = (("lines", "`lines`"), ("own-lines", "`lines`, without what the port added"), ("also", "the places of `bugs`"), ("bugs", "the leaders of `bugs`"), ("truth", "lines by Ochiai of a predicate's truth"))
BESIDE = (("rows 1 {}", "rows of `rank`"), ("Ochiai {}", "Ochiai over gcov"), ("thin-Ochiai {}", "Ochiai over gcov, thinned"))
JUDGED = "lines"
HEADED = (("rows 1 {}", "rows of `rank`"), ("card 1 {}", "the first card of `cards`"), ("lines 1 {}", "`lines`"),
          ("own-lines 1 {}", "the same as `cbi-hunt` asks for it, without what the port added"), ("bugs 1 {}", "`bugs`, its leaders"),
          ("also 1 {}", "`bugs`, its places as they are printed"), ("Ochiai {}", "lines by Ochiai over gcov"), ("thin-Ochiai {}", "the same, thinned"))
SHORT = ("rows of `rank`", "`lines`", "lines by Ochiai over gcov")  # what README has of them
KINDS_OF_PLACE = ("function", "line", "near")
# What `lines` was to reach: of 24 faults that were kept back before, by a trial of the same definition apart from `cbi`.
WANTED = (("near", 1, 19), ("near", 5, 19), ("near", 100, 15), ("function", 1, 21))
TRIED = 24


def capped(value: Optional[float]) -> float:
    return 1e9 if value is None else value


def percent(share: float) -> str:
    return f"{100 * share:.1f} %" if share < 0.0995 else f"{100 * share:.0f} %"


def among(faults: Faults, way: str, what: str, most: int = 5) -> int:
    """How many faults have the first place that is right among the first so many."""
    return sum(capped(fault["ways"][way][what]) <= most for fault in faults)


def near(faults: Faults, way: str, most: int = 5) -> int:
    """The same of a place within five lines."""
    return among(faults, way, "near", most)


def expected_by_chance(faults: Faults, what: str, most: int) -> float:
    """How many of the faults have a right line among so many that are drawn by chance, on average: the sum of their probabilities."""
    return sum(within_by_chance(fault["right"][what], fault["right"]["coded"], most) for fault in faults)


def by_lines_of_chance(faults: Faults, what: str, most: int) -> str:
    return f"{expected_by_chance(faults, what, most):.1f}"


def table(head: Sequence[str], rows: Sequence[Sequence[str]]) -> str:
    lines = ["| " + " | ".join(head) + " |", "|" + "---|" * len(head)]
    return "\n".join(lines + ["| " + " | ".join(row) + " |" for row in rows])


def looked(faults: Faults, way: str) -> str:
    """The median of the share of lines that are looked at."""
    return percent(median(fault["ways"][way]["walk"] for fault in faults))


def has(faults: Faults, way: str) -> bool:
    return bool(faults) and all(way in fault["ways"] for fault in faults)


def measured(faults: Faults, runs: int) -> str:
    programs = len({fault["program"] for fault in faults})
    return f"{len(faults)} faults in {programs} programs, {runs:,} runs each"


def headline(opened: Faults, kept: Faults, new: Faults, three: Sequence[Any], runs: int) -> str:
    """What docs/EVIDENCE.md begins with: of how many faults the first five places are right, by each way and set."""
    sets = [(some, which) for some, which in ((new, "kept back for `lines` and `bugs`"), (kept, "kept back before"), (opened, "open")) if has(some, f"turns 1 {runs}")]
    rows = [[name] + [str(among(some, form.format(runs), what)) for some, _ in sets for what in KINDS_OF_PLACE]
            for form, name in HEADED if all(has(some, form.format(runs)) for some, _ in sets)]
    rows.append(["five lines by chance"] + [by_lines_of_chance(some, what, 5) for some, _ in sets for what in KINDS_OF_PLACE])
    head = ["Among the first five"]
    for some, which in sets:
        head += [f"of {len(some)} {which}: the fault's function", "its line", "a line within five"]
    every = [fault for one in three for fault in one["faults"]]
    own = sum(capped(fault["own"]) <= 5 for fault in every)
    bugs = [fault for fault in every if "printed" in fault and capped(fault["printed"]["own"]) <= 5]
    listed = f", and {len(bugs)} a bug of their own" if all("printed" in fault for fault in every) else ""
    together = f"\n\nOf three faults in one program at once {own} of {len(every)} have a row of their own among the first five{listed}." if every else ""
    return f"{measured([*opened, *kept, *new], runs)}.\n\n{table(head, rows)}{together}"


def headline_in_short(new: Faults, runs: int) -> str:
    """The table of README, of the faults that were kept back last: of how many the first five places are right, by three ways."""
    rows = [[name] + [str(among(new, form.format(runs), what)) for what in KINDS_OF_PLACE] for form, name in HEADED if name in SHORT and has(new, form.format(runs))]
    by_lines = ", ".join(by_lines_of_chance(new, what, 5) for what in KINDS_OF_PLACE)
    return f"{measured(new, runs)}, kept back until the tool was made. By chance: {by_lines}.\n\n{table(['Among the first five', 'function', 'line', 'within five lines'], rows)}"


def compared(faults: Faults, way: str, name: str) -> Tuple[int, List[str]]:
    """How many faults a way has near in five, and its row."""
    return near(faults, way), [name] + [str(among(faults, way, what)) for what in KINDS_OF_PLACE] + [looked(faults, way)]


NAMES = (("rows", "rows of `rank`"), ("lines", "**`lines`**"), ("bugs", "**`bugs`, its leaders**"), ("also", "**`bugs`, its places as they are printed**"),
         ("shown", "rows as `cbi-hunt` shows them"), ("narrow", "rows without pairs"), ("card", "the first card"),
         ("pair", "the best pair"), ("importance", "predicates by Importance, nothing set aside"), ("increase", "predicates by Increase alone"),
         ("reach", "lines by reach"), ("truth", "lines by Ochiai of a predicate's truth"))


def beside_ochiai(faults: Faults, runs: int) -> str:
    """Each way beside Ochiai, the one that has the fewest near in five first."""
    ways = [(f"{way} 1 {runs}", name) for way, name in NAMES] + [(f"Ochiai {runs}", "**Ochiai over gcov**")]
    rows = sorted((compared(faults, way, name) for way, name in ways if has(faults, way)), key=lambda one: one[0])
    chance = ["five lines by chance"] + [by_lines_of_chance(faults, what, 5) for what in KINDS_OF_PLACE] + [""]
    return table([f"Way, of {len(faults)} faults", "the function in 5", "the line in 5", "near in 5", "EXAM, median"], [chance] + [row for _, row in rows])


def of_chance(faults: Faults, runs: int) -> str:
    """What the counts are worth beside lines that are drawn by chance."""
    shares = [100 * expected_by_chance(faults, "near", most) / len(faults) for most in (5, 10)]
    rows = sum(within_by_chance(fault["right"]["near"], fault["right"]["coded"], min(5, len(fault["judged"][f"1 {runs}"]))) for fault in faults)
    return (f"Five lines drawn by chance have one near the fault for {by_lines_of_chance(faults, 'near', 5)} of {len(faults)} faults ({shares[0]:.0f} %), ten for "
            f"{by_lines_of_chance(faults, 'near', 10)} ({shares[1]:.0f} %); as many lines as `rank` has rows, at most five, for {rows:.1f}.")


def of_thinned(faults: Faults, runs: int) -> str:
    """Coverage and truth with the same thinning."""
    ways = [(form.format(runs), name) for form, name in (("truth 1 {}", "lines by Ochiai of a predicate's truth"), ("thin-truth 1 {}", "the same, thinned"),
            ("chi 1 {}", "lines by the chi-square of a predicate's truth"), ("thin-chi 1 {}", "the same, thinned"),
            ("lines 1 {}", "`lines`, which are thinned"), ("own-lines 1 {}", "`lines` as `cbi-hunt` asks for them, without what the port added"),
            ("Ochiai {}", "Ochiai over gcov"), ("thin-Ochiai {}", "the same, thinned"))]
    there = [(way, name) for way, name in ways if has(faults, way)]
    if not any(way.startswith("thin-") for way, _ in there):
        return "Thinned lists aren't measured yet."
    return table([f"Way, of {len(faults)} faults", "the function in 5", "the line in 5", "near in 5"],
                 [[name] + [str(among(faults, way, what)) for what in KINDS_OF_PLACE] for way, name in there])


def of_rankings(faults: Faults, runs: int) -> str:
    """How long rankings are, which rows stand first, and what comes of few failing runs."""
    judged = [fault["judged"][f"1 {runs}"] for fault in faults]
    none, one = sum(not rows for rows in judged), sum(len(rows) == 1 for rows in judged)
    few = [fault for fault in faults if fault["failing"].get(str(runs), fault["failed"]) < FEW]
    lines = [f"- **How long a ranking is.** {one} of {len(faults)} rankings have one row, and {none} none. Predicates by Importance, nothing set aside, are "
             f"near in ten for {near(faults, f'importance 1 {runs}', 10)}, rows for {near(faults, f'rows 1 {runs}', 10)}."]
    if has(faults, f"narrow 1 {runs}"):
        pairs = sum(bool(fault["rows"]) and is_pair(fault["rows"][0][2]) for fault in faults)
        lines.append(f"- **Pairs.** {pairs} of {len(faults)} first rows are pairs, with the most runs measured. Without the scheme "
                     f"{near(faults, f'narrow 1 {runs}')} have a row near in five, and with it {near(faults, f'rows 1 {runs}')}.")
    lines.append(f"- **Few failing runs.** {len(few)} of {len(faults)} faults failed in fewer than {FEW} of {runs:,} runs; rows are near {near(few, f'rows 1 {runs}')} "
                 f"of them, `lines` {near(few, f'lines 1 {runs}')}, Ochiai {near(few, f'Ochiai {runs}')}.")
    return "\n".join(lines)


def by_gcc_alone(faults: Faults) -> str:
    """How many faults gcc's build shows in fewer runs, and in how many it crashes."""
    fewer = [f"{fault['program']}/{fault['fault']} ({fault['failed by gcc alone']:,} of {fault['failed']:,})" for fault in faults
             if fault["failed by gcc alone"] < fault["failed"]]
    crashing = sum(fault["crashed"] > 0 for fault in faults)
    return (f"gcc's build alone shows fewer failing runs of {len(fewer)} of {len(faults)} faults" + (f": {', '.join(fewer)}" if fewer else "")
            + f". Runs of {crashing} faults crash in it, and would have no coverage without that handler.")


def kinds_unseen(faults: Faults, runs: int) -> str:
    """The kinds of which neither a row nor one of `lines` is near in five for most."""
    def worst(way: str) -> List[str]:
        kinds = sorted({fault["kind"] for fault in faults})
        found = []
        for kind in kinds:
            some = [fault for fault in faults if fault["kind"] == kind]
            if 2 * near(some, f"{way} 1 {runs}") < len(some):
                found.append(f"{kind} ({near(some, f'{way} 1 {runs}')} of {len(some)})")
        return found

    return (f"By rows fewer than half are near in five of these kinds: {', '.join(worst('rows')) or 'none'}. "
            f"By `lines`: {', '.join(worst('lines')) or 'none'}.")


def by_chance(ahead: int, behind: int) -> float:
    """How likely a coin that is thrown for each of them shows at least so many ahead: the sign test to one side."""
    both = ahead + behind
    return float(sum(comb(both, count) for count in range(ahead, both + 1)) / 2 ** both)


def apart_by(faults: Faults, way: str, other: str) -> Tuple[int, int]:
    """How many faults one way has near in five and the other hasn't, and the other way round."""
    found = [(near([fault], way), near([fault], other)) for fault in faults]
    return sum(one > two for one, two in found), sum(one < two for one, two in found)


def beside(sets: Sequence[Faults], way: str, other: str) -> List[str]:
    """A way beside another one, fault by fault, in some sets of faults: which has how many near in five that the other hasn't, and the sign test."""
    cells = []
    for faults in sets:
        ahead, behind = apart_by(faults, way, other)
        cells.append(f"{near(faults, way)} and {near(faults, other)}; {ahead} to {behind}, p = {by_chance(ahead, behind):.2g}")
    return cells


def decided(new: Faults, kept: Faults, opened: Faults, runs: int) -> str:
    """What the faults that were kept back say of the ways that were added late, and of the one that is judged."""
    if not has(new, f"lines 1 {runs}"):
        return "The faults that are kept back aren't measured yet."
    sets = [(some, which) for some, which in ((new, f"{len(new)} kept back for `lines` and `bugs`"), (kept, f"{len(kept)} kept back before"), (opened, f"{len(opened)} open")) if has(some, f"lines 1 {runs}")]
    rows = [[name, other] + beside([some for some, _ in sets], f"{way} 1 {runs}", form.format(runs)) for way, name in LATE for form, other in BESIDE if has(new, form.format(runs))]
    said = [f"Of the {len(new)} faults that were kept back for them {dict(LATE)[JUDGED]} have"]
    for (form, other), joined in zip(BESIDE, ("", "; beside", "; beside")):
        ahead, behind = apart_by(new, f"{JUDGED} 1 {runs}", form.format(runs))
        sure = "more than chance makes of so few" if ahead > behind and by_chance(ahead, behind) <= SURE else "no more than chance makes of so few"
        said.append(f"{joined} {other} {ahead} to {behind}: {sure}" if joined else f" {ahead} near in five that rows of `rank` haven't, and these {behind} that they haven't: {sure}")
    return f"{table(['Way', 'beside', *(which for _, which in sets)], rows)}\n\n{''.join(said)}."


class Aim(NamedTuple):
    """What was to be reached, how much of it was wanted and how much was reached."""
    what: str
    wanted: int
    reached: int


def aims(new: Faults, kept: Faults, opened: Faults, three: Sequence[Any], runs: int, are_reached: bool) -> str:
    """What `lines` and `bugs` were to reach: those aims that were reached, or those that were missed."""
    found = [aim for some, which in ((new, "kept back for `lines` and `bugs`"), (kept, "kept back before"), (opened, "open")) if has(some, f"lines 1 {runs}") for aim in aims_of(some, which, runs)]
    every = [fault for one in three for fault in one["faults"] if "printed" in fault]
    if every:
        rows_own, rows_near = (sum(capped(fault[what]) <= 5 for fault in every) for what in ("own", "near"))
        bugs_own, bugs_named = (sum(capped(fault["printed"][what]) <= 5 for fault in every) for what in ("own", "named"))
        found += [Aim(f"of {len(every)} faults, three at once: a bug of its own among the first five, as often as a row", rows_own, bugs_own),
                  Aim("the same with one of its places near, three times as often as a row is near", 3 * rows_near, bugs_named)]
    return table(["Aim", "wanted", "reached"], [[aim.what, f"{aim.wanted}", f"{aim.reached}"] for aim in found if (aim.reached >= aim.wanted) == are_reached])


def aims_of(faults: Faults, which: str, runs: int) -> List[Aim]:
    """The aims for a set of faults; shares of another set are rounded up."""
    of = f"of {len(faults)} {which}"
    right = {"near": "a line within five", "function": "the function"}
    found = [Aim(f"{of}: {right[what]} among the first five of `lines` at rate {rate}", -(-wanted * len(faults) // TRIED), among(faults, f"lines {rate} {runs}", what))
             for what, rate, wanted in WANTED if has(faults, f"lines {rate} {runs}")]
    for form, other in BESIDE:
        if has(faults, form.format(runs)):
            found.append(Aim(f"{of}: {right['near']} among the first five of `lines`, more often than {other}", near(faults, form.format(runs)) + 1, near(faults, f"lines 1 {runs}")))
    for kind in sorted({fault["kind"] for fault in faults}):
        some = [fault for fault in faults if fault["kind"] == kind]
        if len(some) > 2:
            said = f"{of}: of the {len(some)} of the kind '{kind}' half have {right['near']} among the first five of `lines`"
            found.append(Aim(said, (len(some) + 1) // 2, near(some, f"lines 1 {runs}")))
    return found


def is_pair(text: str) -> bool:
    """Whether a predicate compares a variable with something other than zero."""
    found = re.fullmatch(r"\S+ (?:<|<=|>|>=|==|!=) (\S+)", text)
    return found is not None and found[1] != "0"
