"""The page of wrong bodies: for each what refuses it, and how the prover came to that."""
import os
import re
from typing import Dict, List, Tuple

from bodies_read import Body, read
from bodies_tried import Outcome, Refusal, strength

PAGE = os.path.join("docs", "reference", "WRONG_BODIES.md")
# The lines of each body, by crate and name.
Lines = Dict[Tuple[str, str], List[str]]
HEAD = """# Wrong bodies

Each line is a change that turns the meaning of a function, or of a definition, and the contract that refuses it. `checks/wrong_bodies --table` writes this page.

| How | The goal is refused |
|---|---|
| values | by values that the known facts allow, at which the goal is false |
| types | since what is proved of the definition is another thing than what is stated |
| search | since the prover's search ended without a proof; no values are shown |
| limit | since the prover came to one of its limits |

| Crate | Wrong body | Refused by | Goal | How |
|---|---|---|---|---|
"""


def lines_of(every: List[Body], found: Dict[Tuple[str, str], Outcome], page: Lines) -> Lines:
    """The lines of each body, by crate and name: those of a try, or those that the page has of a body that was not tried or not refused."""
    made: Lines = {}
    for body in sorted(every, key=lambda it: (it.crate, it.name)):
        outcome = found.get((body.crate, body.name))
        made[body.crate, body.name] = [row(body, it) for it in outcome.refusals] if outcome and not outcome.fault else page.get((body.crate, body.name), [])
    return made


def row(body: Body, refusal: Refusal) -> str:
    name = body.name.replace("_", " ") + (" (by `rt ci` too)" if body.listed else "")
    return f"| `{body.crate}` | {name} | `{refusal.function}` | `{refusal.goal}` | {refusal.way} |"


def counts(made: Lines) -> str:
    ways = [way_in(lines[0]) for lines in made.values() if lines]
    told = ", ".join(f"{ways.count(it)} by {it}" for it in ("values", "types", "search", "limit") if ways.count(it))
    return f"\n{len(made)} bodies: {told}.\n"


def way_in(line: str) -> str:
    return line.rstrip(" |").rpartition("| ")[2]


def page_in(root: str) -> Lines:
    """What the page says, or nothing where there is none."""
    place = os.path.join(root, PAGE)
    return said_of(read(place).splitlines() if os.path.isfile(place) else [])


def write(root: str, every: List[Body], found: Dict[Tuple[str, str], Outcome]) -> None:
    """Writes the page. What wasn't tried keeps its lines."""
    made = lines_of(every, found, page_in(root))
    place = os.path.join(root, PAGE)
    os.makedirs(os.path.dirname(place), exist_ok=True)
    with open(place, "w", encoding="utf-8") as it:
        it.write(HEAD + "\n".join(line for lines in made.values() for line in lines) + "\n" + counts(made))


def said_of(page: List[str]) -> Lines:
    """The lines of a page by crate and body."""
    found: Lines = {}
    for line in page:
        row = re.match(r"\| `(\w+)` \| ([^|]+?)(?: \(by `rt ci` too\))? \| `", line)
        if row:
            found.setdefault((row[1], row[2].replace(" ", "_")), []).append(line)
    return found


def holds(lines: List[str], body: Body, outcome: Outcome) -> bool:
    """Whether lines of a page are what a try came to: one for each function, with a goal of it that is open. Which of several goals the prover tells first depends on the machine."""
    return len(lines) == len(outcome.refusals) and all(any(tells(line, body, it) for it in (*outcome.refusals, *outcome.others)) for line in lines)


def tells(line: str, body: Body, refusal: Refusal) -> bool:
    """Whether a line tells of this goal, refused as strongly as the line says. Whether a search ends by itself or by a limit depends on the machine."""
    way = way_in(line)
    return line == row(body, refusal._replace(way=way)) and (strength(refusal.way) <= strength(way) or way == "search")


def differs(root: str, every: List[Body], found: Dict[Tuple[str, str], Outcome]) -> List[str]:
    """What the page has otherwise than it is: a body with another function, goal or way, one that it lacks (but for those that the gate tries itself), and one that is gone."""
    page = page_in(root)
    told = [f"{PAGE} has {crate}/{name}, and there is no such body" for crate, name in page if not any((it.crate, it.name) == (crate, name) for it in every)]
    for body in every:
        key = body.crate, body.name
        outcome = found.get(key)
        lines = page.get(key, [])
        if not lines and not body.listed or outcome and not outcome.fault and not holds(lines, body, outcome):
            told.append(f"{PAGE} says of {body.crate}/{body.name} something else than is so: `checks/wrong_bodies --table` writes it")
    return told
