"""Which values of members, elements and dereferences are seen: all that may be, or those nearest to conditions, and no more than a text and its sites may be large."""
import re
from typing import Any, Dict, Iterator, List, NamedTuple, Sequence, Set, Tuple

from cbi_port import VALUES
from cbi_port.blocks import Declarator, Declare, Definition, Do, For, If, Template, While
from cbi_port.lines import Sheet
from cbi_port.nodes import Assign, Behind, Binary, Call, Choice, Name, Number, Unary, children
from cbi_port.reader import pieces
from cbi_port.values_seen import CONDITION, NO_READ, WORDS, Found, Key, Looks

NONE, SOME, ALL = VALUES
MOST_SITES, MOST_TOKENS = 65536, 100000     # docs/reference/LANGUAGE.md, docs/METHOD.md
SPARE = 0.95            # what of that is used, since sites are counted roughly
TOKENS_OF_LOOK, TOKENS_OF_VARIABLE = 4, 3
NEAR = 1                # how far from a condition a place is at most that `some` has
Unit = Tuple[str, Key]  # a place in a function
WHAT = "values of members, elements and dereferences"


class Counts(NamedTuple):
    """What the sites of a function are counted by: its variables and the places where they get values, both by types, its constants, and its other sites."""
    variables: Dict[str, int]
    stores: Dict[str, int]
    constants: int
    others: int

    def sites(self, outer: Dict[str, int]) -> int:
        """At most how many sites it has; `outer` are variables outside functions."""
        return self.others + sum(count * (self.variables[word] + outer[word] + self.constants) for word, count in self.stores.items())


def every(tree: Any) -> Iterator[Any]:
    """A tree's nodes, statements and definitions."""
    stack = [tree]
    while stack:
        it = stack.pop()
        yield it
        if hasattr(it, "__dataclass_fields__"):
            stack.extend(children(it))


def is_variable(it: Any) -> bool:
    return isinstance(it, Declarator) and it.base in WORDS and not it.stars and not it.bounds


def counted(definition: Definition) -> Counts:
    """The counts of a function."""
    variables, stores = dict.fromkeys(WORDS, 0), dict.fromkeys(WORDS, 0)
    constants: Set[int] = set()
    others = 0
    nodes = list(every(definition))
    kinds = {it.name: it.base for it in nodes if is_variable(it)}
    for it in nodes:
        if is_variable(it):
            variables[it.base] += 1
        elif isinstance(it, Declare) and it.begin is not None and is_variable(it.object):
            stores[it.object.base] += 1
        elif isinstance(it, Number):
            constants.add(it.value)
        elif isinstance(it, (Assign, Behind, Unary)):
            target = it.target if isinstance(it, Assign) else it.operand
            if isinstance(target, Name) and (not isinstance(it, Unary) or it.sign in ("++", "--")):
                stores[kinds.get(target.name, "int")] += 1
        others += isinstance(it, (If, While, Do, For, Choice, Call)) or isinstance(it, Binary) and it.sign in ("&&", "||")
    return Counts(variables, stores, len(constants), others)


def last_name(text: str) -> str:
    """By what a place is known in other functions: its last member, or else its first name: `live` of `t->few[0].live`, `a` of `a[i]`."""
    plain, count = text, 1
    while count:
        plain, count = re.subn(r"\[[^][]*\]", "", plain)
    names = re.findall(r"[A-Za-z_]\w*", plain)
    return str(names[-1 if "." in plain or "->" in plain else 0])


def distances(found: Sequence[Found]) -> Dict[Unit, int]:
    """How far from a condition each place of a function is: 0 where a condition of that function reads it, 1 where one of another function
    reads the member or name that is its last one, 2 where it is handed to a call, 3 where it is only stored."""
    known: Dict[Unit, int] = {}
    asked = {last_name(it.key[0]) for it in found if it.reads == CONDITION}
    for it in found:
        far = 0 if it.reads == CONDITION else 1 if last_name(it.key[0]) in asked else 2 if it.reads != NO_READ else 3
        known[it.function, it.key] = min(far, known.get((it.function, it.key), far))
    return known


class Room:
    """How many more sites and tokens there may be."""

    def __init__(self, sheet: Sheet, others: Sequence[Any], outer: Sequence[Any], text: str) -> None:
        self.outer = {word: sum(1 for it in [*outer, *sheet.users()] if isinstance(it, Declare) and is_variable(it.object) and it.object.base == word) for word in WORDS}
        self.counts = {it.head.name: counted(it) for it in sheet.users() if isinstance(it, Definition)}
        added = sum(counted(it).sites(self.outer) if isinstance(it, Definition) else it.text.count("=") * 8 for it in others if isinstance(it, (Definition, Template)))
        self.sites = int(MOST_SITES * SPARE) - added - sum(it.sites(self.outer) for it in self.counts.values())
        self.tokens = int(MOST_TOKENS * SPARE) - (len(pieces(text, "")) if len(text) > MOST_TOKENS // 3 else len(text))

    def takes(self, unit: Unit, looks: int) -> bool:
        """Takes the room for the looks at a place, where there is as much."""
        function, (_, word) = unit
        before = self.counts[function]
        after = before._replace(variables={**before.variables, word: before.variables[word] + 1}, stores={**before.stores, word: before.stores[word] + looks})
        sites = after.sites(self.outer) - before.sites(self.outer)
        tokens = TOKENS_OF_LOOK * looks + TOKENS_OF_VARIABLE
        if sites > self.sites or tokens > self.tokens:
            return False
        self.counts[function] = after
        self.sites -= sites
        self.tokens -= tokens
        return True


def chosen(found: Sequence[Found], room: Room, way: str) -> Tuple[List[Unit], int]:
    """The places whose values are seen, those nearest to conditions first, and how many more there would be."""
    far = distances(found)
    looks: Dict[Unit, int] = {}
    for it in found:
        looks[it.function, it.key] = looks.get((it.function, it.key), 0) + 1
    wanted = sorted((unit for unit in looks if way == ALL or far[unit] <= NEAR), key=lambda unit: far[unit])
    taken = [unit for unit in wanted if room.takes(unit, looks[unit])]
    return taken, len(wanted) - len(taken)


def seen(program: Any, others: Sequence[Any], outer: Sequence[Any]) -> None:
    """Has the values of a program's files seen, as many as are asked for and there is room for; `others` are its added functions, and `outer` its added variables."""
    sheet = program.sheet
    if program.values == NONE:
        return
    finder = Looks(program)
    for tree in sheet.users():
        if isinstance(tree, Definition):
            finder.definition(tree)
    taken, left = chosen(finder.found, Room(sheet, others, outer, sheet.laid()[0]), program.values)
    looks = Looks(program, set(taken))
    for trees in sheet.parts.values():
        trees[:] = [looks.definition(it) if isinstance(it, Definition) else it for it in trees]
    sheet.apart[:] = [(file, looks.definition(it) if isinstance(it, Definition) else it) for file, it in sheet.apart]
    program.names.authors.update({name: text for (text, _), name in looks.names.items()})
    program.counts[WHAT] = len(taken)
    if left:
        program.liberties[f"of {len(taken) + left} {WHAT} {len(taken)} are seen, since the text or its sites would be too many with more"] = None
