"""The flow of control in a text of the dialect, function by function, and which branch a statement depends on. Not proved.

A statement depends on an arm of a branch, as Ferrante, Ottenstein and Warren (1987) have it: from there on each way to the end of the call comes to the statement, and from the branch itself not each.
A call that goes to its end comes to a statement exactly where it takes such an arm, or where every way through the function comes there. An arm of a branch that only comes behind the statement,
as the condition of a loop around it, says nothing of the first time, and is left out. Calls that end the run, traps and cuts are no ways through a function.
"""
from typing import Dict, FrozenSet, Iterator, List, NamedTuple, Optional, Set, Tuple

from cbi_show.source import OPENING, Source

TYPES = frozenset(["void", "char", "int", "unsigned", "struct"])
# What is called there ends the run.
ENDING = frozenset(["exit", "abort"])
EXIT = 0


class Arm(NamedTuple):
    """What a condition of a function, by the place of its word, was."""
    place: int
    truth: bool


class Node(NamedTuple):
    """A step of a call, with its first token: a statement, also one in the head of a `for`; the condition of one, whose `place` is that of its word, as its site has it; or neither."""
    place: int
    line: int
    kind: str


STATEMENT, CONDITION, NEITHER = "statement", "condition", "neither"


class Flow:
    """The graph of a function. Node 0 is its end; of a condition the first way on is where it is true, and the second where it is false."""

    def __init__(self, source: Source, name: str, opening: int):
        self.source, self.name = source, name
        self.nodes: List[Node] = [Node(source.partner[opening], source.tokens[source.partner[opening]].line, NEITHER)]
        self.ways: List[List[int]] = [[]]
        self.first = self.statement(opening, EXIT, EXIT, EXIT)
        self.known: Dict[str, List[int]] = {}

    # The graph, from the end of the function to its begin

    def node(self, place: int, ways: List[int], kind: str = STATEMENT) -> int:
        self.nodes.append(Node(place, self.source.tokens[place].line, kind))
        self.ways.append(ways)
        return len(self.nodes) - 1

    def statement(self, place: int, follow: int, out: int, again: int) -> int:
        """The node at which a statement begins, behind which comes `follow`; `break` goes `out`, and `continue` to `again`."""
        source, word = self.source, self.source.word(place)
        if word == "{":
            for entry in reversed(list(self.entries(place))):
                follow = self.statement(entry, follow, out, again)
            return follow
        if word == "if":
            return self.choice(place, follow, out, again)
        if word in ("while", "do", "for"):
            return {"while": self.while_loop, "do": self.do_loop, "for": self.for_loop}[word](place, follow)
        if word == ";" or word in TYPES and not self.has_value(place):
            return follow
        leaving = {"return": EXIT, "break": out, "continue": again}
        ends = word in ENDING and source.word(place + 1) == "("
        return self.node(place, [EXIT if ends else leaving.get(word, follow)])

    def entries(self, opening: int) -> Iterator[int]:
        place, close = opening + 1, self.source.partner[opening]
        while place < close:
            yield place
            place = self.source.end_of_statement(place)

    def has_value(self, place: int) -> bool:
        """Whether a declaration gives a variable a value; one that doesn't does nothing."""
        return any(self.source.word(at) == "=" for at in range(place, self.source.end_of_statement(place)))

    def choice(self, place: int, follow: int, out: int, again: int) -> int:
        first = self.source.partner[place + 1] + 1
        behind = self.source.end_of_statement(first)
        other = self.statement(behind + 1, follow, out, again) if self.source.word(behind) == "else" else follow
        return self.node(place, [self.statement(first, follow, out, again), other], CONDITION)

    def while_loop(self, place: int, follow: int) -> int:
        head = self.node(place, [], CONDITION)
        self.ways[head] = [self.statement(self.source.partner[place + 1] + 1, head, follow, head), follow]
        return head

    def do_loop(self, place: int, follow: int) -> int:
        head = self.node(place, [], CONDITION)
        body = self.statement(place + 1, head, follow, head)
        self.ways[head] = [body, follow]
        return body

    def for_loop(self, place: int, follow: int) -> int:
        """A `for` without a condition may go on for good: it has a way to the end behind each round, so that each node has one."""
        close = self.source.partner[place + 1]
        first, second = self.semicolons(place + 2, close)
        asks = second > first + 1
        head = self.node(place, [], CONDITION if asks else NEITHER)
        back = head if asks else self.node(place, [head, EXIT], NEITHER)
        step = self.node(second + 1, [back]) if close > second + 1 else back
        body = self.statement(close + 1, step, follow, step)
        self.ways[head] = [body, follow] if asks else [body]
        declared = self.source.word(place + 2) in TYPES and "=" not in (self.source.word(at) for at in range(place + 2, first))
        return head if first == place + 2 or declared else self.node(place + 2, [head])

    def semicolons(self, place: int, close: int) -> List[int]:
        found = []
        while place < close:
            if self.source.word(place) == ";":
                found.append(place)
            place = self.source.partner[place] + 1 if self.source.word(place) in OPENING else place + 1
        return found[:2]

    # What every way through it comes to

    def common(self, ways: List[List[int]], start: int) -> List[int]:
        """Of each node as bits the nodes that are on every way to it from a start, itself among them; `ways` has where one comes from. Of one that no way comes to all."""
        every = (1 << len(self.nodes)) - 1
        found = [every] * len(self.nodes)
        found[start] = 1 << start
        changed = True
        while changed:
            changed = False
            for node in self.order(ways, start):
                now = every
                for before in ways[node]:
                    now &= found[before]
                now |= 1 << node
                changed = changed or now != found[node]
                found[node] = now
        return found

    def order(self, ways: List[List[int]], start: int) -> List[int]:
        """The nodes but for the start, those first that are made last: a function is built from its end."""
        nodes = range(len(self.nodes)) if ways is self.ways else range(len(self.nodes) - 1, -1, -1)
        return [node for node in nodes if node != start and ways[node]]

    def backwards(self) -> List[List[int]]:
        ways: List[List[int]] = [[] for _ in self.nodes]
        for node, behind in enumerate(self.ways):
            for other in behind:
                ways[other].append(node)
        return ways

    def behind(self) -> List[int]:
        """Of each node what every way from it to the end comes to."""
        if "behind" not in self.known:
            self.known["behind"] = self.common(self.ways, EXIT)
        return self.known["behind"]

    def before(self) -> List[int]:
        """Of each node what every way from the begin to it comes to."""
        if "before" not in self.known:
            self.known["before"] = self.common(self.backwards(), self.first)
        return self.known["before"]

    # Dependence

    def depending(self) -> Iterator[Tuple[int, Optional[Arm], int]]:
        """Where there is more than one way on: the node, the arm where the node has a condition, and as bits the nodes that depend on it."""
        behind = self.behind()
        for node, ways in enumerate(self.ways):
            for which, other in enumerate(ways if len(ways) > 1 else []):
                arm = Arm(self.nodes[node].place, which == 0) if self.nodes[node].kind == CONDITION else None
                yield node, arm, behind[other] & ~(behind[node] & ~(1 << node))

    def leading(self) -> Dict[int, Arm]:
        """The nodes that depend on one arm alone."""
        before = self.before()
        found: Dict[int, List[Optional[Arm]]] = {}
        for node, arm, depending in self.depending():
            for one in bits_of(depending & ~before[node]):
                found.setdefault(one, []).append(arm)
        return {node: arms[0] for node, arms in found.items() if len(arms) == 1 and arms[0] is not None and node != EXIT}

    def only(self, arm: Arm) -> FrozenSet[int]:
        """The nodes that depend on an arm, also by way of others, and that no call comes to without it."""
        head = next((node for node, one in enumerate(self.nodes) if one.kind == CONDITION and one.place == arm.place), None)
        if head is None or self.ways[head][0] == self.ways[head][1]:
            return frozenset()
        return frozenset(self.below(arm) - self.without(head, self.ways[head][0 if arm.truth else 1]) - {EXIT})

    def below(self, arm: Arm) -> Set[int]:
        """What depends on an arm, and on what does."""
        by_node: Dict[int, int] = {}
        found = 0
        for node, one, depending in self.depending():
            by_node[node] = by_node.get(node, 0) | depending
            found |= depending if one == arm else 0
        todo = list(bits_of(found))
        while todo:
            new = by_node.get(todo.pop(), 0) & ~found
            found |= new
            todo += bits_of(new)
        return set(bits_of(found))

    def without(self, head: int, closed: int) -> Set[int]:
        """What a call comes to that never goes from a condition to that node."""
        seen, todo = {self.first}, [self.first]
        while todo:
            node = todo.pop()
            for other in self.ways[node]:
                if (node, other) != (head, closed) and other not in seen:
                    seen.add(other)
                    todo.append(other)
        return seen


def bits_of(number: int) -> Iterator[int]:
    while number:
        lowest = number & -number
        yield lowest.bit_length() - 1
        number ^= lowest


def flows_of(source: Source) -> List[Flow]:
    """The functions of a text."""
    found, place = [], 0
    while place < len(source.tokens):
        word = source.word(place)
        if word == "{" and source.word(place - 1) == ")":
            found.append(Flow(source, source.word(source.partner[place - 1] - 1), place))
        place = source.partner.get(place, place) + 1 if word in OPENING else place + 1
    return found
