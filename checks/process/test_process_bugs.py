"""Looks at suspicious lines and at bugs: worked examples, and random collections, over which `bugs_counted` counts both anew."""
import os
from random import Random
from typing import Dict, Iterator, List, NamedTuple, Tuple

import bugs_counted
from process_base import TOP, Process

ROWS = os.path.join(TOP, "crates", "cases_commands", "data", "bugs.txt")
# How many random collections there are, and how many runs one of them has at most.
COLLECTIONS = 200
RUNS = 24
BY = {"lines": bugs_counted.lines_of, "bugs": bugs_counted.bugs_of}
# Few names, few lines and few sites, so that many predicates are as strong as each other, and many places near.
FUNCTIONS = ("main", "find", "store")


class Row(NamedTuple):
    """A call of a worked example, with its files and the expected output."""

    name: str
    words: List[str]
    program: str
    collection: str
    out: str


def blocks_of(text: str) -> List[List[str]]:
    """The lines of each piece of a page between empty lines, without its remarks."""
    pieces = (piece.splitlines() for piece in text.split("\n\n"))
    return [lines for lines in ([line for line in piece if not line.startswith("#")] for piece in pieces) if lines]


def calls_of(lines: List[str]) -> Iterator[Tuple[List[str], str]]:
    """The words of each call of a row that passes, with the expected output."""
    words: List[str] = []
    text: List[str] = []
    for line in [*lines, "then"]:
        if line == "then" and words:
            yield words, "".join(text)
        elif line.startswith("words "):
            words, text = line.split()[2:], []
        elif line.startswith(("status ", "out fails", "out wants")):
            words = []
        elif line.startswith("    "):
            text.append(line[4:] + "\n")


def rows_of(page: str) -> Iterator[Row]:
    """The calls of a page of rows that end with status 0; the others are no examples of counting."""
    texts: Dict[str, str] = {}
    for head, *lines in blocks_of(page):
        kind, name = head.split(" ", 1)
        if kind == "text":
            texts[name] = "".join(line[4:] + "\n" for line in lines)
            continue
        files = {line.split()[1]: texts[line.split()[3]] for line in lines if line.startswith("file ")}
        for words, out in calls_of(lines):
            yield Row(name, words, files["prog"], files["coll"], out)


def options_of(words: List[str]) -> Dict[str, int]:
    """The options among words, by their names."""
    spread = " ".join(words).replace("=", " ").split()
    return {word[2:]: int(spread[at + 1]) for at, word in enumerate(spread) if word.startswith("--")}


def random_program(chance: Random) -> str:
    """A program of one to eight sites, of all schemes."""
    sites = []
    for token in range(chance.randint(1, 8)):
        place = f"{chance.randrange(len(FUNCTIONS))} {chance.randint(1, 12)} {token}"
        scheme = chance.choice(bugs_counted.SCHEMES)
        sites.append(f"site {scheme} {place} " + {"branch": "while", "return": "find", "pair": f"x g0 {chance.randint(-9, 9)} k"}[scheme])
    functions = [f"function {name} value 0 0 2" for name in FUNCTIONS]
    nodes = ["locals", "push i 0 1", "return"] * len(FUNCTIONS)
    head = ["cbi-program 1", "texts 0", "globals 1", "global 1:i0", f"functions {len(FUNCTIONS)}"]
    return "\n".join([*head, *functions, "main 0", f"sites {len(sites)}", *sites, *nodes, "end", ""])


def random_sites(chance: Random, sites: List[str]) -> List[str]:
    """The lines of what a run observed: some of these sites, by their schemes."""
    lines = []
    for site, scheme in enumerate(sites):
        counters = [chance.choice((0, 0, 1, 7)) for _ in range(2 if scheme == "branch" else 3)]
        if any(counters):
            lines.append(f"site {site} " + " ".join(map(str, [*counters, 0][:3])))
    return lines


def random_collection(chance: Random, program: str, identity: str) -> str:
    """A collection of a few runs, of which some fail, some pass, and some count as neither."""
    sites = [line.split()[1] for line in program.splitlines() if line.startswith("site ")]
    labels = chance.choice((("fail", "pass"), ("fail", "pass", "none"), ("fail", "fail", "pass"), ("fail",), ("pass",)))
    lines = ["cbi-collection 2", f"program {identity}"]
    for run in sorted(chance.sample(range(1, 1000), chance.randint(0, RUNS))):
        lines.append(f"run {run} ended 0 label {chance.choice(labels)} work 0 0 0")
        lines += random_sites(chance, sites)
    return "\n".join([*lines, "end", ""])


class Bugs(Process):
    """Calls of `lines` and `bugs`."""

    def call_on(self, words: List[str], program: str, collection: str, expected: str, what: str) -> None:
        """Looks whether a call on these files writes the expected output."""
        self.write("prog", program)
        self.write("coll", collection)
        self.look(self.call(*words), 0, expected, "", what)

    def worked(self) -> List[Row]:
        with open(ROWS, encoding="ascii") as file:
            rows = list(rows_of(file.read()))
        self.assertGreater(len(rows), 30)
        return rows

    def test_plain_counting_comes_to_what_was_worked_out_by_hand(self) -> None:
        for row in self.worked():
            counted = BY[row.words[0]](row.program, row.collection, **options_of(row.words))
            self.look_at(f"{row.name}: {' '.join(row.words)}", counted, row.out)

    def test_worked_examples_are_written(self) -> None:
        for row in self.worked():
            self.call_on(row.words, row.program, row.collection, row.out, f"{row.name}: {' '.join(row.words)}")

    def test_random_collections_have_the_lines_and_the_bugs_that_plain_counting_finds(self) -> None:
        for seed in range(COLLECTIONS):
            chance = Random(seed)
            program = random_program(chance)
            self.write("prog", program)
            collection = random_collection(chance, program, self.identity("prog"))
            most = chance.choice((1, 2, 10, 1000))
            for command, word, value in (("lines", "apart", chance.choice((0, 1, 3, 4, 100))), ("bugs", "also", chance.choice((1, 2, 3, 100)))):
                expected = BY[command](program, collection, **{"most": most, word: value})
                self.call_on([command, "--most", str(most), f"--{word}", str(value), "prog", "coll"], program, collection, expected, f"{command} of the collection {seed}")
