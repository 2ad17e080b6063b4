"""The crates of this repository as crates.txt has them, for the scripts that look at the house."""
import os
import re
from typing import Dict, Iterator, List, Tuple

ROOT = os.path.dirname(os.path.dirname(os.path.realpath(__file__)))


def read(file: str) -> str:
    with open(file, encoding="utf-8") as it:
        return it.read()


def write(file: str, text: str) -> None:
    os.makedirs(os.path.dirname(file), exist_ok=True)
    with open(file, "w", encoding="utf-8") as it:
        it.write(text)


def rooms() -> Iterator[Tuple[str, List[str]]]:
    """The headings of crates.txt, each with its crates; the first may have none."""
    heading = ""
    crates: List[str] = []
    for row in read(os.path.join(ROOT, "crates.txt")).splitlines():
        if row.startswith("# "):
            if crates:
                yield heading, crates
            heading, crates = row[2:].strip(), []
        elif ":" in row.partition("#")[0]:
            crates.append(row.partition(":")[0].split()[0])
    if crates:
        yield heading, crates


def edges() -> Dict[str, List[str]]:
    """Each crate with what it stands on, in the order of crates.txt; libraries of the kit are among them."""
    found = {}
    for row in read(os.path.join(ROOT, "crates.txt")).splitlines():
        head, colon, rest = row.partition("#")[0].partition(":")
        if colon:
            found[head.split()[0]] = rest.split()
    return found


def below(crate: str) -> List[str]:
    """The crates of this repository on which a crate stands, without itself."""
    crates = edges()
    found: List[str] = []
    left = [crate]
    while left:
        for name in crates.get(left.pop(), []):
            if name in crates and name not in found:
                found.append(name)
                left.append(name)
    return found


def sources(crate: str) -> Iterator[str]:
    """The text of each file of a crate's source."""
    for at, folders, names in os.walk(os.path.join(ROOT, "crates", crate, "src")):
        folders.sort()
        yield from (read(os.path.join(at, name)) for name in sorted(names) if name.endswith(".rt"))


def is_program(crate: str) -> bool:
    return os.path.isfile(os.path.join(ROOT, "crates", crate, "src", "main.rt"))


def is_proof(crate: str) -> bool:
    """Whether a crate is proof alone: a library without a type or a constant, whose functions are laws: they take nothing but an allocator, and return nothing."""
    text = "\n".join(sources(crate))
    calls = re.findall(r"(?m)^ *(?:pub(?:\(\w+\))? )?fn (.*)$", text)
    return not is_program(crate) and not re.search(r"(?m)^ *(?:pub )?(?:struct|enum|trait|const|impl)\b", text) and all(re.match(r"\w+(?:<[\w,: ]+>)?\((?:alloc: Global)?\)(?! ->)", it) for it in calls)
