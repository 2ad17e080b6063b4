"""Wrong bodies as they stand in the repository: files of changes, each to be refused by the contract of a function that it names."""
import os
import re
from typing import Dict, List, NamedTuple, Optional, Set, Tuple

PARTS = ("src", "specs", "proofs")
# How `rt fmt` lays code out: items at the margin, methods one level in.
FUNCTION = re.compile(r"(?P<margin> *)(?:pub(?:\([a-z]+\))? )?(?:const )?(?:unsafe )?(?:extern \"C\" )?fn (?P<name>\w+)")
TYPE = re.compile(r"(?m)^(?:pub(?:\([a-z]+\))? )?(?:struct|enum) (\w+)")
RING = re.compile(r"#\[cycle\((\w+)\)\]")
BLOCK = re.compile(r"(?:unsafe )?(?:impl(?:<.*?>)? (?:(?:\w+::)*(?P<of>\w+)(?:<.*>)? for )?|(?:pub(?:\([a-z]+\))? )?trait )(?P<name>\w+)")


class Change(NamedTuple):
    """One text of a file in place of another, which stands there once."""
    crate: str
    path: str
    old: str
    new: str


class Body(NamedTuple):
    """A wrong body, or a wrong definition: its changes, and the functions whose contracts have to refuse it."""
    crate: str
    name: str
    changes: Tuple[Change, ...]
    refused: Tuple[str, ...]
    text: str
    listed: bool


class Function(NamedTuple):
    """A function of a crate: its path below the crate as the prover writes it, its file, and its lines, from what stands behind the function before to its last; its ring, of functions that call one another; and whether it is one of a trait."""
    path: str
    file: str
    first: int
    last: int
    text: str
    ring: str = ""
    of_trait: bool = False


class Bad(Exception):
    """A file of a wrong body that says nothing that can be tried."""


def read(file: str) -> str:
    with open(file, encoding="utf-8") as it:
        return it.read()


def body_of(crate: str, file: str, listed: bool) -> Body:
    """Reads a file of lines `file: PATH`, `crate: NAME`, `old: TEXT`, `new: TEXT` and `refused: FUNCTION`; `# refused: FUNCTION` is read too."""
    name, text = os.path.basename(file)[:-len(".edit")], read(file)
    changes: List[Change] = []
    refused: List[str] = []
    place, path, old = crate, "", None  # type: Tuple[str, str, Optional[str]]
    for line in text.splitlines():
        key, colon, value = line.lstrip("# ").partition(":") if line.startswith("# refused:") else line.partition(":")
        value = value[1:] if value.startswith(" ") else value
        if key == "refused" and value.strip():
            refused += [it.strip() for it in value.split(",")]
        elif key == "crate":
            place = value.strip()
        elif key == "file":
            path = value.strip()
        elif key == "old" and value:
            old = value
        elif key == "new" and colon and path and old:
            changes.append(Change(place, path, old, value))
            old = None
        elif line.strip() and not line.startswith("#"):
            raise Bad(f"a line that is not understood: {line.strip()[:60]}")
    if not changes:
        raise Bad("no file with an old and a new text")
    for each in changes:
        if os.path.normpath(each.path) != each.path or each.path.split("/")[0] not in PARTS[:2] or each.old == each.new:
            raise Bad(f"{each.path}: a changed text of a file in src/ or specs/ is wanted")
    if not refused:
        raise Bad("no line `refused: FUNCTION` says which contract has to refuse it")
    return Body(crate, name, tuple(changes), tuple(refused), text, listed)


def bodies(root: str) -> Tuple[List[Body], List[str]]:
    """All wrong bodies: those of wrong_bodies/, and those that the gate tries itself (`listed`); and what can't be read, each with why."""
    found: List[Body] = []
    bad: List[str] = []
    for listed, folder, below in ((False, os.path.join(root, "wrong_bodies"), ""), (True, os.path.join(root, "crates"), "must-fail")):
        for crate in sorted(os.listdir(folder)) if os.path.isdir(folder) else []:
            place = os.path.join(folder, crate, below)
            for name in sorted(os.listdir(place)) if os.path.isdir(place) else []:
                file = os.path.join(place, name)
                try:
                    if not name.endswith(".edit"):
                        raise Bad("its name does not end in .edit")
                    if not os.path.isdir(os.path.join(root, "crates", crate)):
                        raise Bad(f"there is no crate {crate}")
                    found.append(body_of(crate, file, listed))
                except (Bad, ValueError) as why:
                    bad.append(f"{os.path.relpath(file, root)}: {why}")
    return found, bad


def apply(texts: Dict[Tuple[str, str], str], root: str, body: Body) -> None:
    """Changes the texts of files, by crate and path; a text that was not asked for before is read."""
    for each in body.changes:
        key = each.crate, each.path
        if key not in texts:
            file = os.path.join(root, "crates", each.crate, each.path)
            if not os.path.isfile(file):
                raise Bad(f"there is no file {each.path} in {each.crate}")
            texts[key] = read(file)
        count = texts[key].count(each.old)
        if count != 1:
            raise Bad(f"`{each.old.strip()[:60]}` stands in {each.path} {count} times and not once")
        texts[key] = texts[key].replace(each.old, each.new)


def module_of(path: str) -> List[str]:
    """The module that a file of src/ is."""
    return [it for it in re.sub(r"(?:/mod)?\.rt$", "", path[len("src/"):]).split("/") if it not in ("lib", "main")]


def functions(path: str, text: str) -> List[Function]:
    """The functions of a file of src/, in their order, each by its module."""
    module = module_of(path)
    lines = text.splitlines()
    starts: List[Tuple[int, str, int, bool]] = []
    block, of_trait = "", False
    for number, line in enumerate(lines, 1):
        if line and not line.startswith((" ", "}")):
            opened = BLOCK.match(line)
            block = opened["name"] + (opened["of"] or "") if opened else block if line.startswith(("where", "{")) else ""
            of_trait = bool(opened["of"]) if opened else of_trait
        found = FUNCTION.match(line)
        if found and len(found["margin"]) in (0, 4):
            inner = [block] if found["margin"] and block else []
            starts.append((number, "::".join([*module, *inner, found["name"]]), len(found["margin"]), bool(inner) and of_trait))
    made: List[Function] = []
    for (first, name, margin, trait), (behind, *_) in zip(starts, [*starts[1:], (len(lines) + 1, "", 0, False)]):
        ends = [at for at in range(first, behind) if lines[at - 1] == " " * margin + "}" or lines[at - 1].endswith(";") and at == first]
        last = ends[0] if ends else behind - 1
        start = made[-1].last + 1 if made else 1
        ring = RING.search("\n".join(lines[start - 1:first - 1]))
        made.append(Function(name, path, start, last, "\n".join(lines[first - 1:last]), ring[1] if ring else "", trait))
    return made


def crate_functions(root: str, crate: str, texts: Dict[Tuple[str, str], str]) -> List[Function]:
    """The functions of a crate, with these texts in place of its own; a method has the module in which its type is declared, as the prover names it."""
    found: List[Function] = []
    types: Dict[str, str] = {}
    top = os.path.join(root, "crates", crate)
    for folder, _, names in os.walk(os.path.join(top, "src")):
        for name in sorted(names):
            if name.endswith(".rt"):
                path = os.path.relpath(os.path.join(folder, name), top)
                text = texts.get((crate, path)) or read(os.path.join(folder, name))
                types.update((it, "::".join([*module_of(path), it])) for it in TYPE.findall(text))
                found += functions(path, text)
    return [owned(it, types) for it in found]


def owned(each: Function, types: Dict[str, str]) -> Function:
    """A function; a method of a type that another module declares, by that module."""
    parts = each.path.split("::")
    inner = len(parts) == len(module_of(each.file)) + 2
    return each._replace(path="::".join([types[parts[-2]], parts[-1]])) if inner and parts[-2] in types else each


def is_named(path: str, name: str) -> bool:
    """Whether a function's path is this name, or ends with it."""
    return path == name or path.endswith("::" + name)

