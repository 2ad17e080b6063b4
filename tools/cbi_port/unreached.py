"""What nothing reaches from `main` is left out: functions and variables of all files, before anything else is done with the trees.

A name that is mentioned in what is reached is reached, wherever it stands: called, under `&`, in an initialiser, or in a `sizeof`. A name of linkage (C99 6.2.2) is of its
file where the file declares it `static`, and else of all files; one that a block declares hides it there (6.2.1). Types, tags and enumerators stay.
"""
from typing import Any, Dict, Iterator, List, NamedTuple, Optional, Sequence, Set, Tuple

from pycparser import c_ast

from cbi_port.beginnings import ADDED
from cbi_port.lines import Refusal, Token
from cbi_port.neighbours import closing
from cbi_port.nested import IN
from cbi_port.reader import HEADERS, Unit, items
from cbi_port.scopes import BUILTIN, plain_name
from cbi_port.trees import kind

MOST_NAMES = 5      # more than that are counted alone
OF_ALL = -1         # in place of a file's number, for what all files share
TAGS = ("Struct", "Union", "Enum")
Key = Tuple[int, str]
MAIN: Key = (OF_ALL, "main")
Range = Tuple[int, int]


class Mentions:
    """The names of whole files that trees mention, and those of the bodies that stood within their expressions."""

    def __init__(self, bodies: Dict[str, Any]) -> None:
        self.bodies = bodies
        self.names: Set[str] = set()
        self.entered: Set[str] = set()
        self.scopes: List[Dict[str, bool]] = []     # the names of each open block: whether a name there hides that of the file

    def hides(self, name: str, hidden: bool = True) -> None:
        if self.scopes:
            self.scopes[-1][name] = hidden

    def name(self, name: str) -> None:
        """A name in an expression."""
        if name in self.bodies:
            self.body(name)
        elif not next((scope[name] for scope in reversed(self.scopes) if name in scope), False):
            self.names.add(name)

    def body(self, name: str) -> None:
        self.entered.add(name)
        self.look(self.bodies[name])

    def look(self, node: Any) -> None:
        """A tree, with what it declares."""
        what = kind(node)
        if what == "ID":
            self.name(node.name)
        elif what == "IdentifierType":
            for name in node.names:
                if name + "_of" in self.bodies:
                    self.body(name + "_of")
        elif what == "StructRef":
            self.look(node.name)
        elif what == "NamedInitializer":
            self.every([it for it in node.name if kind(it) != "ID"] + [node.expr])
        elif what in ("Compound", "For", "FuncDecl"):
            self.scopes.append({})
            self.every(child for _, child in node.children())
            self.scopes.pop()
        elif what in ("Struct", "Union"):
            for member in node.decls or []:
                self.every(child for _, child in member.children())
        elif what in ("Decl", "Typedef"):
            self.declaration(node)
        elif what == "Enumerator":
            self.every([node.value] if node.value is not None else [])
            self.hides(node.name)
        else:
            self.every(child for _, child in node.children())

    def every(self, nodes: Any) -> None:
        for node in nodes:
            self.look(node)

    def declaration(self, node: Any) -> None:
        """A declaration; an `extern` one of a block, or one of a function, names what the file has (6.2.2p4 and p5)."""
        self.look(node.type)
        outer = kind(node) == "Decl" and ("extern" in (node.storage or []) or kind(node.type) == "FuncDecl")
        if node.name is not None:
            self.hides(node.name, not outer)
        if kind(node) == "Decl":
            self.every(it for it in (node.bitsize, node.init) if it is not None)

    def function(self, item: Any) -> None:
        """A definition, whose parameters hide names in its body."""
        self.scopes.append({})
        declared = [*(item.decl.type.args.params if item.decl.type.args is not None else []), *(item.param_decls or [])]
        self.look(item.decl.type.type)
        for it in declared:
            if kind(it) in ("Decl", "Typename"):
                self.look(it.type)
            if getattr(it, "name", None) is not None:
                self.hides(it.name)
        self.look(item.body)
        self.scopes.pop()


class Thing(NamedTuple):
    """What stands outside functions: a definition or declaration of a name, or what has none. `mentions` are what is reached with it, and `bodies` those of its expressions."""
    item: Any
    key: Optional[Key]
    mentions: Set[Key]
    bodies: Set[str]


def innermost(type_: Any) -> Any:
    """The type that a declarator ends at."""
    while kind(type_) in ("TypeDecl", "PtrDecl", "ArrayDecl", "FuncDecl"):
        type_ = type_.type
    return type_


class File:
    """A file: which names are its own, and what stands outside its functions."""

    def __init__(self, number: int, unit: Unit) -> None:
        self.number, self.unit = number, unit
        self.things: List[Thing] = []
        self.functions: Set[str] = set()    # the names of types that are functions
        self.own: Set[str] = set()
        self.tags: Set[str] = set()         # the bodies within what stays in any case
        tree = unit.tree.ext if unit.tree is not None else []
        for item in tree:
            decl = item.decl if kind(item) == "FuncDef" else item
            if kind(decl) == "Decl" and "static" in (decl.storage or []):
                self.own.add(decl.name)
            if kind(item) == "Typedef" and self.is_function(item.type):
                self.functions.add(item.name)
        for item in tree:
            self.put(item)

    def is_function(self, type_: Any) -> bool:
        names = getattr(type_.type, "names", []) if kind(type_) == "TypeDecl" else []
        return kind(type_) == "FuncDecl" or len(names) == 1 and names[0] in self.functions

    def key(self, name: str) -> Key:
        """What a name of whole files means here."""
        if name.startswith(BUILTIN):
            return OF_ALL, plain_name(name)
        return (self.number if name in self.own else OF_ALL), name

    def keys(self, names: Any) -> Set[Key]:
        return {self.key(name) for name in names}

    def put(self, item: Any) -> None:
        found = Mentions(self.unit.bodies)
        name = None
        if kind(item) == "FuncDef":
            name = item.decl.name
            found.function(item)
        elif kind(item) == "Decl" and item.name is not None:
            name = item.name
            found.declaration(item)
        else:
            found.look(item)
        self.things.append(Thing(item, self.key(name) if name is not None else None, self.keys(found.names), found.entered))

    def kept_tag(self, item: Any) -> Any:
        """The struct, union or enumeration of a declaration that is left out, which stays; None where there is none."""
        decl = item.decl if kind(item) == "FuncDef" else item
        tag = innermost(decl.type)
        if kind(tag) not in TAGS or kind(tag) == "Enum" and tag.values is None:
            return None
        return tag if tag.name or kind(tag) == "Enum" or defines_more(tag) else None

    def roots(self, everything: bool) -> Iterator[Thing]:
        """What is reached in any case; `everything` where no `main` says what it reaches: all but `static` functions."""
        for thing in self.things:
            if thing.key is None or thing.key == MAIN or ADDED.match(thing.key[1]):
                yield thing
            elif everything and (thing.key[0] == OF_ALL or kind(thing.item) != "FuncDef"):
                yield thing

    def always(self) -> Set[Key]:
        """What is mentioned beside the things: in tags that stay, in what is aligned, and by what couldn't be read."""
        found = Mentions(self.unit.bodies)
        for thing in self.things:
            if thing.key is not None:
                decl = thing.item.decl if kind(thing.item) == "FuncDef" else thing.item
                found.every([innermost(decl.type)])
        for name in self.unit.alignments.values():
            if name in self.unit.bodies:
                found.body(name)
        self.tags = found.entered
        return self.keys(found.names)


def defines(tag: Any) -> bool:
    """Whether a tag is defined where it stands."""
    return tag is not None and (kind(tag) == "Enum" or tag.decls is not None)


def defines_more(tag: Any) -> bool:
    """Whether a struct without a name defines tags or constants within it."""
    return any(kind(it) == "Enum" and it.values is not None or kind(it) in ("Struct", "Union") and (it.name or defines_more(it))
               for member in tag.decls or [] for it in [innermost(member.type)])


class Unreached:
    """The pass over all files. `unread` are the tokens of what couldn't be read, whose names are all reached; `whole` where no header is missing, so that
    what `main` reaches is known."""

    def __init__(self, units: Sequence[Unit], tokens: List[Token], unread: Sequence[Range], whole: bool) -> None:
        self.units, self.tokens = list(units), tokens
        self.files = [File(number, unit) for number, unit in enumerate(self.units)]
        self.reached: Set[Key] = set()
        self.bodies: Set[str] = set()
        self.gone: Dict[Tuple[str, str, str], None] = {}    # what is left out: what it is, its name and its file
        self.ranges: List[Tuple[int, Range]] = []           # the tokens of what is left out, by their file's number
        self.unread, self.whole = unread, whole

    def find(self) -> None:
        """Finds what is reached."""
        by_key: Dict[Key, List[Thing]] = {}
        for file in self.files:
            for thing in file.things:
                if thing.key is not None:
                    by_key.setdefault(thing.key, []).append(thing)
        aliases = {file.key(it.name): file.key(it.target) for file in self.files for it in file.unit.aliases}
        words = {self.tokens[at].text for begin, end in self.unread for at in range(begin, end) if self.tokens[at].kind == "name"}
        known = self.whole and ("main" in words or any(kind(it.item) == "FuncDef" for it in by_key.get(MAIN, [])))
        wanted: List[Key] = [key for file in self.files for key in (*file.always(), *file.keys(words), *file.keys(file.unit.kept))]
        wanted.extend(aliases if not known else [])
        for thing in [thing for file in self.files for thing in file.roots(not known)]:
            wanted.extend(thing.mentions if thing.key is None else [thing.key])
            self.bodies |= thing.bodies
        while wanted:
            key = wanted.pop()
            if key in self.reached:
                continue
            self.reached.add(key)
            wanted.extend([aliases[key]] if key in aliases else [])
            for thing in by_key.get(key, []):
                wanted.extend(thing.mentions)
                self.bodies |= thing.bodies
        self.bodies |= {name for file in self.files for name in file.tags}

    def stays(self, thing: Thing) -> bool:
        """Whether a thing stays: one that is reached, and what a header of the system declares."""
        return thing.key is None or thing.key in self.reached or kind(thing.item) == "Decl" and self.file_of(thing.item).startswith(HEADERS)

    def file_of(self, item: Any) -> str:
        decl = item.decl if kind(item) == "FuncDef" else item
        at: int = decl.coord.line if decl.coord is not None else 0
        return self.tokens[at].file if 0 <= at < len(self.tokens) else ""

    def leave_out(self) -> None:
        """Takes what isn't reached out of the trees."""
        self.find()
        for file in self.files:
            unit = file.unit
            if unit.tree is None:
                continue
            gone = [thing.item for thing in file.things if not self.stays(thing)]
            tags: Dict[int, Any] = {}
            kept: List[Any] = []
            for thing in file.things:
                tag = None if self.stays(thing) else file.kept_tag(thing.item)
                if self.stays(thing):
                    kept.append(thing.item)
                elif tag is not None and id(tag) not in tags:
                    tags[id(tag)] = tag
                    kept.append(c_ast.Decl(None, [], [], [], [], tag, None, None, tag.coord))
            unit.tree.ext = kept
            self.note(file, gone)
            self.places(file, gone)
            for name in [name for name in unit.bodies if name not in self.bodies]:
                del unit.bodies[name]
            self.units[file.number] = unit._replace(aliases=[it for it in unit.aliases if file.key(it.name) in self.reached])

    def note(self, file: File, gone: Sequence[Any]) -> None:
        """Keeps what is left out for the sentence on it: definitions alone."""
        for item in gone:
            name, where = (item.decl.name if kind(item) == "FuncDef" else item.name), self.file_of(item)
            if where.startswith(HEADERS) or IN in name:
                continue
            if kind(item) == "FuncDef":
                self.gone["function", name, where] = None
            elif not file.is_function(item.type) and ("extern" not in (item.storage or []) or item.init is not None):
                self.gone["variable", name, where] = None

    def places(self, file: File, gone: Sequence[Any]) -> None:
        """The tokens of what is left out of a file."""
        first, end = file.unit.span
        left = {id(item) for item in gone if not defines(file.kept_tag(item))}
        found = [function_range(item, self.tokens) for item in gone if kind(item) == "FuncDef" and id(item) in left]
        others = sorted((thing.item.coord.line, id(thing.item) in left) for thing in file.things if kind(thing.item) != "FuncDef" and thing.item.coord is not None)
        functions = {thing.item.decl.coord.line: id(thing.item) in left for thing in file.things if kind(thing.item) == "FuncDef"}
        rows = sorted([*others, *functions.items()])
        at = 0
        for begin, stop in items(self.tokens[first:end]):
            within = []
            while at < len(rows) and rows[at][0] < first + stop:
                within += [rows[at][1]] if rows[at][0] >= first + begin else []
                at += 1
            if within and all(within):
                found.append((first + begin, first + stop))
        for name in file.unit.bodies:
            found += [body_range(name, self.tokens, first, end)] if name not in self.bodies else []
        self.ranges.extend((file.number, it) for it in found)

    # What is refused, and what is reported.

    def blank(self) -> None:
        """Has what looks at the tokens find none where something is left out; they keep their places."""
        for _, (begin, end) in self.ranges:
            for at in range(begin, end):
                self.tokens[at] = Token("mark", "", self.tokens[at].file, self.tokens[at].line)

    def of_the_rest(self, number: int, problems: Sequence[Refusal]) -> List[Refusal]:
        """The refusals of a file's tokens that don't stand in what is left out. Only a line is known of each, so one stays where its line has a token of what stays."""
        mine = [it for of, it in self.ranges if of == number]
        if not mine or not problems:
            return list(problems)
        first, end = self.units[number].span
        away = {at for begin, stop in mine for at in range(begin, stop)}
        there = {(token.file, token.line) for at, token in enumerate(self.tokens[first:end], first) if at not in away and token.text}
        return [it for it in problems if it.span != (0, 0) or self.place(it) in there or not any(self.holds(one, it) for one in mine)]

    def place(self, problem: Refusal) -> Tuple[str, int]:
        token = getattr(problem, "token", None) or self.tokens[problem.at]
        return token.file, token.line

    def holds(self, where: Range, problem: Refusal) -> bool:
        """Whether a refusal stands on the lines of what is left out, or is one of an attribute between it and what stands before."""
        begin, end = (self.tokens[at] for at in (where[0], where[1] - 1))
        file, line = self.place(problem)
        token, before = getattr(problem, "token", None), self.tokens[where[0] - 1] if where[0] else begin
        early = token is not None and token.text.startswith("__attribute") and before.file == begin.file
        return file == begin.file == end.file and (before.line if early else begin.line) <= line <= end.line

    def told(self) -> List[str]:
        """The sentence on what is left out."""
        if not self.gone:
            return []
        counts = [(sum(what == word for what, _, _ in self.gone), word) for word in ("function", "variable")]
        files = len({file for _, _, file in self.gone})
        what = " and ".join(f"{count} {word}{'s' * (count != 1)}" for count, word in counts if count)
        names = f" ({', '.join(name for _, name, _ in self.gone)})" if len(self.gone) <= MOST_NAMES else ""
        return [f"left out, since nothing reaches {'it' if len(self.gone) == 1 else 'them'}: {what} of {files} file{'s' * (files != 1)}{names}"]


def function_range(item: Any, tokens: Sequence[Token]) -> Range:
    """The tokens of a definition."""
    begin = item.decl.coord.line
    while begin and tokens[begin - 1].text not in (";", "}", "") and tokens[begin - 1].file:
        begin -= 1
    return begin, closing(tokens, item.body.coord.line) + 1


def body_range(name: str, tokens: Sequence[Token], first: int, end: int) -> Range:
    """The tokens of the function that holds what stood within an expression."""
    for at in range(first, end - 4):
        if tokens[at].text == name and [it.text for it in tokens[at + 1:at + 5]] == ["(", "void", ")", "{"]:
            return at - 1, closing(tokens, at + 4) + 1
    return first, first


def leave_out(units: Sequence[Unit], tokens: List[Token], unread: Sequence[Tuple[str, List[Refusal]]], whole: bool) -> Tuple[List[Unit], List[str]]:
    """The files without what nothing reaches, and the sentence on that; refusals of what is left out are taken from those of the tokens, which are given by file.
    Without `main`, or where a header is missing, all is reached but `static` functions that nothing mentions."""
    spans = [it.span for _, problems in unread for it in problems if it.span != (0, 0)]
    found = Unreached(units, tokens, spans, whole)
    found.leave_out()
    for number, (_, problems) in enumerate(unread):
        problems[:] = found.of_the_rest(number, problems)
    found.blank()
    return found.units, found.told()
