"""Reads C: the preprocessor that is there, the pieces of its text (C99 6.4), and the tree that pycparser makes.

Each token gets a line of its own before pycparser sees it, so that a place in the tree is the number of a token.
What GNU C writes beside C99 is left out, or brought to a call of a name that begins with `__cbi_`.
"""
import os
import re
import shutil
import subprocess
import tempfile
from typing import AbstractSet, Any, Dict, Iterator, List, NamedTuple, Optional, Sequence, Tuple

from cbi_port import Missing, Problem
from cbi_port.aliases import Alias
from cbi_port.gnu import rewrite
from cbi_port.lines import Refusal, Token
from cbi_port.neighbours import TYPE_WORDS
from cbi_port.trees import CONTROL, holds, is_statements, kind

HEADERS = os.path.join(os.path.dirname(os.path.dirname(os.path.abspath(__file__))), "headers")
PIECE = re.compile(r"""
    (?P<space>[ \t\r\f\v]+)
  | (?P<line>\n)
  | (?P<string>(?:L|u8|u|U)?"(?:[^"\\\n]|\\.)*")
  | (?P<char>(?:L|u|U)?'(?:[^'\\\n]|\\.)*')
  | (?P<number>\.?[0-9](?:[eEpP][+-]|[0-9A-Za-z_.])*)
  | (?P<name>(?:[A-Za-z_$\x80-\xff]|\\u[0-9A-Fa-f]{4}|\\U[0-9A-Fa-f]{8})(?:[A-Za-z0-9_$\x80-\xff]|\\u[0-9A-Fa-f]{4}|\\U[0-9A-Fa-f]{8})*)
  | (?P<mark>\.\.\.|<:|:>|<%|%>|<<=|>>=|->|\+\+|--|<<|>>|<=|>=|==|!=|&&|\|\||\*=|/=|%=|\+=|-=|&=|\^=|\|=|[][(){}.&*+~!/%<>^|?:;=,\-\#])
""", re.X)
MARKER = re.compile(r'#\s*(?:line\s+)?(\d+)\s+"((?:[^"\\]|\\.)*)"')
MISSING = re.compile(r"(?m)^(.*?):(\d+)(?::\d+)?:\s*(?:fatal )?error:\s*'?(.*?)'?(?:: No such file| file not found)")
MOST_MISSING = 100
NO_HEADER = "`-I` with the folder that has it, or an empty file of that name where nothing of it is used (docs/PORTING.md lists those of the system)"
DIGRAPHS = {"<:": "[", ":>": "]", "<%": "{", "%>": "}"}  # 6.4.6p3; those of `#` are the preprocessor's
# What says which machine it is: such texts hold pieces of its assembler.
MACHINE = ["__i386__", "__i386", "i386", "__i686__", "__i686", "__pentium4__", "__SSE__", "__SSE2__", "__x86_64__", "__OPTIMIZE__"]


class Unit(NamedTuple):
    """A file as it was read: its tree, and the trees of what stood within an expression. `defined` has the tokens at which structs and unions
    are defined outside functions, by their names; `kept` are the names that an attribute keeps, and `span` is where its tokens begin and end."""
    file: str
    tree: Any
    bodies: Dict[str, Any]
    alignments: Dict[str, str]
    defined: Dict[str, int]
    aliases: Sequence[Alias] = ()
    kept: AbstractSet[str] = frozenset()
    span: Tuple[int, int] = (0, 0)


def preprocessor() -> List[str]:
    for name in ("gcc", "clang", "cpp", "cc"):
        path = shutil.which(name)
        if path:
            return [path, "-E"] if name != "cpp" else [path]
    raise Missing("no preprocessor: gcc, clang or cpp is needed (Debian's package cpp)")


def flags_of(options: Sequence[str]) -> List[str]:
    """The options by which a text is read: no header of the machine, and nothing that says which machine it is."""
    return ["-m32", "-std=gnu99", "-nostdinc", "-x", "c", "-w", *(f"-U{name}" for name in MACHINE), "-D__CBI__=1", "-D__STDC_IEC_559__=1",
            "-D__STDC_ISO_10646__=201706L", "-imacros", os.path.join(PRELUDE, "bison.h"), *options, "-I", HEADERS]


def preprocessed(file: str, options: Sequence[str], missing: List[Problem]) -> str:
    """The text of the file behind the preprocessor, with its line marks. A header that isn't there is added to what is missing, and empty."""
    with open(file, "rb"):
        pass
    words = preprocessor() + flags_of(options)
    with tempfile.TemporaryDirectory(prefix="cbi-port-") as room:
        for _ in range(MOST_MISSING):
            done = subprocess.run([*words, "-idirafter", room, file], stdout=subprocess.PIPE, stderr=subprocess.PIPE)
            told = done.stderr.decode("utf-8", "replace")
            found = MISSING.search(told)
            if done.returncode == 0:
                return done.stdout.decode("latin-1")
            if not found or os.path.isabs(found[3]) or ".." in found[3].split("/"):
                break
            missing.append(Problem(found[1], int(found[2]), f"`#include` of {found[3]}", NO_HEADER))
            path = os.path.join(room, found[3])
            os.makedirs(os.path.dirname(path), exist_ok=True)
            with open(path, "w"):
                pass
    raise PreprocessorFailed(told, file)


class PreprocessorFailed(Exception):
    """What the preprocessor told, and of which file."""

    def __init__(self, told: str, file: str) -> None:
        super().__init__(told)
        self.told, self.file = told, file


def pieces(text: str, file: str) -> List[Token]:
    """The tokens of a preprocessed text."""
    tokens: List[Token] = []
    at, line, fresh = 0, 1, True
    while at < len(text):
        if fresh and text[at] == "#":
            stop = text.find("\n", at)
            stop = len(text) if stop < 0 else stop
            row = text[at:stop]
            found = MARKER.match(row)
            if found:
                line, file = int(found[1]) - 1, found[2].encode("latin-1").decode("unicode_escape") if "\\" in found[2] else found[2]
            elif re.match(r"#\s*pragma\s+(pack|scalar_storage_order|redefine_extname|weak)", row):
                tokens.append(Token("pragma", row, file, line))
            at = stop
            continue
        found = PIECE.match(text, at)
        if not found:
            tokens.append(Token("byte", text[at], file, line))
            at += 1
            continue
        at = found.end()
        kind = str(found.lastgroup)
        if kind == "line":
            line, fresh = line + 1, True
        elif kind != "space":
            piece = found.group()
            tokens.append(Token(kind, plain_name(piece) if kind == "name" else DIGRAPHS.get(piece, piece), file, line))
            fresh = False
    return tokens


def plain_name(name: str) -> str:
    """A name in letters of ASCII: others are written by their numbers (C99 6.4.3)."""
    if name.isascii() and "\\" not in name:
        return name
    spelled = re.sub(r"\\[uU]([0-9A-Fa-f]+)", lambda it: f"_u{int(it[1], 16):04x}_", name)
    letters = spelled.encode("latin-1").decode("utf-8", "replace")
    return "".join(letter if letter.isascii() else f"_u{ord(letter):04x}_" for letter in letters)


def parser() -> Any:
    try:
        from pycparser import c_parser
    except ImportError:
        raise Missing("no pycparser: Debian's package python3-pycparser has it, or `pip install pycparser`") from None
    return c_parser.CParser()


def parse(tokens: Sequence[Token], first: int, placed: bool = True) -> Tuple[Any, Optional[Tuple[int, str]]]:
    """The tree of tokens that are numbered from `first` on; or where it goes wrong, looked for where the parser doesn't say and it is asked."""
    from pycparser import c_parser
    text = f"# {first} \"t\"\n" + "\n".join(token.text for token in tokens) + "\n"
    try:
        return parser().parse(text, "t"), None
    except (c_parser.ParseError, AssertionError, AttributeError) as error:
        found = re.match(r"t:(\d+)(?::\d+)?:\s*(.*)", str(error), re.S)
        if found or not placed:
            return None, (int(found[1]) - first if found else 0, found[2] if found else str(error))
        return None, (first_unread(tokens, first), str(error))


def items(tokens: Sequence[Token]) -> Iterator[Tuple[int, int]]:
    """From where to where each of the outermost items goes."""
    begin, depth = 0, 0
    for index, token in enumerate(tokens):
        text = token.text
        if text in ("{", "(", "["):
            depth += 1
        elif text in ("}", ")", "]"):
            depth = max(depth - 1, 0)
        if depth == 0 and (text == ";" or text == "}" and (
                index + 1 >= len(tokens) or tokens[index + 1].text not in (";", ",", "=", "*", "[", ")") and not (
                    tokens[index + 1].kind == "name" and opens_struct(tokens, begin)))):
            yield begin, index + 1
            begin = index + 1
    yield begin, len(tokens)


def outer(tokens: Sequence[Token], at: int) -> Tuple[int, int]:
    """From where to where the outermost item goes that has the token."""
    return next((begin, end) for begin, end in items(tokens) if at < end or end == len(tokens))


def first_unread(tokens: Sequence[Token], first: int) -> int:
    """A token of the first item that can't be read, where the parser names no place: the parts before it can."""
    ends = [end for _, end in items(tokens)]
    low, high = 0, len(ends) - 1
    while low < high:
        middle = (low + high) // 2
        if parse(tokens[:ends[middle]], first, False)[1] is None:
            low = middle + 1
        else:
            high = middle
    return (ends[low - 1] if low else 0)


def opens_struct(tokens: Sequence[Token], begin: int) -> bool:
    for token in tokens[begin:begin + 60]:
        if token.text in ("struct", "union", "enum"):
            return True
        if token.text in ("(", "{", ";"):
            return False
    return False


def read(file: str, options: Sequence[str], table: List[Token], problems: List[Refusal], missing: List[Problem]) -> Unit:
    """A file's tree. Its tokens are added to the table; what it can't be read for is added to the problems, and headers that aren't there to what is missing."""
    tokens = pieces(preprocessed(file, options, missing), file)
    tokens, bodies, alignments, other_names, kept = rewrite(tokens, len(table), problems)
    first = len(table)
    trees: Dict[str, Any] = {}
    tree = None
    table.extend(tokens)
    for _ in range(20):
        tree, wrong = parse(tokens, first)
        if wrong is None:
            break
        at = min(max(wrong[0], 0), len(tokens) - 1) if tokens else 0
        begin, end = outer(tokens, at)
        refusal = unread(tokens, begin, at, first)
        refusal.span = (first + begin, first + end)
        problems.append(refusal)
        blank = Token("mark", "", file, 0)
        tokens = list(tokens[:begin]) + [blank] * (end - begin) + list(tokens[end:])
    if tree is not None:
        trees = {item.decl.name: item.body for item in tree.ext
                 if type(item).__name__ == "FuncDef" and item.decl.name in bodies}
        tree.ext = [item for item in tree.ext if not (type(item).__name__ == "FuncDef" and item.decl.name in bodies)]
        for root in [tree, *trees.values()]:
            unwrap(root, trees)
        tree.ext = [item for item in tree.ext if not (kind(item) == "Decl" and any(item.name == it.name for it in other_names))]
    return Unit(file, tree, trees, alignments, dict(defined_structs(tree)) if tree is not None else {}, other_names, kept, (first, first + len(tokens)))


def defined_structs(node: Any) -> Iterator[Tuple[str, int]]:
    """The structs and unions with a name that are defined outside functions, and the numbers of their tokens."""
    if type(node).__name__ in ("Struct", "Union") and node.name and node.decls is not None:
        yield node.name, int(node.coord.line)
    for name, child in node.children():
        if not (type(node).__name__ == "FuncDef" and name == "body"):
            yield from defined_structs(child)


def without_void(node: Any) -> Any:
    """What is cast to `void`, as a statement."""
    while kind(node) == "Cast" and getattr(node.to_type.type.type, "names", None) == ["void"]:
        node = node.expr
    return node


def with_branches(node: Any, bodies: Dict[str, Any]) -> bool:
    """Whether a part of an expression is nothing but statements within one, of which some branch."""
    inner = without_void(node)
    return is_statements(inner) and inner.name.name in bodies and holds(bodies[inner.name.name], lambda it: kind(it) in CONTROL and kind(it) != "Compound")


def unwrapped(node: Any, bodies: Dict[str, Any]) -> Any:
    """A statement that is nothing but statements within an expression is a block; one that evaluates such, with branches in them, or something else, is an `if`."""
    from pycparser import c_ast
    inner = without_void(node)
    if is_statements(inner) and inner.name.name in bodies:
        return c_ast.Compound(bodies[inner.name.name].block_items, node.coord)
    if kind(inner) == "TernaryOp" and (with_branches(inner.iftrue, bodies) or with_branches(inner.iffalse, bodies)):
        return c_ast.If(inner.cond, unwrapped(inner.iftrue, bodies), unwrapped(inner.iffalse, bodies), node.coord)
    if kind(inner) == "BinaryOp" and inner.op in ("&&", "||") and with_branches(inner.right, bodies):
        condition = inner.left if inner.op == "&&" else c_ast.UnaryOp("!", inner.left, inner.left.coord)
        return c_ast.If(condition, unwrapped(inner.right, bodies), None, node.coord)
    return node


def unwrap(node: Any, bodies: Dict[str, Any]) -> None:
    for name in ("iftrue", "iffalse", "stmt"):
        if getattr(node, name, None) is not None and type(node).__name__ != "TernaryOp":
            setattr(node, name, unwrapped(getattr(node, name), bodies))
    for name in ("block_items", "stmts"):
        items = getattr(node, name, None)
        if items and not (name == "block_items" and any(node is body for body in bodies.values())):
            setattr(node, name, [unwrapped(item, bodies) for item in items])
    for _, child in node.children():
        unwrap(child, bodies)


def unread(tokens: Sequence[Token], begin: int, at: int, first: int) -> Refusal:
    """The refusal of what pycparser can't read, by what it looks like."""
    depth = 0
    for index in range(begin, min(at + 1, len(tokens))):
        text = tokens[index].text
        depth += (text == "{") - (text == "}")
    if depth > 0 and tokens[at].text == "{" or depth > 1 and tokens[at - 1].text == ")":
        return Refusal(first + at, "a function within a function", "a function of its own, with what it uses as parameters")
    if depth > 0 and tokens[at - 1].text == ")" and tokens[at].text in TYPE_WORDS:
        return Refusal(first + at, "a function within a function, with the types of its parameters behind `)`", "the types before the names")
    if tokens[at].text == "_Generic":
        return Refusal(first + at, "`_Generic`", "the function that is meant")
    near = " ".join(token.text for token in tokens[max(begin, at - 3):at + 2])
    return Refusal(first + at, f"no C99 at `{near}`", "C99 for it, without what a compiler has beside it")


PRELUDE = os.path.join(os.path.dirname(os.path.abspath(__file__)), "prelude")


def prelude_index() -> Dict[str, str]:
    """In which file of the prelude a name is defined."""
    found: Dict[str, str] = {}
    for name in sorted(os.listdir(PRELUDE)):
        if name.endswith(".c") and not name.startswith("raw_"):
            with open(os.path.join(PRELUDE, name)) as file:
                for row in file:
                    match = re.match(r"(?!static|typedef|struct \w+ \{)[A-Za-z_][\w ]*[ *]+(\w+)(\(.*\)$|\(.*\) \{|;| =)", row)
                    if match:
                        found.setdefault(match[1], os.path.join(PRELUDE, name))
    return found


def read_prelude(file: str, tokens: List[Token], parts: Sequence[str], header: str) -> Unit:
    """A file of the prelude, with those of its parts that the text asks for, and the header of the files that are given."""
    problems: List[Refusal] = []
    with tempfile.TemporaryDirectory(prefix="cbi-port-") as room:
        with open(os.path.join(room, "__cbi_given.h"), "w") as out:
            out.write(header)
        unit = read(file, ["-D__CBI_PRELUDE__", *(f"-D__CBI_{part}__" for part in parts), "-I", room], tokens, problems, [])
    if unit.tree is None or problems:
        raise AssertionError(f"the prelude isn't read: {file}: {[(it.construct, it.problem(tokens)) for it in problems]}")
    return unit
