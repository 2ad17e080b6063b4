"""Writes the typed tree as text of the dialect. Nothing else makes the text of an expression, a statement or a definition of a program.

What is written are pieces: texts, and the numbers of the tokens at which what follows stands in the source.
"""
from typing import Any, Callable, Dict, List, Optional, Sequence, Union

from cbi_port import blocks, nodes
from cbi_port.nodes import ASSIGN, COMMA, COND, LEAST_INT, LEVELS, POSTFIX, UNARY, Node, level

Piece = Union[str, int]


def marks(at: int) -> List[Piece]:
    return [at] if at >= 0 else []


def plain(pieces: Sequence[Piece]) -> str:
    """The text of pieces without the places."""
    return "".join([it for it in pieces if isinstance(it, str)])


def listed(rows: Sequence[List[Piece]], between: str) -> List[Piece]:
    """Rows with a text between them."""
    found: List[Piece] = []
    for index, row in enumerate(rows):
        found += [between, *row] if index else row
    return found


# Expressions.

def operand(node: Node, least: int) -> List[Piece]:
    """A node as an operand that wants to be held together as tightly as that."""
    return written(node) if level(node) >= least else ["(", *written(node), ")"]


def first_sign(node: Node) -> str:
    """The sign that the text of an operand begins with."""
    node = nodes.bare(node)
    if level(node) < UNARY:
        return "("
    if isinstance(node, nodes.Unary):
        return node.sign[0]
    return "-" if isinstance(node, nodes.Number) and node.value < 0 else ""


def unary(node: nodes.Unary) -> List[Piece]:
    """A prefix operator; two signs are kept apart."""
    apart = node.sign[-1] in "+-&" and node.sign[-1] == first_sign(node.operand)
    return [node.sign + " " * apart, *operand(node.operand, UNARY)]


def number(node: nodes.Number) -> List[Piece]:
    if node.spelling:
        return [node.spelling]
    if node.value == LEAST_INT:
        return [f"{LEAST_INT + 1} - 1"]
    return [f"{node.value}{'u' * node.unsigned}"]


def binary(node: nodes.Binary) -> List[Piece]:
    least = LEVELS[node.sign]
    return [*operand(node.left, least), " ", *marks(node.sign_at), node.sign + " ", *operand(node.right, least + 1)]


def choice(node: nodes.Choice) -> List[Piece]:
    return [*operand(node.condition, COND + 1), " ", *marks(node.question), "? ", *operand(node.left, COMMA), " ", *marks(node.colon), ": ", *operand(node.right, COND)]


def arguments(parts: Sequence[Node]) -> List[Piece]:
    return listed([operand(it, ASSIGN) for it in parts], ", ")


FORMS: Dict[Any, Callable[[Any], List[Piece]]] = {
    nodes.Name: lambda it: [it.name],
    nodes.Number: number,
    nodes.Wide: lambda it: [],
    nodes.String: lambda it: [it.token],
    nodes.Null: lambda it: ["NULL"],
    nodes.Unary: unary,
    nodes.Behind: lambda it: [*operand(it.operand, POSTFIX), it.sign],
    nodes.Cast: lambda it: [f"({it.word})", *operand(it.operand, UNARY)],
    nodes.Converted: lambda it: written(it.operand),
    nodes.Binary: binary,
    nodes.Choice: choice,
    nodes.Assign: lambda it: [*written(it.target), f" {it.sign} ", *operand(it.value, ASSIGN)],
    nodes.Comma: lambda it: arguments(it.parts),
    nodes.Group: lambda it: ["(", *written(it.inner), ")"],
    nodes.Call: lambda it: [*marks(it.note), it.name + "(", *arguments(it.arguments), ")"],
    nodes.Index: lambda it: [*operand(it.base, POSTFIX), "[", *written(it.index), "]"],
    nodes.Part: lambda it: [*operand(it.base, POSTFIX), ("->" if it.arrow else ".") + it.name],
    nodes.SizeOf: lambda it: [f"sizeof({it.word})"],
    nodes.Look: lambda it: [it.name + " ", *marks(it.note), "= ", *operand(it.value, ASSIGN)],
    nodes.Braces: lambda it: ["{ ", *arguments(it.items), " }"],
}


def written(node: Node) -> List[Piece]:
    """The text of an expression."""
    return marks(nodes.spot(node)) + FORMS[type(node)](node)


# Statements and definitions.

def declarator(it: blocks.Declarator) -> str:
    """What declares an object; without a name it is a parameter of a declaration."""
    text = f"{it.base} {'*' * it.stars}{it.name}{''.join(f'[{count}]' for count in it.bounds)}"
    return text if it.name else text.rstrip()


def declaration(it: blocks.Declare) -> List[Piece]:
    begin: List[Piece] = [" = ", *operand(it.begin, ASSIGN)] if it.begin is not None else []
    behind: List[Piece] = [" ", *statement(it.behind)] if it.behind is not None else []
    return [declarator(it.object), *begin, ";", *behind]


def branches(it: blocks.If) -> List[Piece]:
    other: List[Piece] = [" ", *marks(it.else_at), "else ", *statement(it.other)] if it.other is not None else []
    return ["if (", *written(it.condition), ") ", *statement(it.then), *other]


def loop(it: blocks.For) -> List[Piece]:
    condition, step = [[] if code is None else written(code) for code in (it.condition, it.step)]
    return ["for (", *statement(it.first), " ", *condition, "; ", *step, ") ", *statement(it.body)]


STATEMENTS: Dict[Any, Callable[[Any], List[Piece]]] = {
    blocks.Nothing: lambda it: [],
    blocks.Empty: lambda it: [";"],
    blocks.Evaluate: lambda it: [*written(it.code), ";"],
    blocks.Declare: declaration,
    blocks.Block: lambda it: ["{", *[piece for row in it.items for piece in [" ", *statement(row)]], " }"],
    blocks.Rows: lambda it: joined(it.items),
    blocks.If: branches,
    blocks.While: lambda it: ["while (", *written(it.condition), ") ", *statement(it.body)],
    blocks.Do: lambda it: ["do ", *statement(it.body), " while (", *written(it.condition), ");"],
    blocks.For: loop,
    blocks.Return: lambda it: ["return;"] if it.code is None else ["return ", *written(it.code), ";"],
    blocks.Break: lambda it: ["break;"],
    blocks.Continue: lambda it: ["continue;"],
}


def statement(it: Any) -> List[Piece]:
    """The text of a statement."""
    return marks(getattr(it, "at", -1)) + marks(getattr(it, "note", -1)) + STATEMENTS[type(it)](it)


def joined(rows: Sequence[blocks.Statement]) -> List[Piece]:
    """Statements one after another."""
    return listed([statement(it) for it in rows], " ")


def head(it: blocks.Head) -> str:
    return f"{it.base} {'*' * it.stars}{it.name}({', '.join(map(declarator, it.parameters)) or 'void'})"


def prototype(it: blocks.Head) -> str:
    return head(it) + ";"


def definition(it: blocks.Definition) -> List[Piece]:
    """The text of a function."""
    first = [piece for row in it.first for piece in [*statement(row), " "]]
    last = [piece for row in it.last for piece in [" ", *statement(row)]]
    return [*marks(it.at), head(it.head) + " ", *marks(it.body_at), "{ ", *first, *joined(it.items), *last, " }"]


def record(it: blocks.Record) -> str:
    return f"struct {it.tag} {{ {' '.join(declarator(row) + ';' for row in it.members)} }};"


def outer(it: Any) -> List[Piece]:
    """The text of what stands outside functions."""
    if isinstance(it, blocks.Definition):
        return definition(it)
    if isinstance(it, blocks.Template):
        return [it.text]
    if isinstance(it, (blocks.Head, blocks.Record)):
        return [prototype(it) if isinstance(it, blocks.Head) else record(it)]
    return statement(it)


def text_of(node: Optional[Node]) -> str:
    """The text of an expression without its places, as a template takes it."""
    return plain(written(node)) if node is not None else ""
