"""What the author wrote where the text has something of the tool's own: his names, and his expressions and conditions at calls and statements of the text."""
import re
from dataclasses import replace
from typing import Any, Dict, List, Optional, Sequence

from cbi_port import Note
from cbi_port.blocks import Statement
from cbi_port.declarations import Context
from cbi_port.lines import NOTE, Token
from cbi_port.nodes import Call, Cast, Converted, Index, Node, Part
from cbi_port.trees import kind
from cbi_port.types import Int, Pointer, is_whole, to_function
from cbi_port.values import Value

HEADS = {"If": "if", "While": "while", "DoWhile": "do", "For": "for"}
TRUTHS = {"==", "!=", "<", ">", "<=", ">=", "&&", "||"}
# What gives bits without their sign.
BITS = {f"cbi_{what}_{size}" for what in ("load", "store") for size in ("byte", "half", "word")}
BY_POINTER = "cbi_call_"
MOST = 400   # characters of an expression


class Authors(Context):
    """Leaves notes in the typed tree: numbers of tokens that say what the author wrote there."""

    def note(self, node: Any, what: str, text: str) -> int:
        """The token of a note; -1 where the text isn't the author's."""
        at = self.place_of(node)
        if self.in_prelude or self.function.quiet or not 0 <= at < len(self.tokens) or "__cbi_" in text or "cbi_" in text or len(text) > MOST:
            return -1
        token = self.tokens[at]
        self.tokens.append(Token(f"{NOTE}{what}", text, token.file, token.line))
        return len(self.tokens) - 1

    def noted(self, node: Any, value: Value) -> Value:
        """A value with a note of its expression, where its text begins with a call that has none yet."""
        call = first_call(value.code)
        if call is None or call.note >= 0:
            return value
        said = self.note(node, kind_of(node, value, call.name), written(node))
        if said < 0:
            return value
        if kind(node) == "FuncCall" and kind(node.name) == "ID" and call.name.startswith("cbi_") and not call.name.startswith(BY_POINTER):
            self.names.authors.setdefault(call.name, node.name.name)
        return value._replace(code=with_note(value.code, said), raw=with_note(value.raw, said) if value.raw is not None else None)

    def headed(self, row: Statement, node: Any) -> Statement:
        """A statement with a note of its first word: that of the author, whose condition may stand the other way round in the text. One that is constant has none."""
        if kind(node) not in HEADS or kind(node.cond) == "Constant" or kind(node.cond) == "ID" and node.cond.name.startswith("cbi_again"):
            return row
        at = self.place_of(node)
        word = self.tokens[at].text if 0 <= at < len(self.tokens) else ""
        turned = kind(node) == "If" and word in ("while", "do", "for")
        said = self.note(node, "turned" if turned else "head", word) if word in HEADS.values() else -1
        return replace(row, note=said) if said >= 0 else row

    def case_note(self, labels: Sequence[Any]) -> int:
        """The note of a test that asks for labels of a `switch`."""
        return self.note(labels[0], "case", ": ".join(f"case {written(it.expr)}" if kind(it) == "Case" else "default" for it in labels))


def first_call(node: Optional[Node]) -> Optional[Call]:
    """The call that the text of a node begins with, behind casts."""
    while isinstance(node, (Cast, Converted, Part, Index)):
        node = node.operand if isinstance(node, (Cast, Converted)) else node.base
    return node if isinstance(node, Call) else None


def with_note(node: Node, said: int) -> Node:
    """The node with a note at the call that its text begins with."""
    if isinstance(node, Call):
        return replace(node, note=said) if node.note < 0 else node
    if isinstance(node, (Cast, Converted)):
        return replace(node, operand=with_note(node.operand, said))
    return replace(node, base=with_note(node.base, said)) if isinstance(node, (Part, Index)) else node


def written(node: Any) -> str:
    """An expression on one line, as the parser has it."""
    from pycparser.c_generator import CGenerator
    return " ".join(str(CGenerator().visit(node)).split())


def kind_of(node: Any, value: Value, name: str) -> str:
    """What the value says: of a call, of what is stored or loaded, or whether something is true."""
    what = kind(node)
    doing = "call" if what == "FuncCall" else "store" if what == "Assignment" or what == "UnaryOp" and node.op in ("++", "--", "p++", "p--") else "value"
    if doing == "value" and (what == "BinaryOp" and node.op in TRUTHS or what == "UnaryOp" and node.op == "!"):
        return "truth"
    if is_whole(value.type):
        return f"{doing} object"
    if isinstance(value.type, Pointer) and not to_function(value.type):
        return f"{doing} pointer"
    return f"{doing} {'bits' if name in BITS and isinstance(value.type, Int) else 'number'}"


def authored(authors: Dict[str, str], text: str) -> Dict[str, str]:
    """The names of the tool's that stand in a text, with the author's."""
    found = {word: spelled(authors.get(word, word)) for word in sorted(set(re.findall(r"[A-Za-z_]\w*", text)))}
    return {name: author for name, author in found.items() if author != name}


def spelled(text: str) -> str:
    """A piece of the text in the author's letters: names have theirs by their numbers, and strings are bytes."""
    named = re.sub("_u([0-9a-f]{4,6})_", lambda it: chr(int(it[1], 16)).encode("utf-8").decode("latin-1"), text)
    try:
        return named.encode("latin-1").decode("utf-8")
    except UnicodeError:
        return named


def notes_in(places: List[Any], tokens: List[Token]) -> List[Note]:
    """The notes by line and column."""
    return [Note(line, column, tokens[at].kind[len(NOTE):], spelled(tokens[at].text)) for line, column, at in places]
