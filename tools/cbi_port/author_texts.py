"""What the author wrote for a place: `t->live`, `a[i + 1]`, `*text`, by the tokens from its first name on, or by a note at a call of the text."""
import re
from typing import Dict, List, Optional, Sequence

from cbi_port.lines import Token
from cbi_port.neighbours import closing
from cbi_port.nodes import Behind, Binary, Group, Index, Name, Node, Number, Part, Unary, bare

MOST = 48           # characters of what is shown in place of a name
NAMELESS = "cbi_nameless"
CHAIN = r"[A-Za-z_]\w*(?:(?:->|\.)[A-Za-z_]\w*|\[[^\[\]]*(?:\[[^\[\]]*\])*[^\[\]]*\])*"
PLACE = rf"(?:{CHAIN}|\*+(?:\+\+|--)?{CHAIN}(?:\+\+|--)?|\*\({CHAIN} [-+] (?:{CHAIN}|\d+)\))"
STORES = re.compile(rf"({PLACE}) ((?:[-+*/%&|^]|<<|>>)?=) .*|({PLACE})(\+\+|--)|(\+\+|--)({PLACE})", re.DOTALL)


def joined(words: Sequence[str]) -> str:
    """Tokens as one line, with blanks around what stands between two operands."""
    text = " ".join(words)
    for apart, together in ((r" ?(->|\.|\[) ?", r"\1"), (r"(?<=\w) ?\( ?|\( ", "("), (r" (?=[\]),])", ""), (r"(?<=[\w\])]) (\+\+|--)", r"\1"), (r"(?<![\w\])])(\+\+|--) ", r"\1")):
        text = re.sub(apart, together, text)
    return text


def chain(tokens: Sequence[Token], at: int) -> List[str]:
    """A name and what stands right behind it, each piece by itself: `t`, `->few`, `[i + 1]`."""
    pieces = [tokens[at].text]
    at += 1
    while at + 1 < len(tokens):
        text = tokens[at].text
        if text in ("->", "."):
            pieces.append(text + tokens[at + 1].text)
            at += 2
        elif text == "[" and tokens[at].kind == "mark":
            end = closing(tokens, at)
            pieces.append("[" + joined([it.text for it in tokens[at + 1:end]]) + "]")
            at = end + 1
        else:
            break
    return pieces


def first_name(node: Node) -> Optional[Name]:
    """The name with which a place begins."""
    while True:
        node = bare(node)
        if isinstance(node, (Part, Index)):
            node = node.base
        elif isinstance(node, (Unary, Behind)):
            node = node.operand
        elif isinstance(node, Binary):
            node = node.left
        elif isinstance(node, Group):
            node = node.inner
        else:
            return node if isinstance(node, Name) else None


def pieces_of(node: Node) -> Optional[List[str]]:
    """What each piece of a place behind its first name begins with; None where it is no such place."""
    node = bare(node)
    if isinstance(node, Name):
        return []
    if not isinstance(node, (Part, Index)):
        return None
    before = pieces_of(node.base)
    if before is None:
        return None
    if isinstance(node, Index):
        return [*before, "["]
    if node.member is None or node.member.name.startswith(NAMELESS):
        return before if node.member is not None else None
    return [*before, node.member.name]


class Texts:
    """The author's words for places of a program."""

    def __init__(self, tokens: Sequence[Token], authors: Dict[str, str]) -> None:
        self.tokens, self.authors = tokens, authors

    def spelled(self, node: Node) -> Optional[str]:
        """A place in the author's words; None where it isn't known, or is too long to be shown."""
        found = self.inner(node)
        return found if found is not None and len(found) <= MOST and "cbi_" not in found else None

    def inner(self, node: Node) -> Optional[str]:
        node = bare(node)
        if isinstance(node, Unary) and node.sign == "*":
            return self.pointed(node.operand)
        name, wanted = first_name(node), pieces_of(node)
        if name is None or wanted is None or not 0 <= name.at < len(self.tokens):
            return None
        if self.tokens[name.at].text != self.authors.get(name.name, name.name):
            return None
        pieces = chain(self.tokens, name.at)[:len(wanted) + 1]
        same = len(pieces) == len(wanted) + 1 and all(got[0] == "[" if want == "[" else got.lstrip("->.") == want for got, want in zip(pieces[1:], wanted))
        return "".join(pieces) if same else None

    def pointed(self, node: Node) -> Optional[str]:
        """What a pointer points to: `*text`, `*text++`, `*(text + 1)`."""
        node = bare(node)
        while isinstance(node, Group):
            node = bare(node.inner)
        if isinstance(node, Behind):
            inner = self.inner(node.operand)
            return f"*{inner}{node.sign}" if inner else None
        if isinstance(node, Unary) and node.sign in ("++", "--"):
            inner = self.inner(node.operand)
            return f"*{node.sign}{inner}" if inner else None
        if isinstance(node, Binary) and node.sign in "+-":
            left, right = self.inner(node.left), bare(node.right)
            moved = right.spelling if isinstance(right, Number) else self.inner(right)
            return f"*({left} {node.sign} {moved})" if left and moved else None
        inner = self.inner(node)
        return f"*{inner}" if inner else None


def plainer(text: str) -> str:
    """A note's text without parentheses that the author needn't have written: `*text++`."""
    return re.sub(rf"\*\(((?:\+\+|--)?{CHAIN}(?:\+\+|--)?)\)", r"*\1", text)


def place_in(text: str) -> Optional[str]:
    """A note's text where it is a place."""
    text = plainer(text)
    return text if re.fullmatch(PLACE, text) and len(text) <= MOST else None


def stored_in(text: str) -> Optional[str]:
    """The place that a note's assignment, `++` or `--` stores to."""
    found = STORES.fullmatch(plainer(text))
    return place_in(found[1] or found[3] or found[6]) if found else None
