"""Where a piece of text stands (C99 5.1.1.2): tokens know their file and line, and what is written carries the numbers of tokens."""
import os
from functools import lru_cache
from typing import Any, Dict, Iterator, List, NamedTuple, Sequence, Tuple

from cbi_port import Line, Problem
from cbi_port.writer import outer, plain

NOTE = "note "   # how the kind of a token begins that says what the author wrote (authors.py)


@lru_cache(maxsize=None)
def real_file(name: str) -> str:
    """One name for a file that the preprocessor names in several ways (`a.h`, `./a.h`)."""
    return os.path.realpath(name)


class Token(NamedTuple):
    kind: str
    text: str
    file: str
    line: int


class Refusal(Exception):
    """A construct that can't be kept; `bytes_do` where it could be with memory kept as bytes."""

    def __init__(self, at: int, construct: str, advice: str, bytes_do: bool = False) -> None:
        super().__init__(construct)
        self.at, self.construct, self.advice, self.bytes_do = at, construct, advice, bytes_do
        self.follows = False  # comes of another one alone, which is told
        self.sure = False     # comes of nothing that a header which isn't there may have said
        self.span = (0, 0)    # the tokens of what couldn't be read at all

    def problem(self, tokens: Sequence[Token]) -> Problem:
        token = tokens[min(max(self.at, 0), len(tokens) - 1)] if tokens else Token("", "", "?", 0)
        return Problem(token.file, token.line, self.construct, self.advice)


class Sheet:
    """The program as it grows: a head for line 1, a part for each file, and a tail behind the end. The parts are trees of what stands outside functions."""

    def __init__(self, tokens: Sequence[Token], first: str) -> None:
        self.tokens, self.first = tokens, first
        self.parts: Dict[str, List[Any]] = {first: []}
        self.head: List[Any] = []
        self.tail: List[Any] = []
        self.apart: List[Tuple[str, Any]] = []  # what has lines that another one has already, and their files

    def put(self, file: str, tree: Any) -> None:
        self.parts.setdefault(file, []).append(tree)

    def every(self) -> Iterator[Any]:
        """All trees that are there."""
        yield from self.users()
        yield from self.tail

    def users(self) -> List[Any]:
        """The trees of what the files have."""
        return [tree for trees in self.parts.values() for tree in trees] + [tree for _, tree in self.apart]

    def laid(self) -> Tuple[str, List[Line]]:
        """The whole text, and whose its lines are; `notes` has where notes stand: line, bytes of ASCII before it there, and token."""
        self.notes: List[Tuple[int, int, int]] = []
        out: List[str] = []
        lines: List[Line] = []
        now = ["".join([plain(outer(tree)) + " " for tree in self.head])]

        def end(line: Line) -> None:
            out.append("".join(now).rstrip(" \t"))
            now.clear()
            lines.append(line)
        for file, trees in [*self.parts.items(), *((file, [tree]) for file, tree in self.apart)]:
            at = 1
            used = trees is self.parts[self.first]
            for tree in trees:
                for piece in outer(tree):
                    if isinstance(piece, str):
                        now.append(piece)
                        continue
                    token = self.tokens[piece]
                    if token.kind.startswith(NOTE):
                        self.notes.append((len(lines) + 1, sum(map(str.isascii, "".join(now))), piece))
                        continue
                    if token.file != file or token.line <= at:
                        continue
                    if not used and at == 1:
                        at = token.line
                    used = True
                    while at < token.line:
                        end(Line(file, at, False))
                        at += 1
                now.append(" ")
            end(Line(file, at, False))
        for tree in self.tail:
            now.append(plain(outer(tree)))
            end(Line("", 0, True))
        return "\n".join(out) + "\n", lines
