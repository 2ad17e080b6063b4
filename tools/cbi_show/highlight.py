"""C texts with their comments, words and strings told apart, line by line, for a page. Not proved."""
import html
import re
from typing import List

WORDS = ("auto break case char const continue default do double else enum extern float for goto if inline int long register restrict return short signed sizeof "
         "static struct switch typedef union unsigned void volatile while NULL EOF")
PIECE = re.compile(r"""(?P<i>/\*.*?(?:\*/|\Z) | //[^\n]*) | (?P<u>"(?:\\.|[^"\\\n])*" | '(?:\\.|[^'\\\n])*') | (?P<b>^[ \t]*\#[^\n]*?(?=/\*|//|$) | \b(?:""" + WORDS.replace(" ", "|") + r""")\b)""",
                   re.DOTALL | re.MULTILINE | re.VERBOSE)


def escaped(text: object) -> str:
    return html.escape(str(text), quote=True)


def piece(text: str, tag: str) -> str:
    """A piece of a text in its element, which ends and begins again at each line's end."""
    return "\n".join(f"<{tag}>{escaped(line)}</{tag}>" if line.strip() else escaped(line) for line in text.split("\n"))


def highlighted(lines: List[str]) -> List[str]:
    """Each line as HTML: comments in `i`, strings in `u`, words and directives in `b`."""
    text, out, reached = "\n".join(lines), [], 0
    for found in PIECE.finditer(text):
        out.append(escaped(text[reached:found.start()]))
        out.append(piece(found[0], str(found.lastgroup)))
        reached = found.end()
    return ("".join(out) + escaped(text[reached:])).split("\n")
