"""Strings and character constants (C99 6.4.4.4, 6.4.5): their bytes, and the characters of wide ones."""
import re
from typing import List, Optional

NAMES = {"n": 10, "t": 9, "r": 13, "a": 7, "b": 8, "f": 12, "v": 11, "e": 27, "E": 27}
ESCAPE = re.compile(r"\\(x[0-9A-Fa-f]+|[0-7]{1,3}|u[0-9A-Fa-f]{4}|U[0-9A-Fa-f]{8}|.)", re.S)


def wide_prefix(text: str) -> str:
    return re.split("[\"']", text, maxsplit=1)[0]


def plain_string(text: str) -> str:
    """A string with escapes that mean the same before any other string."""
    def plain(found: "re.Match[str]") -> str:
        what = found[1]
        if what[0] == "x":
            return f"\\{int(what[1:], 16) & 255:03o}"
        if what[0] in "01234567":
            return f"\\{int(what, 8) & 255:03o}"
        if what[0] in "uU" and len(what) > 1:
            return "".join(f"\\{byte:03o}" for byte in chr(int(what[1:], 16)).encode("utf-8"))
        if what in ("e", "E"):
            return "\\033"
        return found[0] if what in "ntrabfv\\'\"?" else what
    return '"' + ESCAPE.sub(plain, text[1:-1]) + '"'


def bytes_of(text: str) -> bytes:
    """The bytes of a string in quotes, or of a character constant, without a closing zero."""
    out = bytearray()
    body = text[1:-1]
    at = 0
    while at < len(body):
        found: Optional["re.Match[str]"] = ESCAPE.match(body, at)
        if not found:
            out.append(ord(body[at]) & 255)
            at += 1
            continue
        what = found[1]
        at = found.end()
        if what[0] == "x":
            out.append(int(what[1:], 16) & 255)
        elif what[0] in "01234567":
            out.append(int(what, 8) & 255)
        else:
            out.append(NAMES.get(what, ord(what[0])))
    return bytes(out)


def characters_of(text: str) -> List[int]:
    """The characters of a wide string or a wide character constant, as UTF-8 has them, without a closing zero."""
    body = text[len(wide_prefix(text)) + 1:-1]
    out: List[int] = []
    at = 0
    while at < len(body):
        found: Optional["re.Match[str]"] = ESCAPE.match(body, at)
        if found:
            what, at = found[1], found.end()
            if what[0] in "xuU" and len(what) > 1:
                out.append(int(what[1:], 16) & 0xffffffff)
            else:
                out.append(int(what, 8) if what[0] in "01234567" else NAMES.get(what, ord(what[0])))
            continue
        end = at
        while end < len(body) and body[end] != "\\":
            end += 1
        raw = body[at:end].encode("latin-1")
        out.extend(ord(it) for it in raw.decode("utf-8", "replace"))
        at = end
    return out


def written_name(name: str) -> str:
    """A name as the text has it, for a string: letters beyond ASCII as the bytes of UTF-8."""
    return re.sub("_u([0-9a-f]{4,6})_", lambda it: "".join(f"\\{byte:03o}" for byte in chr(int(it[1], 16)).encode("utf-8")), name)


def wide_character(text: str) -> int:
    """The value of a character constant with a prefix: its last character, as gcc has it."""
    return (characters_of(text) or [0])[-1]
