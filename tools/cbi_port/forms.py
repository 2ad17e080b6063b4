"""Forms of `printf` and `scanf` (C99 7.19.6): which parts of the prelude they ask for, and arguments that they name by number."""
import re
from typing import List, Optional, Sequence, Tuple

from cbi_port.lines import Token

# Functions with a form, and which argument it is.
PRINTS = {"printf": 0, "fprintf": 1, "dprintf": 1, "sprintf": 1, "asprintf": 1, "snprintf": 2}

FLAGS = r"[-+ #0'I]*"
# Functions of the library by which floats come in without a word of theirs.
FLOAT_NAMES = {"strtod", "strtof", "atof", "difftime", *(word + end for end in ("", "f", "l") for word in (
    "acos", "acosh", "asin", "asinh", "atan", "atan2", "atanh", "cbrt", "ceil", "cos", "cosh", "erf", "erfc", "exp", "exp10", "exp2", "expm1", "fabs", "floor", "fmod", "hypot",
    "log", "log10", "log1p", "log2", "logb", "pow", "rint", "round", "sin", "lgamma", "sinh", "sqrt", "tan", "tanh", "tgamma", "trunc"))}

# What asks for a part of the prelude that only few texts want.
PARTS = [("WIDE", rf"%{FLAGS}[\d*]*(?:\.[\d*]*)?(?:l[sc\[]|[SC])"), ("HEX", rf"%{FLAGS}[\d*]*(?:\.[\d*]*)?(?:l|L)?[aA]"),
         ("ERRORS", rf"%{FLAGS}[\d*]*(?:\.[\d*]*)?m(?![scSC\[])"), ("MADE", r"%\d*m(?:l?[sc\[]|[SC])")]


def strings_of(tokens: Sequence[Token]) -> List[str]:
    """The strings of a text; those side by side are one (6.4.5p4)."""
    found: List[str] = []
    before = False
    for token in tokens:
        if token.kind == "string":
            text = token.text[token.text.index('"') + 1:-1]
            found[-1:] = [found[-1] + text] if before else [*found[-1:], text]
        before = token.kind == "string"
    return found


def parts_of(tokens: Sequence[Token], floats: bool) -> List[str]:
    """The parts of the prelude that the forms among the strings ask for."""
    strings = [it for it in strings_of(tokens) if "%" in it]
    return [part for part, form in PARTS if any(re.search(form, it) for it in strings) and (floats or part != "HEX")]


NUMBERED = re.compile(rf"%\d+\$(?:\*|{FLAGS})(?:\d+|\*\d+\$)?(?:\.(?:\*\d+\$|\d*))?(?:hh|h|ll|l|L|q|j|z|t)?[a-zA-Z\[]")
PIECE = re.compile(rf"%(?:(\d+)\$)?({FLAGS})(\*(?:(\d+)\$)?|\d*)(\.(?:\*(?:(\d+)\$)?|\d*))?(hh|h|ll|l|L|q|j|z|t)?(.)", re.S)


def names_arguments(form: str) -> bool:
    """Whether a form has an argument by its number, which POSIX has beside C99."""
    return NUMBERED.search(form.replace("%%", "")) is not None


def in_order(form: str) -> Optional[Tuple[str, List[int]]]:
    """A form whose arguments stand in order, and the number of each of them; None where some have no number."""
    order: List[int] = []
    whole = True

    def plain(found: "re.Match[str]") -> str:
        nonlocal whole
        number, flags, width, of_width, most, of_most, size, letter = found.groups()
        if letter == "%" and not number:
            return found[0]
        for said, wanted in ((of_width, "*" in width), (of_most, "*" in (most or "")), (number, letter not in "m%")):
            if said:
                order.append(int(said))
            whole = whole and bool(said) == wanted
        return f"%{flags}{'*' if of_width else width}{'.*' if of_most else most or ''}{size or ''}{letter}"
    text = PIECE.sub(plain, form)
    return (text, order) if whole else None
