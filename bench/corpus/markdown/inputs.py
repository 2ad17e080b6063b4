"""Texts of blocks one after another, with marks that close and some that don't."""
from random import Random
from typing import List

WORDS = ["one", "two words", "a", "x < y", "R&D", "\"so\"", "1.5", "2 * 3", "a_b", "end."]
LABELS = ["home", "Here", "x y", "longer-label"]


def span(chance: Random, deep: int) -> str:
    kind = chance.randrange(14)
    if kind < 7 or deep == 0:
        return chance.choice(WORDS)
    inner = phrase(chance, deep - 1, 2)
    if kind == 7:
        return f"*{inner}*"
    if kind == 8:
        return f"**{inner}**"
    if kind == 9:
        return "`" + chance.choice(["x", "a*b*", "<p>", "[x]", "\\"]) + "`"
    if kind == 10:
        return f"[{inner}]({chance.choice(['/a', 'http://h/?a=1&b', '', '/x y'])})"
    if kind == 11:
        return f"[{inner}][{chance.choice(LABELS)}]" if chance.randrange(3) else f"[{chance.choice(LABELS)}][]"
    if kind == 12:
        return "\\" + chance.choice(["*", "`", "[", "\\", "_", "a"])
    return chance.choice(["*", "**", "`", "[", "]", "(", "***", inner])


def phrase(chance: Random, deep: int, most: int) -> str:
    return chance.choice([" ", " ", ""]).join(span(chance, deep) for _ in range(chance.randint(1, most)))


def items(chance: Random) -> List[str]:
    lines, deep = [], 0
    for _ in range(chance.randint(1, 6)):
        deep = max(0, deep + chance.choice([0, 0, 0, 0, 1, 1, -1, -1, -2, -2, 0]))
        mark = chance.choice(["-", "-", "-", "*", "1.", "2.", "10."])
        lines.append(" " * (2 * min(deep, 5) + (chance.randrange(10) == 0)) + mark + " " + phrase(chance, 1, 2))
        if chance.randrange(8) == 0:
            lines.append("  " + phrase(chance, 1, 2))
    return lines


def block(chance: Random) -> List[str]:
    kind = chance.randrange(10)
    if kind < 3:
        return [phrase(chance, 2, 4) + chance.choice(["", "", "", "  ", " "]) for _ in range(chance.randint(1, 3))]
    if kind < 5:
        return items(chance)
    if kind == 5:
        return ["#" * chance.choice([1, 2, 3, 6, 7]) + chance.choice([" ", " ", "  ", ""]) + phrase(chance, 1, 3) + chance.choice(["", " ##"])]
    if kind == 6:
        return ["> " * (chance.randrange(6) > 0) + phrase(chance, 2, 3) for _ in range(chance.randint(1, 3))]
    if kind == 7:
        return ["```" + chance.choice(["", "c"]), chance.choice(["int x;", "a < b", "# no head", "[x]: /y", ""])] + ["```"] * (chance.randrange(8) > 0)
    if kind == 8:
        return [chance.choice(["---", "- - -", "--", "----", "* * *"])]
    return [f"[{chance.choice(LABELS)}]: {chance.choice(['/home', 'http://x', '/a b', ''])}" for _ in range(chance.randint(1, 2))]


def make(chance: Random) -> bytes:
    lines: List[str] = []
    for _ in range(chance.randint(1, 6)):
        lines += block(chance) + [""] * (chance.randrange(4) > 0)
    return ("\n".join(line[:70] for line in lines) + "\n").encode("ascii")
