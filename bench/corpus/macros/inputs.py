"""Definitions, conditions and text that uses them; most names are known."""
from random import Random
from typing import Dict, List

NAMES = ["A", "B", "MAX", "f", "twice", "pair", "n_1", "DEBUG", "T", "long_name_it_is"]


def use(chance: Random, known: Dict[str, int], deep: int) -> str:
    kind = chance.randrange(10)
    if kind < 3 or not known:
        return chance.choice(["x", "1", "A1", "2x", "\"A f(1)\"", "+", "y * 2", "_", "B"])
    name = chance.choice(list(known))
    many = known[name]
    if many < 0 or deep == 0 or chance.randrange(12) == 0:
        return name
    if chance.randrange(15) == 0:
        many += chance.choice([1, -1])
    blank = " " * (chance.randrange(8) == 0)
    return name + blank + "(" + chance.choice([",", ", "]).join(text(chance, known, deep - 1, 2) for _ in range(many)) + ")" * (chance.randrange(30) > 0)


def text(chance: Random, known: Dict[str, int], deep: int, most: int) -> str:
    return chance.choice([" ", " ", ""]).join(use(chance, known, deep) for _ in range(chance.randint(1, most)))


def definition(chance: Random, known: Dict[str, int]) -> str:
    name = chance.choice(NAMES)
    many = chance.choice([-1, -1, -1, 0, 1, 1, 2, 2, 3, 4 if chance.randrange(5) == 0 else 1])
    parameters = chance.sample(["a", "b", "x", "y"], max(0, many))
    head = "" if many < 0 else "(" + chance.choice([",", ", "]).join(parameters) + ")"
    body = [chance.choice(parameters) if parameters and chance.randrange(2) else use(chance, known, 1) for _ in range(chance.randrange(5))]
    known[name] = many
    line = f"#define {name}{head} {chance.choice([' ', ' ', '+']).join(body)}"
    return line if chance.randrange(25) else line.replace(chance.choice([")", ",", name]), "", 1)


def make(chance: Random) -> bytes:
    known: Dict[str, int] = {}
    lines: List[str] = []
    open_parts = 0
    for _ in range(chance.randint(4, 22)):
        kind = chance.randrange(16)
        if kind < 5 or not known:
            lines.append(definition(chance, known))
        elif kind < 10:
            lines.append(text(chance, known, 2, 4) + chance.choice(["", "", "", " // A", " /"]))
        elif kind == 10:
            lines.append(f"#undef {chance.choice(list(known) if chance.randrange(4) else NAMES)}")
        elif kind < 13:
            lines.append(f"#{chance.choice(['ifdef', 'ifndef'])} {chance.choice(list(known) if chance.randrange(2) else NAMES)}")
            open_parts += 1
        elif kind < 15 and (open_parts or chance.randrange(6) == 0):
            lines.append(chance.choice(["#else", "#endif"]))
            open_parts -= lines[-1] == "#endif"
        else:
            lines.append(chance.choice(["# define A 1", "#line", "", "plain text", "#"]) if chance.randrange(3) == 0 else text(chance, known, 1, 3))
    lines += ["#endif"] * (open_parts if chance.randrange(8) else 0)
    return ("\n".join(lines) + "\n").encode("ascii")
