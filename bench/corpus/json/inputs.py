"""Texts of JSON, some of them damaged, and paths into them."""
from random import Random
from typing import Any, List

NAMES = ["a", "b", "id", "name", "on", "list", "of", "x y", "value", "nam"]


def value(chance: Random, deep: int) -> Any:
    kind = chance.randrange(10)
    if deep > 0 and kind < 3:
        return [value(chance, deep - 1) for _ in range(chance.randrange(5))]
    if deep > 0 and kind < 6:
        return {chance.choice(NAMES): value(chance, deep - 1) for _ in range(chance.randrange(5))}
    if kind == 6:
        return chance.choice([True, False, None])
    if kind == 7:
        return "".join(chance.choice("ab c\"\\/z") for _ in range(chance.randrange(8) if chance.randrange(10) else chance.randrange(36, 43)))
    return chance.choice([0, -1, 7, 42, -300, 99999999, chance.randrange(10 ** 9)])


def written(chance: Random, it: Any) -> str:
    blank = lambda: " " * (chance.randrange(4) == 0)
    if isinstance(it, list):
        return "[" + blank() + ("," + blank()).join(written(chance, one) for one in it) + blank() + "]"
    if isinstance(it, dict):
        return "{" + ", ".join(f'"{name}":{blank()}{written(chance, one)}' for name, one in it.items()) + blank() + "}"
    if isinstance(it, str):
        return '"' + it.replace("\\", "\\\\").replace('"', '\\"') + '"'
    return {True: "true", False: "false", None: "null"}[it] if it is None or isinstance(it, bool) else str(it)


def path(chance: Random, it: Any) -> str:
    steps: List[str] = []
    while isinstance(it, (list, dict)) and chance.randrange(5):
        if isinstance(it, list):
            index = chance.randrange(len(it) + chance.choice([1, 1, 1, 3]))
            steps.append(str(index))
            it = it[index] if index < len(it) else None
        else:
            name = chance.choice(list(it) or NAMES) if chance.randrange(6) else chance.choice(NAMES)
            steps.append(name)
            it = it.get(name)
    return "/" + "/".join(steps)


def make(chance: Random) -> bytes:
    it = value(chance, 4)
    while not isinstance(it, (list, dict)) and chance.randrange(8):
        it = value(chance, 4)
    text = written(chance, it)
    if chance.randrange(12) == 0:
        cut = chance.randrange(len(text) + 1)
        text = text[:cut] + chance.choice(["", "]", "}", "x", '"', ","]) + text[cut + chance.randrange(2):]
    paths = [path(chance, it) for _ in range(chance.randrange(4))]
    return "".join(line + "\n" for line in [text] + paths).encode("ascii")
