"""Programs for the machine: straight ones, loops, and calls."""
from random import Random
from typing import List


def straight(chance: Random, many: int) -> List[str]:
    out, depth = [], 0
    for _ in range(many):
        if depth < 2 or chance.randrange(5) < 2:
            out.append(f"push {chance.choice([0, 1, 2, 3, 7, -4, 10, 100, 300, 3000, 30000])}" if chance.randrange(3) else f"load {chance.randrange(4)}")
            depth += 1
        else:
            word = chance.choice(["add", "sub", "mul", "mul", "div", "mod", "less", "dup", "swap", "over", "drop", "print", "store"])
            if word == "store":
                word += f" {chance.randrange(4)}"
            depth += {"dup": 1, "over": 1, "swap": 0}.get(word, -1)
            out.append(word)
    return out


def make(chance: Random) -> bytes:
    lines: List[str] = []
    kind = chance.randrange(5)
    if kind == 1:
        lines += [f"push {chance.choice([0, 1, 3, 5, 20])}", "store 9", "label a", "load 9", "zero b"] + straight(chance, chance.randint(0, 5))
        lines += ["load 9", "push 1", "sub", "store 9", "jump a", "label b"]
    elif kind == 2:
        lines += straight(chance, 3) + ["call f", "print"] + ["call f"] * chance.randrange(3) + ["halt", "label f"] + straight(chance, chance.randint(0, 6))
        lines += chance.choice([["return"], ["call f", "return"], ["call g", "return", "label g", "push 5", "return"]])
    elif kind == 3:
        many = chance.randint(2, 5)
        lines += [f"push {chance.choice([2, 5, 12, 300, 3000, 30000, -40])}" for _ in range(many)]
        lines += [chance.choice(["mul", "mul", "add"]) for _ in range(many - 1)] + ["print"]
    else:
        lines += straight(chance, chance.randint(2, 24))
    lines += ["print"] * chance.randrange(4)
    if chance.randrange(10) == 0:
        lines.insert(chance.randrange(len(lines) + 1), chance.choice(["jump z", "load 12", "fly", "label", "; a comment", "", "drop", "print"]))
    return ("\n".join(lines) + "\n").encode("ascii")
