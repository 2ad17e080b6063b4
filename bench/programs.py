"""Writes program files, for the scripts beside this file."""
from typing import Dict, List, Sequence, Tuple

# A function: its name, result and count of parameters, the sizes of its locals, and its node lines.
Function = Tuple[str, str, int, List[int], List[str]]


def nodes(lines: Sequence[str]) -> List[str]:
    """Node lines from lines such as 'push i 0', which go on at the next, with labels 'name:' and uses '@name'."""
    labels: Dict[str, int] = {}
    rows: List[List[str]] = []
    for line in lines:
        if line.endswith(":"):
            labels[line[:-1]] = len(rows)
        else:
            rows.append(line.split())
    last = {"return", "leave", "exit", "abort", "fork", "again"}
    text = []
    for place, row in enumerate(rows):
        fields = [str(labels[f[1:]]) if f.startswith("@") else f for f in row]
        if row[0] not in last:
            fields.append(str(place + 1))
        text.append(" ".join(fields))
    return text


def program(functions: Sequence[Function], main: int, sites: Sequence[str] = ()) -> str:
    """The text of a program of functions (name, result, parameters, sizes of locals, node lines) and site lines."""
    head = ["cbi-program 1", "texts 0", "globals 0", f"functions {len(functions)}"]
    bodies: List[str] = []
    for name, result, params, sizes, lines in functions:
        body = nodes(lines)
        head.append(f"function {name} {result} {params} {len(sizes)} {len(body)}")
        bodies.append("locals" + "".join(f" {s}" for s in sizes))
        bodies.extend(body)
    return "\n".join(head + [f"main {main}", f"sites {len(sites)}", *sites] + bodies + ["end", ""])


def put(index: int, value: int) -> List[str]:
    """Stores a number in a local of one cell."""
    return [f"local {index}", f"push i {value}", "store", "drop"]


def get(index: int) -> List[str]:
    return [f"local {index}", "load i"]


def step(index: int) -> List[str]:
    """index = index + 1"""
    return [f"local {index}"] + get(index) + ["push i 1", "math add", "store", "drop"]


def below(index: int, bound: int, inside: str, outside: str) -> List[str]:
    return get(index) + [f"push i {bound}", "math lt", f"fork @{inside} @{outside}"]


def counted(index: int, bound: int, name: str, body: List[str]) -> List[str]:
    """A loop that counts a local from 0 to the bound."""
    return (put(index, 0) + [f"{name}:"] + below(index, bound, f"{name}_in", f"{name}_out")
            + [f"{name}_in:"] + body + step(index) + [f"again @{name}", f"{name}_out:"])


END = ["push i 0", "return"]
