#!/usr/bin/env python3
"""Times the machine on program files that take many turns, beside the same programs in Lua.

usage: machine.py [--instructions] CBI      where CBI is the built tool (README.md says how it is built)

Each program is written here as nodes; a label names the node after it. Printed are the processor seconds of the process and the most
memory that it held, and for Lua the same, where lua5.4 is on the path. With --instructions those of a turn are printed, of a call or of a store, as
the difference of two runs over the turns between them, as callgrind counts them; and which functions of strides the compiler left outside the one
loop, where each turn pays for the call.
"""
import os
import re
import shutil
import subprocess
import sys
import tempfile
import time
from typing import List, Tuple

from programs import END, below, counted, get, program, put
from timing import instructions, timed

TURNS = "100000000"


def loop(turns: int) -> str:
    body = ["local 1"] + get(1) + get(0) + ["math add", "push i 1023", "math rem", "store", "drop"]
    return program([("main", "value", 0, [1, 1], put(1, 0) + counted(0, turns, "loop", body) + END)], 0)


def calls(number: int) -> str:
    """fib(number)"""
    fib = (get(0) + ["push i 2", "math lt", "fork @small @large", "small:"] + get(0) + ["return", "large:"]
           + get(0) + ["push i 1", "math sub", "call 0"] + get(0) + ["push i 2", "math sub", "call 0", "math add", "return"])
    return program([("fib", "value", 1, [1], fib), ("main", "value", 0, [], [f"push i {number}", "call 0", "drop"] + END)], 1)


def array(rounds: int) -> str:
    """Sums over an array of 1,000 cells."""
    body = (["local 2"] + get(1) + ["move 1", "local 2"] + get(1)
            + ["move 1", "load i"] + get(1) + ["math add", "push i 1023", "math rem", "store", "drop"])
    return program([("main", "value", 0, [1, 1, 1000], ["zero 2 i"] + counted(0, rounds, "rounds", counted(1, 1000, "cells", body)) + END)], 0)


def strided(rounds: int, cells: int = 4000000) -> str:
    """Stores into each seventh cell of memory from `malloc`."""
    body = (put(1, 0) + ["cells:"] + below(1, cells, "cells_in", "cells_out") + ["cells_in:", "local 2", "load p"] + get(1) + ["move 1"] + get(0)
            + ["store", "drop", "local 1"] + get(1) + ["push i 7", "math add", "store", "drop", "again @cells", "cells_out:"])
    return program([("main", "value", 0, [1, 1, 1], ["local 2", f"push u {cells}", "alloc", "store", "drop"] + counted(0, rounds, "rounds", body) + END)], 0)


def putchars(turns: int) -> str:
    return program([("main", "value", 0, [1], counted(0, turns, "loop", ["push i 97", "put", "drop"]) + END)], 0)


def made_calls(number: int) -> int:
    """How often fib(number) calls fib."""
    return 1 if number < 2 else 1 + made_calls(number - 1) + made_calls(number - 2)


LUA = {
    "loop": "local s=0 for i=0,9999999 do s=(s+i)%1023 end",
    "calls": "local function fib(n) if n<2 then return n end return fib(n-1)+fib(n-2) end fib(32)",
    "array": "local a={} for i=0,999 do a[i]=0 end for r=1,10000 do for i=0,999 do a[i]=(a[i]+i)%1023 end end",
    "strided": "local a={} for i=0,3999999 do a[i]=0 end for r=0,15 do for i=0,3999999,7 do a[i]=r end end",
    "putchar": "local w=io.write for i=1,10000000 do w('a') end",
}
PROGRAMS = {"loop": loop(10000000), "calls": calls(32), "array": array(10000), "strided": strided(16), "putchar": putchars(10000000)}
# two programs that differ in how often they do one thing, and how much oftener the second does it
PAIRS = {"loop": (loop(10000), loop(30000), 20000), "calls": (calls(14), calls(18), made_calls(18) - made_calls(14)), "array": (array(10), array(30), 20000),
         "strided": (strided(4, 40000), strided(12, 40000), 8 * 5715), "putchar": (putchars(10000), putchars(30000), 20000)}


def measured(words: List[str]) -> Tuple[int, float, int]:
    """The status, the processor seconds and the most memory in MB of a process, of the best of three."""
    best = min(timed(words, os.devnull) for _ in range(3))
    return best.status, best.seconds, best.memory


def print_apart(tool: str) -> None:
    """Prints the functions of strides that stand outside the loop in this executable, where nm is there (Debian's `binutils`)."""
    nm = shutil.which("nm")
    if not nm:
        print("there is no nm: which functions stand outside the loop isn't told")
        return
    names = subprocess.run([nm, tool], stdout=subprocess.PIPE, check=True).stdout.decode("ascii", "replace")
    apart = re.findall(r"\b(?:machine_strides|machine_steps::strides|machine_steps::several)::\S+", names)
    print("outside the loop:", " ".join(sorted(apart)) or "none")


def count_instructions(tool: str, folder: str) -> None:
    for name, (few, many, more) in PAIRS.items():
        counts = []
        for text in (few, many):
            path = os.path.join(folder, name)
            with open(path, "w") as file:
                file.write(text)
            count = instructions([tool, "run", "--turns", TURNS, path])
            if count is None:
                sys.exit("there is no valgrind: Debian's package of that name has it")
            counts.append(count)
        print(f"{name:8} {(counts[1] - counts[0]) / more:7.1f} instructions", flush=True)
    print_apart(tool)


def time_programs(tool: str, folder: str) -> None:
    lua = shutil.which("lua5.4")
    for name, text in PROGRAMS.items():
        path = os.path.join(folder, name)
        with open(path, "w") as file:
            file.write(text)
        status, seconds, memory = measured([tool, "run", "--turns", TURNS, path])
        line = f"{name:8} cbi {seconds:6.2f} s {memory:5} MB status {status}"
        if lua:
            _, by_lua, lua_memory = measured([lua, "-e", LUA[name]])
            line += f"   lua {by_lua:6.2f} s {lua_memory:5} MB   ratio {seconds / by_lua:5.2f}"
        print(line, flush=True)


def main() -> None:
    words = sys.argv[1:]
    counts = "--instructions" in words
    words = [word for word in words if word != "--instructions"]
    if len(words) != 1 or words[0].startswith("-"):
        sys.exit(__doc__)
    print(f"{os.cpu_count()} processors, {time.strftime('%Y-%m-%d')}")
    with tempfile.TemporaryDirectory() as folder:
        (count_instructions if counts else time_programs)(words[0], folder)


if __name__ == "__main__":
    main()
