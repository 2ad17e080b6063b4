#!/usr/bin/env python3
"""Times `transform` on made texts of 1,000 to 100,000 tokens.

usage: compiling.py CBI      where CBI is the built tool (README.md says how it is built)

The texts are of four kinds: functions of plain statements, a text of many names, long chains of conditions (a site every two tokens), and assignments
with eight partners each (two sites a token). Printed are the processor seconds, the most memory and the nodes of the program, plain and full with the
schemes of the text's kind.
"""
import os
import sys
import tempfile

from timing import timed

SIZES = (1000, 3000, 10000, 30000, 100000)
EIGHT = "int main(void){int a;int b;int c;int d;int e;int f;int g;int h;int i;b=a=EOF;"


def functions(tokens: int) -> str:
    """Functions of a loop each, of 58 tokens with a call."""
    count = (tokens - 10) // 58
    one = "int f{0}(int n){{int i;int s=0;for(i=0;i<n;i++){{if(i%3==1)s+=i*n;else s-=i;}}return s;}}"
    calls = "".join(f"f{k}(9);" for k in range(count))
    return "".join(one.format(k) for k in range(count)) + "int main(void){" + calls + "return 0;}"


def names(tokens: int) -> str:
    """As many variables as fit, and a sum of them."""
    count = (tokens - 12) // 4
    return "int " + ",".join(f"v{k}" for k in range(count)) + ";int main(void){return " + "+".join(f"v{k}" for k in range(count)) + ";}"


def conditions(tokens: int) -> str:
    """Rows of 200 conditions."""
    return "int main(void){int a=1;" + ("a&&" * 200 + "a;") * ((tokens - 13) // 402) + "}"


def pairs(tokens: int) -> str:
    """Assignments to an int beside eight others, 65,536 sites at most."""
    return EIGHT + "b=a;" * min((tokens - 40) // 4, 8190) + "}"


KINDS = (("functions", functions, "branches,returns"), ("names", names, "branches"), ("conditions", conditions, "branches"), ("pairs", pairs, "pairs"))


def main() -> None:
    if len(sys.argv) != 2 or sys.argv[1].startswith("-"):
        sys.exit(__doc__)
    tool = sys.argv[1]
    with tempfile.TemporaryDirectory() as folder:
        text, program = os.path.join(folder, "text.c"), os.path.join(folder, "program")
        for name, make, schemes in KINDS:
            for size in SIZES:
                with open(text, "w") as out:
                    out.write(make(size))
                for mode in ("plain", "full"):
                    words = [tool, "transform", "--mode", mode, "--schemes", schemes, text]
                    status, seconds, _, memory, _, said = timed(words, program)
                    with open(program) as lines:
                        nodes = sum(int(line.split()[-1]) for line in lines if line.startswith("function "))
                    print(f"{name:10} {size:6} tokens {mode:5} {seconds:6.2f} s {memory:5} MB {nodes:8} nodes {f'status {status} {said}' if status else ''}", flush=True)


if __name__ == "__main__":
    main()
