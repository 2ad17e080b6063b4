"""The words of `cbi-port`."""
import argparse
import shlex
import sys
from typing import List, Optional, Tuple

from cbi_show.files import NOT_PROVED, TROUBLE, Words
from cbi_port import VALUES, Missing, Ported, Refused, for_preprocessor, port, wraps

ABOUT = """Writes one text of the dialect of cbi that does what the C files do, on their lines; docs/PORTING.md says what it takes.
What can't be kept is refused: a line for each on err, with file, line, the construct, and what to write in its place."""


def words(arguments: List[str]) -> argparse.Namespace:
    parser = Words(prog="cbi-port", description=ABOUT, epilog=NOT_PROVED)
    parser.add_argument("files", nargs="+", metavar="FILE.c")
    parser.add_argument("-I", action="append", default=[], metavar="DIR", help="a folder of headers")
    parser.add_argument("-D", action="append", default=[], metavar="NAME[=V]", help="a name that is defined")
    parser.add_argument("-U", action="append", default=[], metavar="NAME", help="a name that isn't")
    parser.add_argument("-include", action="append", default=[], metavar="FILE", help="a file that is read before each text")
    parser.add_argument("-o", metavar="OUT.c", help="where the text goes, and the map of its lines to OUT.c.lines; else to out, without a map")
    parser.add_argument("--args", metavar="WORDS", help="the arguments of main: words, or first-line for those of the input's first line")
    parser.add_argument("--file", action="append", default=[], metavar="NAME=PATH", help="a file that the text may open under that name; NAME=- is the one input")
    parser.add_argument("--stderr", action="store_true", help="what goes to stderr goes to out")
    parser.add_argument("--memory", choices=["auto", "cells", "bytes", "flat"], default="auto", help="how memory is kept (docs/PORTING.md)")
    parser.add_argument("--wrap", action="store_true", help="signed integers wrap where they overflow, as with gcc's -fwrapv")
    parser.add_argument("--values", choices=VALUES, default="none", help="of how many members, elements and dereferences pairs see the values (docs/PORTING.md)")
    parser.add_argument("--quiet", action="store_true", help="nothing on err but refusals")
    parser.add_argument("--dump-typed", action="store_true", help="write the typed tree in place of the text: a node a line, with its type and place")
    parser.add_argument("--check", action="store_true", help="compare the text with the files as gcc builds them")
    parser.add_argument("--cflags", default="", metavar="FLAGS", help="the flags of your own build, for --check")
    parser.add_argument("--inputs", metavar="FOLDER", help="the inputs of --check")
    parser.add_argument("--tool", metavar="CBI", help="the executable cbi of --check")
    parser.add_argument("--turns", type=int, default=100000000, help="the turns of each run of --check")
    return parser.parse_args(arguments)


def files_of(rows: List[str]) -> List[Tuple[str, Optional[bytes]]]:
    """The files of --file by their names; the one input has no bytes here."""
    found: List[Tuple[str, Optional[bytes]]] = []
    for row in rows:
        name, mark, path = row.partition("=")
        if not (name and mark and path):
            raise ValueError(f"`{row}` is no NAME=PATH")
        if path == "-":
            found.append((name, None))
            continue
        with open(path, "rb") as file:
            found.append((name, file.read()))
    return found


def put(said: argparse.Namespace, ported: Ported) -> None:
    """Writes what was ported, and what is reported of it."""
    if said.o:
        with open(said.o, "wb") as out:
            out.write(ported.text)
        with open(said.o + ".lines", "w", encoding="utf-8", newline="\n") as out_map:
            out_map.write(ported.map_text())
    if said.dump_typed:
        for row in ported.typed():
            print(row)
    elif not said.o and not said.check:
        sys.stdout.flush()
        sys.stdout.buffer.write(ported.text)
    if not said.quiet:
        for liberty in ported.liberties:
            print(f"cbi-port: {liberty}", file=sys.stderr)
        print(f"ported: {ported.summary()}", file=sys.stderr)


def main() -> int:
    said = words(sys.argv[1:])
    options = for_preprocessor(said)
    args: Optional[object] = said.args
    if said.args is not None and said.args != "first-line":
        args = shlex.split(said.args)
    sys.setrecursionlimit(20000)
    try:
        named = files_of(said.file)
    except (OSError, ValueError) as wrong:
        print(f"cbi-port: --file: {wrong}", file=sys.stderr)
        return TROUBLE
    try:
        ported = port(said.files, options, args, said.stderr, said.memory, named, wraps(said), said.values)  # type: ignore[arg-type]
    except Refused as refused:
        for problem in refused.problems:
            print(f"cbi-port: {problem}", file=sys.stderr)
        return 1
    except Missing as missing:
        print(f"cbi-port: {missing}", file=sys.stderr)
        return TROUBLE
    put(said, ported)
    if said.check:
        from cbi_port.builds import Files, build_flags
        from cbi_port.check import check
        return check(Files(said.files, options, build_flags(said)), ported, said.inputs, said.tool, args, said.turns, named)
    return 0
