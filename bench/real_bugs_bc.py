"""The bug of bc that the articles hunted (PLDI 2003, section 3.3), as examples/bc has it."""
from real_bug import Bug, Program

BC = Program(
    name="bc", package="bc", version="1.07.1-3", folder="bc",
    files=("main.c", "bc.c", "scan.c", "execute.c", "load.c", "storage.c", "util.c", "global.c", "warranty.c", "../lib/getopt.c", "../lib/getopt1.c", "../lib/vfprintf.c", "../lib/number.c"),
    options=("-DHAVE_CONFIG_H", "-I.", "-I..", "-I../h"), memory="cells",
    build=("./configure", "touch bc/bc.c bc/bc.h bc/scan.c", "make -C lib AUTOMAKE=: AUTOCONF=: ACLOCAL=:", "make -C bc AUTOMAKE=: AUTOCONF=: ACLOCAL=:"))

BUGS = [
    Bug(name="bc-more-arrays", program=BC, kind="heap overrun", what="room for more arrays is cleared up to the number of scalars", mended="bc 1.07, storage.c",
        inputs=("../../examples/bc/programs.py",), function="more_arrays", patch="../../examples/bc/more_arrays.patch", count=300),
]
