"""Bugs of dc, of seven files and three of a library."""
from real_bug import Bug, Program

DC = Program(name="dc", package="bc", version="1.07.1-3", folder="dc", build=("./configure",), options=("-DHAVE_CONFIG_H", "-I.", "-I..", "-I../h"),
             files=("dc.c", "array.c", "eval.c", "misc.c", "numeric.c", "stack.c", "string.c", "../lib/getopt.c", "../lib/getopt1.c", "../lib/number.c"))

BUGS = [
    Bug(name="dc-register-pop", program=DC, kind="crash", what="a value is taken from a register that only has an array, which no value stands in: an abort in place of a message",
        mended="dc 1.4, ChangeLog of 2015-05-11", inputs=("dc_programs.py",), function="dc_register_pop", patch="dc_register_pop.patch", count=400),
    Bug(name="dc-string-end", program=DC, kind="wrong output", what="the last character of a string is left out where the string isn't closed; of an empty one more is read than there is",
        mended="dc 1.4, ChangeLog of 2014-11-27", inputs=("dc_programs.py",), function="evalstr", patch="dc_string_end.patch", count=400),
]
