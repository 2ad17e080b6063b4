"""par, which fills paragraphs and knows quotes."""
from real_bug import Bug, Program

PAR = Program(name="par", package="par", version="1.53.0-2", files=("par.c", "buffer.c", "charset.c", "errmsg.c", "reformat.c"), arguments="w40 q1 r3")

BUGS = [
    Bug(name="par-repeat", program=PAR, kind="wrong output", what="a line that is put in between quotes is made longer as if it were a rule", mended="par 1.53.0, releasenotes",
        inputs=("quoted_mails.py",), function="delimit", patch="par_repeat.patch", count=300),
]
