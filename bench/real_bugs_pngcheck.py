"""pngcheck, which reads all kinds of chunks of PNG, JNG and MNG in a function of 3,600 lines."""
from real_bug import Bug, Program

PNGCHECK = Program(name="pngcheck", package="pngcheck", version="3.0.3-1", files=("pngcheck.c",), arguments="-v in.mng", schemes="branches,returns")

BUGS = [
    Bug(name="pngcheck-loop", program=PNGCHECK, kind="read past a buffer's end", what="a loop of more signals than the buffer has room for is read past its end",
        mended="pngcheck 3.0.2, CHANGELOG of 20201217", inputs=("mng_files.py",), function="pngcheck", patch="pngcheck_loop.patch", count=3000, others=300),
]
