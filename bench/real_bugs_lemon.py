"""A bug of lemon, the parser generator of SQLite: of comments in its grammars."""
from real_bug import Bug, Program

LEMON = Program(name="lemon", package="sqlite3", version="3.40.1-2+deb12u2", folder="tool", files=("lemon.c",), arguments="-g grammar.y", schemes="branches,returns")

BUGS = [
    Bug(name="lemon-comment", program=LEMON, kind="wrong output", what="a comment that begins with /*/ ends there, and what it says is read as grammar",
        mended="SQLite 3.40.1 has the line, 3.34.1 hasn't", inputs=("lemon_grammars.py",), function="Parse", patch="lemon_comment.patch", count=400),
]
