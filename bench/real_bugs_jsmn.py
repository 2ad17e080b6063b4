"""A bug of jsmn, a parser of JSON that is one header."""
from real_bug import Bug, Program

JSMN = Program(name="jsmn", package="jsmn", version="1.1.0-2", files=("jsmn.h",), driver="jsmn_tokens.c", options=("-DJSMN_PARENT_LINKS", "-I."))

BUGS = [
    Bug(name="jsmn-unmatched", program=JSMN, kind="wrong output", what="with links to parents a bracket is taken that closes nothing", mended="before 1.1.0, whose tests hold it (test_unmatched_brackets)",
        inputs=("json_texts.py", "brackets"), function="jsmn_parse", patch="jsmn_unmatched.patch", count=600),
]
