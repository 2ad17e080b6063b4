"""yajl's json_reformat, a parser and a generator of JSON in seven files."""
from real_bug import Bug, Program

YAJL = Program(name="json_reformat", package="yajl", version="2.1.0-3+deb12u2", options=("-Iinc", "-Isrc"), build=("mkdir -p inc/yajl", "cp src/api/*.h inc/yajl"),
               files=("reformatter/json_reformat.c", "src/yajl.c", "src/yajl_alloc.c", "src/yajl_buf.c", "src/yajl_encode.c", "src/yajl_lex.c", "src/yajl_parser.c", "src/yajl_gen.c"))

BUGS = [
    Bug(name="yajl-surrogate", program=YAJL, kind="wrong output, or a read past the end", what="a character behind half of a pair of surrogates is skipped",
        mended="Debian's yajl 2.1.0-3+deb12u1, CVE-2017-16516", inputs=("escaped_texts.py",), function="yajl_string_decode", patch="yajl_surrogate.patch", count=300),
    Bug(name="yajl-nul", program=YAJL, kind="wrong output", what="U+0000 in a string is left out", mended="yajl 1.0.12, ChangeLog", inputs=("escaped_texts.py",),
        function="yajl_string_decode", patch="yajl_nul.patch", count=3000, others=300),
]
