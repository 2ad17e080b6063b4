"""unifdef, which takes conditions of the preprocessor out of a text. In cells each run ends where it adds 1 to a null pointer (unifdef.c:781, `strrchr(tline, '\\r') + 1`), so its memory is
bytes, where that is the number 1."""
import os

from real_bug import FILES, Bug, Program

UNIFDEF = Program(name="unifdef", package="unifdef", version="2.10-1.1", driver="files_driver.c", files=("unifdef.c",), memory="bytes",
                  options=("-Dmain=program_main", f"-I{FILES}", f"-I{os.path.join(FILES, 'system')}"))

BUGS = [
    Bug(name="unifdef-undef", program=UNIFDEF, kind="wrong output", what="a #define behind an #undef isn't seen", mended="unifdef 2.10, Changelog of 2014-01-07",
        inputs=("conditions.py",), function="skipline", patch="unifdef_undef.patch", count=300),
]
