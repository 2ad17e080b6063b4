"""Bugs of cJSON: of its numbers, of edits of arrays, and of JSON Pointers."""
from real_bug import Bug, Program

CJSON = Program(name="cjson", package="cjson", version="1.7.15-1+deb12u4", files=("cJSON.c",), driver="cjson_edit.c")
CJSON_UTILS = Program(name="cjson-utils", package="cjson", version="1.7.15-1+deb12u4", files=("cJSON_Utils.c", "cJSON.c"), driver="cjson_patch.c")
CJSON_LENGTH = Program(name="cjson-length", package="cjson", version="1.7.15-1+deb12u4", files=("cJSON.c",), driver="cjson_length.c")

BUGS = [
    Bug(name="cjson-number-cut", program=CJSON, kind="wrong output", what="a number is read up to its 63rd character, and the rest of it as what follows",
        mended="1.7.19, and 1.7.15-1+deb12u3 of Debian (CVE-2023-26819)", inputs=("json_texts.py", "edits"), function="parse_number", patch="cjson_number_cut.patch",
        count=10000, others=600),
    Bug(name="cjson-insert", program=CJSON, kind="wrong output", what="no item is inserted before any but the first item of an array: the check for a damaged list looks at the new item",
        mended="by 1.7.19; the patch for CVE-2023-50471 brought it, and Debian has it since 1.7.15-1+deb12u1", inputs=("json_texts.py", "edits"), function="cJSON_InsertItemInArray",
        mend="cjson_insert.mend.patch", count=600),
    Bug(name="cjson-pointer-index", program=CJSON_UTILS, kind="wrong output", what="an index of a JSON Pointer goes on behind its digits, since its first character is looked at in place of the current one",
        mended="1.7.19, and 1.7.15-1+deb12u4 of Debian (CVE-2025-57052)", inputs=("json_texts.py", "patch"), function="decode_array_index_from_pointer", patch="cjson_pointer_index.patch",
        count=10000, others=600),
    Bug(name="cjson-comma-end", program=CJSON_LENGTH, kind="heap overread", what="where a text ends behind a comma of an object, a byte behind it is read",
        mended="1.7.18, and 1.7.15-1+deb12u3 of Debian (CVE-2023-53154)", inputs=("json_texts.py", "cut"), function="parse_object", patch="cjson_comma_end.patch", count=400),
]
