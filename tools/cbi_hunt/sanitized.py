"""What gcc's sanitizers say of a run of the files as their author has them: where memory was used, freed and allocated. Not proved."""
import os
import re
import subprocess
import tempfile
from typing import Dict, List, NamedTuple, Optional, Sequence, Tuple

from cbi_show.broke import Access, Call
from cbi_show.where import Where

SECONDS = 10
CHECKS = ["-O0", "-fsanitize=address,undefined", "-fno-sanitize-recover=all", "-fno-omit-frame-pointer"]
OPTIONS = {"ASAN_OPTIONS": "detect_leaks=0:exitcode=99:detect_stack_use_after_return=1:handle_abort=1:allocator_may_return_null=1",
           "UBSAN_OPTIONS": "halt_on_error=1:exitcode=99:print_stacktrace=1"}
FRAME = re.compile(r"^    #\d+ 0x[0-9a-f]+ in (\S+) (.+?):(\d+)(?::\d+)?$")
ERROR = re.compile(r"ERROR: AddressSanitizer: (attempting [\w -]+?|[\w-]+)(?= on | in )|runtime error: (.*)")
NEAR = re.compile(r"is located (.*)$", re.MULTILINE)
HEADS = (("freed by thread", "freed"), ("previously allocated by thread", "allocated"), ("allocated by thread", "allocated"), ("Address 0x", "frame"))


class Files(NamedTuple):
    """The files of a hunt as gcc is given them: with what the preprocessor is told, and the words of main."""
    names: Sequence[str]
    options: Sequence[str]
    words: Sequence[str]


def said_of(files: Files, data: bytes) -> Optional[str]:
    """What a sanitizer says of a run on an input; none where it says nothing, gcc isn't there, or it takes too long."""
    from cbi_port.builds import compiled
    with tempfile.TemporaryDirectory(prefix="cbi-hunt-") as folder:
        try:
            program = compiled(files.names, files.options, folder, "checked", CHECKS)
            if program is None:
                return None
            done = subprocess.run([program, *files.words], input=data, stdout=subprocess.DEVNULL, stderr=subprocess.PIPE, timeout=SECONDS,
                                  env={**os.environ, **OPTIONS}, check=False)
        except (OSError, subprocess.TimeoutExpired):
            return None
    said = done.stderr.decode("utf-8", "replace")
    return said if ERROR.search(said) else None


def stacks_of(said: str) -> Dict[str, List[Tuple[str, str, int]]]:
    """The rows of calls by what they are of: each call with its function, its file and its line, the innermost first."""
    rows: Dict[str, List[Tuple[str, str, int]]] = {}
    now = "used"
    for line in said.split("\n"):
        now = next((name for head, name in HEADS if line.startswith(head)), now)
        found = FRAME.match(line)
        if found:
            rows.setdefault(now, []).append((found[1], found[2], int(found[3])))
    return rows


def calls_of(rows: Sequence[Tuple[str, str, int]], where: Where) -> List[Call]:
    """The calls that are of the user's files."""
    names = {os.path.realpath(name): name for name in where.files}
    found = []
    for function, file, line in rows:
        name = names.get(os.path.realpath(file))
        if name is not None:
            found.append(call_at(where, name, line, function))
    return found


def call_at(where: Where, file: str, line: int, function: str) -> Call:
    lines = where.files.get(file, [])
    return Call(file, line, function, lines[line - 1].strip() if 0 < line <= len(lines) else "")


def declared_at(said: str, rows: Dict[str, List[Tuple[str, str, int]]], where: Where) -> Tuple[str, Optional[Call]]:
    """The variable that was passed, and where it is declared: a global one, or one of an active call."""
    found = re.search(r"global variable '([^']*)' defined in '(.*?):(\d+)", said)
    if found:
        calls = calls_of([("", found[2], int(found[3]))], where)
        return found[1], calls[0]._replace(function="the file") if calls else None
    found = re.search(r"'([^']*)' \(line (\d+)\) <== Memory access", said)
    if found and rows.get("frame"):
        function, file, _ = rows["frame"][0]
        calls = calls_of([(function, file, int(found[2]))], where)
        return found[1], calls[0] if calls else None
    return "", None


def access_in(said: str, where: Where) -> Optional[Access]:
    """What a sanitizer said, by its places; none where no place is of the user's files."""
    error, rows = ERROR.search(said), stacks_of(said)
    used = calls_of(rows.get("used", []), where)
    if error is None or not used:
        return None
    name = (error[1] or error[2]).strip()
    what = re.search(r"^(READ|WRITE) of size (\d+)", said, re.MULTILINE)
    size = "" if what is None else f"a {what[1].lower()} of {what[2]} byte{'' if what[2] == '1' else 's'}"
    variable, declared = declared_at(said, rows, where)
    near = NEAR.search(said)
    told = re.sub(r"\[0x[^)\]]*[)\]]|\(0x[0-9a-f]+\)|defined in '[^']*'", "", near[1]) if near else ""
    told = f"of {variable}" if variable and told.startswith("in stack") else re.sub(r"\s+", " ", told).strip()
    return Access(name, size, told, used, calls_of(rows.get("freed", []), where), calls_of(rows.get("allocated", []), where), declared)


def access_of(files: Files, data: bytes, where: Where) -> Optional[Access]:
    said = said_of(files, data)
    return access_in(said, where) if said else None
