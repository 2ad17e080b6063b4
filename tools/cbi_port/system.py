"""What a text asks of the system: files that are given or kept in memory, the name of the one input, and what of it is told."""
import os
import re
from typing import Any, Dict, List, NamedTuple, Optional, Sequence, Set, Tuple

from cbi_port.lines import Token

# A file by its name; without bytes it is the one input.
Named = Sequence[Tuple[str, Optional[bytes]]]

# Calls after which a descriptor may be more than the input and the outputs.
OPENS = {"freopen", "fdopen", "tmpfile", "creat", "mkstemp", "dup", "dup2"}
READS = {"fopen", "open", "stat", "lstat", "access"}
# Calls after which the output may be a file.
REDIRECTS = {"freopen", "dup2"}
# Functions that look at bytes ahead, or at how reading ended: with one of them all input goes by the prelude.
AHEAD = {"ungetc", "scanf", "fscanf", "vscanf", "vfscanf", "feof"}
# What puts something into the environment.
SETS_VARIABLES = {"setenv", "putenv"}
# Variables of the library that texts declare for themselves too.
VARIABLES = {"optarg", "optind", "opterr", "optopt", "daylight", "timezone"}

SIGNALS = "signals never come from outside: what signal and its kin set is called by raise alone"
TIMES = "time and clock give 0"
DAYS = "the time zone is UTC, whatever the environment has"
PROCESS = "process and user are made up: process 1, user 1000 named user, in /"
NOTHING_RUNS = "system and popen run nothing, and fail"
WAITS = "sleep and its kin take no time"
SET_ALONE = "getenv gives what the program has set, and else NULL, whatever the environment has"
TOLD: Dict[str, str] = {
    **dict.fromkeys(["signal", "ssignal", "sigaction", "alarm", "sigprocmask"], SIGNALS),
    **dict.fromkeys(["time", "clock", "gettimeofday", "clock_gettime"], TIMES),
    **dict.fromkeys(["localtime", "localtime_r", "mktime", "ctime", "ctime_r", "tzset"], DAYS),
    **dict.fromkeys(["getpid", "getppid", "getuid", "geteuid", "getgid", "getegid", "getpwuid", "getpwnam", "getcwd", "gethostname", "getlogin"], PROCESS),
    **dict.fromkeys(["system", "popen"], NOTHING_RUNS), **dict.fromkeys(["sleep", "usleep", "nanosleep"], WAITS),
    "getenv": "getenv gives NULL, whatever the environment has",
    "setlocale": "there is the C locale alone",
}
KEPT = "files that are written are kept in memory, and end with the run"


class Asked(NamedTuple):
    """`parts` of the prelude, the text of the header that has the files, and which functions of the dialect go by the prelude."""
    parts: List[str]
    header: str
    wrapped: Set[str]
    told: List[str]


def input_name(args: Any, named: Named) -> Optional[str]:
    """The name that the one input has: the one that is said, else the first word for `main` that is no option."""
    said = [name for name, data in named if data is None]
    if said or args == "first-line":
        return said[0] if said else None
    have = {name for name, _ in named}
    return next((word for word in args or [] if word[:1] not in ("-", "") and word not in have), None)


def asked(tokens: Sequence[Token], words: Set[str], args: Any, stderr: bool, named: Named) -> Asked:
    """What a text asks for by the names that stand in it."""
    parts = ["STDERR"] * stderr + ["ENVIRONMENT"] * bool(words & SETS_VARIABLES)
    wrapped = {"getchar"} if words & AHEAD else set()
    name = input_name(args, named) if words & READS else None
    by_words = args == "first-line" and not any(data is None for _, data in named) and bool(words & READS)
    writes = bool(words & OPENS) or opens_to_write(tokens)
    told = [KEPT] if writes else []
    if named or name or by_words or writes:
        parts.append("OPENED")
    if name or by_words:
        parts.append("INPUT")
        parts += ["WORDS"] * by_words
        wrapped.add("getchar")
        told.append(f"fopen of {name or 'the first word of main that is no option'} reads the one input")
    given = [(it, data) for it, data in named if data is not None]
    if given or name:
        parts.append("GIVEN")
    if words & REDIRECTS:
        parts.append("REDIRECTS")
        wrapped |= {"putchar", "puts"}
    return Asked(parts, header_of(given, name), wrapped, told)


def opens_to_write(tokens: Sequence[Token]) -> bool:
    """Whether `open` is called, or `fopen` with more than the constant mode of reading; a function of the text by that name isn't the library's."""
    found: Set[str] = set()
    for at, token in enumerate(tokens[:-1]):
        if token.text not in ("open", "fopen") or tokens[at + 1].text != "(" or tokens[at - 1].text in (".", "->") or is_system(token):
            continue
        depth, end = 1, at + 2
        while depth and end < len(tokens):
            depth += (tokens[end].text == "(") - (tokens[end].text == ")")
            end += 1
        if tokens[end:end + 1] and tokens[end].text == "{":
            return False
        if token.text == "open" or tokens[end - 2].kind != "string" or not re.fullmatch('"r[bte]*"', tokens[end - 2].text):
            found.add(token.text)
    return bool(found)


def is_system(token: Token) -> bool:
    from cbi_port.reader import HEADERS
    return token.file.startswith(HEADERS)


def place_files(folder: str, args: Any, named: Named, given: bytes) -> None:
    """Lays the files into a folder as the text has them, for a program that runs there."""
    name = input_name(args, named)
    for path, data in [*((it, data) for it, data in named if data is not None), *([(name, given)] if name else [])]:
        whole = os.path.join(folder, path)
        if not os.path.isabs(path) and ".." not in path.split("/"):
            os.makedirs(os.path.dirname(whole), exist_ok=True)
            with open(whole, "wb") as out:
                out.write(data)


def quoted(data: bytes) -> str:
    """A constant of C; digits behind an escape of three digits are no part of it."""
    return '"' + "".join(chr(byte) if 32 <= byte < 127 and chr(byte) not in '"\\?' else f"\\{byte:03o}" for byte in data) + '"'


def header_of(given: Sequence[Tuple[str, bytes]], name: Optional[str]) -> str:
    """The files as functions of C, by their numbers."""
    names = "".join(f"    if (n == {at}) return {quoted(it.encode())};\n" for at, (it, _) in enumerate(given))
    texts = "".join(f"    if (n == {at}) return {quoted(data)};\n" for at, (_, data) in enumerate(given))
    sizes = "".join(f"    if (n == {at}) return {len(data)}u;\n" for at, (_, data) in enumerate(given))
    return (f"int __cbi_given_count(void) {{ return {len(given)}; }}\nconst char *__cbi_given_name(int n) {{\n{names}    return 0;\n}}\n"
            f"const char *__cbi_given_text(int n) {{\n{texts}    return 0;\n}}\nunsigned __cbi_given_length(int n) {{\n{sizes}    return 0;\n}}\n"
            + (f"char *__cbi_input_name(void) {{ return {quoted(name.encode())}; }}\n" if name else ""))
