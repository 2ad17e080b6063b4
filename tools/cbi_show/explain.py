"""Explains what cbi told: a refusal, with the line of the text and what to write in its place, or a report. Not proved.

The rules are those of docs/reference/LANGUAGE.md, docs/COMMANDS.md and docs/reference/MACHINE.md in short. What a line is refused
for is told by `cbi`; which of the things that the dialect leaves out it may be is looked for in the line here.
"""
import argparse
import os
import re
import subprocess
import sys
from typing import Iterator, List, Match, NamedTuple, Optional, Tuple

import cbi_show.traps
from cbi_show import dialect, files
from cbi_show.files import FOUND, NOTHING, TRAPS, Fault, Program, Run, count_of, harmless

EXAMPLES = """\
examples:
  cbi-explain -- cbi transform --mode plain prog.c >prog.cbi
  cbi-explain -- cbi run --input a prog.cbi    how the run ended
  cbi-explain --all prog.c                     all that the dialect leaves out, as far as it is seen
  cbi transform --mode plain prog.c 2>&1 >prog.cbi | cbi-explain prog.c
  cbi-explain report
  cbi-explain trap 8                           what trap 8 means in C; without a number all traps
  cbi-explain --program prog.cbi report        with the lines that the run was seen at

It ends with 0, with 1 where what it reads has nothing to explain, and with 2 where a file can't be read.
"""

REFUSAL = re.compile(r"cbi: refusal (\d+) (\w+)(.*)")
FAULT = re.compile(r"cbi: (bad value of (?P<option>\S+)|read fault (?P<name>.*)|write fault|out of memory)")

REFUSALS = {
    "BadByte": "No token can begin with this byte. In C texts only letters, digits, `_`, quotes, blanks and the signs of C stand outside comments, strings and character constants.",
    "BadToken": "No token stands here: a number, a character, a string or a directive that the dialect hasn't, or one that isn't closed.",
    "Syntax": "The tokens have no reading from here on. The fault may be in what stands before: a `;`, a `)` or a `}` that is missing, most often on the line above.",
    "TooLarge": "The text has more than 1,048,576 bytes or more than 100,000 tokens.",
    "TooManySites": "The text has more than 65,536 sites. Pairs are the most: --schemes branches,returns leaves them out. An assignment has a pair with each variable of its type that is visible there, and with each constant of its function.",
    "BadProgram": "PROG is no program file. A C text is none: compile it first (cbi transform --mode sampled prog.c >prog.cbi). The files may also be swapped: the program comes before the collection.",
    "BadBank": "The file of --bank is no bank: a decimal from 1 to 2147483647 on each line. cbi bank makes one.",
    "BadReport": "This file is no report. The N-th file, counted from 1, is meant; a run that was broken off leaves a part of one: make that run again.",
    "BadCollection": "This file is no collection. Where a program and a collection are named, the program comes first.",
    "Foreign": "The reports are of another program than the one that is named. A full and a sampled program of one text are two programs, and so are the programs of a text before and after a change.",
    "NoSite": "A report has a site that the program hasn't. Its lines were changed after the run.",
    "Conflict": "Two reports of one run number differ. Give each run a number of its own (--run), also in the parts of a farm, and collect the reports of one hunt only.",
    "TooManyReports": "A collection holds 100,000 runs. Leave some out, by chance and not by how they went (cbi-hunt does so).",
    "TooManyMarks": "A collection holds 16,777,216 site lines. A greater --rate, or fewer schemes, gives fewer lines a run; or leave some runs out, by chance.",
    "NotPart": "PARTPROG hasn't that part of the sites of WHOLE. Both are compiled of one text with the same --schemes, and --part is that with which PARTPROG was compiled.",
    "BadEdits": "EDITS is no text of edits from this line on: cbi-edits 1, then lines `add run ..` with their `site` lines, `remove R`, `relabel R fail` (or pass, or none) and `rank`, at most 1,000 of these, and last `end`.",
    "Absent": "A `remove` or a `relabel` names a run that isn't held at that line: it was never added, or it was removed before.",
    "InputTooLarge": "An input has at most 16,777,216 bytes. Of runs by a list the line is that of the list, counted from 1.",
    "BadList": "The list goes wrong at this line: file 1 is that of --inputs, file 2 that of --expect. A list has a name on each line, of 1 to 4,095 bytes of UTF-8, 1 to 100,000 of them, and a newline behind the last; and both lists have as many lines.",
}
KINDS = {
    1: "A name, a member or a tag isn't known here, or a parameter has no name. It may be a function of the library that the dialect hasn't, or a name that is declared further below.",
    2: "The name is declared twice here, or otherwise than before, or it is one of the library: getchar, putchar, puts, printf, malloc, free, exit, abort, assert.",
    3: "The operands don't fit: numbers beside pointers, pointers of two kinds, a struct where a value is wanted; or a function's name that isn't called, or a variable that is.",
    4: "This is no place that a value can be stored to or that & can point at: an array, a constant or a value.",
    5: "The arguments of a call don't fit its parameters, or a printf isn't a statement of its own whose first argument is a string with %d, %u, %c, %s and %%, and as many arguments.",
    6: "An object of a type that isn't complete or is void, with too many cells or a wrong bound; or a parameter or a result that is a struct.",
    7: "The initialiser doesn't fit. A global takes constants, a `-` before one, NULL and strings; an array a list that isn't longer; a struct none.",
    8: "A break or continue outside a loop, a return with a value in a void function, or one without a value in another.",
    9: "There is no definition of `int main(void)`. The line is that of the last token.",
    10: "This function is called and never defined. One file is the whole program, and of the library there are getchar, putchar, puts, printf, malloc, free, exit, abort and assert.",
}
OPTIONS = {
    "--mode": "plain, full or sampled", "--schemes": "branches, returns and pairs, each at most once, between commas", "--part": "two numbers as 0/4, the first one less than the second, which is 1 to 65536", "--turns": "a number from 0 to 100000000",
    "--run": "a number from 1 to 4294967295", "--runs": "a number from 1 to 100000", "--policy": "all, failing or relabel", "--rate": "a number from 1 to 65536",
    "--count": "a number from 1 to 65536", "--seed": "a number from 0 to 18446744073709551615", "--stream": "a number from 0 to 18446744073709551615",
}

class Cause(NamedTuple):
    """A refusal: its name, or its kind for a fault of types, and the line, where there is one."""
    name: str
    kind: Optional[int]
    line: Optional[int]

    def key(self) -> str:
        return f"kind {self.kind}" if self.kind else self.name


def arguments(words: List[str]) -> Tuple[argparse.Namespace, List[str]]:
    """What is asked for, and the words behind `--`, which are to be run."""
    own, called = (words[:words.index("--")], words[words.index("--") + 1:]) if "--" in words else (words, [])
    parser = files.Words(
        prog="cbi-explain", usage="%(prog)s [-h] [--version] [--program PROG.cbi] [--table] [--all] [FILE]\n       %(prog)s trap [N]\n       %(prog)s [--program PROG.cbi] -- COMMAND..",
        description="Explains a refusal of cbi, from standard input, beside the text; or a report; or a trap; or what a command of cbi comes to.",
        epilog=EXAMPLES + files.NOT_PROVED, formatter_class=argparse.RawDescriptionHelpFormatter)
    parser.add_argument("file", metavar="FILE", nargs="?", help="the C text that was refused, or a report")
    parser.add_argument("--program", metavar="PROG.cbi", help="the program of a report: says what its sites are")
    parser.add_argument("--table", action="store_true", help="writes the table of what the dialect leaves out")
    parser.add_argument("--all", action="store_true", help="names all places of FILE, a C text, that the dialect leaves out, by kind")
    chosen = parser.parse_args(own)
    if "--" in words and not called:
        parser.error("a command is asked for behind --")
    if chosen.all and not chosen.file:
        parser.error("--all asks for a C text")
    if called:
        return chosen, called
    if not chosen.file and not chosen.table and sys.stdin.isatty():
        parser.error("a report is asked for, or a refusal on standard input")
    return chosen, []


# Refusals

def cause_of(found: Match[str]) -> Cause:
    name, rest = found[2], found[3]
    kind = re.search(r"kind (\d+)", rest)
    line = re.search(r"line (\d+)", rest)
    return Cause(name, int(kind[1]) if kind else None, int(line[1]) if line else None)


def without_comments(line: str) -> str:
    """The line without its comments. Strings stay, since a format may be the fault."""
    return re.sub(r"/\*.*?\*/|//.*", "", line)


def place_of(cause: Cause, source: List[str]) -> List[int]:
    """The lines to look at: that of the refusal, and for a fault of syntax the last one before it with something on it."""
    here = [cause.line] if cause.line and cause.line <= len(source) else []
    if cause.name == "Syntax" and cause.line and here:
        here += [number for number in range(cause.line - 1, 0, -1) if source[number - 1].strip()][:1]
    return here


def candidate(cause: Cause, source: List[str]) -> Optional[dialect.Entry]:
    """What the refused line may have that the dialect hasn't: the first entry that fits it, or else the line before.

    For a missing main the whole text is looked at, since the refusal is at its end. An entry without a pattern
    fits where no other does.
    """
    places = ["\n".join(source)] if cause.kind == 9 else [source[number - 1] for number in place_of(cause, source)]
    entries = [entry for entry in dialect.ENTRIES if cause.key() in entry.causes]
    found = [entry for place in places for entry in entries if entry.pattern and re.search(entry.pattern, without_comments(place))]
    return next(iter(found + [entry for entry in entries if source and not entry.pattern]), None)


def open_comment(source: List[str]) -> Optional[int]:
    """The line of a comment that is never closed: what stands behind it is read as a text."""
    text = "\n".join(source)
    pieces = re.finditer(r"/\*.*?\*/|//[^\n]*|\"(?:\\.|[^\"\\\n])*\"|'(?:\\.|[^'\\\n])*'|/\*", text, re.DOTALL)
    return next((text.count("\n", 0, piece.start()) + 1 for piece in pieces if piece[0] == "/*"), None)


def explain_refusal(said: str, cause: Cause, name: Optional[str]) -> Iterator[str]:
    """The refusal, its line, the rule, and what to write in place of what stands there."""
    yield said
    of_text = cause.name in ("BadByte", "BadToken", "Syntax", "BadType")
    raw = files.read_bytes(name).decode("utf-8", "replace") if name and of_text else ""
    source = [line.rstrip("\r") for line in raw.split("\n")] if raw else []
    shown = place_of(cause, source)
    if shown:
        yield ""
        yield from (f"{number:>5} | {source[number - 1]}" for number in sorted(shown))
    yield ""
    yield KINDS.get(cause.kind or 0, "") if cause.name == "BadType" else REFUSALS.get(cause.name, "This script doesn't know the refusal: docs/COMMANDS.md has them all.")
    comment = open_comment(source) if cause.name == "Syntax" else None
    if comment:
        yield f"The comment that begins on line {comment} is never closed."
        return
    entry = candidate(cause, source)
    if entry:
        yield f"{'Left out of the dialect' if entry.pattern else 'It may be this'}: {entry.name}."
        yield f"In its place: {entry.advice}."


def explain_fault(said: str, found: Match[str]) -> Iterator[str]:
    yield said
    yield ""
    if found["option"]:
        yield f"{found['option']} takes {OPTIONS.get(found['option'], 'another value')}."
    elif found["name"] is not None:
        yield f"The file {found['name']!r} isn't there, is a folder, or can't be read. A second - in one call finds standard input at its end."
    elif "write" in said:
        yield "What was to be written could not be: the disk is full, out is closed, or the name of --report is in a folder that isn't there."
    else:
        yield "There is not enough memory. Nothing is wrong with what was given."


def explain_told(text: str, name: Optional[str]) -> Iterator[str]:
    """What standard input has of cbi's lines: refusals and faults, one after another; none where it has none."""
    for line in text.split("\n"):
        line = line.rstrip("\r")
        refusal, fault = REFUSAL.fullmatch(line), FAULT.fullmatch(line)
        if refusal:
            yield from explain_refusal(line, cause_of(refusal), name)
        elif fault:
            yield from explain_fault(line, fault)
    if "Usage: " in text:
        yield "The words read as no command. Most often an option is missing that must be there, or a word stands twice: docs/COMMANDS.md has a line for each command."


# Reports

def explain_outcome(outcome: str) -> str:
    word, _, value = outcome.partition(" ")
    if word == "ended":
        return f"It ended with status {value}."
    if word == "trapped":
        name, meaning = TRAPS.get(int(value), ("", "a trap that this script doesn't know"))
        return f"It trapped: {value} {name}, {meaning}. {cbi_show.traps.look_at(int(value))}"
    if value == "turns":
        return "It was cut at --turns: it may be a hang (a loop that doesn't end), or a run that needs more turns."
    return "It was cut, since it wrote more than 16,777,216 bytes."


LABELS = {"fail": "It counts as failing.", "pass": "It counts as successful.", "none": "It counts as neither failing nor successful."}


def explain_report(name: str, text: str, program: Optional[str], judged: bool = True) -> Iterator[str]:
    """What a report says of its run; `judged` where something said what the run should write."""
    report = files.parse_report(name, text)
    run, (fast, slow, tests) = report.run, report.work
    yield f"Run {run.number} of the program {report.program[:12]}.."
    yield explain_outcome(run.outcome)
    if run.label == "fail" and run.outcome.startswith("ended"):
        yield "It counts as failing: its output wasn't the expected one."
    elif run.label == "pass" and not judged and files.status_of(run.outcome):
        yield "It counts as successful, since its output decides and no --expect says what that should be; cbi-hunt --status fail counts such a run as failed."
    elif run.label == "pass" and not judged:
        yield "It counts as successful, since no --expect says what it should write."
    else:
        yield LABELS.get(run.label, "Its label isn't known.")
    if run.sites or fast or slow:
        yield f"It was observed at {count_of(len(run.sites), 'site')}."
    if fast or slow:
        yield f"Sampling: {count_of(fast, 'region')} by the fast path, {slow} by the slow path with {count_of(tests, 'test')} of the countdown."
    if program:
        yield from explain_sites(run, files.read_program(program), report.program)
    elif run.sites:
        yield "What the sites are, cbi-explain --program PROG.cbi says."


def explain_sites(run: Run, program: Program, identity: str) -> Iterator[str]:
    """A line for each observed site: its predicates' counters."""
    if program.identity != identity:
        raise files.Fault("the report is of another program than that of --program")
    for number, counters in run.sites.items():
        if number >= len(program.sites):
            raise files.Fault(f"the report has a site {number}, which the program hasn't")
        site = program.sites[number]
        basic = [(text, which[0]) for text, which in site.predicates() if len(which) == 1]
        seen = ", ".join(f"`{text}` {count_of(counters[which], 'time')}" for text, which in basic if counters[which])
        yield f"  line {site.line}, {site.function}: {seen}"


def is_report(data: bytes) -> bool:
    return data.startswith(b"cbi-report ")


def explain(chosen: argparse.Namespace) -> Iterator[str]:
    """The lines that explain; none where there is nothing to."""
    data = files.read_bytes(chosen.file) if chosen.file else b""
    if is_report(data):
        return explain_report(chosen.file, files.decoded(data), chosen.program)
    told = files.read_bytes("-")
    if is_report(told):
        return explain_report("-", files.decoded(told), chosen.program)
    return explain_told(files.decoded(told), chosen.file)


# Commands

OF_WATCHERS = re.compile(r"(first|hottest|last) none")


def explain_call(words: List[str], program: Optional[str]) -> Iterator[str]:
    """Runs a command, and explains what it was refused for, or how its run ended. Its input and output are those of this process."""
    runs = os.path.basename(words[0]).startswith("cbi") and words[1:2] == ["run"]
    with files.folder_for_a_while("cbi-explain-") as folder:
        report = value_of("--report", words) if runs else None
        if runs and report is None:
            report = os.path.join(folder, "report")
            words = [*words[:2], f"--report={report}", *words[2:]]
        sys.stdout.flush()
        try:
            done = subprocess.run(words, stderr=subprocess.PIPE, check=False)
        except OSError as error:
            raise Fault(f"{words[0]} doesn't start: {error.strerror}")
        said = files.decoded(done.stderr)
        if done.returncode:
            yield from explain_told(said, next((word for word in words[1:] if word.endswith(".c") and os.path.isfile(word)), None)) if said else ()
            return
        for line in said.splitlines():
            if not OF_WATCHERS.fullmatch(line):
                files.tell(line)
        if report and report != "-" and os.path.exists(report):
            yield from explain_report(report, files.decoded(files.read_bytes(report)), program, value_of("--expect", words) is not None)


def value_of(option: str, words: List[str]) -> Optional[str]:
    """What a command has an option take."""
    for word, following in zip(words, words[1:] + [""]):
        if word == option or word.startswith(option + "="):
            return following if word == option else word[len(option) + 1:]
    return None


# All places

def explain_all(name: str) -> Iterator[str]:
    """All places of a text that the dialect leaves out, by kind, as far as they are seen without `cbi`."""
    found = dialect.places(files.decoded(files.read_bytes(name)))
    lines = {line for _, numbers in found for line in numbers}
    if not found:
        return
    yield f"{name}: {count_of(len(found), 'kind')} of what the dialect leaves out, on {count_of(len(lines), 'line')}, as far as it is seen here; cbi transform decides."
    for entry, numbers in found:
        yield ""
        yield f"{entry.name}: {'line' if len(numbers) == 1 else 'lines'} {', '.join(map(str, numbers))}"
        yield f"    In its place: {entry.advice}."


def of_traps(words: List[str]) -> Optional[Iterator[str]]:
    """What `trap` and `trap N` ask for; none where the words ask for something else, as for a file of that name."""
    if words[:1] != ["trap"] or len(words) > 2 or words[1:] and not re.fullmatch(r"-?\w+", words[1]):
        return None
    return cbi_show.traps.explained(words[1]) if words[1:] else None if os.path.exists("trap") else cbi_show.traps.listed()


def main() -> int:
    traps = of_traps(sys.argv[1:])
    if traps is not None:
        for line in traps:
            print(line)
        return FOUND
    chosen, called = arguments(sys.argv[1:])
    if chosen.table:
        print(dialect.table(), end="")
        return FOUND
    lines = explain_call(called, chosen.program) if called else explain_all(chosen.file) if chosen.all else explain(chosen)
    told = False
    for line in lines:
        print(harmless(line))
        told = True
    if not told:
        print("cbi-explain: " + ("nothing is seen that the dialect leaves out; cbi transform decides" if chosen.all
                                 else "no refusal in what was read, so there is nothing to explain"), file=sys.stderr)
    return FOUND if told else NOTHING
