"""What a compiler says of a text that isn't C: its own words stand in place of those of the parser."""
import os
import re
import shutil
import subprocess
from typing import List, Sequence

from cbi_port import Problem
from cbi_port.lines import Refusal, Token

TOLD = re.compile(r"^(.*?):(\d+):(?:\d+:)? (?:fatal )?error: (.*)$", re.M)
# Messages of a text that can't be read, in place of one that says what isn't so.
SYNTAX = re.compile(r"\bexpected\b|\bstray\b|unknown type name|missing terminating|invalid suffix|invalid digit|too many decimal|empty character|exponent has no digits|`?else`? without|unterminated")
ADVICE = "what the compiler asks for there: gcc doesn't take it either"


def errors_of(file: str, flags: Sequence[str]) -> List[Problem]:
    """What gcc refuses of a file; nothing where there is no gcc."""
    path = shutil.which("gcc")
    if path is None:
        return []
    done = subprocess.run([path, "-fsyntax-only", "-fno-diagnostics-show-caret", "-fmax-errors=100", *flags, file], stdout=subprocess.PIPE, stderr=subprocess.PIPE, check=False,
                          env=dict(os.environ, LC_ALL="C"))
    return [Problem(where, int(line), what, ADVICE) for where, line, what in TOLD.findall(done.stderr.decode("utf-8", "replace"))]


def in_its_words(unread: Sequence[Refusal], tokens: Sequence[Token], file: str, flags: Sequence[str]) -> List[Problem]:
    """The problems of what couldn't be read in a file: the compiler's where it has some of them, else the parser's."""
    told = [it for it in errors_of(file, flags) if SYNTAX.search(it.construct)] if unread else []
    found: List[Problem] = []
    for refusal in unread:
        begin, end = refusal.span
        lines = {(token.file, token.line) for token in tokens[begin:end]}
        inner = [it for it in told if (it.file, it.line) in lines or same_end(it, tokens[end - 1])]
        found.extend(inner or [refusal.problem(tokens)])
    return found


def same_end(problem: Problem, last: Token) -> bool:
    """Whether a message stands right behind the last token, as those of a text that ends too early do."""
    return problem.file == last.file and last.line <= problem.line <= last.line + 1
