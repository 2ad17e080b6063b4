"""The words of an oracle. Not proved."""
import argparse
import re
import shlex
from typing import List, Optional

from cbi_hunt.runs import SHELL
from cbi_show.files import Fault

# What stands in single quotes, or behind a backslash, no shell would look at; in double quotes it looks at `$` and the backquote.
QUIET = re.compile(r"'[^']*'|\\.")
DOUBLE = re.compile(r'"[^"]*"')
OF_SHELL = re.compile(r"[;|&<>$`]")


def asks_for_shell(words: str) -> Optional[str]:
    """The first sign of an oracle's words that a shell alone heeds."""
    loud = QUIET.sub("", words)
    found = OF_SHELL.search(DOUBLE.sub(lambda piece: re.sub(r"[^$`]", "", piece[0]), loud))
    return found[0] if found else None


def oracle_of(chosen: argparse.Namespace) -> Optional[List[str]]:
    """The words that an oracle is called with, before the names of an input and of an output."""
    if chosen.oracle_shell is not None:
        if not chosen.oracle_shell.strip():
            raise Fault("--oracle-shell names no command")
        return [*SHELL, chosen.oracle_shell, "sh"]
    if chosen.oracle is None:
        return None
    sign = asks_for_shell(chosen.oracle)
    if sign:
        raise Fault(f"--oracle has {sign}, which a shell alone heeds: say --oracle-shell, or put it in quotes")
    try:
        words = shlex.split(chosen.oracle)
    except ValueError as error:
        raise Fault(f"--oracle can't be read: {error}")
    if not words:
        raise Fault("--oracle names no command")
    return words
