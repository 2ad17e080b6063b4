"""The text of a hunt: as it is given, or ported where the dialect doesn't take it or where there are several files. Not proved."""
import argparse
import os
import re
import shlex
import shutil
import subprocess
import sys
from typing import List, Optional, Union

from cbi_show import files
from cbi_hunt.given import gcc_says
from cbi_hunt.inputs import Inputs
from cbi_hunt.kept import Kept
from cbi_show.calls import call_to
from cbi_show.files import Fault, Refused, count_of

TOOLS = os.path.dirname(os.path.dirname(os.path.realpath(__file__)))
DEEP = 20000           # how deep a text of C may nest for the porter
PIECES = re.compile(r"/\*.*?\*/|//[^\n]*|\"(?:\\.|[^\"\\\n])*\"", re.DOTALL)
WITH_ARGUMENTS = re.compile(r"\bmain\s*\(\s*(?:const\s+)?(?:signed\s+)?int\b[^();]*,")
NO_ARGUMENTS = "main takes arguments and is given none: --args 'WORD WORD', or --args first-line for those of the input's first line"


def transform(chosen: argparse.Namespace, cbi: str, text: str, target: str, part: Optional[int] = None) -> str:
    """The program file of a text, whole or with a part of the sites."""
    words = [cbi, "transform", "--mode=sampled"] + ([f"--schemes={chosen.schemes}"] if chosen.schemes else [])
    words += ([] if part is None else [f"--part={part}/{chosen.parts}"]) + ["--", text]
    call_to(target + ".new", words)
    os.replace(target + ".new", target)
    return target


def refused(text: str, said: str) -> str:
    """A refusal as a compiler tells it, and below it the line and what to write in its place."""
    explained = subprocess.run([sys.executable, os.path.join(TOOLS, "cbi-explain"), text], input=said + "\n", stdout=subprocess.PIPE,
                               stderr=subprocess.DEVNULL, universal_newlines=True, check=False)
    more = explained.stdout.split("\n", 1)[1].rstrip() if explained.returncode == 0 else ""
    words = said.split(" ")
    line = words[words.index("line") + 1] if said.startswith("cbi: refusal ") and "line" in words else None
    what = said[len("cbi: "):] if said.startswith("cbi: ") else said
    if line:
        what = what.replace(f" line {line}", "")
    return f"{text}:{line + ':' if line else ''} {what}" + (f"\n{more}" if more else "")


def words_of(chosen: argparse.Namespace) -> Optional[Union[str, List[str]]]:
    """The arguments of main, as the porter takes them."""
    return chosen.args if chosen.args in (None, "first-line") else shlex.split(chosen.args)


def text_of(chosen: argparse.Namespace, cbi: str, kept: Kept, inputs: Inputs) -> List[str]:
    """Puts the text of a hunt into its folder, as source.c, and compiles it; answers what is told of a port."""
    for name in ("source.c", "source.c.lines"):
        if os.path.exists(kept.path(name)):
            os.remove(kept.path(name))
    import cbi_port
    why = None
    if len(chosen.texts) == 1 and not chosen.cpp and chosen.args is None and chosen.memory == "auto" and not chosen.stderr and not cbi_port.wraps(chosen) and chosen.values == "none":
        try:
            transform(chosen, cbi, chosen.text, kept.path("program"))
            shutil.copyfile(chosen.text, kept.path("source.c"))
            return map_beside(chosen.text, kept)
        except Fault as fault:
            why = str(fault).split(": ", 1)[1]
            if not why.startswith(("cbi: refusal 10 ", "cbi: refusal 11 ", "cbi: refusal 12 ", "cbi: refusal 15 ")):
                raise Refused(refused(chosen.text, why))
    return ported_text(chosen, cbi, kept, inputs, why)


def cure() -> str:
    """How this interpreter gets pycparser."""
    return "apt install python3-pycparser" if sys.prefix == "/usr" else f"{sys.executable} -m pip install pycparser"


def lacking(chosen: argparse.Namespace, why: Optional[str], missing: Exception) -> str:
    """What to do where the porter lacks something, first; and then what of the text asks for the porter."""
    no_parser = isinstance(missing, ImportError) or "pycparser" in str(missing)
    first = f"cbi-hunt: no pycparser for {sys.executable}: {cure()}" if no_parser else f"cbi-hunt: {missing}"
    asking = "Several files, options of the preprocessor, --args, --memory, --stderr, --wrap and --values ask for the porter, which needs it."
    return f"{first}\n" + (asking if why is None else f"The porter, which translates what the dialect lacks, needs it. Without it this is refused:\n{refused(chosen.text, why)}")


def takes_arguments(chosen: argparse.Namespace) -> bool:
    """Whether `main` has parameters and is given no arguments."""
    texts = (PIECES.sub(lambda piece: " " if piece[0][0] == "/" else '""', files.decoded(files.read_bytes(path))) for path in chosen.texts)
    return chosen.args is None and any(WITH_ARGUMENTS.search(text) for text in texts)


def map_beside(text: str, kept: Kept) -> List[str]:
    """Takes the map of lines that cbi-port left beside a text, so that rows name the lines of the files that it was ported from."""
    import cbi_port
    path = text + ".lines"
    if not os.path.exists(path):
        return []
    try:
        lines = cbi_port.read_map(files.decoded(files.read_bytes(path))).lines
    except (ValueError, IndexError):
        return [f"{path} is no map of lines, so lines are those of {text}"]
    if len(lines) != len(files.read_bytes(text).splitlines()):
        return [f"{path} has {count_of(len(lines), 'line')} and the text hasn't, so lines are those of {text}"]
    shutil.copyfile(path, kept.path("source.c.lines"))
    return [f"lines are those that {path} names"]


def ported_text(chosen: argparse.Namespace, cbi: str, kept: Kept, inputs: Inputs, why: Optional[str]) -> List[str]:
    """Ports the files. What the porter refuses is told as it tells it; without it a text is refused as `cbi` refuses it."""
    import cbi_port
    limit = sys.getrecursionlimit()
    sys.setrecursionlimit(max(limit, DEEP))
    try:
        ported = cbi_port.port(chosen.texts, chosen.cpp, words_of(chosen), chosen.stderr, chosen.memory, wrap=cbi_port.wraps(chosen), values=chosen.values)
    except cbi_port.Refused as problems:
        raise Refused(gcc_says(chosen.texts, chosen.cpp) or str(problems))
    except (cbi_port.Missing, ImportError) as missing:
        raise Refused(gcc_says(chosen.texts, chosen.cpp) or lacking(chosen, why, missing))
    finally:
        sys.setrecursionlimit(limit)
    chosen.ported = True
    with open(kept.path("source.c"), "wb") as file:
        file.write(ported.text)
    with open(kept.path("source.c.lines"), "w", encoding="utf-8", newline="\n") as lines:
        lines.write(ported.map_text())
    try:
        transform(chosen, cbi, kept.path("source.c"), kept.path("program"))
    except Fault as fault:
        said = str(fault).split(": ", 1)[1]
        if said.startswith("cbi: refusal 17 "):
            raise Refused(refused(chosen.text, said))
        raise Fault(f"{chosen.text} was ported, and the text isn't taken: {said} (cbi-port writes it)")
    told = [f"ported: {ported.summary()}"]
    if takes_arguments(chosen):
        told.append(NO_ARGUMENTS)
    if chosen.check:
        from cbi_hunt.beside_gcc import compared
        checked, differences = compared(chosen, cbi, ported, inputs)
        told[0] += f"; {checked}"
        told += differences
    for liberty in ported.liberties:
        print(f"cbi-hunt: {liberty}", file=sys.stderr)
    return told
