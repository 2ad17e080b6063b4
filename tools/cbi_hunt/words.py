"""The words that cbi-hunt is called with. Not proved."""
import argparse
import re
from typing import Callable, List

from cbi_show import files
from cbi_port import VALUES, for_preprocessor

MOST_NUMBER = 4294967295  # of a run
TURNS = 1000000

EXAMPLES = """\
inputs:
  A folder with a file for each input, also in its subfolders, or one file whose lines are the inputs. The folders of
  AFL++ are taken as they are: queue, crashes, or the one above them. What the program should write for
  the input NAME stands in NAME.expected of the same folder, or in NAME (or NAME.expected) of the folder --expect,
  or on the same line of the file --expect. Without any of these, and without --oracle, only a run that traps fails.

oracle:
  CMD is called with two more words, the name of the input and of what the program wrote. It ends with 0 where that
  is right, with 1 to 124 where it is wrong, and with 125 where it can't tell. --oracle-shell has a shell read its CMD,
  with the two names as "$1" and "$2". The status with which the run ended (0 to 255, as a shell sees it) stands in
  the environment variable CBI_STATUS.

status:
  A run that ends with a status other than 0 is judged by its output, as any other. With --status fail it has failed,
  whatever it wrote, and no oracle is asked. Each run keeps its status (`outcome ended 3` in its report).

two versions:
  --since OLD.c has the old version run on the same inputs, judged alike. What fails in PROG.c alone is hunted; inputs on which
  both fail are set aside and told, and those on which the old one alone failed are counted as mended. OLD may be a folder,
  as a worktree of git: each file is the one there with the same path, or else with the same name, and so are folders of -I.
  With --changed fail an output other than the old version's has failed, where no --expect or --oracle says what is right.

where it broke:
  The smallest failing input is run again. Of a trap the line and the calls that were active are told, of a wrong output
  its first wrong byte and the statement that wrote it, of a run without end the loop that it never leaves, and of a
  status the call that ended the run. Where memory was used after free, past its ends or freed wrongly, and gcc is
  there, its sanitizers say where it was used, freed, allocated and declared.

examples:
  cbi-hunt prog.c --inputs tests --html page.html
  cbi-hunt main.c list.c --inputs tests --args first-line -- -I include -D SIZE=9
  cbi-hunt prog.c --inputs tests --memory cells -U FAST --stderr
  cbi-hunt prog.c --inputs tests --expect wanted --rate 5 --runs 10000 --keep hunt
  cbi-hunt prog.c --inputs lines.txt --oracle 'python3 judge.py' --rate 20
  cbi-hunt prog.c --inputs tests --oracle-shell 'sort "$1" | cmp -s - "$2"' --minimize
  cbi-hunt prog.c --inputs tests --oracle-shell 'test $CBI_STATUS = 0 || grep -q ERROR "$2"'
  cbi-hunt prog.c --inputs tests --status fail
  cbi-hunt prog.c --inputs tests --since prog.old.c
  cbi-hunt src/main.c src/list.c --inputs tests --since ../release-1 --changed fail -- -I include
  cbi-hunt prog.c --inputs tests --hangs fail --turns 10000 --mutate 100
  cbi-hunt prog.c --inputs tests --oracle-shell './works <"$1" | cmp -s - "$2"' --neighbours 200
  cbi-hunt prog.c --inputs tests --rate 20 --runs 50000 --keep hunt --farm hosts
  cbi-hunt prog.c --inputs tests --rate 20 --runs 50000 --keep hunt --farm hosts --parts 4
  SBATCH_PARTITION=tests cbi-hunt prog.c --inputs tests --rate 20 --runs 50000 --keep hunt --farm slurm

It ends with 0 where a fact is beyond chance or has a row, with 1 where none is (it says why, and what to do), with 2 where
what it was given is wrong, and with 130 after ^C, when it has shown what it had by then.
"""


def number_between(least: int, most: int) -> Callable[[str], int]:
    """A value of an option, as `cbi` reads it: a decimal without leading zeros."""
    def read(word: str) -> int:
        if not re.fullmatch(r"0|[1-9][0-9]*", word) or not least <= int(word) <= most:
            raise argparse.ArgumentTypeError(f"{word!r} is no number from {least} to {most}")
        return int(word)
    return read


def arguments(words: List[str]) -> argparse.Namespace:
    """What is asked for: the files, and behind `--` what the preprocessor is told."""
    own, cpp = (words[:words.index("--")], words[words.index("--") + 1:]) if "--" in words else (words, [])
    if cpp and not cpp[0].startswith("-"):
        own, cpp = words, []
    parser = files.Words(
        prog="cbi-hunt", usage="%(prog)s PROG.c [MORE.c ..] --inputs DIR [option ..] [-- option of the preprocessor ..]", description="Hunts bugs: runs a C text on many inputs, and shows where it goes wrong: the facts that go with the failures, bug by bug.",
        epilog=EXAMPLES + files.NOT_PROVED, formatter_class=argparse.RawDescriptionHelpFormatter)
    parser.add_argument("texts", metavar="PROG.c", nargs="+", help="the C text; what the dialect of cbi doesn't take, and several files, are ported (docs/PORTING.md)")
    parser.add_argument("-I", action="append", default=[], metavar="DIR", help="a folder of headers; the text is ported")
    parser.add_argument("-D", action="append", default=[], metavar="NAME[=V]", help="a name that is defined; the text is ported")
    parser.add_argument("-U", action="append", default=[], metavar="NAME", help="a name that isn't; the text is ported")
    parser.add_argument("-include", action="append", default=[], metavar="FILE", help="a file that is read before the text; the text is ported")
    parser.add_argument("--memory", choices=["auto", "cells", "bytes", "flat"], default="auto", help="how a ported text keeps memory (docs/PORTING.md); the text is ported unless it is auto")
    parser.add_argument("--stderr", action="store_true", help="what goes to stderr goes to out; the text is ported")
    parser.add_argument("--args", metavar="WORDS", help="the arguments of main: words, or first-line for those of the input's first line; the text is ported")
    parser.add_argument("--cflags", default="", metavar="FLAGS", help="the flags of your own build, which a ported text is compared with; -fwrapv there is --wrap too")
    parser.add_argument("--wrap", action="store_true", help="signed integers wrap where they overflow, as with gcc's -fwrapv; the text is ported")
    parser.add_argument("--values", choices=VALUES, default=VALUES[0], help="of how many members, elements and dereferences pairs see the values; the text is ported unless it is none")
    parser.add_argument("--no-check", dest="check", action="store_false", help="doesn't compare a ported text with what gcc makes of the files")
    parser.add_argument("--inputs", metavar="DIR", required=True, help="the inputs: a folder of files, or a file of lines")
    judges = parser.add_mutually_exclusive_group()
    judges.add_argument("--expect", metavar="DIR", help="what the program should write, by the inputs' names, or a file of lines")
    judges.add_argument("--oracle", metavar="CMD", help="a command that judges what a run wrote by its status")
    judges.add_argument("--oracle-shell", metavar="CMD", help="the same, read by a shell: for words with ; | $ and the like")
    parser.add_argument("--oracle-timeout", metavar="SECONDS", type=number_between(1, 86400), default=10, help="how long the oracle may take for a run (10)")
    parser.add_argument("--hangs", choices=["neither", "fail"], default="neither", help="what a run counts as that goes back too often (neither)")
    parser.add_argument("--status", choices=["ignore", "fail"], default="ignore", help="whether a run that ends with a status other than 0 has failed (ignore: its output decides)")
    parser.add_argument("--since", metavar="OLD", help="the old version, a file or a folder: what fails in the new one alone is hunted")
    parser.add_argument("--changed", choices=["ignore", "fail"], default="ignore", help="whether an output other than the old version's has failed, where nothing else judges (ignore)")
    parser.add_argument("--minimize", action="store_true", help="makes the smallest failing input smaller, by lines and then by bytes, as long as it fails alike")
    parser.add_argument("--mutate", metavar="N", type=number_between(1, 1000000), help="makes N inputs more from those given, each of which sees something new")
    parser.add_argument("--neighbours", metavar="N", type=number_between(1, 100000), help="makes N inputs near the smallest failing one, for where few inputs fail: it is made smaller, and then changed by lines, tokens and bytes")
    parser.add_argument("--rate", metavar="D", type=number_between(1, 65536), help="one visit in D is looked at, on average (1: each)")
    parser.add_argument("--runs", metavar="N", type=number_between(1, MOST_NUMBER), help="how many runs; inputs are taken in turn (one run an input, which at rate 1 is the most, since more would be copies)")
    parser.add_argument("--seed", metavar="S", type=number_between(0, 2 ** 64 - 1), default=1, help="which countdowns the runs have (1)")
    parser.add_argument("--turns", metavar="T", type=number_between(0, 100000000), default=TURNS, help="how often a run may go back before it is cut (1000000)")
    parser.add_argument("--schemes", metavar="LIST", help="which sites are looked at: branches, returns, pairs (all)")
    parser.add_argument("--jobs", metavar="J", type=number_between(1, 1024), help="how many runs go on at a time (one a processor)")
    parser.add_argument("--policy", choices=["all", "failing", "relabel"], default="all", help="what is done with the runs that a row explains (all)")
    parser.add_argument("--keep", metavar="DIR", help="keeps everything in this folder, which a later call goes on with")
    parser.add_argument("--all", action="store_true", help="shows weak facts too, and the rows of the ranking with what falls with each")
    parser.add_argument("--html", metavar="FILE", help="writes the page of cbi-show there as well")
    parser.add_argument("--farm", metavar="FILE", help="shares the runs out over the hosts of this file, by GNU parallel's --sshloginfile, or as arrays of jobs where it is slurm; each has cbi and python3 on its path")
    parser.add_argument("--parts", metavar="N", type=number_between(1, 65536), default=1, help="shares the sites out over N programs, so that each run looks at a part of them (1)")
    parser.add_argument("--cbi", metavar="PATH", default="cbi", help="the executable (cbi, from the path)")
    chosen = parser.parse_args(own)
    if chosen.changed == "fail" and (not chosen.since or chosen.expect or chosen.oracle or chosen.oracle_shell):
        parser.error("--changed fail asks for --since, and for no --expect or --oracle")
    chosen.text, chosen.cpp, chosen.ported = chosen.texts[0], [*for_preprocessor(chosen), *cpp], False
    return chosen
