"""From files to one text: what can't be kept in one way is tried in the other, and all refusals are told at once."""
import re
from typing import Any, Callable, Dict, List, Optional, Sequence, Tuple

from cbi_port import Ported, Problem, Refused, cleanups, nested, unreached
from cbi_port.beginnings import put_before_main
from cbi_port.compiler import in_its_words
from cbi_port.kinds import Concluded, rounds
from cbi_port.lines import Refusal, Token
from cbi_port.long_jumps import JUMPS, rewrite
from cbi_port.program import Program
from cbi_port.reader import NO_HEADER, PreprocessorFailed, Unit, flags_of, pieces, read
from cbi_port.system import Named

# What a text of the dialect may have (docs/reference/LANGUAGE.md).
MOST_TOKENS, MOST_BYTES = 100000, 1048576


def port_files(files: Sequence[str], options: List[str], args: Any, stderr: bool, memory: str, named: Named = (), wrap: bool = False, values: str = "none") -> Ported:
    """See `cbi_port.port`."""
    tokens: List[Token] = [Token("mark", "", files[0] if files else "", 1)]
    missing: List[Problem] = []
    units: List[Unit] = []
    unread: List[Tuple[str, List[Refusal]]] = []
    for file in files:
        problems: List[Refusal] = []
        try:
            units.append(read(file, options, tokens, problems, missing))
            unread.append((file, problems))
        except PreprocessorFailed as failed:
            missing.extend(told_by_preprocessor(failed))
    units, left = unreached.leave_out(units, tokens, unread, not missing)
    if missing or any(problems for _, problems in unread):
        raise Refused(of_the_rest(missing, unread, units, tokens, options, args, stderr))
    unwound: List[Refusal] = []
    written_out(units, unwound)
    if any(token.text in JUMPS for token in tokens):
        rewrite(units, unwound)
    size = len(tokens)
    first: Optional[Program] = None

    def made(way: str, concluded: Optional[Concluded] = None) -> Tuple[Program, Ported]:
        del tokens[size:]
        program = Program(units, tokens, way, args, stderr, named, wrap, values, concluded)
        program.problems.extend(unwound)
        return program, run(program)

    for way in ("cells", "bytes", "flat") if memory == "auto" else ("bytes", "flat") if memory == "bytes" else (memory,):
        program, ported = made(way) if way != "cells" else with_kinds(made, rounds(tokens))
        large = [] if program.problems else too_large(ported, tokens)
        if not program.problems and not large:
            return ported._replace(liberties=notes_of_memory(way, memory, first, tokens) + left + ported.liberties)
        if way == "cells" and memory == "auto" and any(it.bytes_do for it in program.problems):
            # What else is refused may come of what bytes do.
            first = program
        elif not (way == "bytes" and large):
            raise Refused(ordered(large or [it for it in program.problems if not it.bytes_do] or program.problems, tokens, files))
    raise AssertionError("no model of memory")


def with_kinds(made: Callable[..., Tuple[Program, Ported]], times: int) -> Tuple[Program, Ported]:
    """A translation into cells, again with what it concluded of pointers where it fails without, or where memory has looser bounds without."""
    program, ported = made("cells")
    for _ in range(times):
        concluded, fails = program.kinds.concluded(), any(it.bytes_do for it in program.problems)
        if len(concluded) == len(program.kinds.before) or not (fails or not program.problems and program.kinds.is_loose()):
            break
        another, text = made("cells", concluded)
        if another.problems and not program.problems:
            break
        program, ported = another, text
    return program, ported


def written_out(units: Sequence[Unit], problems: List[Refusal]) -> None:
    """Brings what GNU C has beside C99 to statements of C99, once for all ways to keep memory."""
    nested.bind(units, problems)
    cleanups.write_out(units, problems)
    put_before_main(units, problems)


def notes_of_memory(way: str, asked: str, first: Optional[Program], tokens: Sequence[Token]) -> List[str]:
    """The sentence on how memory is kept; `first` is the program that cells couldn't keep."""
    unbounded = "bounds and ends of objects aren't looked at, since the text would be too large with that" if way == "flat" and asked != way else ""
    if first is None:
        return [unbounded] if unbounded else []
    why = min((it for it in first.problems if it.bytes_do), key=lambda it: it.at).problem(tokens)
    return [f"memory is kept as bytes, for {why.construct} at {why.file}:{why.line}" + (f": {unbounded}" if unbounded else "")]


def of_the_rest(missing: Sequence[Problem], unread: Sequence[Tuple[str, List[Refusal]]], units: List[Unit], tokens: List[Token], options: List[str], args: Any,
                stderr: bool) -> List[Problem]:
    """The headers that aren't there, what can't be read, and of what else is refused that which doesn't come of these."""
    size = len(tokens)
    found: List[Problem] = []
    for file, problems in unread:
        parsed = [it for it in problems if it.span == (0, 0)]
        found.extend(it.problem(tokens) for it in parsed if it.sure or not missing)
        if not missing:
            found.extend(in_its_words([it for it in problems if it.span != (0, 0)], tokens, file, flags_of(options)))
    if units:
        written_out(units, [])
        program = Program(units, tokens, "bytes", args, stderr)
        program.partial = True
        run(program)
        found.extend(it.problem(tokens) for it in program.problems if not it.bytes_do and (it.at < size or it.sure))
    order = {file: at for at, file in enumerate(dict.fromkeys(token.file for token in tokens))}
    return list(dict.fromkeys([*missing, *sorted(found, key=lambda it: (order.get(it.file, -1), it.line))]))


def run(program: Program) -> Ported:
    """A translation; what the tool itself stumbles over is a refusal too, where it stumbles."""
    try:
        return program.run()
    except Refusal as refusal:
        program.problems.append(refusal)
    except RecursionError:
        program.problems.append(Refusal(program.last_place, "what nests too deep", "its inner part in a variable or a function of its own"))
    except (AttributeError, AssertionError, IndexError, KeyError, TypeError, ValueError) as error:
        what = f"what cbi-port doesn't take ({type(error).__name__}: {error})"
        program.problems.append(Refusal(program.last_place, what, "simpler C for it; it is a defect of the tool"))
    return Ported(b"", [], [], [], {})


def too_large(ported: Ported, tokens: Sequence[Token]) -> List[Refusal]:
    """A text that `cbi` would refuse for its size."""
    if len(ported.text) <= MOST_BYTES and (len(ported.text) <= MOST_TOKENS or len(pieces(ported.text.decode("latin-1"), "")) <= MOST_TOKENS):
        return []
    return [Refusal(0, what_is_too_large(ported), "fewer files, or less in them; a table that can be read goes into a file of its own (`--file NAME=PATH`)")]


def what_is_too_large(ported: Ported) -> str:
    """How large a text is, how large it may be, and which files it comes of, the largest share first."""
    rows = ported.text.decode("latin-1").split("\n")
    sizes = [len(pieces(row, "")) for row in rows]
    total = sum(sizes)
    what = f"{total:,} tokens, of which {MOST_TOKENS:,}" if total > MOST_TOKENS else f"{len(ported.text):,} bytes, of which {MOST_BYTES:,}"
    shares: Dict[str, int] = {}
    for line, size in zip(ported.lines, sizes):
        shares["what is added"] = shares.get("what is added", 0) + size * line.added
        if not line.added:
            shares[line.file] = shares.get(line.file, 0) + size
    largest = sorted(((size, name) for name, size in shares.items() if 100 * size >= total), reverse=True)[:8]
    told = ", ".join(f"{name} {100 * size // total} %" for size, name in largest)
    return f"a program whose text has {what} may be{' (' + told + ')' if told else ''}"


def ordered(problems: Sequence[Refusal], tokens: Sequence[Token], files: Sequence[str]) -> List[Problem]:
    found = [it.problem(tokens) for it in sorted(problems, key=lambda it: it.at)]
    return list(dict.fromkeys(found))


def told_by_preprocessor(failed: PreprocessorFailed) -> List[Problem]:
    problems = []
    for row in failed.told.splitlines():
        found = re.match(r"(.*?):(\d+)(?::\d+)?:\s*(?:fatal )?error:\s*(.*)", row)
        if found:
            what = found[3]
            missing = re.match(r"(.*?): No such file", what)
            advice = NO_HEADER if missing else "`-D` with the name that it asks for" if what.startswith("#error") else "a directive that `gcc -E` takes"
            problems.append(Problem(found[1], int(found[2]), f"`#include` of {missing[1]}" if missing else what, advice))
    return problems or [Problem(failed.file, 1, "the preprocessor failed: " + failed.told.strip()[:200], "a text that `gcc -E` takes")]
