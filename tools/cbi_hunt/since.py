"""Two versions on the same inputs: what fails in the new one alone is hunted, and what fails in both is set aside. Not proved.

The old version is compiled and judged as the new one is, in a folder of its own, with a run for each input. Reports of the new version keep their labels in
the batches; what is set aside counts as neither when runs are counted, and in the collection that is ranked.
"""
import argparse
import copy
import difflib
import os
from typing import Dict, Iterator, List, NamedTuple, Optional, Tuple

from cbi_show import files
from cbi_hunt.again import Repeater, program_for
from cbi_hunt.counts import Count, Told
from cbi_hunt.inputs import Inputs
from cbi_hunt.kept import Kept
from cbi_hunt.making import make_runs
from cbi_hunt.runs import Plan
from cbi_hunt.texts import text_of
from cbi_show.files import Fault, status_of
from cbi_show.hunted import Since

WITH_NAME = ("-I", "-include", "-iquote", "-isystem")


class Before(NamedTuple):
    """How the old version did: its texts, the inputs on which it failed, and whether an output other than its own has failed."""
    texts: List[str]
    failing: Dict[int, str]
    changed: bool
    status: bool

    def label(self, place: int, outcome: str, label: str) -> str:
        """What a run of the new version counts as. Where the old one failed its output is no measure of the new one's, which then failed only by how it ended."""
        if place not in self.failing or label != "fail":
            return label
        judged = self.changed and outcome.startswith("ended") and not (self.status and status_of(outcome))
        return "pass" if judged else "none"


# The old version's files

def old_text(since: str, text: str) -> str:
    """The old version of a file: of a folder the one with the same path, or else with the same name."""
    if not os.path.isdir(since):
        return since
    inside = [] if os.path.isabs(text) else [os.path.join(since, os.path.normpath(text))]
    for path in [*inside, os.path.join(since, os.path.basename(text))]:
        if os.path.isfile(path):
            return path
    raise Fault(f"--since {since}: there is no {text} in it")


def old_options(since: str, options: List[str]) -> List[str]:
    """The options of the preprocessor for the old version: what they name is taken from its folder, where it is there."""
    def there(name: str) -> str:
        path = os.path.join(since, name)
        return path if os.path.isdir(since) and not os.path.isabs(name) and os.path.exists(path) else name

    found: List[str] = []
    for word in options:
        named = found[-1] in WITH_NAME if found else False
        found.append(there(word) if named else "-I" + there(word[2:]) if word.startswith("-I") and len(word) > 2 else word)
    return found


def old_words(chosen: argparse.Namespace) -> argparse.Namespace:
    """The words of a hunt of the old version. It isn't compared with gcc: the new one is."""
    if len(chosen.texts) > 1 and not os.path.isdir(chosen.since):
        raise Fault(f"--since {chosen.since}: of several files it is the folder with their old versions")
    old = copy.copy(chosen)
    old.texts = [old_text(chosen.since, text) for text in chosen.texts]
    if [os.path.realpath(path) for path in old.texts] == [os.path.realpath(path) for path in chosen.texts]:
        raise Fault(f"--since {chosen.since}: the old version is the same file as the new one")
    old.text, old.cpp, old.ported, old.check, old.parts, old.rate, old.farm, old.keep = old.texts[0], old_options(chosen.since, chosen.cpp), False, False, 1, 1, None, None
    return old


# Its runs

def outputs_of(old: argparse.Namespace, plan: Plan, kept: Kept, inputs: Inputs) -> List[str]:
    """What the old version wrote on each input, as files."""
    folder = kept.path("outputs")
    os.makedirs(folder, exist_ok=True)
    program, repeater, told = program_for(old, plan.cbi, kept, "plain"), Repeater(plan, kept.folder), Told()
    paths = [os.path.join(folder, str(place)) for place in range(len(inputs.paths))]
    for place, (path, target) in enumerate(zip(inputs.paths, paths)):
        told.show(f"the old version: {place} of {len(paths)} outputs")
        repeater.run(program, path)
        os.replace(repeater.output, target)
    told.clear()
    repeater.close()
    return paths


def make_old(chosen: argparse.Namespace, plan: Plan, folder: str, inputs: Inputs) -> Tuple[Before, Optional[List[str]]]:
    """Compiles and runs the old version; answers how it did, and where these are what is expected, its outputs."""
    old, kept = old_words(chosen), Kept(os.path.join(folder, "since"))
    text_of(old, plan.cbi, kept, inputs)
    own = plan._replace(program=program_for(old, plan.cbi, kept, "plain"), rate=1, parts=(), names=inputs.names, inputs=[os.path.abspath(path) for path in inputs.paths],
                        expected=inputs.expected and [os.path.abspath(path) for path in inputs.expected])
    kept.settle({"program": files.read_program(kept.path("program")).identity, "inputs": inputs.digest(), "oracle": chosen.oracle or chosen.oracle_shell, "turns": plan.turns,
                 "hangs": chosen.hangs, "status": chosen.status})
    count, whole = make_runs(old, own, kept, len(own.inputs))
    if not whole:
        raise KeyboardInterrupt
    changed = chosen.changed == "fail"
    return Before(old.texts, count.failing_inputs, changed, plan.status), outputs_of(old, own, kept, inputs) if changed else None


# What came of it

def set_aside(path: str, plan: Plan, before: Before) -> None:
    """Gives the runs of a collection the labels that they have beside the old version."""
    with open(path, "rb") as lines, open(path + ".part", "wb") as out:
        out.writelines(relabelled(lines, plan, before))
    os.replace(path + ".part", path)


def relabelled(lines: Iterator[bytes], plan: Plan, before: Before) -> Iterator[bytes]:
    for line in lines:
        if line.startswith(b"run "):
            words = line.split(b" ")
            at = words.index(b"label") + 1
            words[at] = before.label(plan.input_of(int(words[1])), b" ".join(words[2:at - 1]).decode("ascii"), words[at].decode("ascii")).encode("ascii")
            line = b" ".join(words)
        yield line


def since_of(chosen: argparse.Namespace, before: Before, count: Count, names: List[str]) -> Since:
    """How the two versions did, by inputs."""
    seen = {count.plan.input_of(mark.run) for mark in count.marks}
    both = sorted(place for place in before.failing if place in seen and place in count.aside)
    mended = [place for place in before.failing if place in count.succeeded_inputs and place not in count.aside]
    return Since(chosen.since, len(count.failing_inputs), len(both), len(mended), len(seen), [names[place] for place in both[:3]], changed_lines(before.texts, chosen.texts))


def changed_lines(old: List[str], new: List[str]) -> Dict[str, List[int]]:
    """The lines of the new version that the old one hasn't, file by file, and those before which some were taken out."""
    found: Dict[str, List[int]] = {}
    for before, now in zip(old, new):
        lines = files.read_source(now)
        matcher = difflib.SequenceMatcher(None, files.read_source(before), lines, autojunk=False)
        spans = [(start, max(end, start + 1)) for tag, _, _, start, end in matcher.get_opcodes() if tag != "equal"]
        found[now] = [line + 1 for start, end in spans for line in range(start, min(end, len(lines)))]
    return found
