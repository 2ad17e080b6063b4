"""The copy of a crate in which wrong bodies are tried: code and proofs are left out but for those of the functions that are looked at."""
import os
import re
import shutil
from typing import Dict, Iterable, List, Set, Tuple

from bodies_read import PARTS, Function

Texts = Dict[Tuple[str, str], str]
# A goal that no function has. Where an answer names it, `rattle check` offers no proof files, for which it would run the prover once more; all goals are judged as they are.
NO_GOAL = "no-goal-of-this-name"
FILES = ("Proof.antt", "Answers.antt", "Invariants.antt")


def lay(root: str, crate: str, texts: Texts, place: str) -> None:
    """A copy of a crate with these texts in place of its own."""
    for part in PARTS:
        if os.path.isdir(os.path.join(root, "crates", crate, part)):
            shutil.copytree(os.path.join(root, "crates", crate, part), os.path.join(place, part))
    for (of, path), text in texts.items():
        if of == crate:
            with open(os.path.join(place, path), "w", encoding="utf-8") as it:
                it.write(text)


def proof_of(each: Function) -> str:
    """The folder of a function's proof below proofs/; functions of a ring share one."""
    module = each.file[len("src/"):-len(".rt")].split("/") if each.ring else []
    return os.path.join(*(it for it in module if it not in ("lib", "main", "mod")), "+" + each.ring) if each.ring else each.path.replace("::", os.sep)


def folder_of(place: str, each: Function) -> str:
    """The folder of a function's proof in a copy; a ring of several modules has it in a module above."""
    below = proof_of(each)
    while each.ring and os.path.dirname(below) and not os.path.isdir(os.path.join(place, "proofs", below)):
        below = os.path.join(os.path.dirname(os.path.dirname(below)), "+" + each.ring)
    return os.path.join(place, "proofs", below)


def is_declared_alone(each: Function) -> bool:
    """Whether it is a function of a trait that has no body there, and so no proof."""
    end = re.search(r"(?m)(?:;|\{\}?)$", each.text)
    return not end or end[0] == ";"


def without_code(lines: List[str], each: Function) -> None:
    """Takes the code out of a function, which keeps its lines, head and contract; one that may be called as the crate is compiled, or whose code says which type it gives, keeps its code."""
    opened = re.search(r"(?m)\{$", each.text)
    head = each.text[:opened.start()] if opened else ""
    last = each.last - 1
    if not opened or each.ring or "const fn " in head or "-> impl " in head or lines[last].strip() != "}":
        return
    first = last - each.text.count("\n") + head.count("\n") + 1
    if first < last:
        lines[first:last] = ["loop {}", *[""] * (last - first - 1)]


def leave_out(place: str, every: Iterable[Function], kept: Set[str]) -> None:
    """Leaves out the code and the proofs of all functions but these and those of traits, which a call of another function may need. What calls a function rests on its contract alone, so each goal of those that are kept stays as it is."""
    every = list(every)
    rings = {it.ring for it in every if it.path in kept}
    left = [it for it in every if it.path not in kept and not it.of_trait and not is_declared_alone(it) and not (it.ring and it.ring in rings)]
    for path in sorted({it.file for it in left}):
        with open(os.path.join(place, path), encoding="utf-8") as it:
            lines = it.read().split("\n")
        for each in left:
            if each.file == path:
                without_code(lines, each)
        with open(os.path.join(place, path), "w", encoding="utf-8") as it:
            it.write("\n".join(lines))
    for each in left:
        without_proof(place, each)


def without_proof(place: str, each: Function) -> None:
    """Has a file without a proof stand for that of a function; a ring without a folder of its own keeps the proof that the prover makes."""
    folder = folder_of(place, each)
    if each.ring and not os.path.isdir(folder):
        return
    os.makedirs(folder, exist_ok=True)
    for name in FILES:
        if os.path.isfile(os.path.join(folder, name)):
            os.remove(os.path.join(folder, name))
    with open(os.path.join(folder, FILES[0]), "w", encoding="utf-8") as it:
        it.write("-- This function isn't looked at.\n")


def offer_nothing(place: str, crate: str, looked_at: Iterable[Function]) -> None:
    """Has the answers of these functions name a goal that there is not, so that the check ends once it has judged all goals."""
    done: List[str] = []
    for each in looked_at:
        folder = folder_of(place, each)
        file = os.path.join(folder, "Answers.antt")
        if folder in done or os.path.isfile(os.path.join(folder, "Proof.antt")) or each.ring and not os.path.isfile(file):
            continue
        done.append(folder)
        os.makedirs(folder, exist_ok=True)
        text = ""
        if os.path.isfile(file):
            with open(file, encoding="utf-8") as it:
                text = it.read()
        goals = ".".join(["Rattle", crate, "proofs", *os.path.relpath(folder, os.path.join(place, "proofs")).split(os.sep), "Goals"])
        named = re.search(rf"(?m)^use {re.escape(goals)} as (\S+)$", text)
        name = named[1] if named else NO_GOAL + "s"
        with open(file, "w", encoding="utf-8") as it:
            it.write(("" if named else f"use {goals} as {name}\n") + f"{text}\n\npub {NO_GOAL} : {name}.{NO_GOAL}\n{NO_GOAL} c = c.{NO_GOAL}\n")
