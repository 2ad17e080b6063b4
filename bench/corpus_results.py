"""The file of results: what was measured, as JSON, and how an older file is read."""
import json
import os
from typing import Any, Dict

from corpus_scores import FORMULAS

Results = Dict[str, Any]
PARTS = ("programs", "faults", "three", "tables", "not taken", "seconds", "processor")


class ResultsError(Exception):
    """A file that isn't one of results."""


def as_of_today(fault: Results) -> Results:
    """What was measured of a fault, from a file in which `exam` was of the lines alone for coverage and of the lines around them too for all else,
    and lines by chance had the mean place of the first right one of m in n, which is (n + 1) / (m + 1)."""
    for way, found in fault["ways"].items():
        if "exam" in found:
            alone = found.pop("exam")
            found.setdefault("walk", None if way == "chance" else alone)
            found["alone"] = alone if way.split(" ")[0] in FORMULAS else None
    chance = fault["ways"].pop("chance", None)
    if chance is not None:
        coded = len(fault["coded"])
        fault["right"] = {"coded": coded, **{what: round((coded + 1) / chance[what]) - 1 for what in ("line", "near", "function")}}
    return fault


def load(path: str) -> Results:
    """What was measured by now; nothing where there is no such file yet."""
    results: Results = {part: {} for part in PARTS}
    try:
        if path and os.path.exists(path):
            with open(path, encoding="ascii") as file:
                results.update({part: kept for part, kept in json.load(file).items() if part in PARTS})
        if path and os.path.exists(path + ".lines"):
            with open(path + ".lines", encoding="ascii") as file:
                for line in file:
                    part, name, found = json.loads(line)
                    results[part][name] = found
        results["faults"] = {name: as_of_today(fault) for name, fault in results["faults"].items()}
    except (OSError, ValueError, KeyError, TypeError, AttributeError) as error:
        raise ResultsError(f"{path} isn't a file of results: {type(error).__name__} {error}") from error
    return results


def keep(path: str, results: Results) -> None:
    if path:
        with open(path + ".part", "w", encoding="ascii") as file:
            json.dump(results, file, indent=0, sort_keys=True)
        os.replace(path + ".part", path)
