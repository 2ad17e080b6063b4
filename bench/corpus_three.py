"""Three faults in one program at once: which rows are whose, by place and by runs, and where coverage has their lines.

A run has a fault where it fails with that fault alone. A row is a fault's own where, of the failing runs in which its predicate was true,
more have this fault than another one, and more than half have it.
"""
import os
from typing import Any, Dict, List, Optional, Sequence, Set, Tuple

import corpus_scores as scores
from corpus_collections import true_runs
from corpus_listed import Pointed, pointed
from corpus_measure import POLICIES, Measured, spelled
from corpus_scores import Place, Target
from corpus_subject import Bench, known_of, ranked

LOOKED = 10  # rows and bugs whose runs are told
LISTED = ("printed", "shown")


def own_row(true: Sequence[Set[int]], alone: Sequence[Set[int]], place: int) -> Optional[int]:
    """The first row of whose failing runs more have this fault than any other one, and more than half of all have it."""
    for number, seen in enumerate(true, 1):
        shares = [len(seen & one) for one in alone]
        if shares[place] == max(shares) and 2 * shares[place] > len(seen):
            return number
    return None


class Three:
    """A program with its three faults, and the runs that each of them fails alone."""

    def __init__(self, bench: Bench, count: int, failing: Dict[str, Set[int]]):
        """`failing` has those of these runs that are known already, by a fault's name."""
        self.bench, self.count = bench, count
        self.faults = bench.subject.three()
        self.alone = [{run for run in failing[fault.name] if run <= count} if fault.name in failing else self.fails_alone(number)
                      for number, fault in enumerate(self.faults)]
        self.known = known_of(bench.built("three", bench.subject.text(self.faults)))
        path, self.seconds = bench.collected(self.known.built, bench.some(count), 1, "three_runs")
        self.collection = bench.read(self.known.built, path)

    def fails_alone(self, number: int) -> Set[int]:
        fault = self.faults[number]
        built = self.bench.built(f"alone_{fault.name}", self.bench.subject.text((fault,)))
        path, _ = self.bench.collected(built, self.bench.some(self.count), 1, f"alone_{fault.name}_runs")
        labels = self.bench.read(built, path).labels
        os.remove(path)
        return {run for run, label in enumerate(labels, 1) if label == "fail"}

    def ranked(self, count: int, policy: str) -> Tuple[List[Place], List[Set[int]]]:
        """The rows of the first runs, and of each of the first rows the failing runs in which its predicate was true."""
        first = self.collection.first(count, self.collection.path + ".some")
        rows = ranked(self.bench.runs, self.known.built, first, policy).places
        return rows, true_runs(self.collection, count, self.known.counters, [row.predicate for row in rows[:LOOKED]])

    def table(self, count: int) -> Measured:
        """How many failing runs of each fault the first rows have."""
        rows, true = self.ranked(count, "all")
        alone = [{run for run in one if run <= count} for one in self.alone]
        labels = self.collection.labels[:count]
        failed = {run for run, label in enumerate(labels, 1) if label == "fail"}
        table = [[row.line, row.function, row.text, row.failing, row.successful] + [len(seen & one) for one in alone] for row, seen in zip(rows, true)]
        faults = [{"fault": fault.name, "failing alone": len(alone[place]), "own": own_row(true, alone, place)} for place, fault in enumerate(self.faults)]
        return {"program": self.bench.subject.name, "runs": len(labels), "failed": len(failed), "row count": len(rows), "table": table,
                "faults": faults, "seconds": self.seconds, "none alone": len(failed - set().union(*alone))}

    def true_of_bugs(self, listed: Pointed) -> List[Set[int]]:
        """Of each of the first bugs the failing runs in which its predicate was true."""
        return true_runs(self.collection, self.count, self.known.counters, [bug[0].predicate for bug in listed.bugs[:LOOKED]])

    def of_bugs(self, listed: Pointed, true: List[Set[int]], place: int, target: Target) -> Measured:
        """The first bug that is a fault's own by its runs; and the first that is so and of whose places one is near it."""
        own = own_row(true, self.alone, place)
        named = [number for number, (bug, seen) in enumerate(zip(listed.bugs, true), 1)
                 if own_row([seen], self.alone, place) and any(one.line in target.near for one in bug)]
        return {"own": own, "named": named[0] if named else None}

    def measured(self) -> Measured:
        """The table, the places of rows and of lines by coverage, under each policy."""
        found = self.table(self.count)
        covered, _ = self.bench.covered("cover_three", self.bench.subject.text(self.faults), self.count)
        told = [(label == "fail", lines) for label, lines in zip(self.collection.labels, covered.runs) if label != "none"]
        failures, visits = sum(failed for failed, _ in told), scores.visits(told)
        by_line = {name: scores.suspicious(formula, covered.lines, visits, failures, len(told) - failures) for name, formula in scores.FORMULAS.items()}
        by_policy = {policy: self.ranked(self.count, policy) for policy in POLICIES}
        listed = dict(zip(LISTED, pointed(self.bench.runs.cbi, self.known, self.collection.path)))
        by_list = {name: self.true_of_bugs(one) for name, one in listed.items()}
        found["bugs"] = {name: [[bug[0].line, bug[0].function, bug[0].text, bug[0].failing, bug[0].successful, *(len(seen & alone) for alone in self.alone)]
                                for bug, seen in zip(one.bugs, by_list[name])] for name, one in listed.items()}
        for place, fault in enumerate(self.faults):
            target = scores.target_of(fault.lines(), covered.lines, self.bench.functions)
            about: Dict[str, Any] = found["faults"][place]
            about["policies"] = {}
            for policy, (rows, true) in by_policy.items():
                judged = spelled(scores.found_by_rows(rows, target, covered.lines, fault.lines(), self.bench.functions))
                about["policies"][policy] = {**judged, "own": own_row(true, self.alone, place)}
            about.update(about["policies"]["all"])
            for name, one in listed.items():
                about[name] = {way: spelled(scores.found_by_rows(places, target, covered.lines, fault.lines(), self.bench.functions)) for way, places in one.lists().items()}
                about[name].update(self.of_bugs(one, by_list[name], place, target))
            about.update({name: spelled(scores.found_by_lines(lines, target, covered.lines)) for name, lines in by_line.items()})
        return found
