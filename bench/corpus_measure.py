"""What is measured of one fault. Answers are plain dictionaries, so that they can be kept as JSON.

A way is kept under its name, its rate and its number of runs, as in `rows 5 1000`; one over coverage under its name and its number of runs.
"""
import os
from typing import Any, Dict, List, Sequence, Tuple

import corpus_scores as scores
from corpus_collections import Collection, Read, observed, tallies
from corpus_files import Fault
from corpus_gcc import Covered
from corpus_listed import lists
from corpus_scores import Found, Place
from corpus_subject import Bench, Known, best_pair, chosen_places, first_card, known_of, program_of, ranked, shown, without_pairs

Measured = Dict[str, Any]
POLICIES = ("all", "failing", "relabel")
TOLD_RUNS = 1000  # of which it is told which failed


def spelled(found: Found) -> Measured:
    return dict(found._asdict())


class Look:
    """A fault that is being measured: its program, also with fewer sites, where it is, and what was found of it so far."""

    def __init__(self, bench: Bench, fault: Fault, known: Known, coded: List[int], found: Measured):
        self.bench, self.fault, self.known, self.coded, self.found = bench, fault, known, coded, found
        self.lines = known.lines()
        self.narrow, self.fewer = without_pairs(bench.runs, known.built)
        self.target = scores.target_of(fault.lines(), coded, bench.functions)
        self.ways: Dict[str, Measured] = found["ways"]

    def judge(self, places: Sequence[Place]) -> Measured:
        return spelled(scores.found_by_rows(places, self.target, self.coded, self.fault.lines(), self.bench.functions))

    def judge_lines(self, by_line: Dict[int, float]) -> Measured:
        return spelled(scores.found_by_lines(by_line, self.target, self.coded))

    def add_lines(self, name: str, by_line: Dict[int, float]) -> None:
        """A list of lines as it comes, and with one line for each three around it."""
        self.ways[name] = self.judge_lines(by_line)
        self.ways[f"thin-{name}"] = spelled(scores.found_by_thinned(by_line, self.target, self.coded, self.bench.functions))


class Measure:
    """The measurements of a program's faults."""

    def __init__(self, bench: Bench, rates: Sequence[int], counts: Sequence[int], spread: Sequence[int]):
        """`spread` is a number of runs, and how many of them an input has."""
        self.bench, self.rates, self.counts, self.spread = bench, rates, sorted(counts), spread
        self.most = self.counts[-1]

    def right_version(self, count: int) -> Measured:
        """The right version run by `cbi` on some of the inputs: none of these runs may fail."""
        bench = self.bench
        built = bench.built("right_version", bench.subject.text())
        path, seconds = bench.collected(built, bench.some(min(count, self.most)), 1, "right_runs")
        labels = bench.read(built, path).labels
        return {"runs": len(labels), "failed": labels.count("fail"), "cut": labels.count("none"), "seconds": seconds,
                "ported": built.lines is not None, "sites": len(program_of(built).sites), "lines": len(bench.subject.lines)}

    def fault(self, fault: Fault) -> Measured:
        """All that is measured of a fault: with each visit observed, beside coverage on the same runs, and at the other rates."""
        bench, text = self.bench, self.bench.subject.text((fault,))
        known = known_of(bench.built(fault.name, text))
        path, seconds = bench.collected(known.built, bench.some(self.most), 1, f"{fault.name}_rate1")
        covered, covering = bench.covered(f"cover_{fault.name}", text, self.most)
        found: Measured = {"program": fault.program, "fault": fault.name, "kind": fault.kind, "kept": fault.kept, "new": fault.new, "coded": covered.lines, "ways": {}, "judged": {}, "listed": {},
                           "site lines": {}, "times": {f"coverage {self.most}": covering, f"runs 1 {self.most}": seconds}}
        look = Look(bench, fault, known, covered.lines, found)
        labels, rows = self.by_predicates(look, path, 1)
        found["rows"] = [[place.line, place.function, place.text, place.failing, place.successful] for place in rows[:5]]
        found["row count"] = len(rows)
        found.update(self.runs_told(labels, covered))
        self.by_coverage(look, covered, labels)
        for rate in self.rates:
            if rate != 1:
                self.sampled(look, rate)
        return found

    def runs_told(self, labels: Sequence[str], covered: Covered) -> Measured:
        """How the runs went; `fails` are the first that failed, by which it is told whose a run with several faults is."""
        other = self.bench.other_output(self.most)
        failed = [run for run, label in enumerate(labels, 1) if label == "fail"]
        return {"runs": len(labels), "failed": len(failed), "cut": labels.count("none"), "crashed": sum(status > 127 for status in covered.statuses),
                "failing": {str(count): sum(run <= count for run in failed) for count in self.counts}, "fails": [run for run in failed if run <= TOLD_RUNS],
                "failed by gcc alone": sum(other[run - 1] or covered.statuses[run - 1] > 127 for run in failed)}

    def sampled(self, look: Look, rate: int) -> None:
        """With banks of a mean distance: a run on each input, and several runs on each of fewer inputs."""
        name, built = look.fault.name, look.known.built
        path, seconds = self.bench.collected(built, self.bench.some(self.most), rate, f"{name}_rate{rate}")
        look.found["times"][f"runs {rate} {self.most}"] = seconds
        self.by_predicates(look, path, rate)
        if self.spread and self.spread[0] <= self.most:
            count, times = self.spread
            path, _ = self.bench.collected(built, self.bench.some(count, times), rate, f"{name}_again{rate}")
            collection = self.bench.read(built, path, [count])
            look.ways[f"again rows {rate} {count} {times}"] = look.judge(ranked(self.bench.runs, built, path).places)
            for name, by_line in scores.by_line(tallies(collection, count, look.known.counters), look.lines).items():
                look.ways[f"again {name} {rate} {count} {times}"] = look.judge_lines(by_line)
            for name, places in lists(self.bench.runs.cbi, look.known, path).items():
                look.ways[f"again {name} {rate} {count} {times}"] = look.judge(places)
            os.remove(path)

    def by_predicates(self, look: Look, path: str, rate: int) -> Tuple[List[str], List[Place]]:
        """What `cbi` says of the first runs of a collection, of more of them, and of all; answers their labels and the rows of all. The collection goes."""
        runs, rows = self.bench.runs, []
        read = self.bench.read_fewer(path, self.counts, look.fewer)
        for count in self.counts:
            rows = self.rank_all(look, read, rate, count)
            fewer, narrow = read.fewer.first(count, f"{path}.first"), read.narrow.first(count, f"{path}.first_narrow")
            look.ways[f"card {rate} {count}"] = look.judge(first_card(runs, look.known, fewer))
            look.ways[f"narrow {rate} {count}"] = look.judge(ranked(runs, look.narrow, narrow).places)
            whole = read.whole.first(count, f"{path}.first_whole")
            if rate == 1:
                look.ways[f"pair {rate} {count}"] = look.judge(best_pair(runs, look.known, whole))
            for name, places in lists(runs.cbi, look.known, whole).items():
                look.ways[f"{name} {rate} {count}"] = look.judge(places)
                look.found["listed"][f"{name} {rate} {count}"] = [[place.line, place.function, place.text, place.failing, place.successful, place.importance] for place in places[:5]]
            self.without_elimination(look, read.whole, rate, count)
        look.found["site lines"][str(rate)] = read.whole.lines / max(1, len(read.whole.labels))
        for collection in read:
            os.remove(collection.path)
        return read.whole.labels, rows

    def rank_all(self, look: Look, read: Read, rate: int, count: int) -> List[Place]:
        """The rows under each policy, and as `cbi-hunt` shows those of the first one; answers these as they come. Of all runs with each visit observed
        the whole collection is ranked, so that it is told how long that takes."""
        runs, path = self.bench.runs, read.fewer.first(count, f"{read.whole.path}.ranked")
        for policy in POLICIES[1:]:
            look.ways[f"{policy} {rate} {count}"] = look.judge(ranked(runs, look.known.built, path, policy).places)
        whole = rate == 1 and count == self.most
        ranking = ranked(runs, look.known.built, read.whole.path if whole else path)
        if whole:
            look.found["times"][f"rank {rate} {count}"] = ranking.seconds
        sections = shown(look.known, ranking, observed(read.whole.marks[count], look.known.counters))
        look.ways[f"rows {rate} {count}"] = look.judge(ranking.places)
        look.ways[f"shown {rate} {count}"] = {**look.judge(sections.leading + sections.folded), "leading": len(sections.leading)}
        look.found["judged"][f"{rate} {count}"] = [[row.importance, row.failing, row.successful, row.line in look.target.near, why]
                                                   for row, why in zip(ranking.places, sections.why)]
        return ranking.places

    def without_elimination(self, look: Look, collection: Collection, rate: int, count: int) -> None:
        """Predicates, and lines by their predicates, where no run is set aside."""
        found, places = tallies(collection, count, look.known.counters), look.known.places
        for name, by_line in scores.by_line(found, look.lines).items():
            look.add_lines(f"{name} {rate} {count}", by_line)
        look.ways[f"increase {rate} {count}"] = look.judge(chosen_places(places, scores.by_increase(found)))
        look.ways[f"importance {rate} {count}"] = look.judge(chosen_places(places, scores.by_importance(found)))

    def by_coverage(self, look: Look, covered: Covered, labels: Sequence[str]) -> None:
        """The three formulas over coverage, with the labels that `cbi` gave these runs."""
        for count in self.counts:
            told = [(label == "fail", lines) for label, lines in zip(labels[:count], covered.runs) if label != "none"]
            failures = sum(failed for failed, _ in told)
            visits = scores.visits(told)
            for name, formula in scores.FORMULAS.items():
                look.add_lines(f"{name} {count}", scores.suspicious(formula, look.coded, visits, failures, len(told) - failures))
        look.found["right"] = dict(scores.right_lines(look.target, look.coded)._asdict())
