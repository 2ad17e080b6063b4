"""Looks at what no proof can see of the process: its words, statuses and streams.

usage: test_process.py CBI [NAME..]      the tests in whose names one of these stands, or all
"""
import os
import sys
import unittest

sys.dont_write_bytecode = True
import test_process_bugs  # noqa: E402
import test_process_collections  # noqa: E402
import test_process_files  # noqa: E402
import test_process_lists  # noqa: E402
import test_process_samples  # noqa: E402
import test_process_streams  # noqa: E402
import test_process_studies  # noqa: E402
import test_process_texts  # noqa: E402
from process_base import HAS_FULL, Looks  # noqa: E402

MODULES = (
    test_process_files,
    test_process_collections,
    test_process_bugs,
    test_process_texts,
    test_process_samples,
    test_process_studies,
    test_process_lists,
    test_process_streams,
)


def main() -> int:
    if len(sys.argv) < 2 or sys.argv[1].startswith("-"):
        print(__doc__, end="")
        return 2
    Looks.cbi = os.path.abspath(sys.argv[1])
    loader = unittest.TestLoader()
    if sys.argv[2:]:
        loader.testNamePatterns = [f"*{name}*" for name in sys.argv[2:]]
    tests = unittest.TestSuite(loader.loadTestsFromModule(module) for module in MODULES)
    if not HAS_FULL:
        print("checks/process: no /dev/full here, so a full out was not tried")
    result = unittest.TextTestRunner(stream=sys.stdout, verbosity=0).run(tests)
    faults = len(result.failures) + len(result.errors)
    beside = faults - (Looks.made - Looks.passed)
    told = f", and {beside} tests ended before a look" if beside else ""
    print(f"checks/process: {Looks.made} looks in {result.testsRun} tests: {Looks.passed} passed, {Looks.made - Looks.passed} failed{told}")
    return 1 if faults or not Looks.passed else 0


if __name__ == "__main__":
    sys.exit(main())
