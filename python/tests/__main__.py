"""Runs the tests: python3 python/tests [PROGRAM [MODULE..]]. PROGRAM is msrepack, MODULE as test_files; without them it is
the program that the package finds, and all modules.

What failed is told, then each test that was skipped, with its reason. The last line is `N passed, N failed, N skipped`; the
status is 0 if none failed, 2 if there is no program, which a line tells.
"""
import os
import signal
import sys
import unittest

HERE = os.path.dirname(os.path.realpath(__file__))
sys.path.insert(0, os.path.dirname(HERE))
sys.dont_write_bytecode = True
from msrepack import NotFound, find_program


def asked():
    """The tests of the modules that are named, or of all."""
    loader = unittest.defaultTestLoader
    sys.path.insert(0, HERE)
    return loader.loadTestsFromNames(sys.argv[2:]) if sys.argv[2:] else loader.discover(HERE)


def main():
    # A shell has what it starts in the background ignore Ctrl-C, and so would each process that a test starts.
    signal.signal(signal.SIGINT, signal.default_int_handler)
    if sys.argv[1:]:
        os.environ["MSREPACK"] = os.path.abspath(sys.argv[1])
    try:
        find_program()
    except NotFound as why:
        print(f"python/tests: {why}", file=sys.stderr)
        return 2
    with open(os.devnull, "w", encoding="utf-8") as nothing:
        result = unittest.TextTestRunner(stream=nothing).run(asked())
    faults = result.failures + result.errors
    for test, why in faults:
        print(f"{test}\n{why}")
    for _, why in result.skipped:
        print(f"skipped: {why}")
    # A test that failed in more than one case is one that failed.
    failed = len({getattr(test, "test_case", test).id() for test, _ in faults})
    skipped = len(result.skipped)
    print(f"{result.testsRun - failed - skipped} passed, {failed} failed, {skipped} skipped")
    return 0 if result.wasSuccessful() else 1


if __name__ == "__main__":
    sys.exit(main())
