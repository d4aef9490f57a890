"""The parts of ./test, as jobs: each holds the program against something that was made apart from it."""
import os
import pty
import re
import subprocess
import sys
from collections import Counter

import compare
import feed_live
import pages
import play
import same_segments
from jobs import Job, Result

HERE = os.path.dirname(os.path.realpath(__file__))
# How many files are made at random, and how many a job has; and for how many there are pairs.
FILES, EACH, FILES_OF_PAIRS = 300, 10, 20
# The scripts that count for themselves.
HINTS, REDIRECTS = (sys.executable, f"{HERE}/hints"), ("sh", f"{HERE}/redirects")
# The tests of the Python package, which tell what they skip.
PACKAGE = f"{os.path.dirname(HERE)}/python/tests"
SKIPPED = "skipped: "


def told(lines):
    return "".join(f"{line}\n" for line in lines)


def files(program, numbers):
    """All commands over the files of these numbers, which are made at random, against the model."""
    wrong = []
    for number in numbers:
        try:
            _, differ, _ = compare.compare((program, number))
        except OSError as why:
            differ = [str(why)]
        if differ:
            wrong.append(f"file {number}: {' '.join(differ)}")
    return Result(len(numbers) - len(wrong), len(wrong), told=told(wrong))


def pairs(program, make, *given):
    """`compare` over pairs of files, against the model and what is known of them."""
    counts, wrong = same_segments.compare_all((program, make, given))
    return Result(sum(counts.values()) - len(wrong), len(wrong), told=told(wrong))


def counted(*words):
    """What a script says in its last line, if its status says the same."""
    done = subprocess.run(words, stdin=subprocess.DEVNULL, stdout=subprocess.PIPE, stderr=subprocess.STDOUT, check=False)
    *lines, last = ["", *done.stdout.decode(errors="replace").splitlines()]
    found = re.fullmatch(r"(\d+) passed, (\d+) failed", last)
    if not found or (found[2] == "0") != (done.returncode == 0):
        return Result(failed=1, told=told([*lines, last, f"{words[1]} ended with status {done.returncode}"]))
    return Result(int(found[1]), int(found[2]), told=told(lines[1:]))


def hints(program):
    """The hints at a terminal, where there can be one."""
    try:
        for end in pty.openpty():
            os.close(end)
    except OSError:
        return Result(skipped={"hints at a terminal: this system gives none (/dev/pts)": 1})
    return counted(*HINTS, program)


def package(program, module):
    """A module of the Python package's tests."""
    words = [sys.executable, PACKAGE, program, module]
    done = subprocess.run(words, stdin=subprocess.DEVNULL, stdout=subprocess.PIPE, stderr=subprocess.STDOUT, check=False)
    *lines, last = done.stdout.decode(errors="replace").splitlines() or [""]
    found = re.fullmatch(r"(\d+) passed, (\d+) failed, \d+ skipped", last)
    if not found or (found[2] == "0") != (done.returncode == 0):
        return Result(failed=1, told=told([*lines, last, f"{module} ended with status {done.returncode}"]))
    why = Counter(f"the package: {line[len(SKIPPED):]}" for line in lines if line.startswith(SKIPPED))
    return Result(int(found[1]), int(found[2]), why, told(line for line in lines if not line.startswith(SKIPPED)))


def jobs(program):
    """All of them, the longest first."""
    yield Job("script of runs", play.script, (program,))
    yield Job("hints at a terminal", hints, (program,))
    yield Job("redirections by a shell", counted, (*REDIRECTS, program))
    for name in sorted(os.listdir(PACKAGE)):
        if name.startswith("test_"):
            yield Job("the Python package", package, (program, name[: -len(".py")]))
    for name, content in feed_live.inputs():
        yield Job("feed through a live pipe", feed_live.feed, (program, name, content))
    for number in range(FILES_OF_PAIRS):
        yield Job("pairs of files", pairs, (program, same_segments.pairs_at_random, number))
    for name in same_segments.files():
        yield Job("pairs of files", pairs, (program, same_segments.pairs_of, name))
    yield Job("pairs of files", pairs, (program, same_segments.by_hand))
    for first in range(0, FILES, EACH):
        yield Job("files made at random", files, (program, range(first, first + EACH)))
    for page in pages.PAGES:
        yield Job("recipes of the pages", pages.play, (program, page))
