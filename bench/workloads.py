"""The workloads: the jobs that a user of msrepack waits for, with the made-up days and archive of station.py."""
import collections
import os
import re
import subprocess
import sys

import station

# Those with a day, and the one with an archive.
NAMES, ARCHIVE = [*station.DAYS], "archive"
# The words of a run of the program, the file that has what it prints, and what that has to be, or None.
Job = collections.namedtuple("Job", "words printed wanted")
# What is printed if what was packed is least and has the segments that were read.
LEAST, SAME = re.compile(rb"least\n"), re.compile(rb"same segments [1-9]\d* samples [1-9]\d*\n.*", re.S)


def jobs_of(name):
    """What is done in a folder that has the day: it is repacked, what was written is checked, listed and compared with
    what was read; and all of this once more with that, for records of another length."""
    day = station.DAYS[name]
    given = "day"
    for packed, length in ("first", day.first), ("second", day.second):
        words = ["repack", "--no-int24", "--length", str(length), given, packed]
        yield Job(words, f"{packed}.txt", None)
        yield Job(["check", packed, f"{packed}.txt"], f"{packed}.checked", LEAST)
        yield Job(["list", packed], f"{packed}.list", None)
        yield Job(["compare", given, packed], f"{packed}.compared", SAME)
        given = packed


def jobs_of_archive():
    """What is done in a folder that has the archive, and neither `out` nor `reports`: all its days are repacked, found done,
    and verified."""
    folders, days = ["root", "out", "reports"], station.STATIONS * station.DAYS_EACH
    for kind in "done", "same":
        words = ["archive", "--resume", "--no-int24", "--length", "512", *folders]
        ends = rf"(?:channel .*\n){{{station.STATIONS}}}files {days} skipped 0 refused 0\n"
        yield Job(words, f"{kind}.txt", re.compile(rf"(?:{kind} .*\n){{{days}}}{ends}".encode()))
    ends = rf"files {days} skipped 0 refused 0 missing 0 notshown 0 differs 0 orphan 0\n"
    yield Job(["verify", *folders], "verified.txt", re.compile(rf"(?:verified .*\n){{{days}}}{ends}".encode()))


def program_of(place):
    """The program in that place, which is one, or a checkout that has one of its sources, shipped or built."""
    if os.path.isfile(place) and os.access(place, os.X_OK):
        return os.path.abspath(place)
    asked = [os.path.join(place, "tools", "program"), "--ready"]
    if not os.access(asked[0], os.X_OK):
        print(f"{place} is no program, and no checkout of msrepack", file=sys.stderr)
        sys.exit(2)
    # What is wrong it says itself.
    ended = subprocess.run(asked, stdin=subprocess.DEVNULL, stdout=subprocess.PIPE, text=True)
    return ended.stdout.rstrip("\n") if ended.returncode == 0 else sys.exit(2)
