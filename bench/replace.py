#!/usr/bin/env python3
"""Times how days change places with their records, and back, by turns with each script.

    bench/replace.py [--days N] [--samples N] [--rounds N] [--jobs N] [--folder FOLDER] [--program FILE] [SCRIPT..]
    bench/replace.py --calls [--program FILE] [SCRIPT..]

SCRIPT is cluster/replace, if none is given, or that of another commit (git archive COMMIT cluster). The days, a hundred in
a folder, have so many samples each, at 100 a second: 1,000, or those of a whole day, 8640000. All folders are made in
FOLDER. Printed are the medians of the seconds of all rounds, and each of them. --calls counts by strace the processes and
the calls of the system that one day more costs.
"""
from __future__ import annotations

import argparse
import os
import re
import shutil
import statistics
import subprocess
import sys
import tempfile
import time
from dataclasses import dataclass

import station

ROOT = os.path.dirname(os.path.dirname(os.path.realpath(__file__)))
sys.path.insert(0, os.path.join(ROOT, "tools"))
from built import program_of

NAMES = ("root", "out", "reports", "aside")
# The options of the two ways, and what they say last, before the number of days.
WAYS = {"replace": (["--older-than", "0"], "total replaced"), "undo": (["--undo"], "total restored")}


def make_archive(folder: str, days: int, samples: int, program: str) -> None:
    """An archive of days that are all alike, and its repack, stored."""
    day = station.noise_and_events(samples)
    station.write_plain(f"{folder}/day", 512, station.INT32, day)
    os.utime(f"{folder}/day", (1_600_000_000, 1_600_000_000))
    for number in range(days):
        name = f"S{number // 100:03}"
        at = f"{folder}/root/2020/XX/{name}/HHZ.D"
        os.makedirs(at, exist_ok=True)
        shutil.copy2(f"{folder}/day", f"{at}/XX.{name}.00.HHZ.D.2020.{number % 100 + 1:03}")
    words = [program, "archive", *(f"{folder}/{name}" for name in NAMES[:3])]
    subprocess.run(words, check=True, stdout=subprocess.DEVNULL)
    os.sync()


@dataclass(frozen=True)
class Run:
    script: str
    way: str

    def words(self, folder: str) -> list[str]:
        return [self.script, *WAYS[self.way][0], *(f"{folder}/{name}" for name in NAMES)]

    def ended(self, asked: argparse.Namespace, folder: str, days: int, before: tuple[str, ...] = ()) -> float:
        """The seconds that it took; it has to do all days."""
        environment = {**os.environ, "JOBS": str(asked.jobs), "MSREPACK": asked.program}
        settings = {"stdin": subprocess.DEVNULL, "stdout": subprocess.PIPE, "env": environment, "text": True}
        began = time.monotonic()
        said = subprocess.run([*before, *self.words(folder)], **settings, check=False)
        seconds = time.monotonic() - began
        last = said.stdout.splitlines()[-1:]
        if said.returncode or not last or not last[0].startswith(f"{WAYS[self.way][1]} {days} "):
            sys.exit(f"{self} ended with status {said.returncode}: {last}")
        return seconds

    def counted(self, asked: argparse.Namespace, folder: str, days: int) -> tuple[int, int]:
        """How many processes it started, and how many calls of the system all of them made."""
        file = f"{folder}/counts"
        self.ended(asked, folder, days, ("strace", "-f", "-qq", "-c", "-o", file))
        with open(file, encoding="ascii") as it:
            rows = [line.split() for line in it if re.match(r" *\d", line)]
        count = {row[-1]: int(row[3]) for row in rows}
        return sum(count.get(name, 0) for name in ("fork", "vfork", "clone", "clone3")), count["total"]


def runs_of(asked: argparse.Namespace) -> list[Run]:
    return [Run(script, way) for script in asked.scripts for way in WAYS]


def times(asked: argparse.Namespace, folder: str) -> None:
    make_archive(folder, asked.days, asked.samples, asked.program)
    seconds: dict[Run, list[float]] = {run: [] for run in runs_of(asked)}
    for _ in range(asked.rounds):
        for run, each in seconds.items():
            each.append(run.ended(asked, folder, asked.days))
    for run, each in seconds.items():
        told = " ".join(f"{one:.2f}" for one in each)
        print(f"{run.script} {run.way}: {asked.days} days, {asked.jobs} jobs: {statistics.median(each):.2f} s of {told}")


def calls(asked: argparse.Namespace, folder: str) -> None:
    """What ten days more cost, divided by ten."""
    counts: dict[tuple[Run, int], tuple[int, int]] = {}
    for days in (10, 20):
        at = f"{folder}/{days}"
        os.mkdir(at)
        make_archive(at, days, asked.samples, asked.program)
        for run in runs_of(asked):
            counts[run, days] = run.counted(asked, at, days)
    for run in runs_of(asked):
        started, made = ((more - few) / 10 for few, more in zip(counts[run, 10], counts[run, 20]))
        print(f"{run.script} {run.way}: a day starts {started:.1f} processes and makes {made:.1f} calls")


def main() -> None:
    words = argparse.ArgumentParser(description=__doc__, formatter_class=argparse.RawDescriptionHelpFormatter)
    words.add_argument("--days", type=int, default=1000)
    words.add_argument("--samples", type=int, default=1000)
    words.add_argument("--rounds", type=int, default=3)
    words.add_argument("--jobs", type=int, default=1)
    words.add_argument("--folder")
    words.add_argument("--program", metavar="FILE")
    words.add_argument("--calls", action="store_true")
    words.add_argument("scripts", nargs="*", metavar="SCRIPT", default=[f"{ROOT}/cluster/replace"])
    asked = words.parse_args()
    asked.program = program_of(asked.program)
    with tempfile.TemporaryDirectory(prefix="msrepack-bench-", dir=asked.folder) as folder:
        (calls if asked.calls else times)(asked, os.path.realpath(folder))


main()
