#!/usr/bin/env python3
"""Times msrepack on a day of a channel with 100 samples a second, beside cat of the same file.

    bench/day.py [--samples N] [--runs N] [--program FILE] [--keep FOLDER]

The day is made up (station.py): noise, and events that die down. It is written as records of 32-bit integers (4096
bytes), as records of 16-bit integers (512 bytes), and, by the program itself, as Steim-2 (512 bytes). The first of them
is repacked, and what came of it is checked against its report.
"""
import argparse
import os
import re
import shutil
import subprocess
import sys
import tempfile
import time

import station

ROOT = os.path.dirname(os.path.dirname(os.path.realpath(__file__)))
sys.path.insert(0, os.path.join(ROOT, "tools"))
from built import program_of

LENGTHS = ("512", "4096")


def run(words, to):
    """Runs a command, its output to a file, and returns its seconds."""
    with open(to, "wb") as out:
        began = time.monotonic()
        status = subprocess.run(words, stdin=subprocess.DEVNULL, stdout=out).returncode
        seconds = time.monotonic() - began
    if status:
        sys.exit(f"{' '.join(words)} ended with status {status}")
    return seconds


def peak(words, folder):
    """The peak memory of a command in KiB, by GNU time, which is small itself; None if it is not there."""
    if not os.access("/usr/bin/time", os.X_OK):
        return None
    run(["/usr/bin/time", "-f", "%M", "-o", f"{folder}/peak", *words], f"{folder}/said")
    with open(f"{folder}/peak", encoding="ascii") as it:
        return int(it.read())


def perf_counts():
    words = ["perf", "stat", "-x,", "-e", "instructions:u", "true"]
    if not shutil.which("perf"):
        return False
    said = subprocess.run(words, capture_output=True, text=True)
    return said.returncode == 0 and re.search(r"^\d+,", said.stderr, re.M) is not None


def by_callgrind(words, folder, **how):
    """The instructions of the user's code that a command runs, by callgrind, which leaves their places in the folder."""
    found = with_calls(words, folder, **how)
    return found and found[0]


def with_calls(words, folder, **how):
    """These instructions, and how often the command calls the system."""
    callgrind = ["valgrind", "--tool=callgrind", "--collect-systime=yes", f"--callgrind-out-file={folder}/callgrind"]
    return collected([*callgrind, *words], r"Collected : (\d+) (\d+)", **how)


def collected(words, pattern, **how):
    """The counts that a command prints on standard error; None if it fails. How it is started is as of subprocess.run."""
    how = {"stdin": subprocess.DEVNULL, **how, "stdout": subprocess.DEVNULL, "stderr": subprocess.PIPE, "text": True}
    said = subprocess.run(words, **how)
    found = re.search(pattern, said.stderr, re.M)
    return [int(it) for it in found.groups()] if found and said.returncode == 0 else None


def instructions(words, folder):
    """The instructions that a command runs, counted by perf, or else by callgrind; None if neither is there."""
    if perf_counts():
        found = collected(["perf", "stat", "-x,", "-e", "instructions:u", *words], r"^(\d+),")
        return found and found[0]
    return by_callgrind(words, folder) if shutil.which("valgrind") else None


def line(name, command, words, samples, few, folder, runs):
    """Prints one row. The instructions a sample are the difference of two files, so that starting up does not count."""
    seconds = min(run(words(name), f"{folder}/said") for _ in range(runs))
    memory = peak(words(name), folder)
    counts = [instructions(words(it), folder) for it in (few[0], few[1])]
    each = f"{(counts[1] - counts[0]) / few[2]:.1f}" if None not in counts else "-"
    size = os.path.getsize(name)
    speeds = [f"{seconds:.3f}", f"{samples / seconds:,.0f}", f"{size / seconds / 1e6:,.0f}"]
    row = [os.path.basename(name), command, *speeds, "-" if memory is None else f"{memory:,}", each]
    print("| " + " | ".join(row) + " |", flush=True)


def main():
    words = argparse.ArgumentParser(description=__doc__.splitlines()[0])
    words.add_argument("--samples", type=int, default=station.SAMPLES)
    words.add_argument("--runs", type=int, default=3, help="how often each is run; the shortest time counts")
    words.add_argument("--program")
    words.add_argument("--keep", help="a folder to leave the files in")
    asked = words.parse_args()
    asked.program = program_of(asked.program)
    folder = asked.keep or tempfile.mkdtemp(prefix="msrepack-bench-")
    os.makedirs(folder, exist_ok=True)
    try:
        measure(asked, folder)
    finally:
        if not asked.keep:
            shutil.rmtree(folder)


def files_of(asked, folder, samples, part):
    """The day, or a part of it, in its three encodings."""
    names = [f"{folder}/{part}{it}" for it in ("int32-4096", "int16-512", "steim2-512")]
    station.write_plain(names[0], 4096, station.INT32, samples)
    station.write_plain(names[1], 512, station.INT16, samples)
    run([asked.program, "repack", "--length", "512", names[0], names[2]], f"{folder}/report")
    return names


def packed_of(asked, folder, name, part, length):
    """The file repacked, with its report beside it."""
    packed = f"{folder}/{part}packed-{length}"
    run([asked.program, "repack", "--length", length, name, packed], f"{packed}.txt")
    return packed


def measure(asked, folder):
    samples = station.noise_and_events(asked.samples)
    tenth = max(len(samples) // 10, 2)
    names = files_of(asked, folder, samples, "")
    short = files_of(asked, folder, samples[: tenth // 2], "a-")
    longer = files_of(asked, folder, samples[:tenth], "b-")
    print(f"{len(samples):,} samples; the shortest of {asked.runs} runs\n")
    print("| input | command | seconds | samples a second | MB a second read | peak KiB | instructions a sample |")
    print("|---|---|---|---|---|---|---|")
    out = f"{folder}/out"
    for at, name in enumerate(names):
        few = (short[at], longer[at], tenth - tenth // 2)
        row = lambda command, words: line(name, command, words, len(samples), few, folder, asked.runs)
        row("cat", lambda it: ["cat", it])
        row("list", lambda it: [asked.program, "list", it])
        for length in LENGTHS:
            row(f"repack {length}", lambda it: [asked.program, "repack", "--length", length, it, out])
    for length in LENGTHS:
        parts = ((names[0], ""), (short[0], "a-"), (longer[0], "b-"))
        packed = [packed_of(asked, folder, name, part, length) for name, part in parts]
        few = (packed[1], packed[2], tenth - tenth // 2)
        words = lambda it: [asked.program, "check", it, f"{it}.txt"]
        line(packed[0], "check", words, len(samples), few, folder, asked.runs)


if __name__ == "__main__":
    main()
