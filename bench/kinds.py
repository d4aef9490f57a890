#!/usr/bin/env python3
"""Counts the instructions a sample of msrepack's repack at records of 512 bytes, for inputs of several kinds.

    bench/kinds.py [--program FILE] [--functions N] [--list]

Each input is made up (station.py), at 100,000 and at 200,000 samples; the count is the difference of the
two by callgrind, so that starting up does not count. --functions prints the functions that cost most, too. --list
counts `list` of the inputs in place of `repack`.
"""
import argparse
import os
import re
import subprocess
import sys
import tempfile

import day
import station

FEW, MANY = 100_000, 200_000


def write_int16(name, samples):
    station.write_plain(name, 512, station.INT16, samples)


def write_int32(name, samples):
    station.write_plain(name, 4096, station.INT32, samples)


INPUTS = [
    ("microseism, Steim-2", station.microseism, station.write_steim2),
    ("strong motion, Steim-2", station.strong_motion, station.write_steim2),
    ("noise within 16 bits, 16-bit integers", station.within_16_bits, write_int16),
    ("noise of 1,000 counts, Steim-2", station.white_noise(1000), station.write_steim2),
    ("noise of 20,000 counts, Steim-2", station.white_noise(20_000), station.write_steim2),
    ("noise within 24 bits, 32-bit integers", station.within_24_bits, write_int32),
]


def counted(words, folder):
    """The instructions of these words, and those of each function."""
    count = day.by_callgrind(words, folder)
    if count is None:
        sys.exit(f"{words[0]} failed under valgrind")
    listed = subprocess.run(["callgrind_annotate", f"{folder}/callgrind"], capture_output=True, text=True).stdout
    functions = {}
    for each, function in re.findall(r"^ *([\d,]+) \(.*?\)  \S*?:(\S+)", listed, re.M):
        functions[function] = functions.get(function, 0) + int(each.replace(",", ""))
    return count, functions


def main():
    words = argparse.ArgumentParser(description=__doc__.splitlines()[0])
    words.add_argument("--program")
    words.add_argument("--functions", type=int, default=0, help="how many functions are printed below each input")
    words.add_argument("--list", action="store_true", help="count `list` in place of `repack`")
    asked = words.parse_args()
    asked.program = day.program_of(asked.program)
    print("| input | records | instructions a sample |\n|---|---|---|")
    with tempfile.TemporaryDirectory(prefix="msrepack-bench-") as folder:
        for title, make, write in INPUTS:
            totals = []
            for count in (FEW, MANY):
                write(f"{folder}/in", make(count))
                repack = ["repack", "--length", "512", f"{folder}/in", f"{folder}/out"]
                call = ["list", f"{folder}/in"] if asked.list else repack
                totals.append(counted([asked.program, *call], folder))
            (few, few_of), (many, many_of) = totals
            records = os.path.getsize(call[-1]) // 512
            print(f"| {title} | {records} | {(many - few) / (MANY - FEW):.1f} |", flush=True)
            each = {it: (many_of[it] - few_of.get(it, 0)) / (MANY - FEW) for it in many_of}
            for function in sorted(each, key=each.get, reverse=True)[: asked.functions]:
                print(f"    {each[function]:7.2f} {function}")


if __name__ == "__main__":
    main()
