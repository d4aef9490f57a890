#!/usr/bin/env python3
"""Refuses each growth of memory in turn: of rows of msr_vectors, each of which is a public call, and of runs of msrepack.

    bench/growths.py [--only TEXT] [--vectors FILE] [--program FILE]

growths.c, loaded before the C library, refuses the first growth, then the second, and so on until a run ends without a
refusal; once that growth alone, once all from it on.

What is right of a row stands in the file `stdout` of msr_vectors, which the gate compares too; its growths are counted
from when it is printed. A run is right if it ends with status 0 and each line of the answer is right: the usual line, or
that memory ran out, or what is left then. A run of msrepack is right if it ends as usual, or with status 1, the line that
memory ran out, and a first part of its text and of the records. If nothing was refused a run has to end as usual; one that
ends by a signal is wrong, and so is a call that is never seen to answer that memory ran out. --only takes the calls with
this text in their names. The last line is `N growths refused, M answered that memory ran out, K wrong`, and the status 0 if
none is wrong.
"""
import argparse
import os
import re
import subprocess
import sys
import tempfile

import station

ROOT = os.path.dirname(os.path.dirname(os.path.abspath(__file__)))
CRATE = f"{ROOT}/crates/msr_vectors"
SECONDS = 60
# How a row tells that memory ran out: by its answer, or, if it takes one thing after another, by a line of its own.
NONE = "no such row, or no memory"
TOLD = (NONE, "refused true", "Err(One(Memory))", "Err(Other(Memory))")
# The rows that are tried begin so: those that take one thing after another, and of the others the first of each name.
EACH = ("push", "extend", "stream", "append", "joins", "totals")
FIRST = (
    ["plain 2 big", "plain 2 little", "plain 4 big 2 00000001", "steim 1 big", "steim 1 little", "steim 2 little"]
    + ["groups 1 256 0,20000+82:-20000,20000+0,0,0", "pack 256 all 302:0", "pack 256 all 97:", "pack 256 all 84:"]
    + ["record 192 steim correction=0", "record 0 steim", "encode 0 1 - Steim2", "encode 0 1 - Steim1", "join 20,1", "path"]
    + ["input lenient 65536 0 - int32 | int32 samples=0 |", "compare 65536 0 - 65536 0 - int32 |"]
)


def answers():
    """The rows of the script, each with the lines of its answer."""
    with open(f"{CRATE}/stdin", encoding="ascii") as it:
        script = it.read().splitlines()
    with open(f"{CRATE}/stdout", encoding="ascii") as it:
        printed = it.read().splitlines()
    found, at = {}, 0
    for line, after in zip(script, [*script[1:], None]):
        if printed[at] != line:
            sys.exit(f"growths.py: line {at + 1} of {CRATE}/stdout is not the row {line!r}")
        at, begin = at + 1, at + 1
        while at < len(printed) and (at == begin or printed[at] != after) and line and not line.startswith("#"):
            at += 1
        found[line] = printed[begin:at]
    return found


def chosen(found):
    rows = [row for row in found if row.split(" ")[0] in EACH]
    for begin in FIRST:
        first = [row for row in found if row == begin] or [row for row in found if row.startswith(begin)]
        if not first:
            sys.exit(f"growths.py: no row begins with {begin!r}")
        rows.append(first[0])
    return list(dict.fromkeys(rows))


def is_part(usual, word):
    """The same, or of a segment, START+SAMPLES, fewer samples from the same start."""
    start, plus, count = word.partition("+")
    of_usual, _, in_all = usual.partition("+")
    return word == usual or (bool(plus) and start == of_usual and int(count) < int(in_all))


def begins(usual, line):
    """What is left is a first part of the usual, in whole words, or in whole records."""
    if re.fullmatch("left [0-9a-f]*", usual):
        return usual.startswith(line) and len(line.removeprefix("left ")) % 512 == 0
    wanted, words = (re.findall(r"[^\s,\[\]]+", it) for it in (usual, line))
    if len(words) > len(wanted):
        return False
    return words[:-1] == wanted[: len(words) - 1] and is_part(wanted[len(words) - 1], words[-1])


def totals_left(row):
    """What is left of a row of totals after none, one, .. of its additions, of which sums stop at 2^64 - 1."""
    found, lines = {}, ["left"]
    for word in row.split()[1:]:
        name, read, written = word.split(",")
        files, *sums = found.get(name, (0, 0, 0))
        found[name] = (files + 1, *(min(old + int(new), 2**64 - 1) for old, new in zip(sums, (read, written))))
        lines.append(" ".join(["left", *(f"{it} {' '.join(map(str, counts))}" for it, counts in found.items())]))
    return lines


def is_line_right(row, usual, line, told, all_from_there):
    """A line of a run of which a growth was refused."""
    if line == usual:
        return True
    if line in TOLD:
        return usual not in TOLD
    # An object that was refused a growth stands as it was: asked again it goes on, and ends as usual.
    if not (line.startswith("left") and told and all_from_there):
        return False
    return line in totals_left(row) if row.startswith("totals") else begins(usual, line)


def are_lines_right(row, usual, lines, all_from_there):
    # A row that is not read to its end is no row.
    if lines == [NONE]:
        return True
    told = sum(it in TOLD for it in lines)
    if len(lines) != len(usual) or told > 1:
        return False
    return all(is_line_right(row, wanted, line, told > 0, all_from_there) for wanted, line in zip(usual, lines))


def record(number, clock, samples):
    """A record of 4096 bytes at 20 samples a second, some ten thousandths of a second after 2020."""
    form = station.Form(b"TEST 00BHZXX", 20, station.INT32, 4096)
    return station.record(form, number, clock, len(samples), station.integers(station.INT32, samples))


def pause(place):
    return 1_000_000 if place % 2 == 0 or 84 <= place <= 88 else 1_020_000


INPUTS = {
    "empty": b"",
    "zeros": record(1, 0, [0] * 302),
    "pause": record(1, 0, [pause(place) for place in range(173)]),
    "three": b"".join(record(at + 1, clock, [0] * 100) for at, clock in enumerate((0, 50_007, 100_014))),
}
# Runs of msrepack, and the file that each writes.
RUNS = (
    ("repack --length 512 empty out", "out"),
    ("repack --length 256 zeros out", "out"),
    ("repack --length 256 pause out", "out"),
    ("repack --length 256 three out", "out"),
    ("repack --length 256 pause", None),
    ("list three", None),
    ("check packed report", None),
    ("compare pause packed", None),
)


class Bench:
    def __init__(self, vectors, program, folder):
        self.vectors, self.program, self.folder = vectors, program, folder
        self.library, self.count = f"{folder}/growths.so", f"{folder}/count"
        words = ["gcc", "-O2", "-shared", "-fPIC", "-o", self.library, f"{ROOT}/bench/growths.c", "-ldl"]
        subprocess.run(words, check=True)
        self.refused = self.told = self.wrong = 0

    def run(self, words, given, growth, all_from_there, from_start):
        """How a run ended, and how many growths there were; None if it did not end."""
        settings = dict(os.environ, LD_PRELOAD=self.library, GROWTHS=self.count)
        settings.update({"GROWTH": str(growth)} if growth else {})
        settings.update({"GROWTH_ALL": "1"} if all_from_there else {})
        settings.update({"GROWTH_FROM_START": "1"} if from_start else {})
        if os.path.exists(self.count):
            os.remove(self.count)
        try:
            ended = subprocess.run(
                words, env=settings, cwd=self.folder, input=given, capture_output=True, timeout=SECONDS, check=False
            )
        except subprocess.TimeoutExpired:
            return None
        if not os.path.exists(self.count):
            return None
        with open(self.count, encoding="ascii") as it:
            return ended, int(it.read())

    def turn(self, name, once):
        """Refuses each growth of a call. `once` makes it, with a growth that is refused, or none, and whether all from there
        are; it answers whether that was right, whether it was told that memory ran out, and how many growths there were."""
        right, told, made = once(0, False)
        tells = 0
        if not right or told:
            self.wrong += 1
            print(f"{name}: wrong without a refusal")
            return
        for all_from_there in (False, True):
            # Only the run after the last growth is to end without a refusal.
            for growth in range(1, made + 2):
                right, told, reached = once(growth, all_from_there)
                self.refused += growth <= reached
                tells += told
                if not right or (growth <= made) != (growth <= reached):
                    self.wrong += 1
                    print(f"{name}: wrong at growth {growth}{' and after' if all_from_there else ''}")
        if tells == 0:
            self.wrong += 1
        self.told += tells
        print(f"{name}: {made} growths, out of memory told {tells} times", flush=True)

    def try_row(self, row, usual):
        def once(growth, all_from_there):
            ended = self.run([self.vectors], f"{row}\n".encode(), growth, all_from_there, False)
            if ended is None or ended[0].returncode != 0:
                return False, False, growth
            lines = ended[0].stdout.decode(errors="replace").splitlines()
            if lines[:1] != [row]:
                return False, False, growth
            is_refused = 0 < growth <= ended[1]
            right = are_lines_right(row, usual, lines[1:], all_from_there) if is_refused else lines[1:] == usual
            return right, any(it in TOLD for it in lines), ended[1]

        self.turn(row, once)

    def read(self, name):
        if name is None or not os.path.exists(f"{self.folder}/{name}"):
            return b""
        with open(f"{self.folder}/{name}", "rb") as it:
            return it.read()

    def try_run(self, words, written):
        def outcome(growth, all_from_there):
            if written and os.path.exists(f"{self.folder}/{written}"):
                os.remove(f"{self.folder}/{written}")
            return self.run([self.program, *words.split()], b"", growth, all_from_there, True)

        usual = outcome(0, False)[0]
        packed = self.read(written)

        def once(growth, all_from_there):
            ended = outcome(growth, all_from_there)
            if ended is None:
                return False, False, growth
            found, records = ended[0], self.read(written)
            same = (found.returncode, found.stdout, found.stderr) == (usual.returncode, usual.stdout, usual.stderr)
            told = found.returncode == 1 and found.stderr.endswith(b"out of memory\n") and found.stderr.count(b"\n") == 1
            part = usual.stdout.startswith(found.stdout) and packed.startswith(records)
            is_refused = 0 < growth <= ended[1]
            return (same and records == packed) or (is_refused and told and part), told, ended[1]

        self.turn(f"msrepack {words}", once)


def shipped():
    """The path of the program that ./msrepack runs; None if there is none, which standard error tells. Nothing is built."""
    asked = [f"{ROOT}/tools/program", "--ready"]
    told = subprocess.run(asked, stdout=subprocess.PIPE, encoding="utf-8", check=False)
    return told.stdout.rstrip("\n") if told.returncode == 0 else None


def main():
    words = argparse.ArgumentParser(description=__doc__.splitlines()[0])
    words.add_argument("--only", metavar="TEXT", default="")
    words.add_argument("--vectors", default=f"{CRATE}/out/msr_vectors", help="the built program of msr_vectors")
    words.add_argument("--program", help="msrepack itself, else what ./msrepack runs: of a script its shell would be tried")
    given = words.parse_args()
    vectors = os.path.abspath(given.vectors)
    if not os.access(vectors, os.X_OK):
        print(f"growths.py: no program {vectors}: rt run in crates/msr_vectors", file=sys.stderr)
        return 2
    program = given.program or shipped()
    if program is None:
        return 2
    found = answers()
    with tempfile.TemporaryDirectory() as folder:
        for name, data in INPUTS.items():
            with open(f"{folder}/{name}", "wb") as it:
                it.write(data)
        bench = Bench(vectors, os.path.abspath(program), folder)
        for row in chosen(found):
            if given.only in row:
                bench.try_row(row, found[row])
        with open(f"{folder}/report", "wb") as it:
            packing = [bench.program, "repack", "--length", "256", "pause", "packed"]
            subprocess.run(packing, cwd=folder, stdout=it, check=True)
        for run, written in RUNS:
            if given.only in f"msrepack {run}":
                bench.try_run(run, written)
    print(f"{bench.refused} growths refused, {bench.told} answered that memory ran out, {bench.wrong} wrong")
    return 1 if bench.wrong else 0


if __name__ == "__main__":
    sys.exit(main())
