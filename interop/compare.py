#!/usr/bin/env python3
"""Holds the built program against model.py, on files made at random: README.md says how to run it."""
import argparse
import collections
import multiprocessing
import os
import random
import struct
import subprocess
import sys
import tempfile

ROOT = os.path.dirname(os.path.dirname(os.path.realpath(__file__)))
sys.path.insert(0, os.path.join(ROOT, "tools"))
import model
import reports
from built import program_of
from model import INT16, INT24, INT32, STEIM1, STEIM2, Key

LENGTHS = [256] * 6 + [512, 512, 1024, 4096, 32768]
TOLERANCES = [1000, 1000, 1000, 1, 999, 1_000_000]
RATES = [(20, 1), (1, 1), (100, 1), (3, 1), (20000, 4), (-10, 1), (7, -3), (-3, -7), (200, -10), (32767, 32767)]
HEIGHTS = [0, 1, 3, 7, 15, 31, 127, 511, 16383, 32767, 2**23 - 1, 2**29 - 1, 2**31 - 1]
# How far a record's time may be from the nominal one, in microseconds.
SHIFTS = [0] * 6 + [1, -1, 999, 1000, 1001, -1000, -1001, 500_000]

Made = collections.namedtuple("Made", "number content size tolerance strict kinds")


def stretch(dice, value):
    """Some samples of one character, from `value` on."""
    height, bits = dice.choice(HEIGHTS), dice.choice([8, 16, 24, 32])
    edge = 2 ** (bits - 1)
    step = dice.choice(
        [
            lambda value: value + dice.randint(-height - 1, height),
            lambda value: dice.randint(-height - 1, height),
            lambda value: -value if dice.random() < 0.9 else value + 1,
            lambda value: value,
            lambda value: dice.choice([edge - 1, -edge, edge - 1 - dice.randint(0, 1), 0]),
        ]
    )
    for _ in range(dice.randint(1, 200)):
        value = max(-(2**31), min(2**31 - 1, step(value)))
        yield value


def signal(dice, count):
    samples = [dice.choice([0, 0, 1000, -30_000, 8_388_000, 2**31 - 10, dice.randint(-(2**31), 2**31 - 1)])]
    while len(samples) < count:
        samples += stretch(dice, samples[-1])
    return samples[:count]


def raw_word(kind, little, layout, held):
    """The code and the four bytes of a group, which in little-endian order has its numbers so."""
    code, word = model.word_of(layout, held)
    if not little or code == 1:
        return code, struct.pack(">I", word)
    if kind == STEIM1 and code == 2:
        return code, struct.pack("<hh", *held)
    return code, struct.pack("<I", word)


def steim_words(dice, kind, little, differences, most):
    """Words for some first differences, seldom the fewest; how many differences they hold."""
    words, place = [], 0
    while place < len(differences) and len(words) < most:
        rest = differences[place:]
        fitting = [one for one in model.WORDS[kind] if one[0] <= len(rest) and model.all_in(rest[: one[0]], one[1])]
        if not fitting:
            break
        if dice.random() < 0.02:
            words.append((0, dice.randbytes(4)))
            continue
        layout = fitting[0] if dice.random() < 0.8 else dice.choice(fitting)
        words.append(raw_word(kind, little, layout, rest[: layout[0]]))
        place += layout[0]
    return words, place


def steim_area(dice, kind, little, samples, before, size):
    """An area for some first samples; how many it holds."""
    steps = zip([samples[0] if before is None else before, *samples], samples)
    differences = [model.signed((after - value) & 0xFFFF_FFFF, 32) for value, after in steps]
    frames = size // 64
    words, count = steim_words(dice, kind, little, differences, 15 * frames - 2)
    if count == 0:
        return 0, b""
    order = "<" if little else ">"
    area, codes, number = bytearray(size), [0] * frames, 2
    for code, raw in words:
        number += 2 if number % 16 == 15 else 1
        area[4 * number : 4 * number + 4] = raw
        codes[number // 16] |= code << (30 - 2 * (number % 16))
    for frame, code in enumerate(codes):
        struct.pack_into(f"{order}I", area, 64 * frame, code)
    last = samples[count - 1] ^ (dice.random() < 0.03)
    struct.pack_into(f"{order}ii", area, 4, samples[0], last)
    return count, bytes(area)


def plain_area(dice, kind, little, samples, size):
    """An area for some first samples, of 32 bits if the kind is too narrow; its kind, how many it holds."""
    width = model.WIDTHS[kind]
    if not model.is_in(samples[0], 8 * width):
        kind, width = INT32, 4
    most = min(len(samples), size // width, dice.choice([1, 5, 20, 100, 9999]))
    count = 0
    while count < most and model.is_in(samples[count], 8 * width):
        count += 1
    order = "little" if little else "big"
    return kind, count, b"".join(sample.to_bytes(width, order, signed=True) for sample in samples[:count])


def area_of(dice, kind, little, samples, before, size):
    """The kind, how many of the samples the area holds, and its bytes."""
    if kind in (STEIM1, STEIM2):
        some = samples[: dice.choice([1, 7, 50, 400, 9999])]
        count, area = steim_area(dice, kind, little, some, before, size)
        if count:
            return kind, count, area
        kind = INT32
    return plain_area(dice, kind, little, samples, size)


def time_fields(dice, order, start, has_fine):
    """The time in the header, and the microseconds beside it."""
    fine = dice.randint(-128, 127) if has_fine and dice.random() < 0.6 else 0
    if not model.is_instant(start - fine):
        fine = 0
    year, day, hour, minute, second, fract, rest = model.parts(start - fine)
    if second == 0 and minute > 0 and dice.random() < 0.1:
        minute, second = minute - 1, 60
    if fine == 0 and has_fine:
        fine = rest
    return struct.pack(f"{order}HHBBBBH", year, day, hour, minute, second, dice.choice([0, 7]), fract), fine


def record(dice, key, start, number, samples, before, kinds):
    """A record of some first samples, in one of the forms that there are; how many it holds."""
    exponent, order, little = dice.choice([7, 8, 8, 9, 9, 10, 11, 12]), dice.choice(">>>>><"), dice.random() < 0.25
    has_fine = key.timing != 0 or dice.random() < 0.7
    fine_at, data_at = (64, 80) if exponent > 7 and dice.random() < 0.1 else (56, 64)
    if not has_fine:
        data_at = dice.choice([56, 64])
    if dice.random() < 0.03:
        data_at += dice.choice([1, 2, 4, 48])
    kind, count, area = area_of(dice, dice.choice(kinds), little, samples, before, (1 << exponent) - data_at)
    activity = key.activity
    if key.correction != 0 and dice.random() < 0.5:
        activity, start = activity & ~2, start - 100 * key.correction
    if not model.is_instant(start):
        return count, None
    time, fine = time_fields(dice, order, start, has_fine)
    digits = b"%06d" % number if dice.random() < 0.9 else b"   \0 1"
    head = digits + key.quality.encode() + dice.choice([b" ", b"\0"])
    head += key.station + key.location + key.channel + key.network + time
    head += struct.pack(f"{order}Hhh", count, key.factor, key.multiplier)
    flags = (activity, key.clock, key.data, dice.choice([1, 2]))
    head += struct.pack(f"{order}BBBBiHH", *flags, key.correction, data_at, 48)
    head += struct.pack(f"{order}HHBBBB", 1000, fine_at if has_fine else 0, kind, 0 if little else 1, exponent, 0)
    content = bytearray(head.ljust(data_at, b"\0") + area).ljust(1 << exponent, b"\0")
    if has_fine:
        struct.pack_into(f"{order}HHBbBB", content, fine_at, 1001, 0, key.timing, fine, 0, dice.choice([0, 3]))
    return count, bytes(content)


def key(dice):
    correction = dice.choice([0, 0, 0, 12, -5])
    activity = dice.choice([0, 0, 0, 2, 1, 3]) | (2 if correction else 0)
    names = (b"XX", b"TEST ", dice.choice([b"00", b"  ", b"\xe9-"]), dice.choice([b"BHZ", b"BHN"]), dice.choice("DRQM"))
    flags = (activity, dice.choice([0, 0, 255]), dice.choice([0, 9]))
    return Key(*names, *dice.choice(RATES), *flags, correction, dice.choice([0, 0, 50, 255]))


def first_instant(dice, of, count):
    """Somewhere within the instants, often where it matters."""
    long = int(count * model.period(of)) + 1
    start = dice.choice(
        [
            model.instant(2020, 1, 0, 0, 0, 0),
            model.instant(2019, 365, 23, 59, 59, 9999) + 77,
            dice.randint(model.FIRST, model.LAST),
            model.LAST - dice.randint(0, long),
            model.FIRST + dice.randint(0, 1000),
        ]
    )
    return start if model.is_instant(start) else model.instant(1950, 60, 0, 0, 0, 0)


def channel(dice, kinds):
    """The records of one channel, most of which join."""
    of, samples = key(dice), signal(dice, dice.choice([1, 5, 100, 400, 1500]))
    start, number = first_instant(dice, of, len(samples)), dice.choice([1, 999_999])
    records, place, before = [], 0, None
    while place < len(samples):
        time = model.rounded(model.nominal(of, start, place)) + dice.choice(SHIFTS)
        if not model.is_instant(time):
            break
        if dice.random() < 0.03:
            of = of._replace(timing=dice.choice([0, 1, 50]))
        count, content = record(dice, of, time, number, samples[place:], before, kinds)
        if content is None:
            break
        if dice.random() < 0.03:
            records.append(content[:30] + b"\0\0" + content[32:])
        records.append(content)
        before = samples[place + count - 1] if dice.random() < 0.97 else 5
        place, number = place + count, number % 999_999 + 1
    return records


def damaged(dice, records):
    """The records one after another, some cut or with a byte changed."""
    content = bytearray(b"".join(records))
    chance = dice.random()
    if content and chance < 0.1:
        del content[dice.randint(0, len(content)) :]
    elif content and chance < 0.25:
        offset = len(b"".join(records[: dice.randrange(len(records))]))
        content[offset + dice.randint(0, min(140, len(content) - offset - 1))] = dice.randint(0, 255)
    return bytes(content)


def make(number):
    """The file of that number, and how it is repacked."""
    dice = random.Random(number)
    kinds = dice.choice([[STEIM2, STEIM1, INT16, INT24, INT32], [STEIM2], [INT32], [INT16, INT24]])
    records = [one for _ in range(dice.choice([1, 1, 2, 3])) for one in channel(dice, kinds)]
    content = damaged(dice, records)
    size = 65536 if dice.random() < 0.02 else dice.choice(LENGTHS)
    tolerance, strict = dice.choice(TOLERANCES), dice.random() < 0.3
    return Made(number, content, size, tolerance, strict, model.WITHOUT_INT24 if dice.random() < 0.4 else model.KINDS)


class Program:
    """The built program, in a folder of its own."""

    def __init__(self, path, folder):
        self.path, self.folder = path, folder

    def file(self, name, content=None):
        path = os.path.join(self.folder, name)
        if content is not None:
            with open(path, "wb") as file:
                file.write(content)
        return path

    def read(self, name):
        with open(self.file(name), "rb") as file:
            return file.read()

    def run(self, *words, given=b""):
        done = subprocess.run([self.path, *words], input=given, capture_output=True, check=False)
        return done.returncode, done.stdout, done.stderr


def told(fault):
    return b"msrepack: " + fault.encode() + b"\n"


def repack_differs(program, words, answer):
    records, report, fault = answer
    status, printed, said = program.run("repack", *words, program.file("in"), program.file("out"))
    written = program.read("out")
    if fault is None:
        return (status, printed, said, written) != (0, report.encode(), b"", records)
    return (status, printed, said) != (1, b"", told(fault)) or not records.startswith(written)


def feed_differs(program, words, made, answer):
    records, report, fault = answer
    status, written, said = program.run("feed", *words, program.file("report"), given=made.content)
    kept = program.read("report")
    if fault is None:
        return (status, written, said, kept) != (0, records, b"", report.encode())
    return (status, said, kept) != (1, told(fault), b"") or not records.startswith(written)


def list_differs(program, words, made, json=False):
    text, fault = model.listed(made.content, made.tolerance, made.strict, json)
    status, printed, said = program.run("list", *words, *["--json"] * json, program.file("in"))
    if fault is None:
        return (status, printed, said) != (0, text.encode(), b"")
    return (status, said) != (1, told(fault)) or not text.encode().startswith(printed)


def turned(dice, report, segments, size, kinds):
    """The report with a separator of one segment changed, and whether it still shows that."""
    lines = report.splitlines()
    which = dice.randrange(len(segments))
    at = 5 + len(model.NAMED[kinds]) + 2 * which
    separators = [int(word) for word in lines[at].split()[1:]]
    place = dice.randrange(len(separators))
    changed = list(separators)
    changed[place] = max(0, changed[place] + dice.choice([-1, 1, -3, 3]))
    if dice.random() < 0.2:
        del changed[place]
    lines[at] = " ".join(map(str, ["separators", *changed]))
    shown = len(changed) == len(separators) and model.is_separating(segments[which].samples, size, changed, kinds)
    return model.text(lines), shown


def of_other_kinds(report):
    """The report with the other choice of kinds."""
    [named] = model.NAMED[model.WITHOUT_INT24]
    lines = report.splitlines()
    if named in lines:
        lines.remove(named)
    else:
        lines.insert(3, named)
    return model.text(lines)


def verdict_of(program, report):
    return program.run("check", program.file("out"), program.file("text", report.encode()))


VERDICTS = {True: (0, b"least\n", b""), False: (3, b"not shown\n", b"")}


def check_differs(program, made, answer):
    """Its own report shows it; a changed one does if it still separates, one of other kinds if the model says so."""
    records, report, _ = answer
    read = model.read_all(records, made.tolerance)
    if read.fault is not None or len(read.segments) != report.count("\nsegment "):
        return False
    if verdict_of(program, report) != VERDICTS[True]:
        return True
    other = of_other_kinds(report)
    if verdict_of(program, other) != VERDICTS[reports.verdict(records, reports.parsed(other.encode()))]:
        return True
    if not read.segments:
        return False
    changed, shown = turned(random.Random(made.number), report, read.segments, made.size, made.kinds)
    return verdict_of(program, changed) != VERDICTS[shown]


def compare(job):
    """The commands whose answers differ, for the file of that number, and its fault."""
    path, number = job
    made = make(number)
    answer = model.repacked(made.content, made.size, made.tolerance, made.strict, made.kinds)
    with tempfile.TemporaryDirectory() as folder:
        program = Program(path, folder)
        program.file("in", made.content)
        rest = ["--tolerance", str(made.tolerance)] + ["--strict"] * made.strict
        words = ["--length", str(made.size), *rest] + ["--no-int24"] * (made.kinds == model.WITHOUT_INT24)
        differ = []
        if repack_differs(program, words, answer):
            differ.append("repack")
        if feed_differs(program, words, made, answer):
            differ.append("feed")
        if list_differs(program, rest, made):
            differ.append("list")
        if list_differs(program, rest, made, json=True):
            differ.append("list --json")
        if answer.fault is None and check_differs(program, made, answer):
            differ.append("check")
    return number, differ, answer.fault


def main():
    options = argparse.ArgumentParser(description=__doc__)
    options.add_argument("--program")
    options.add_argument("--first", type=int, default=0, help="the number of the first file")
    options.add_argument("--count", type=int, default=3000, help="how many files")
    options.add_argument("--keep", metavar="FILE", help="writes the first file there, and compares nothing")
    asked = options.parse_args()
    if asked.keep:
        made = make(asked.first)
        with open(asked.keep, "wb") as file:
            file.write(made.content)
        print(f"length {made.size} tolerance {made.tolerance} strict {made.strict} kinds {made.kinds}")
        return 0
    program = program_of(asked.program)
    jobs = [(program, number) for number in range(asked.first, asked.first + asked.count)]
    wrong, faults = 0, collections.Counter()
    with multiprocessing.Pool() as pool:
        for number, differ, fault in pool.imap_unordered(compare, jobs, chunksize=4):
            faults[fault.split()[3] if fault else "none"] += 1
            if differ:
                wrong += 1
                print(f"file {number}: {' '.join(differ)}")
    print("faults: " + ", ".join(f"{name} {count}" for name, count in faults.most_common()))
    print(f"{asked.count} files, {wrong} wrong")
    return 1 if wrong else 0


if __name__ == "__main__":
    sys.exit(main())
