#!/usr/bin/env python3
"""Holds `msrepack compare` against model.py: README.md says how to run it.

    interop/same_segments.py [PROGRAM]
    interop/same_segments.py --count 1000 [PROGRAM]    # as many files made at random, not 200

PROGRAM is msrepack, if not the one that this repository builds. `--model` runs none, and holds the model alone against
the answers that were worked out by hand, or that follow from how a file was changed. Prints each pair of files whose
answer differs, and last `N comparisons, M wrong`; the status is 1 if one is wrong.
"""
import argparse
import collections
import functools
import glob
import multiprocessing
import os
import random
import struct
import sys
import tempfile

import compare
import inputs
import model
import transcript

ROOT = os.path.dirname(os.path.dirname(os.path.realpath(__file__)))
LENGTHS = (256, 512, 4096, 65536)

# Two files that are compared; if it is known without a reading of them, the first line that has to be printed, or all.
Pair = collections.namedtuple("Pair", "title one other tolerance known", defaults=(1000, None))


@functools.cache
def files():
    """The examples, and the inputs and records of the transcript, by name."""
    found = {}
    for path in sorted(glob.glob(f"{ROOT}/examples/**/*", recursive=True)):
        if path.endswith(".mseed") or "/sds/" in path and os.path.isfile(path):
            with open(path, "rb") as file:
                found[os.path.basename(path)] = file.read()
    return found | {name: make() for name, make in [*transcript.INPUTS.items(), *transcript.RECORDS.items()]}


# Answers worked out by hand, on five records of 512 bytes with 100 samples of 16 bits each from byte 64 on: the first is
# 0 and the second 957 in each. They begin at the seconds 0, 5 and 10, and after a gap at 25 and 30.


def edited(content, *changes):
    """The content with other bytes from these places on."""
    content = bytearray(content)
    for place, data in changes:
        content[place : place + len(data)] = data
    return bytes(content)


def fine(number, ten_thousandths, micros):
    """What makes the record of that number, of a file of 512 bytes each, later within its second."""
    return (512 * number + 28, struct.pack(">H", ten_thousandths)), (512 * number + 61, struct.pack("b", micros))


def thirds(second_start):
    """Two records of 100 samples, three a second: the second one's place is at 33,333,333 and a third microseconds."""
    form = inputs.Form(rate=(3, 1))
    return inputs.record(1, 0, range(100), form) + inputs.record(2, second_start, range(100), form)


def changed_by_hand():
    two = files()["two-segments.mseed"]
    same = ["same segments 2 samples 500", "moved 0 0"]
    yield "nothing", two, same
    yield "last record gone", two[:2048], ["differ segment 2 sample 100 only in ONE"]
    yield "two last records gone", two[:1536], ["differ segment 2 only in ONE"]
    yield "first record gone", two[512:], ["differ segment 1 start"]
    yield "third record gone", two[:1024] + two[1536:], ["differ segment 1 sample 200 only in ONE"]
    yield "a record twice at the end", two + two[2048:], ["differ segment 3 only in OTHER"]
    yield "first sample 1", edited(two, (65, b"\1")), ["differ segment 1 sample 0 values 0 1"]
    yield "first sample -256", edited(two, (64, b"\xff")), ["differ segment 1 sample 0 values 0 -256"]
    yield "sample of the second record", edited(two, (512 + 66, b"\0\0")), ["differ segment 1 sample 101 values 957 0"]
    yield "sample of the fourth record", edited(two, (1536 + 67, b"\xbc")), ["differ segment 2 sample 1 values 957 956"]
    yield "two samples", edited(two, (1536 + 65, b"\1"), (512 + 65, b"\1")), ["differ segment 1 sample 100 values 0 1"]
    yield "sample and key", edited(two, (65, b"\1"), (1536 + 6, b"R")), ["differ segment 1 sample 0 values 0 1"]
    yield "byte after the samples", edited(two, (264, b"\xff")), same
    yield "number of the record", edited(two, (0, b"987654")), same
    yield "start of all", edited(two, (24, b"\1"), (536, b"\1"), (1048, b"\1")), ["differ segment 1 start"]
    yield "start by a microsecond", edited(two, (1536 + 61, b"\1")), ["differ segment 2 start"]
    yield "quality of the first", edited(two, (6, b"Q")), ["differ segment 1 key"]
    yield "key and start", edited(two, (6, b"Q"), (26, b"\1")), ["differ segment 1 key"]
    yield "key and sample", edited(two, (1536 + 6, b"Q"), (1536 + 65, b"\1")), ["differ segment 2 key"]
    yield "timing of the second", edited(two, (512 + 60, b"\1")), ["differ segment 1 sample 100 only in ONE"]
    yield "timing of the fourth", edited(two, (1536 + 60, b"\1")), ["differ segment 2 key"]
    yield "flags of the fourth", edited(two, (1536 + 38, b"\x80")), ["differ segment 2 key"]
    yield "rate as 2 times 10", edited(two, *[(at + 32, b"\0\2\0\12") for at in range(0, 2560, 512)]), ["differ segment 1 key"]
    yield "second 50 late", edited(two, *fine(1, 0, 50)), ["same segments 2 samples 500", "moved 0 50"]
    yield "third 7 early", edited(two, (1024 + 61, b"\xf9")), ["same segments 2 samples 500", "moved 0 7"]
    yield "third 7 early, fifth 50 late", edited(two, *fine(4, 0, 50), (1024 + 61, b"\xf9")), [same[0], "moved 0 50"]
    yield "second 1000 late", edited(two, *fine(1, 10, 0)), ["same segments 2 samples 500", "moved 0 1000"]
    yield "second 1001 late", edited(two, *fine(1, 10, 1)), ["differ segment 1 sample 100 only in ONE"]
    yield "cut in the fourth", two[:2000], "OTHER: offset 1536: 10 RecordCut"
    yield "cut in a header", two[:540], "OTHER: offset 512: 1 Truncated"
    yield "sample, and cut", edited(two, (65, b"\1"))[:2000], "OTHER: offset 1536: 10 RecordCut"
    yield "a blockette 500", edited(two, (512 + 48, b"\1\xf4")), "OTHER: offset 512: 5 OtherBlockette 500"


def turned(line):
    """The line for the same two files in the other order."""
    words = line.split()
    words = [{"ONE": "OTHER", "OTHER": "ONE", "OTHER:": "ONE:"}.get(word, word) for word in words]
    if "values" in words or words[0] == "moved":
        words[-2:] = reversed(words[-2:])
    return " ".join(words)


def by_hand():
    everything = files()
    two, one = everything["two-segments.mseed"], everything["one-record.mseed"]
    for title, other, known in changed_by_hand():
        yield Pair(f"by hand: {title}", two, other, known=known)
        back = turned(known) if isinstance(known, str) else list(map(turned, known))
        yield Pair(f"by hand, turned: {title}", other, two, known=back)
    yield Pair("by hand: tolerance", two, edited(two, *fine(1, 10, 1)), 1001, ["same segments 2 samples 500", "moved 0 1001"])
    yield Pair("by hand: tolerance 1", two, edited(two, *fine(1, 0, 2)), 1, ["differ segment 1 sample 100 only in ONE"])
    yield Pair("by hand: two waves", one, two, known=["differ segment 1 sample 1 values 63823 957"])
    yield Pair("by hand: empty files", b"", b"", known=["same segments 0 samples 0", "moved 0 0"])
    yield Pair("by hand: an empty file", b"", two, known=["differ segment 1 only in OTHER"])
    yield Pair("by hand: both cut", two[:2000], two[:1000], known="ONE: offset 1536: 10 RecordCut")
    yield Pair("by hand: both cut, turned", two[:1000], two[:2000], known="ONE: offset 512: 10 RecordCut")
    yield Pair("by hand: no records", b"clock set\n", two, known="ONE: offset 0: 1 Truncated")
    corrected = [inputs.record(1, at, range(9), inputs.Form(correction=10, activity=bit)) for at, bit in ((0, 0), (1000, 2), (0, 2))]
    yield Pair("by hand: correction, applied before", *corrected[:2], known=["same segments 1 samples 9", "moved 0 0"])
    yield Pair("by hand: correction, not applied", *corrected[1:], known=["differ segment 1 start"])
    for start, moved in ((33_333_332, 2), (33_333_333, 1), (33_333_334, 1), (33_333_335, 2)):
        known = ["same segments 1 samples 200", f"moved {moved} 1"]
        yield Pair(f"by hand: thirds, {start}", thirds(start), thirds(33_333_333), known=known)


# Every file with its repacks, and with every other.


def repacks(content, tolerance):
    return {size: model.repacked(content, size, tolerance).records for size in LENGTHS}


def pairs_of(name):
    """The file with its repacks, these with one another, and it with every file."""
    content, known = files()[name], None
    read = model.read_all(content, 1000)
    if not read.fault:
        known = f"same segments {len(read.segments)} samples {sum(len(one.samples) for one in read.segments)}"
        made = {"itself": content, **repacks(content, 1000)}
        for one, first in made.items():
            for other, second in made.items():
                yield Pair(f"{name}: {one} and {other}", first, second, known=known)
    for other, second in files().items():
        yield Pair(f"{name} and {other}", content, second)


# Files made at random, changed in their bytes, or in their segments, which are then written anew.


def with_a_byte(dice, content):
    place = dice.randrange(len(content))
    return edited(content, (place, bytes([content[place] ^ dice.randint(1, 255)])))


def with_a_field(dice, content, offsets):
    """A field of a record's header changed: name, time, rate, flags, correction, timing quality or microseconds."""
    place = dice.choice([6, *range(8, 20), 24, 25, 26, *range(28, 40), 43, 60, 61])
    place = min(dice.choice(offsets) + place, len(content) - 1)
    return edited(content, (place, bytes([content[place] ^ dice.choice([1, 1, 2, 3, 255])])))


def with_records(dice, content, offsets):
    """A record dropped, or there twice, or two of them in the other order."""
    ends = [*offsets[1:], len(content)]
    records = [content[at:end] for at, end in zip(offsets, ends)]
    place, other = dice.randrange(len(records)), dice.randrange(len(records))
    records[place], records[other] = records[other], records[place]
    if dice.random() < 0.7:
        records[place : place + 1] = dice.choice([[], [records[place]] * 2])
    return b"".join(records)


def changed_bytes(dice, content, offsets):
    yield "a byte", with_a_byte(dice, content)
    yield "a field", with_a_field(dice, content, offsets)
    yield "records", with_records(dice, content, offsets)
    yield "cut", content[: dice.randrange(len(content))]
    yield "cut at a record", content[: dice.choice(offsets)]


def with_a_sample(dice, segments, which):
    """One sample is another: that is what differs."""
    samples = list(segments[which].samples)
    place = dice.choice([0, len(samples) - 1, dice.randrange(len(samples))])
    before, most = samples[place], 2**31 - 1
    samples[place] = dice.choice([before + 1 if before < most else 0, before - 1 if before > ~most else 0, ~before])
    segments[which] = segments[which]._replace(samples=samples)
    return f"differ segment {which + 1} sample {place} values {before} {samples[place]}"


def with_more(dice, segments, which):
    """A sample more at the end, or the last one gone: that is what differs."""
    samples = segments[which].samples
    count = len(samples)
    if dice.random() < 0.5 or count == 1:
        segments[which] = segments[which]._replace(samples=samples + [samples[-1]])
        return f"differ segment {which + 1} sample {count} only in OTHER"
    segments[which] = segments[which]._replace(samples=samples[:-1])
    return f"differ segment {which + 1} sample {count - 1} only in ONE"


def with_a_key(dice, segments, which):
    key = segments[which].key
    key = dice.choice([
        key._replace(quality="DRQM"["DRQM".index(key.quality) - 1]),
        key._replace(channel=b"LOG"),
        key._replace(timing=key.timing ^ 1),
        key._replace(data=key.data ^ 128),
        key._replace(factor=2 if key.factor == 1 else 1),
    ])
    segments[which] = segments[which]._replace(key=key)
    return f"differ segment {which + 1} key"


def with_a_start(dice, segments, which):
    """It is wrong before the start only if a segment before it is joined with it."""
    start = segments[which].start + dice.choice([1, -1, 1000, -1000, 5_000_000, -5_000_000])
    segments[which] = segments[which]._replace(start=start)
    return f"differ segment {which + 1} start"


def without_one(dice, segments, which):
    """The last one gone is what differs; of another one it depends on what follows."""
    del segments[which]
    return f"differ segment {which + 1} only in ONE" if which == len(segments) else None


def split(dice, segments, which):
    """One is two, the second of them a little early or late, or too much to be joined."""
    key, start, samples = segments[which]
    place = dice.randrange(len(samples))
    later = model.rounded(model.nominal(key, start, place)) + dice.choice([0, 1, -1, 999, -1000, 1000, 1002, -1002])
    if place:
        segments[which : which + 1] = [model.Segment(key, start, samples[:place]), model.Segment(key, later, samples[place:])]


CHANGES = (with_a_sample, with_more, with_a_key, with_a_start, without_one, split)


def can_be_written(segments):
    return all(model.is_in_time(one.key, one.start, len(one.samples)) for one in segments)


def stand_apart(segments, tolerance):
    """Whether none of them joins the one before it, once written."""
    return not any(model.joins(before, one, tolerance) for before, one in zip(segments, segments[1:]))


def changed_segments(dice, segments, tolerance):
    for change in CHANGES:
        changed = list(segments)
        known = change(dice, changed, dice.randrange(len(segments)))
        if can_be_written(changed):
            records, _ = model.packed(changed, dice.choice(LENGTHS))
            is_known = stand_apart(changed, tolerance) and not model.read_all(b"".join(records), tolerance).fault
            yield change.__name__.replace("_", " "), b"".join(records), known if is_known else None


def pairs_at_random(number):
    """The file of that number with its repacks, with what was changed in it, and with the next one."""
    dice = random.Random(f"same_segments {number}")
    made = compare.make(number)
    content, tolerance = made.content, made.tolerance
    read = model.read_all(content, tolerance)
    offsets = [0]
    for length, _ in read.rows:
        offsets.append(offsets[-1] + length)
    offsets = [at for at in offsets if at < len(content)] or [0]
    yield Pair(f"{number} and the next", content, compare.make(number + 1).content, tolerance)
    yield Pair(f"{number} and itself by another tolerance", content, content, dice.choice(compare.TOLERANCES))
    if content:
        for title, other in changed_bytes(dice, content, offsets):
            yield Pair(f"{number}: {title}", content, other, tolerance)
    if read.segments:
        records, _ = model.packed(read.segments, dice.choice(LENGTHS))
        yield Pair(f"{number} and its repack", content, b"".join(records), tolerance)
        for title, other, known in changed_segments(dice, read.segments, tolerance):
            yield Pair(f"{number}: {title}", content, other, tolerance, None if read.fault else known)
            yield Pair(f"{number}: its repack, {title}", b"".join(records), other, tolerance)


# What has to be printed, and what is.


def answer_of(pair, names):
    """The status, what is printed, and the complaint."""
    told = model.compared(pair.one, pair.other, pair.tolerance)
    complaint = b""
    if told.fault:
        complaint = f"msrepack: {names[told.whose]}: {told.fault}\n".encode()
    return told.status, model.text(told.lines).encode(), complaint


def is_as_known(known, answer):
    if known is None:
        return True
    status, printed, complaint = answer
    if isinstance(known, str):
        return printed.decode().startswith(f"{known}\n") or complaint.decode() == f"msrepack: {known}\n"
    return printed.decode() == model.text(known)


def difference(program, number, pair):
    """What is wrong with the answer to that pair, or None. Of every four one is read from standard input."""
    if not is_as_known(pair.known, answer_of(pair, ("ONE", "OTHER"))):
        return f"the model says {answer_of(pair, ('ONE', 'OTHER'))}, known is {pair.known}"
    if program is None:
        return None
    names = [program.file("one", pair.one), program.file("other", pair.other)]
    given, which = b"", number % 8
    if which < 2:
        given, names[which] = (pair.one, pair.other)[which], "-"
    wanted = answer_of(pair, names)
    got = program.run("compare", *(["--tolerance", str(pair.tolerance)] if pair.tolerance != 1000 else []), *names, given=given)
    return None if got == wanted else f"prints {got}, wanted is {wanted}"


def compare_all(job):
    """How many pairs of a job have each answer, and what is wrong."""
    path, make, argument = job
    counts, wrong = collections.Counter(), []
    with tempfile.TemporaryDirectory() as folder:
        program = path and compare.Program(path, folder)
        for number, pair in enumerate(make(*argument)):
            status, printed, _ = answer_of(pair, ("ONE", "OTHER"))
            kind = "refused" if status == 1 else " ".join(word for word in printed.decode().split("\n")[0].split() if word.isalpha())
            counts[kind.replace("ONE", "one").replace("OTHER", "one")] += 1
            said = difference(program, number, pair)
            if said:
                wrong.append(f"{pair.title}: {said}")
    return counts, wrong


def main():
    options = argparse.ArgumentParser(description=__doc__, formatter_class=argparse.RawDescriptionHelpFormatter)
    options.add_argument("program", nargs="?")
    options.add_argument("--first", type=int, default=0, help="the number of the first file made at random")
    options.add_argument("--count", type=int, default=200, help="how many files made at random")
    options.add_argument("--model", action="store_true", help="runs no program")
    asked = options.parse_args()
    path = None if asked.model else compare.program_of(asked.program)
    jobs = [(path, by_hand, ()), *((path, pairs_of, (name,)) for name in files())]
    jobs += [(path, pairs_at_random, (number,)) for number in range(asked.first, asked.first + asked.count)]
    counts, failed = collections.Counter(), 0
    with multiprocessing.Pool() as pool:
        for some, wrong in pool.imap_unordered(compare_all, jobs):
            counts += some
            failed += len(wrong)
            for line in wrong:
                print(line)
    print("answers: " + ", ".join(f"{kind} {count}" for kind, count in counts.most_common()))
    print(f"{sum(counts.values())} comparisons, {failed} wrong")
    return 1 if failed else 0


if __name__ == "__main__":
    sys.exit(main())
