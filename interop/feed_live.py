#!/usr/bin/env python3
"""Feeds the program through a live pipe, record by record, as a station sends them.

usage: feed_live.py PROGRAM

After each record, and before the next is sent, all has to have come out but the last samples of a segment that goes on, at
most twice as many as a record of the length can hold; and in the end the records of model.py. The last line is
`N passed, N failed`.
"""
import contextlib
import os
import random
import select
import subprocess
import sys
import tempfile
import time
from collections import namedtuple

import compare
import model
from jobs import Result

ROOT = os.path.dirname(os.path.dirname(os.path.realpath(__file__)))
LENGTHS = (256, 512, 4096)
TOLERANCE = 1000
# How many seconds the program has for a record: it needs far less than one.
PATIENCE = 20
# The files made at random that are taken: without a fault, and with more than a few records.
AT_RANDOM = (0, 1, 2, 4)
EXAMPLE = os.path.join(ROOT, "examples", "two-segments.mseed")

# Where a record of the input ends, and how many bytes have to be out when it has been sent.
Sent = namedtuple("Sent", "end out")


def key_of(channel):
    return model.Key(b"XX", b"FEED ", b"00", channel, "D", 100, 1, 0, 0, 0, 0, 0)


def made(channels, samples, each):
    """Records of 32-bit integers with so many samples each: of one channel, or of several that take turns."""
    records, start = [], model.instant(2020, 1, 0, 0, 0, 0)
    for first in range(0, len(samples), each):
        some = samples[first : first + each]
        for channel in channels:
            begins = start + first * model.SECOND // 100
            records.append(model.record(key_of(channel), begins, 1, some, [], model.INT32, 64 + 4 * each))
    return b"".join(records)


def inputs():
    """The contents by their names."""
    dice = random.Random(1)
    with open(EXAMPLE, "rb") as file:
        yield "two segments", file.read()
    for number in AT_RANDOM:
        yield f"file {number} made at random", compare.make(number).content
    yield "a long segment", made([b"HHZ"], compare.signal(dice, 16_000), 240)
    yield "a long segment of zeros", made([b"HHZ"], [0] * 24_000, 240)
    yield "channels in turns", made([b"HHN", b"HHZ"], compare.signal(dice, 2_400), 48)


def most_samples(size):
    """How many samples a record of that length can hold: seven differences in each word of Steim-2."""
    return min(model.MOST_SAMPLES, 7 * (15 * (size // 64 - 1) - 2))


def sends(read, records, size):
    """The records of the input in turn. Of a segment that has ended all records have to be out. Of one that goes on all
    samples have to be, but for the last ones, at most twice as many as a record of the length can hold."""
    segments, counts = iter(read.segments), [int.from_bytes(record[30:32], "big") for record in records]
    end, count, whole, out, first = 0, 0, 0, 0, 0
    for length, row in read.rows:
        end += length
        if row and count == whole:
            first, count, whole = first + whole, 0, len(next(segments).samples)
        count += len(row.samples) if row else 0
        least = first + max(0, count - 2 * most_samples(size))
        while sum(counts[:out]) < least:
            out += 1
        yield Sent(end, size * out)


def come(out, written, wanted):
    """What was written, read until there are so many bytes, or for too long."""
    until = time.monotonic() + PATIENCE
    while len(written) < wanted or select.select([out], [], [], 0)[0]:
        ready, _, _ = select.select([out], [], [], max(0, until - time.monotonic()))
        some = os.read(out, 1 << 16) if ready else b""
        if not some:
            break
        written += some
    return written


def live(words, content, sent):
    """What the program writes, and what is wrong with when it does."""
    written, begin, wrong = b"", 0, None
    with subprocess.Popen(words, stdin=subprocess.PIPE, stdout=subprocess.PIPE, stderr=subprocess.PIPE, bufsize=0) as feed:
        with contextlib.suppress(BrokenPipeError):
            for number, (end, wanted) in enumerate(sent, 1):
                feed.stdin.write(content[begin:end])
                begin, written = end, come(feed.stdout.fileno(), written, wanted)
                if len(written) < wanted:
                    wrong = f"after record {number} {len(written)} bytes are out, and not {wanted}"
                    break
        rest, said = feed.communicate()
    status = f"status {feed.returncode}: {said.decode(errors='replace')}" if feed.returncode else None
    return written + rest, wrong or status


def wrong_of(program, folder, content, size):
    """What is wrong with a feed of that input, or None."""
    read = model.read_all(content, TOLERANCE)
    records, _ = model.packed(read.segments, size)
    words = [program, "feed", "--length", str(size), "--tolerance", str(TOLERANCE), os.path.join(folder, "report")]
    written, wrong = live(words, content, sends(read, records, size))
    return wrong or (None if written == b"".join(records) else "other records came out")


def feed(program, name, content):
    """The input at each length, until one is wrong."""
    with tempfile.TemporaryDirectory() as folder:
        for number, size in enumerate(LENGTHS):
            wrong = wrong_of(program, folder, content, size)
            if wrong:
                return Result(number, 1, told=f"feed --length {size}, {name}: {wrong}\n")
    return Result(len(LENGTHS))


def main():
    if len(sys.argv) != 2:
        print(__doc__)
        return 2
    whole = sum((feed(sys.argv[1], name, content) for name, content in inputs()), Result())
    print(f"{whole.told}{whole.passed} passed, {whole.failed} failed")
    return 0 if whole.passed and not whole.failed else 1


if __name__ == "__main__":
    sys.exit(main())
