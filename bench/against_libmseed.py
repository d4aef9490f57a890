#!/usr/bin/env python3
"""Measures msrepack's repack beside libmseed's, on the same files in one run, taking turns.

    bench/against_libmseed.py [--length L] [--copies N] [--runs N] [--only TEXT] [--picture FILE] [--program FILE]

An input is a block of samples, made up and the same on every machine, or that of the sample file that comes with
libmseed. A file has the block as often as --copies says, each time later, so that it is one segment. Nothing of an
output counts before libmseed has read the same samples and start from it as from the input, and `msrepack check` has
said `least` of ours. README.md says what has to be there; --picture draws the ratios as SVG. The columns:

instructions a sample   those of the user's code by callgrind, as the difference between two blocks and one
ms                      the shortest of seven runs (--runs) from start to end, over 40 blocks (--copies); files are in
                        /dev/shm if it is there. Ours writes its report, too, and waits until its output is stored
peak KiB                the most memory at one time over these blocks, by /usr/bin/time
records                 how many of the length were written (--length, 512)
libmseed, ratio         libmseed's figure, and ours by libmseed's
"""
import argparse
import array
import collections
import datetime
import hashlib
import os
import shutil
import signal
import struct
import subprocess
import sys
import tempfile

import day
import station

NEEDED = "apt-get install gcc libmseed-dev libmseed-doc valgrind time python3-matplotlib"
RECORDED = "/usr/share/doc/libmseed-dev/examples/test.mseed"
BLOCK = 100_000
OURS, THEIRS = "ours", ("stream", "whole")
WAYS = (OURS, *THEIRS)
# The first of four bytes of a number, by that of three.
SIGNS = bytes(255 if byte & 0x80 else 0 for byte in range(256))
HEAD = """
| input | instructions a sample | libmseed | ratio | ms | libmseed | ratio | peak KiB | libmseed | records | libmseed |
|---|---|---|---|---|---|---|---|---|---|---|"""

Input = collections.namedtuple("Input", "title length make write")
Block = collections.namedtuple("Block", "records count seconds samples")
Row = collections.namedtuple("Row", "title instructions seconds peak records")
# What is compared as a ratio: its place in a row, its title, and the color of its bars.
COMPARED = [("instructions", "instructions", "#1f5a91"), ("seconds", "time", "#e0a030")]


def strong_motion_within_16_bits(count):
    return [sample // 32 for sample in station.strong_motion(count)]


def steim2(most=65535):
    return lambda name, length, samples: station.write_steim2(name, samples, length, most)


def integers(encoding):
    return lambda name, length, samples: station.write_plain(name, length, encoding, samples)


INPUTS = [
    Input("microseism, Steim-2", 512, station.microseism, steim2()),
    Input("microseism, 32-bit integers", 4096, station.microseism, integers(station.INT32)),
    Input("microseism, 16-bit integers", 512, station.microseism, integers(station.INT16)),
    Input("strong motion, Steim-2", 512, station.strong_motion, steim2()),
    Input("strong motion, 32-bit integers", 4096, station.strong_motion, integers(station.INT32)),
    Input("strong motion, 16-bit integers", 512, strong_motion_within_16_bits, integers(station.INT16)),
    Input("noise within 16 bits, 16-bit integers", 512, station.within_16_bits, integers(station.INT16)),
    Input("noise of 10 counts, Steim-2", 512, station.white_noise(10), steim2()),
    Input("noise of 60 counts, Steim-2", 512, station.white_noise(60), steim2()),
    Input("noise of 1,000 counts, Steim-2", 512, station.white_noise(1000), steim2()),
    Input("noise of 20,000 counts, Steim-2", 512, station.white_noise(20_000), steim2()),
    Input("low latency, 1 s in 512 bytes", 512, station.microseism, steim2(most=station.RATE)),
    Input("low latency, full 128 bytes", 128, station.microseism, steim2()),
    Input("IU.COLA.00.LHZ, as recorded", 512, None, None),
]


def later(record, seconds):
    """The big-endian record, which starts `seconds` later."""
    year, day_of_year, hour, minute, second, unused, fraction = struct.unpack_from(">HHBBBBH", record, 20)
    seconds += second + 60 * (minute + 60 * (hour + 24 * (day_of_year - 1)))
    start = datetime.datetime(year, 1, 1) + datetime.timedelta(seconds=seconds)
    parts = (start.year, start.timetuple().tm_yday, start.hour, start.minute, start.second, unused, fraction)
    return record[:20] + struct.pack(">HHBBBBH", *parts) + record[30:]


def repeated(records, seconds, copies):
    return [later(record, copy * seconds) for copy in range(copies) for record in records]


def records_in(name, length):
    with open(name, "rb") as it:
        data = it.read()
    return [data[at : at + length] for at in range(0, len(data), length)]


def with_32_bits(record):
    """The record, if it has 24-bit integers with 32-bit ones and twice as long: libmseed does not read those."""
    if record[52] != 2:
        return record
    count = struct.unpack_from(">H", record, 30)[0]
    first, second, third = (record[64 + place : 64 + 3 * count : 3] for place in range(3))
    wide = bytearray(4 * count)
    wide[0::4], wide[1::4], wide[2::4], wide[3::4] = first.translate(SIGNS), first, second, third
    head = bytearray(record[:64])
    head[52], head[54] = 3, head[54] + 1
    return bytes(head + wide).ljust(2 * len(record), b"\0")


def block_of(each, folder):
    if each.make is None:
        return recorded_block(each.length)
    samples = each.make(BLOCK)
    each.write(f"{folder}/block", each.length, samples)
    made = array.array("i", samples).tobytes()
    return Block(records_in(f"{folder}/block", each.length), BLOCK, BLOCK // station.RATE, made)


def recorded_block(length):
    """The sample file's one segment, of one sample a second, so often that it is a block."""
    records = records_in(RECORDED, length)
    count = sum(struct.unpack_from(">H", record, 30)[0] for record in records)
    copies = -(-BLOCK // count)
    return Block(repeated(records, count, copies), copies * count, copies * count, b"")


class Bench:
    def __init__(self, asked, folder):
        self.program, self.length, self.runs, self.copies = asked.program, asked.length, asked.runs, asked.copies
        self.folder, self.out, self.report = folder, f"{folder}/out", f"{folder}/report"
        self.libmseed = f"{folder}/libmseed_repack"
        source = f"{day.ROOT}/bench/libmseed_repack.c"
        built = subprocess.run(["cc", "-O2", "-o", self.libmseed, source, "-lmseed"], check=False)
        if built.returncode:
            sys.exit(f"libmseed_repack.c is not built: {NEEDED}")

    def said(self, *words):
        """What a command says; anything on standard error is a fault."""
        it = subprocess.run(words, stdin=subprocess.DEVNULL, capture_output=True, check=False)
        if it.returncode or it.stderr:
            sys.exit(f"{' '.join(words)}: status {it.returncode}, {it.stderr.decode(errors='replace')}")
        return it.stdout

    def words(self, way, name):
        if way == OURS:
            return [self.program, "repack", "--length", str(self.length), name, self.out]
        return [self.libmseed, way, str(self.length), name, self.out]

    def digest(self):
        with open(self.out, "rb") as it:
            return hashlib.sha256(it.read()).digest()

    def checked(self, way, name, samples):
        """The digest of what this way makes of the file, once that has been found to be right."""
        day.run(self.words(way, name), self.report)
        readable = f"{self.folder}/readable"
        with open(readable, "wb") as out:
            out.writelines(map(with_32_bits, records_in(self.out, self.length)))
        if self.said(self.libmseed, "samples", readable) != samples:
            sys.exit(f"{way}: libmseed reads other samples, or another start, from the output than from the input")
        if way == OURS and self.said(self.program, "check", self.out, self.report) != b"least\n":
            sys.exit("check does not say least of our output")
        return self.digest()

    def prepared(self, block, copies):
        """A file of `copies` of the block, and the digest of each way's output, which is right."""
        name = f"{self.folder}/in"
        with open(name, "wb") as out:
            out.writelines(repeated(block.records, block.seconds, copies))
        samples = self.said(self.libmseed, "samples", name)
        head = samples.split(b"\n", 1)[0]
        if not head.endswith(b" %d" % (block.count * copies)) or not samples.endswith(block.samples * copies):
            sys.exit(f"libmseed reads other samples from the input than were made: {head.decode()}")
        return name, {way: self.checked(way, name, samples) for way in WAYS}

    def same_again(self, way, digests):
        if self.digest() != digests[way]:
            sys.exit(f"{way}: another run wrote other bytes")

    def instructions(self, block, copies):
        name, digests = self.prepared(block, copies)
        counts = {}
        for way in WAYS:
            counts[way] = day.by_callgrind(self.words(way, name), self.folder)
            if counts[way] is None:
                sys.exit(f"{way}: failed under valgrind")
            self.same_again(way, digests)
        return counts

    def shortest(self, name, digests):
        """The shortest of the runs of each way, which take turns."""
        seconds = dict.fromkeys(WAYS, float("inf"))
        for way in WAYS * self.runs:
            seconds[way] = min(seconds[way], day.run(self.words(way, name), self.report))
            self.same_again(way, digests)
        return seconds

    def row(self, each):
        block = block_of(each, self.folder)
        few, many = self.instructions(block, 1), self.instructions(block, 2)
        instructions = {way: (many[way] - few[way]) / block.count for way in WAYS}
        name, digests = self.prepared(block, self.copies)
        seconds = self.shortest(name, digests)
        peak, records = {}, {}
        for way in WAYS:
            peak[way] = day.peak(self.words(way, name), self.folder)
            records[way] = os.path.getsize(self.out) // self.length
        return Row(each.title, *(pair(it) for it in (instructions, seconds, peak, records)))


def pair(figures):
    """Our figure, and the lesser one of libmseed's two ways; None if it was not taken."""
    theirs = [figures[way] for way in THEIRS]
    return figures[OURS], None if None in theirs else min(theirs)


def ratio(figures):
    return figures[0] / figures[1]


def print_row(row):
    cells = [row.title, *(f"{it:.1f}" for it in row.instructions), f"{ratio(row.instructions):.2f}"]
    cells += [*(f"{1000 * it:.1f}" for it in row.seconds), f"{ratio(row.seconds):.2f}"]
    cells += ["-" if it is None else f"{it:,}" for it in (*row.peak, *row.records)]
    print("| " + " | ".join(cells) + " |", flush=True)


def print_end(rows):
    for of, title, _ in COMPARED:
        ratios = [ratio(getattr(row, of)) for row in rows]
        few, most = sum(it <= 0.5 for it in ratios), max(ratios)
        print(f"{title}: at most half of libmseed's for {few} of {len(rows)} inputs; the most is {most:.2f} of it")


def pyplot():
    try:
        import matplotlib
    except ImportError:
        sys.exit(f"matplotlib is not here for {sys.executable}: {NEEDED}, and run it by /usr/bin/python3")
    matplotlib.use("svg")
    matplotlib.rcParams.update({"svg.hashsalt": "msrepack", "svg.fonttype": "none", "font.size": 11})
    from matplotlib import pyplot as drawing

    return drawing


def draw(rows, name, title):
    """Bars of the ratios, as SVG, with a line at one half."""
    figure, axes = pyplot().subplots(figsize=(9, 0.55 * len(rows) + 1.6))
    most = 1
    for shift, (of, label, color) in zip((-0.2, 0.2), COMPARED):
        ratios = [ratio(getattr(row, of)) for row in rows]
        most = max(most, *ratios)
        bars = axes.barh([place + shift for place in range(len(rows))], ratios, 0.38, color=color, label=label)
        behind = {"facecolor": "white", "edgecolor": "none", "pad": 0.8}
        axes.bar_label(bars, fmt="%.2f", padding=3, fontsize=9, bbox=behind)
    axes.axvline(0.5, color="#2a7a2a", linestyle="--", label="half of libmseed's")
    axes.axvline(1, color="#aa2222", label="as much as libmseed")
    axes.set_yticks(range(len(rows)), [row.title for row in rows])
    axes.invert_yaxis()
    axes.margins(y=0.01)
    axes.set_xlim(0, most + 0.1)
    axes.set_title(title)
    axes.legend(loc="upper center", bbox_to_anchor=(0.4, -0.06), ncol=4, frameon=False, fontsize=10)
    axes.spines[["top", "right"]].set_visible(False)
    figure.savefig(name, format="svg", bbox_inches="tight", metadata={"Date": None})


def words_of():
    words = argparse.ArgumentParser(description=__doc__.splitlines()[0])
    words.add_argument("--length", type=int, default=512, help="bytes of each record that is written")
    words.add_argument("--copies", type=int, default=40, help="how often the block stands in the file that is timed")
    words.add_argument("--runs", type=int, default=7, help="how often each is timed; the shortest counts")
    words.add_argument("--only", default="", help="only inputs with this text in their titles")
    words.add_argument("--picture", help="the SVG file to write")
    words.add_argument("--program")
    return words.parse_args()


def measure(asked, folder):
    bench = Bench(asked, folder)
    theirs = bench.said(bench.libmseed, "version").decode().strip()
    ours = bench.said(asked.program, "--version").decode().strip()
    print(f"{ours} beside {theirs}, records of {asked.length} bytes, the shortest of {asked.runs} runs")
    print(HEAD)
    rows = []
    for each in INPUTS:
        if asked.only not in each.title:
            continue
        if each.make is None and not os.path.exists(RECORDED):
            print(f"{each.title} is left out: {RECORDED} is not here ({NEEDED})", file=sys.stderr)
            continue
        rows.append(bench.row(each))
        print_row(rows[-1])
    print()
    print_end(rows)
    if asked.picture:
        draw(rows, asked.picture, f"What {ours} takes, with {theirs} as 1 (records of {asked.length} bytes)")


def main():
    asked = words_of()
    asked.program = day.program_of(asked.program)
    for tool in ("cc", "valgrind"):
        if not shutil.which(tool):
            sys.exit(f"{tool} is not here: {NEEDED}")
    if asked.picture:
        pyplot()
    signal.signal(signal.SIGTERM, lambda *_: sys.exit(1))
    # In memory, so that no disk is timed.
    memory = "/dev/shm" if os.access("/dev/shm", os.W_OK) else None
    with tempfile.TemporaryDirectory(prefix="msrepack-bench-", dir=memory) as folder:
        measure(asked, folder)


if __name__ == "__main__":
    main()
