#!/usr/bin/python3
"""Shows which reader can read which kind of record, at each length that msrepack writes.

    interop/who_reads.py [--install] [--program FILE]

For each of the five encodings and each length msrepack packs samples for which that encoding is the smallest, and the
first full record of it is given to each reader, alone in a file. A reader can read it if it finds the samples that were
packed, which model.py finds in each. The table is markdown, and README.md sums it up; below it stands what a reader
said of what it does not read.
"""
import argparse
import array
import os
import re
import struct
import sys
import tempfile

sys.dont_write_bytecode = True
import compare
import inputs
import model
import readers

# The samples of each encoding.
SAMPLES = {
    11: inputs.station.microseism,
    10: inputs.swings,
    1: inputs.station.within_16_bits,
    2: inputs.station.within_24_bits,
    3: inputs.of_32_bits,
}


def full_record(bench, encoding, length):
    """The first record of this encoding that msrepack packs, but for the last of all, and its samples."""
    name, samples = f"{bench.folder}/in", SAMPLES[encoding](inputs.COUNT)
    inputs.station.write_plain(name, 4096, inputs.station.INT32, samples)
    bench.said(bench.program, "repack", "--length", str(length), name, f"{bench.folder}/out")
    with open(f"{bench.folder}/out", "rb") as it:
        packed = it.read()
    at = 0
    for place in range(0, len(packed) - length, length):
        count = struct.unpack_from(">H", packed, place + 30)[0]
        if packed[place + 52] == encoding:
            record, samples = packed[place : place + length], samples[at : at + count]
            if list(model.read_all(record, 1000).segments[0].samples) != samples:
                sys.exit(f"the record of encoding {encoding} at {length} has other samples than were packed")
            return record, samples
        at += count
    sys.exit(f"no full record of encoding {encoding} at {length}")


def by_libmseed(bench, name, samples):
    found, status, complaint = bench.records(name, False)
    return not status and [it.samples for it in found] == [array.array("i", samples).tobytes()], complaint


def by_mseed2sac(bench, name, samples):
    """It writes samples as floats of 32 bits, so that is what they have to be."""
    files, status, complaint = bench.sac(name)
    return not status and [readers.sac_samples(it) for it in files.values()] == [readers.floats(samples)], complaint


def cells(bench, reads, full):
    """Whether the reader reads the record of each length, and the first line that it said where it does not."""
    answers, said = [], []
    for record, samples in full:
        with open(f"{bench.folder}/record", "wb") as out:
            out.write(record)
        same, complaint = reads(bench, f"{bench.folder}/record", samples)
        answers.append("yes" if same else "no")
        said += [] if same else readers.telling(complaint)[:1] or ["nothing"]
    return answers, sorted({re.sub(r"^XX_\w+: ", "", it) for it in said})


def print_table(bench):
    notes = []
    print(f"| encoding | reader | {' | '.join(map(str, readers.LENGTHS))} |\n|---|---{'|---' * len(readers.LENGTHS)}|")
    for encoding, kind in readers.KINDS.items():
        full = [full_record(bench, encoding, length) for length in readers.LENGTHS]
        for title, reads in [("libmseed", by_libmseed), ("mseed2sac", by_mseed2sac)]:
            answers, said = cells(bench, reads, full)
            print(f"| {kind} ({encoding}) | {title} | {' | '.join(answers)} |")
            notes += [f"{kind}, {title} says: `{it}`" for it in said]
    print("\n" + "\n\n".join(notes))


def main():
    words = argparse.ArgumentParser(description=__doc__.splitlines()[0])
    words.add_argument("--install", action="store_true", help="fetch what is missing with apt-get")
    words.add_argument("--program")
    asked = words.parse_args()
    program = compare.program_of(asked.program)
    readers.ensure_packages(asked.install)
    with tempfile.TemporaryDirectory(prefix="msrepack-interop-") as folder:
        bench = readers.Bench(program, folder)
        print(readers.versions(bench))
        print_table(bench)


if __name__ == "__main__":
    main()
