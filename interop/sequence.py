#!/usr/bin/env python3
"""Shows that records are numbered from 000001 to 999999 and then from 000001 again, on a feed of more records than that.

The samples swing between both ends of 32 bits, so that each record of 256 bytes has 48 of them: 190 MB go through a pipe.
"""
import argparse
import os
import struct
import subprocess
import sys
import tempfile
import threading

sys.dont_write_bytecode = True
import compare

RECORDS, SIZE = 1_000_002, 256
SAMPLES_OF_OURS = (SIZE - 64) // 4
SAMPLES_OF_THEIRS = (4096 - 64) // 4


def input_record(place):
    """The record of 4096 bytes that begins with the sample at this place, a hundredth of a second after the one before."""
    hundredths, year, day = place, 2020, 1
    seconds, hundredths = divmod(hundredths, 100)
    days, seconds = divmod(seconds, 86_400)
    time = struct.pack(">HHBBBBH", year, day + days, seconds // 3600, seconds // 60 % 60, seconds % 60, 0, hundredths * 100)
    head = b"000001D TEST 00BHZXX" + time + struct.pack(">Hhh", SAMPLES_OF_THEIRS, 100, 1)
    head += struct.pack(">BBBBiHH", 0, 0, 0, 1, 0, 64, 48) + struct.pack(">HHBBBB", 1000, 0, 3, 1, 12, 0)
    ends = struct.pack(">ii", -(2**31), 2**31 - 1)
    return head.ljust(64, b"\0") + ends * (SAMPLES_OF_THEIRS // 2)


def give(pipe):
    with pipe:
        for place in range(0, RECORDS * SAMPLES_OF_OURS, SAMPLES_OF_THEIRS):
            pipe.write(input_record(place))


def main():
    options = argparse.ArgumentParser(description=__doc__)
    options.add_argument("--program")
    asked = options.parse_args()
    with tempfile.TemporaryDirectory() as folder:
        words = [compare.program_of(asked.program), "feed", "--length", str(SIZE), os.path.join(folder, "report")]
        program = subprocess.Popen(words, stdin=subprocess.PIPE, stdout=subprocess.PIPE)
        giving = threading.Thread(target=give, args=[program.stdin])
        giving.start()
        count, wrong = 0, 0
        while record := program.stdout.read(SIZE):
            wrong += record[:6] != b"%06d" % (count % 999_999 + 1)
            count += 1
        giving.join()
        status = program.wait()
    print(f"{count} records, {wrong} with another number, status {status}")
    return 0 if status == 0 and wrong == 0 and count >= RECORDS else 1


if __name__ == "__main__":
    sys.exit(main())
