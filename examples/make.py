"""Makes the sample files of this folder, from the layout of a data record (SEED Reference Manual 2.4)."""
import math
import os
import struct


def record(number, length, encoding, second, fract, samples, channel="BHZ", day=1):
    """A record that starts in the first minute of a day of 2020, 20 samples a second, channel XX.TEST.00."""
    code = {1: "h", 3: "i"}[encoding]
    header = struct.pack(">6sBB5s2s3s2s", b"%06d" % number, ord("D"), 32, b"TEST ", b"00", channel.encode(), b"XX")
    header += struct.pack(">HHBBBBH", 2020, day, 0, 0, second, 0, fract)
    header += struct.pack(">HhhBBBBiHH", len(samples), 20, 1, 0, 0, 0, 2, 0, 64, 48)
    header += struct.pack(">HHBBBB", 1000, 56, encoding, 1, length.bit_length() - 1, 0)
    header += struct.pack(">HHBbBB", 1001, 0, 0, 0, 0, 0)
    return (header + struct.pack(f">{len(samples)}{code}", *samples)).ljust(length, b"\0")


def wave(count, height, first=0):
    return [round(height * math.exp(-n / 40) * math.sin(n / 3)) for n in range(first, first + count)]


def write(name, data):
    if os.path.dirname(name):
        os.makedirs(os.path.dirname(name), exist_ok=True)
    with open(name, "wb") as out:
        out.write(data)


write("one-record.mseed", record(1, 4096, 3, 0, 0, wave(302, 200_000)))

write("two-segments.mseed", b"".join(
    record(number, 512, 1, second, 0, wave(100, 3000)) for number, second in enumerate([0, 5, 10, 25, 30], 1)))

for channel, height in [("BHN", 90_000), ("BHZ", 300_000)]:
    for day, seconds in [(1, [0, 5, 10, 15, 20]), (2, [0, 5, 40, 45])]:
        write(f"sds/2020/XX/TEST/{channel}.D/XX.TEST.00.{channel}.D.2020.{day:03}", b"".join(
            record(number, 512, 3, second, 0, wave(100, height, 20 * second % 100), channel, day)
            for number, second in enumerate(seconds, 1)))
write("sds/2020/XX/TEST/LOG.L/XX.TEST.00.LOG.L.2020.001", b"clock set\n")
