"""Makes an archive of a year with gaps, an overlap and restarts, of no station: of it docs/availability.png was drawn.

usage: python3 python/tests/year.py SDS
    msrepack archive --no-int24 --length 1024 SDS PACKED REPORTS
    python3 -m msrepack availability REPORTS -o docs/availability.png
"""
import datetime
import os
import random
import struct
import sys

YEAR, HOUR, DAY = 2023, 3600, 86_400
SECONDS_OF_A_SAMPLE = 100
# Of each channel how often, in days, it fails on the average, and for how many hours it then may be away.
CHANNELS = {
    ("ALPHA", "UHE"): (20, (1, 2, 24, 72)),
    ("ALPHA", "UHN"): (150, (2, 72)),
    ("ALPHA", "UHZ"): (300, (6,)),
    ("BRAVO", "UHZ"): (6, (1, 2, 24, 72)),
    ("CHARL", "UHZ"): (30, (1, 480, 960)),
    ("DELTA", "UHZ"): (120, (1, 72)),
}


def record(number, station, channel, start, samples):
    """A record of 256 bytes, of 16-bit integers at a sample in 100 seconds (SEED Reference Manual 2.4)."""
    time = datetime.datetime(YEAR, 1, 1) + datetime.timedelta(seconds=start)
    codes = (station.encode().ljust(5), b"00", channel.encode(), b"XX")
    header = struct.pack(">6s2s5s2s3s2s", b"%06d" % number, b"D ", *codes)
    header += struct.pack(">HHBBBBH", time.year, time.timetuple().tm_yday, time.hour, time.minute, time.second, 0, 0)
    header += struct.pack(">HhhBBBBiHH", len(samples), -SECONDS_OF_A_SAMPLE, 1, 0, 0, 0, 1, 0, 64, 48)
    header += struct.pack(">HHBBBB", 1000, 0, 1, 1, 8, 0)
    return (header.ljust(64, b"\0") + struct.pack(f">{len(samples)}h", *samples)).ljust(256, b"\0")


def hours(dice, days_between, lengths):
    """The hours of the year that have data, in seconds after its start; after one in ten failures the first hour is sent
    twice, the second time 50 minutes late."""
    start = 0
    while start < 365 * DAY:
        if dice.random() < HOUR / (days_between * DAY):
            start += HOUR * dice.choice(lengths)
            if dice.random() < 0.1:
                yield start - 3000
        yield start
        start += HOUR


def main(root):
    dice = random.Random(YEAR)
    for (station, channel), (days_between, lengths) in CHANNELS.items():
        days = {}
        for start in hours(dice, days_between, lengths):
            samples = [dice.randint(-9, 9) for _ in range(HOUR // SECONDS_OF_A_SAMPLE)]
            of_day = days.setdefault(start // DAY + 1, [])
            of_day.append(record(len(of_day) + 1, station, channel, start, samples))
        folder = os.path.join(root, f"{YEAR}/XX/{station}/{channel}.D")
        os.makedirs(folder)
        for day, records in days.items():
            if day <= 365:
                with open(os.path.join(folder, f"XX.{station}.00.{channel}.D.{YEAR}.{day:03}"), "wb") as file:
                    file.write(b"".join(records))


if __name__ == "__main__":
    main(*sys.argv[1:])
