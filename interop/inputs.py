"""The files that readers.py makes: inputs that msrepack repacks, and inputs that it refuses.

A record is made from the layout of the SEED manual, by no code of msrepack's.
"""
import array
import collections
import datetime
import os
import random
import shutil
import struct
import subprocess
import sys
import tempfile

sys.path.insert(0, os.path.join(os.path.dirname(os.path.dirname(os.path.realpath(__file__))), "bench"))
import against_libmseed
import station

RECORDED = "/usr/share/doc/libmseed-dev/examples/test.mseed"
COUNT = 100_000
EPOCH = datetime.datetime(2020, 1, 1)
CODES = {1: "h", 3: "i", 4: "f", 5: "d"}
BIG, LITTLE = ">", "<"

# How a record says what it has. `order` is that of the header, `data_order` that of the samples; `chain` the
# blockettes, from byte 48 on; `data` the beginning of data; `fine` the microseconds of blockette 1001.
Form = collections.namedtuple(
    "Form", "length encoding order data_order rate channel quality activity correction timing fine chain data",
    defaults=(512, 3, BIG, BIG, (20, 1), b"HHZ", b"D", 0, 0, 0, None, (1000, 1001), 64))


def btime(order, micros, fine):
    """Start as 10 bytes, `micros` microseconds after the start of 2020; `fine` of them stand in blockette 1001."""
    it = EPOCH + datetime.timedelta(microseconds=micros - fine)
    parts = (it.year, it.timetuple().tm_yday, it.hour, it.minute, it.second, 0, it.microsecond // 100)
    return struct.pack(f"{order}HHBBBBH", *parts)


def blockettes(form, fine):
    """The chain, from byte 48 on."""
    chain = b""
    for place, kind in enumerate(form.chain, 1):
        following = 48 + 8 * place if place < len(form.chain) else 0
        chain += struct.pack(f"{form.order}HH", kind, following)
        if kind == 1000:
            chain += bytes((form.encoding, int(form.data_order == BIG), form.length.bit_length() - 1, 0))
        else:
            chain += struct.pack("BbBB", form.timing, fine, 0, 0)
    return chain


def record(number, micros, samples, form=Form()):
    fine = micros % 100 if form.fine is None else form.fine
    head = struct.pack("6s1s1s5s2s3s2s", b"%06d" % number, form.quality, b" ", b"TEST ", b"00", form.channel, b"XX")
    head += btime(form.order, micros, fine)
    flags = (form.activity, 0, 0, len(form.chain))
    numbers = (form.correction, form.data, 48 if form.chain else 0)
    head += struct.pack(f"{form.order}HhhBBBBiHH", len(samples), *form.rate, *flags, *numbers)
    head = (head + blockettes(form, fine)).ljust(form.data, b"\0")
    area = samples
    if form.encoding:
        area = struct.pack(f"{form.data_order}{len(samples)}{CODES[form.encoding]}", *samples)
    if len(head) + len(area) > form.length:
        sys.exit(f"{len(samples)} samples have no room in a record of {form.length} bytes")
    return (head + area).ljust(form.length, b"\0")


def period(rate):
    """Microseconds between two samples, as a fraction."""
    factor, multiplier = rate
    above = 1_000_000 * (abs(factor) if factor < 0 else 1) * (abs(multiplier) if multiplier < 0 else 1)
    return above, (factor if factor > 0 else 1) * (multiplier if multiplier > 0 else 1)


def instant(micros, place, rate):
    """The nominal instant of a sample, rounded to the microsecond."""
    above, below = period(rate)
    return micros + (2 * place * above + below) // (2 * below)


class Made:
    """Records, and the samples of each channel by its name in libmseed."""

    def __init__(self):
        self.records, self.samples = [], {}

    def add(self, number, micros, samples, form=Form()):
        self.records.append(record(number, micros, samples, form))
        name = f"XX_TEST_00_{form.channel.decode()}_{form.quality.decode()}"
        self.samples[name] = self.samples.get(name, []) + list(samples)

    def add_all(self, micros, samples, each, form=Form(), late=lambda number: 0):
        """Records of so many samples each, which are late by so many microseconds."""
        for number, start in enumerate(range(0, len(samples), each), 1):
            begins = instant(micros, start, form.rate) + late(number)
            self.add(number, begins, samples[start : start + each], form)

    def write(self, name):
        with open(name, "wb") as out:
            out.writelines(self.records)
        return self.samples


def wave(count, height=30_000):
    return [round(sample * height / 1000) for sample in station.white_noise(1000)(count)]


def zeros(count):
    return [0] * count


def of_32_bits(count):
    noise = random.Random(7)
    return [noise.randrange(-(1 << 31), 1 << 31) for _ in range(count)]


def swings(count):
    """Differences of 16 bits over samples of more: Steim-1 has two of them in a word, Steim-2 one."""
    return [1_000_000 + 20_000 * (n % 2) for n in range(count)]


def of_all_kinds(count):
    """Stretches for which each of the five kinds of records is the smallest."""
    fifth = count // 5
    narrow = station.microseism(fifth) + station.within_16_bits(fifth) + swings(fifth)
    return narrow + station.within_24_bits(fifth) + of_32_bits(fifth)


def recorded(name, _):
    """The sample file of libmseed-doc; nobody says what its samples are."""
    shutil.copyfile(RECORDED, name)
    return {}


def by_bench(samples_of, count, write):
    def make(name, _):
        samples = list(samples_of(count))
        write(name, samples)
        return {"XX_BENCH_00_HHZ_D": samples}

    return make


def block(each):
    """The block of an input of bench/against_libmseed.py."""

    def make(name, _):
        with tempfile.TemporaryDirectory() as folder:
            made = against_libmseed.block_of(each, folder)
        with open(name, "wb") as out:
            out.writelines(made.records)
        return {"XX_BENCH_00_HHZ_D": array.array("i", made.samples)} if each.make else {}

    return make


def by_libmseed(samples_of, encoding, order, length):
    """Written by libmseed itself, 100 samples a second."""

    def make(name, libmseed):
        samples = samples_of(COUNT)
        words = [libmseed, "write", str(encoding), str(order), str(length), "100", name]
        subprocess.run(words, input=array.array("i", samples).tobytes(), check=True)
        return {"XX_TEST__HHZ_D": samples}

    return make


def in_turns(seconds):
    """Two channels that take turns, with records of five seconds that start at these."""

    def make(name, _):
        made = Made()
        for number, second in enumerate(seconds, 1):
            for channel in (b"HHN", b"HHZ"):
                made.add(number, 1_000_000 * second, wave(100, 30_000 + number), Form(channel=channel))
        return made.write(name)

    return make


def jitter(name, _):
    """Records that are up to 450 microseconds early or late."""
    noise, made = random.Random(7), Made()
    late = lambda number: noise.randrange(-450, 451)
    made.add_all(0, station.microseism(20_000), 100, Form(rate=(100, 1)), late)
    return made.write(name)


def drift(name, _):
    """A clock by which each record is 70 microseconds later than the one before it says."""
    made = Made()
    made.add_all(0, station.microseism(20_000), 100, Form(rate=(100, 1)), lambda number: 70 * number)
    return made.write(name)


RATES = [(1, 1), (3, 1), (-3, 1), (7, 3), (-10, -2), (200, -10), (300, 1), (20_000, 4), (-7, 3), (1, -7)]


def rates(name, _):
    """A channel for each rate: periods of whole microseconds and of fractions, less and more than a second."""
    made = Made()
    for number, rate in enumerate(RATES):
        made.add_all(0, wave(500), 97, Form(rate=rate, channel=b"R%02d" % number))
    return made.write(name)


HEADERS = [
    Form(order=LITTLE, data_order=LITTLE),
    Form(order=LITTLE),
    Form(data_order=LITTLE),
    Form(chain=(1000,), data=56),
    Form(chain=(1001, 1000)),
    Form(data=128, length=1024),
    Form(quality=b"R"),
    Form(quality=b"Q"),
    Form(quality=b"M"),
    Form(timing=100),
    Form(length=128, encoding=1),
    Form(length=65_536),
    Form(length=1_048_576),
]


def headers(name, _):
    """A channel for each form of a header: orders of bytes, chains of blockettes, lengths of records."""
    made = Made()
    for number, form in enumerate(HEADERS):
        each = 30 if form.length == 128 else 97
        made.add_all(0, station.within_16_bits(500), each, form._replace(channel=b"F%02d" % number))
    return made.write(name)


DAY = 86_400_000_000
TIMES = [
    (1_234_567, Form()),
    (1_234_550, Form(fine=-50)),
    (1_234_500, Form(correction=12)),
    (1_234_500, Form(correction=12, activity=2)),
    (1_234_500, Form(correction=-12)),
    (366 * DAY - 12_000_000, Form()),
    (59 * DAY - 12_000_000, Form()),
    (-51 * 365 * DAY, Form()),
    (60 * 365 * DAY, Form()),
]


def times(name, _):
    """A channel for each start: microseconds, corrections, ends of the year and of February, 1969, a leap second."""
    made = Made()
    for number, (micros, form) in enumerate(TIMES):
        made.add_all(micros, wave(500), 97, form._replace(channel=b"T%02d" % number))
    made.add(1, 59_500_000, wave(97), Form(channel=b"LEA"))
    leap = bytearray(made.records[-1])
    leap[26] = 60
    made.records[-1] = leap
    return made.write(name)


def empty(name, _):
    """Records without samples, of two encodings, between those with samples."""
    made = Made()
    made.add_all(0, wave(500), 100)
    made.records[1:1] = [record(9, 0, b"", Form(encoding=0)), record(9, 5_000_000, [])]
    return made.write(name)


def plain(length, encoding):
    return lambda name, samples: station.write_plain(name, length, encoding, samples)


# By how many microseconds a time may be apart: two times that are rounded, or the tolerance and one that is rounded.
ROUNDED, RAGGED = 1, 1000.5

# What makes the file tells the samples of its channels, too. `apart` says by how much times may be apart; `again` that
# times come again, which libmseed's traces cannot keep apart.
Input = collections.namedtuple("Input", "title make apart again", defaults=(ROUNDED, False))

INPUTS = [
    Input("IU.COLA.00.LHZ, as recorded", recorded, RAGGED),
    *(Input(it.title, block(it)) for it in against_libmseed.INPUTS if it.make),
    *(Input(f"{it.title}, 24 times", block(it), RAGGED) for it in against_libmseed.INPUTS if not it.make),
    Input("a tenth of a day, 16-bit integers", by_bench(station.noise_and_events, 864_000, plain(512, 1))),
    Input("noise within 24 bits, 32-bit integers", by_bench(station.within_24_bits, COUNT, plain(4096, 3))),
    Input("all of 32 bits, 32-bit integers", by_bench(of_32_bits, COUNT, plain(512, 3))),
    Input("stretches of each kind, 32-bit integers", by_bench(of_all_kinds, 2 * COUNT, plain(4096, 3))),
    Input("Steim-1 by libmseed, big-endian", by_libmseed(station.strong_motion, 10, 1, 512)),
    Input("Steim-1 by libmseed, little-endian", by_libmseed(station.strong_motion, 10, 0, 4096)),
    Input("Steim-2 by libmseed, big-endian", by_libmseed(station.strong_motion, 11, 1, 4096)),
    Input("Steim-2 by libmseed, little-endian", by_libmseed(station.strong_motion, 11, 0, 512)),
    Input("16-bit integers by libmseed, little-endian", by_libmseed(station.within_16_bits, 1, 0, 512)),
    Input("32-bit integers by libmseed, little-endian", by_libmseed(of_32_bits, 3, 0, 4096)),
    Input("two channels in turns, with gaps", in_turns([0, 5, 10, 25, 30, 60])),
    Input("the same, with times that come again", in_turns([0, 5, 10, 25, 30, 20, 20, 60]), again=True),
    Input("times early and late by up to 450 µs", jitter, RAGGED),
    Input("a clock that drifts by 70 µs a record", drift, RAGGED),
    Input("ten sample rates", rates),
    Input("thirteen forms of headers", headers),
    Input("ten forms of times", times),
    Input("records without samples", empty),
]




def three():
    """Three records that follow one another; the second is the one that is edited."""
    made = Made()
    for number in range(3):
        made.add(number + 1, 5_000_000 * number, wave(100, 1001 + number))
    return made


# The bytes of a record, and the samples that were put in.
Edited = collections.namedtuple("Edited", "text samples")


def edited(edits, samples=None, form=Form()):
    """The second of the three records, with bytes replaced."""
    samples = wave(100, 1002) if samples is None else samples
    made = bytearray(record(2, 5_000_000, samples, form))
    for at, text in edits.items():
        made[at : at + len(text) // 2] = bytes.fromhex(text)
    return Edited(bytes(made), samples)


def steim2(*words):
    """A record of five samples whose area begins with these words."""
    made = bytearray(record(2, 5_000_000, [0] * 5))
    made[52], made[64 : 64 + 4 * len(words)] = 11, struct.pack(f">{len(words)}I", *words)
    return Edited(bytes(made), [10, 11, 12, 13, 14])


def bare(text):
    return Edited(text, [])


WHOLE = edited({}).text
TEXT = b"CLOCK SET 2020-01-01T00:00:05\r\n"
VOLUME = b"000002V 010009502.1122020,001,00:00:00.0000~2020,002~2020,003~XX~TEST~".ljust(512, b" ")

# Title, what stands in the place of the second of three records, and whether the third follows.
REFUSED = [
    ("the file ends 47 bytes after a record's first", bare(WHOLE[:47]), False),
    ("the file ends in the data of a record", bare(WHOLE[:300]), False),
    ("100 bytes of 0 between two records", bare(bytes(100)), True),
    ("512 bytes of 0 between two records", bare(bytes(512)), True),
    ("512 bytes of 0 at the end", bare(bytes(512)), False),
    ("a record of blanks after its number", bare(b"000002".ljust(512, b" ")), True),
    ("a control header (volume) of full SEED", bare(VOLUME), True),
    ("quality indicator X", edited({6: "58"}), True),
    ("hour 24", edited({24: "18"}), True),
    ("day 366 of 2019", edited({20: "07e3016e"}), True),
    ("year 0", edited({20: "0000"}), True),
    ("it begins in the last second of 2100", edited({20: "0834016d173b3b"}), True),
    ("the chain of blockettes is a loop", edited({50: "0030"}), True),
    ("two blockettes overlap", edited({50: "0034"}), True),
    ("the chain leads past the file", edited({50: "ffff"}), True),
    ("a blockette ends past the record", edited({50: "01fc", 508: "03e90000"}), True),
    ("a blockette 500: timing", edited({56: "01f40000" + 196 * "00"}, form=Form(length=1024, data=256)), True),
    ("a blockette 100: 20.125 samples a second", edited({56: "0064000041a1000000000000"}, form=Form(data=68)), True),
    ("blockette 1000 twice", edited({56: "03e8000003010900"}), True),
    ("no blockette 1000", edited({48: "03e9000000000000", 39: "01"}), True),
    ("no blockette at all", edited({39: "00", 46: "0000"}), True),
    ("records of 64 bytes (exponent 6)", edited({54: "06"}), True),
    ("records of 2 MiB (exponent 21)", edited({54: "15"}), True),
    ("word order 2", edited({53: "02"}), True),
    ("rate factor 0", edited({32: "0000"}), True),
    ("rate multiplier 0", edited({34: "0000"}), True),
    ("encoding 0: text", edited({}, TEXT, Form(encoding=0, channel=b"LOG")), True),
    ("encoding 4: floats", edited({}, [0.5] * 90, Form(encoding=4, channel=b"HHN")), True),
    ("encoding 5: doubles", edited({}, [0.5] * 50, Form(encoding=5, channel=b"HHN")), True),
    ("encoding 16 (CDSN) over 32-bit integers", edited({52: "10"}), True),
    ("encoding 19: Steim-3", edited({52: "13"}), True),
    ("encoding 99, which is unknown", edited({52: "63"}), True),
    ("the data begin at byte 63, in blockette 1001", edited({44: "003f"}), True),
    ("the data begin at byte 0", edited({44: "0000"}), True),
    ("the data begin at byte 600, past the record", edited({44: "0258"}), True),
    ("150 samples of 32 bits in 448 bytes", edited({30: "0096"}), True),
    ("Steim-2, more samples than differences", steim2(0x01000000, 10, 14, 0x05010101), True),
    ("Steim-2, an undefined word before the last sample", steim2(0x02000000, 10, 14, 0x00000000), True),
]
