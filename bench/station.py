"""All samples and records that the scripts of bench make up, the same ones on every machine: nothing is chance.

Samples of several kinds; records of them; days of one channel at 100 samples a second as a station sends them, in which
events die down over a swell under noise; and an archive of small days. Records are those of docs/PROFILE.md, big-endian.
"""
import array
import collections
import datetime
import math
import os
import random
import struct

# How far the swell reaches, how much of its period a sample takes (of 65,536 parts), how far the noise reaches, after
# how many samples an event begins (0: none does), and after how many it has half its height.
Shape = collections.namedtuple("Shape", "height step spread event_every half_life", defaults=(0, 0))
# Its samples, the encoding and the bytes of a record, how many samples that has, and how many are missing after it; and
# the lengths of the records that are packed from it, and then from these.
Day = collections.namedtuple("Day", "shape samples encoding length each gap first second")

# What the records of a file have in common. The name is that of the station, the location, the channel and the network,
# padded; the rate that of samples a second.
Form = collections.namedtuple("Form", "name rate encoding length")

INT16, INT32, STEIM2 = 1, 3, 11
RATE, EVENTS, SAMPLES = 100, 24, 8_640_000
# Microseism of some hundred counts, and an event every hour.
CALM = Shape(400, 280, 43, 360_000, 1000)
# A quiet vault: some ten counts.
QUIET = Shape(30, 280, 8)
# Swings of 24 bits that die down, over noise of some thousand counts.
STRONG = Shape(10_000, 12, 5200, 20_000, 6000)
# Noise within 16 bits, and white noise of 20,000 counts: a dead digitizer.
WITHIN_16_BITS, WHITE = Shape(0, 0, 22_000), Shape(0, 0, 34_600)
DAYS = {
    "calm": Day(CALM, SAMPLES, INT32, 4096, 1008, 0, 512, 4096),
    "early": Day(QUIET, SAMPLES, STEIM2, 512, 100, 0, 512, 4096),
    "strong": Day(STRONG, SAMPLES, INT32, 4096, 1008, 0, 512, 4096),
    "int16": Day(WITHIN_16_BITS, SAMPLES, INT16, 512, 224, 0, 512, 4096),
    "noise": Day(WHITE, SAMPLES // 5, INT32, 4096, 1008, 0, 512, 256),
    "pieces": Day(CALM, 20_000 * 112, STEIM2, 512, 112, 10, 512, 256),
}
# An archive of channels that sent six records each day, of which three are packed: a day costs what is done for each file.
SMALL = Day(CALM, 600, STEIM2, 512, 100, 0, 512, 512)
STATIONS, DAYS_EACH = 20, 100
# How many differences a word of Steim-2 holds, of how many bits, most first; its code, and the bits before them.
LAYOUTS = ((7, 4, 3, 2), (6, 5, 3, 1), (5, 6, 3, 0), (4, 8, 1, 0), (3, 10, 2, 3), (2, 15, 2, 2), (1, 30, 2, 1))
MASK = (1 << 64) - 1


def noise_and_events(count):
    """Noise of some tens of counts, and events of up to some thousand, all within 16 bits."""
    numbers = random.Random(1)
    noise = [round(numbers.gauss(0, 25)) for _ in range(65521)]
    samples = array.array("i", (noise[n % 65521] + noise[n * 7 % 65519] for n in range(count)))
    for event in range(EVENTS):
        begin = (2 * event + 1) * count // (2 * EVENTS)
        height = numbers.uniform(300, 12000)
        for n in range(min(60 * RATE, count - begin)):
            samples[begin + n] += round(height * math.exp(-n / 900) * math.sin(n * n / (n + 400)))
    return samples


def microseism(count):
    noise = random.Random(7)
    return [round(noise.gauss(0, 25) + 400 * math.sin(n / 37)) for n in range(count)]


def strong_motion(count):
    """Swings of a million counts that die down, over noise of some thousand."""
    noise = random.Random(7)
    return [
        round(noise.gauss(0, 3000) + 900_000 * math.sin(n / 900) * math.exp(-(n % 20_000) / 9_000)) for n in range(count)
    ]


def white_noise(height):
    def samples(count):
        noise = random.Random(7)
        return [round(noise.gauss(0, height)) for _ in range(count)]

    return samples


def within_16_bits(count):
    return [max(-32768, min(32767, sample)) for sample in white_noise(9000)(count)]


def within_24_bits(count):
    return [max(-8388608, min(8388607, sample)) for sample in white_noise(2_400_000)(count)]


def next_of(number):
    """The next number of a row that looks like chance."""
    return (number * 6_364_136_223_846_793_005 + 1_442_695_040_888_963_407) & MASK


def arch(phase):
    """The height of a wave of height 2,048 at that part of its period: two arches of a parabola."""
    part = phase & 0x7FFF
    height = part * (0x8000 - part) >> 17
    return -height if phase & 0x8000 else height


def height_at(shape, since):
    """How far the swell reaches in a record that begins so many samples after an event, whose height is halved again
    and again."""
    if not shape.event_every:
        return shape.height
    return max(900_000 >> min(since // shape.half_life, 12), shape.height)


def runs_of(day, seed):
    """The samples of each of its records."""
    shape, noise, phase, since = day.shape, next_of(next_of(seed)), seed & 0xFFFF, 0
    scale = 2 * shape.spread + 1
    for _ in range(day.samples // day.each):
        if since >= shape.event_every:
            since = 0
        height, run = height_at(shape, since), []
        since += day.each
        for _ in range(day.each):
            noise = next_of(noise)
            run.append(((noise >> 32) * scale >> 32) - shape.spread)
        if height:
            run = [(arch(phase + at * shape.step) * height >> 11) + sample for at, sample in enumerate(run)]
            phase += day.each * shape.step
        yield run


def words_of(differences):
    """The words of Steim-2 with their codes and counts: each holds as many of the differences that are left as it can."""
    place = 0
    while place < len(differences):
        for count, bits, code, top in LAYOUTS:
            held, limit = differences[place : place + count], 1 << bits - 1
            if len(held) == count and -limit <= min(held) and max(held) < limit:
                break
        else:
            raise ValueError(f"a difference of more than 30 bits: {differences[place]}")
        word = 0
        for difference in held:
            word = word << bits | difference & (1 << bits) - 1
        yield code, top << 30 & 0xFFFF_FFFF | word, count
        place += count


def steim2(samples, before, length):
    """The frames of a record with as many of the samples as it can hold, how many these are, and how many frames hold
    words. `before` is the sample before them, if there is one."""
    words, number, taken = [0] * ((length - 64) // 4), 2, 0
    firsts = [samples[0] if before is None else before, *samples]
    for code, word, count in words_of([sample - last for last, sample in zip(firsts, samples)]):
        following = number + (2 if number % 16 == 15 else 1)
        if following >= len(words):
            break
        number, taken = following, taken + count
        words[number] = word
        words[number - number % 16] |= code << 30 - 2 * (number % 16)
    words[1], words[2] = samples[0] & 0xFFFF_FFFF, samples[taken - 1] & 0xFFFF_FFFF
    return struct.pack(f">{len(words)}I", *words), taken, number // 16 + 1


def integers(encoding, samples):
    """Samples as integers of 16 or of 32 bits."""
    return struct.pack(f">{len(samples)}{'h' if encoding == INT16 else 'i'}", *samples)


def record(form, number, clock, count, area, frames=0):
    """A record whose area has so many samples. It starts so many ten thousandths of a second after 2020-01-01 00:00:00."""
    seconds, fraction = divmod(clock, 10_000)
    time = datetime.datetime(2020, 1, 1) + datetime.timedelta(seconds=seconds)
    head = b"%06dD %s" % (number % 1_000_000, form.name)
    head += struct.pack(">HHBBBBH", time.year, time.timetuple().tm_yday, time.hour, time.minute, time.second, 0, fraction)
    head += struct.pack(">HhhBBBBiHH", count, form.rate, 1, 0, 0, 0, 2, 0, 64, 48)
    head += struct.pack(">HHBBBB", 1000, 56, form.encoding, 1, form.length.bit_length() - 1, 0)
    head += struct.pack(">HHBbBB", 1001, 0, 0, 0, 0, frames)
    return (head + area).ljust(form.length, b"\0")


def write_plain(path, length, encoding, samples):
    """Writes records of integers, each full."""
    form, each = Form(b"BENCH00HHZXX", RATE, encoding, length), (length - 64) // {INT16: 2, INT32: 4}[encoding]
    with open(path, "wb") as out:
        for number, start in enumerate(range(0, len(samples), each), 1):
            run = samples[start : start + each]
            out.write(record(form, number, 10_000 // RATE * start, len(run), integers(encoding, run)))


def write_steim2(path, samples, length=512, most=65535):
    """Writes records of Steim-2, each filled as far as its words reach, with at most `most` samples."""
    form, start, number, before = Form(b"BENCH00HHZXX", RATE, STEIM2, length), 0, 1, None
    # Fewer words than a quarter of the length hold seven differences each at most.
    most = min(most, 7 * length // 4)
    with open(path, "wb") as out:
        while start < len(samples):
            area, count, _ = steim2(samples[start : start + most], before, length)
            out.write(record(form, number, 10_000 // RATE * start, count, area))
            start, number, before = start + count, number + 1, samples[start + count - 1]


def areas_of(day, seed):
    """The area of each of its records, how many samples that has, and how many frames hold words."""
    before = None
    for run in runs_of(day, seed):
        if day.encoding == STEIM2:
            area, count, frames = steim2(run, before, day.length)
        else:
            area, count, frames = integers(day.encoding, run), len(run), 0
        if count < len(run):
            raise ValueError(f"{len(run)} samples have no room in a record of {day.length} bytes")
        yield area, count, frames
        before = run[-1]


def write(path, name, seed, parts=1):
    """Writes the day of that name, or the first of so many parts of it."""
    day = DAYS[name]
    form, day = Form(b"TEST 00BHZXX", RATE, day.encoding, day.length), day._replace(samples=day.samples // parts)
    with open(path, "wb") as out:
        for place, (area, count, frames) in enumerate(areas_of(day, next_of(seed))):
            clock = 10_000 // RATE * place * (day.each + day.gap)
            out.write(record(form, place + 1, clock, count, area, frames))


def write_archive(root):
    """Writes the archive. The samples of a day are those of all stations, and the files have one time of change, as what is
    kept beside a report has its digits."""
    stations = [f"S{number:03}" for number in range(STATIONS)]
    for station in stations:
        os.makedirs(f"{root}/2020/XX/{station}/BHZ.D")
    for day in range(1, DAYS_EACH + 1):
        areas = list(areas_of(SMALL, next_of(day)))
        for station in stations:
            form = Form(f"{station:5}00BHZXX".encode(), RATE, SMALL.encoding, SMALL.length)
            path = f"{root}/2020/XX/{station}/BHZ.D/XX.{station}.00.BHZ.D.2020.{day:03}"
            with open(path, "wb") as out:
                for place, (area, count, frames) in enumerate(areas):
                    clock = (day - 1) * 864_000_000 + 10_000 // RATE * place * SMALL.each
                    out.write(record(form, place + 1, clock, count, area, frames))
            os.utime(path, (1_600_000_000, 1_600_000_000))
