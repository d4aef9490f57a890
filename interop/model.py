"""What msrepack must answer, said a second time, apart from it: from the SEED manual and docs/PROFILE.md.

It is written to be read, not to be fast: the packing tries all kinds from all starts, divisions into words are counted
from the end. It shares no line with the product; compare.py holds the two against each other.
"""
import datetime
import functools
import itertools
import math
import struct
from collections import namedtuple
from fractions import Fraction

FIRST, LAST = -2_208_988_800_000_000, 4_133_980_799_999_999
EPOCH = datetime.date(1970, 1, 1)
DAY, HOUR, MINUTE, SECOND = 86_400_000_000, 3_600_000_000, 60_000_000, 1_000_000

INT16, INT24, INT32, STEIM1, STEIM2 = 1, 2, 3, 10, 11
WIDTHS = {INT16: 2, INT24: 3, INT32: 4}
# The kinds in the order in which they are tried.
KINDS = (STEIM2, STEIM1, INT16, INT24, INT32)
# Those of --no-int24, and how a report names them.
WITHOUT_INT24 = (STEIM2, STEIM1, INT16, INT32)
NAMED = {KINDS: [], WITHOUT_INT24: ["kinds steim2 steim1 int16 int32"]}
MOST_SAMPLES = 65_535

# How many differences of how many bits a word holds: (count, bits, code, the top two bits or None).
WORDS = {
    STEIM1: ((4, 8, 1, None), (2, 16, 2, None), (1, 32, 3, None)),
    STEIM2: ((7, 4, 3, 2), (6, 5, 3, 1), (5, 6, 3, 0), (4, 8, 1, None), (3, 10, 2, 3), (2, 15, 2, 2), (1, 30, 2, 1)),
}
# Three differences in the last word of a Steim-1 record; its fourth is 0.
THREE = (3, 8, 1, None)

Key = namedtuple("Key", "network station location channel quality factor multiplier activity clock data correction timing")
Row = namedtuple("Row", "key start samples kind")
Segment = namedtuple("Segment", "key start samples")
Read = namedtuple("Read", "segments counts fault rows moved")
Repacked = namedtuple("Repacked", "records report fault")
# The lines and the status; or whose fault it is (0: that of the first, 1: of the other), and the fault.
Compared = namedtuple("Compared", "lines status whose fault")


class Refused(Exception):
    """Why a record is refused, in the program's words."""


def is_instant(micros):
    return FIRST <= micros <= LAST


def instant(year, day, hour, minute, second, fract):
    """Microseconds from 1970 on, or None if a field is out of its range."""
    if not 1900 <= year <= 2100 or hour > 23 or minute > 59 or second > 60 or fract > 9999:
        return None
    start = datetime.date(year, 1, 1)
    if not 1 <= day <= (datetime.date(year, 12, 31) - start).days + 1:
        return None
    days = (start - EPOCH).days + day - 1
    return DAY * days + HOUR * hour + MINUTE * minute + SECOND * second + 100 * fract


def parts(micros):
    """Year, day, hour, minute, second, ten-thousandths and microseconds of an instant."""
    days, rest = divmod(micros, DAY)
    date = EPOCH + datetime.timedelta(days=days)
    hour, rest = divmod(rest, HOUR)
    minute, rest = divmod(rest, MINUTE)
    second, rest = divmod(rest, SECOND)
    return (date.year, date.timetuple().tm_yday, hour, minute, second, *divmod(rest, 100))


def period(key):
    """Microseconds between two samples."""
    rate = Fraction(1)
    for number in (key.factor, key.multiplier):
        rate = rate * number if number > 0 else rate / -number
    return SECOND / rate


def nominal(key, start, count):
    return start + count * period(key)


def rounded(time):
    """The nearest microsecond, the later of two."""
    return (2 * time + 1) // 2


def signed(value, bits):
    return value - (1 << bits) if value >> (bits - 1) & 1 else value


def is_in(value, bits):
    return -(1 << (bits - 1)) <= value < 1 << (bits - 1)


# Reading.


def differences_of_word(kind, little, code, raw):
    """The differences that a word holds."""
    if code == 0:
        return []
    if code == 1:
        return list(struct.unpack("4b", raw))
    if kind == STEIM1 and code == 2:
        return list(struct.unpack("<hh" if little else ">hh", raw))
    word = int.from_bytes(raw, "little" if little else "big")
    for count, bits, of_code, top in WORDS[kind]:
        if of_code == code and top in (None, word >> 30):
            return [signed(word >> bits * (count - 1 - place) & (1 << bits) - 1, bits) for place in range(count)]
    return None


def steim_samples(kind, little, area, count):
    """The samples of an area of Steim frames, and whether the last is the one that the area names."""
    order = "<" if little else ">"
    differences = []
    for number in range(len(area) // 64 * 16):
        frame, place = divmod(number, 16)
        if place == 0 or number in (1, 2) or len(differences) >= count:
            continue
        codes = struct.unpack_from(f"{order}I", area, 64 * frame)[0]
        held = differences_of_word(kind, little, codes >> (30 - 2 * place) & 3, area[4 * number : 4 * number + 4])
        if held is None:
            raise Refused(f"13 BadCode {number}")
        differences += held
    if len(differences) < count:
        raise Refused("12 DataShort")
    first, last = struct.unpack_from(f"{order}ii", area, 4)
    samples = [first]
    for difference in differences[1:count]:
        sample = samples[-1] + difference
        samples.append(sample if is_in(sample, 32) else signed(sample & 0xFFFF_FFFF, 32))
    return samples, samples[-1] == last


def plain_samples(kind, little, area, count):
    width = WIDTHS[kind]
    if len(area) < count * width:
        raise Refused("12 DataShort")
    if kind == INT24:
        order = "little" if little else "big"
        places = range(0, count * width, width)
        return [int.from_bytes(area[place : place + width], order, signed=True) for place in places]
    letter = "h" if kind == INT16 else "i"
    return list(struct.unpack_from(f"{'<' if little else '>'}{count}{letter}", area))


def byte_order(rest):
    """That in which the year and the day are possible, and the record's time in it, without its fine part."""
    for order in "><":
        year, day = struct.unpack_from(f"{order}HH", rest, 20)
        if 1900 <= year <= 2100 and 1 <= day <= 366:
            year, day, hour, minute, second, _, fract = struct.unpack_from(f"{order}HHBBBBH", rest, 20)
            start = instant(year, day, hour, minute, second, fract)
            if start is not None:
                return order, start
            break
    raise Refused("3 BadTime")


def blockettes(order, rest, first):
    """Where those of type 1000 and 1001 stand."""
    places, place, before = {}, first, 40
    while place != 0:
        if place < 48 or place < before + 8 or place + 8 > len(rest):
            raise Refused("4 BadChain")
        number, following = struct.unpack_from(f"{order}HH", rest, place)
        if number not in (1000, 1001):
            raise Refused(f"5 OtherBlockette {number}")
        if number in places:
            raise Refused(f"6 TwiceBlockette {number}")
        places[number] = before = place
        place = following
    if 1000 not in places:
        raise Refused("7 NoBlockette1000")
    return places


def read_record(rest, strict):
    """The length of the first record, its row if it has samples, and whether its reverse constant agrees."""
    if len(rest) < 48:
        raise Refused("1 Truncated")
    if any(byte not in b"0123456789 \0" for byte in rest[:6]) or rest[6] not in b"DRQM" or rest[7] not in b" \0":
        raise Refused("2 NotARecord")
    order, start = byte_order(rest)
    fields = struct.unpack_from(f"{order}HhhBBBBiHH", rest, 30)
    count, factor, multiplier, activity, clock, data, _, correction, data_at, first = fields
    places = blockettes(order, rest, first)
    encoding, data_order, exponent = rest[places[1000] + 4 : places[1000] + 7]
    chain_end = max(places.values()) + 8
    if not 7 <= exponent <= 20:
        raise Refused("8 BadExponent")
    if data_order not in (0, 1):
        raise Refused("9 BadOrder")
    length = 1 << exponent
    if length > len(rest):
        raise Refused("10 RecordCut")
    if chain_end > length:
        raise Refused("11 ChainPastRecord")
    if count == 0:
        return length, None, True
    if factor == 0 or multiplier == 0:
        raise Refused("14 NoRate")
    if encoding not in KINDS:
        raise Refused(f"15 OtherEncoding {encoding}")
    if not chain_end <= data_at <= length:
        raise Refused("16 BadDataOffset")
    area, little, agrees = bytes(rest[data_at:length]), data_order == 0, True
    if encoding in WIDTHS:
        samples = plain_samples(encoding, little, area, count)
    else:
        samples, agrees = steim_samples(encoding, little, area, count)
    if strict and not agrees:
        raise Refused("18 ReverseMismatch")
    timing = 0
    if 1001 in places:
        timing, fine = struct.unpack_from("Bb", rest, places[1001] + 4)
        start += fine
    if correction != 0 and not activity & 2:
        start += 100 * correction
        activity |= 2
    names = (bytes(rest[18:20]), bytes(rest[8:13]), bytes(rest[13:15]), bytes(rest[15:18]), chr(rest[6]))
    key = Key(*names, factor, multiplier, activity, clock, data, correction, timing)
    row = Row(key, start, samples, encoding)
    if not is_in_time(key, start, count):
        raise Refused("17 TimeRange")
    return length, row, agrees


def is_in_time(key, start, count):
    """Whether so many samples begin and end within the instants."""
    return is_instant(start) and is_instant(rounded(nominal(key, start, count - 1)))


def apart(segment, row):
    """How far the row begins from the nominal instant of the segment's next sample, before or after it."""
    return abs(row.start - nominal(segment.key, segment.start, len(segment.samples)))


def joins(segment, row, tolerance):
    return segment.key == row.key and apart(segment, row) <= tolerance


def read_all(content, tolerance, strict=False):
    """The segments before the first fault, the counts of records, and the fault in the program's words; of each record
    its length and its row; and how far a row that joins is from its place at most, rounded up to the microsecond."""
    segments, offset, counts, rows, moved = [], 0, [0, 0, 0], [], 0
    content = memoryview(content)
    try:
        while offset < len(content):
            length, row, agrees = read_record(content[offset:], strict)
            if row and segments and joins(segments[-1], row, tolerance):
                key, start, samples = segments[-1]
                if not is_in_time(key, start, len(samples) + len(row.samples)):
                    raise Refused("17 TimeRange")
                moved = max(moved, math.ceil(apart(segments[-1], row)))
                samples += row.samples
            elif row:
                segments.append(Segment(row.key, row.start, list(row.samples)))
            rows.append((length, row))
            counts = [counts[0] + 1, counts[1] + (row is None), counts[2] + (not agrees)]
            offset += length
    except Refused as why:
        return Read(segments, counts, f"offset {offset}: {why}", rows, moved)
    return Read(segments, counts, None, rows, moved)


# Packing.


def all_in(values, bits):
    return all(is_in(value, bits) for value in values)


@functools.lru_cache(1000)
def most_of(kind, differences, words):
    """How many of the first differences can be divided into no more words than there are."""
    fewest, most = [0], 0
    while len(fewest) <= len(differences):
        count = len(fewest)

        def with_last(held, bits):
            if held > count or not all_in(differences[count - held : count], bits):
                return words + 1
            return fewest[count - held] + 1

        fewest.append(min(with_last(held, bits) for held, bits, _, _ in WORDS[kind]))
        last = with_last(*THREE[:2]) if kind == STEIM1 else words + 1
        if min(fewest[-1], last) <= words:
            most = count
        if min(fewest[-7:]) > words:
            break
    return most


def steim_end(kind, differences, start, size):
    """The farthest end of a run from `start` whose differences fill no more words than a record has."""
    words = 15 * (size // 64 - 1) - 2
    most = min(MOST_SAMPLES, words * WORDS[kind][0][0])
    return start + most_of(kind, tuple(differences[start : start + most]), words)


def end_of(kind, samples, differences, start, size):
    """The farthest end of a run of that kind from `start`."""
    if kind not in WIDTHS:
        return steim_end(kind, differences, start, size)
    width = WIDTHS[kind]
    run = samples[start : start + (size - 64) // width]
    if not run or all_in((min(run), max(run)), 8 * width):
        return start + len(run)
    return start + next(place for place, sample in enumerate(run) if not is_in(sample, 8 * width))


def packing(samples, size, kinds=KINDS):
    """Runs (start, end, kind) of these kinds, and the separators."""
    differences = [0] + [after - before for before, after in zip(samples, samples[1:])]
    farthest = {}

    def end_from(start):
        if start not in farthest:
            farthest[start] = max(end_of(kind, samples, differences, start, size) for kind in kinds)
        return farthest[start]

    starts, separators, frontier = [], [], 0
    while frontier < len(samples):
        near = range(max(0, frontier - 3), frontier + 1)
        end = max(map(end_from, near))
        starts.append(max(start for start in near if end_from(start) == end))
        separators.append(frontier)
        frontier = end
    runs = []
    for start, end in zip(starts, starts[1:] + [len(samples)]):
        kind = next(kind for kind in kinds if end_of(kind, samples, differences, start, size) >= end)
        runs.append((start, end, kind))
    return runs, separators, differences


def is_separating(samples, size, separators, kinds=KINDS):
    """Whether no run that fits one of the kinds holds two of them; they rise, and are numbers of samples. A run that
    holds two may begin before the first of them: a Steim-1 record can reach further from a sample earlier, by other
    groups. What of it begins at most eight samples before that one fits, too."""
    differences = [0] + [after - before for before, after in zip(samples, samples[1:])]
    pairs = list(zip(separators, separators[1:]))
    if any(after <= before for before, after in pairs) or any(place >= len(samples) for place in separators):
        return False
    return not any(
        end_of(kind, samples, differences, start, size) > after
        for before, after in pairs
        for kind in kinds
        for start in range(max(0, before - 8), before + 1)
    )


@functools.lru_cache(1000)
def division(kind, differences):
    """The groups of a run: the largest first one of the fewest that there can be, and so on."""
    count = len(differences)
    layouts = sorted(WORDS[kind] + ((THREE,) if kind == STEIM1 else ()), reverse=True)

    def can_begin(layout, place):
        held, bits = layout[:2]
        whole = layout is not THREE or place + held == count
        return whole and place + held <= count and all_in(differences[place : place + held], bits)

    fewest = [0] * (count + 1)
    for place in reversed(range(count)):
        fewest[place] = 1 + min(fewest[place + one[0]] for one in layouts if can_begin(one, place))
    groups, place = [], 0
    while place < count:
        one = next(one for one in layouts if can_begin(one, place) and fewest[place + one[0]] == fewest[place] - 1)
        groups.append((one, differences[place : place + one[0]]))
        place += one[0]
    return groups


# Writing.


def word_of(layout, held):
    """The code and the word of a group."""
    _, bits, code, top = layout
    word = 0
    for difference in [*held, *[0] * (layout is THREE)]:
        word = word << bits | difference & (1 << bits) - 1
    return code, word | (top or 0) << 30


def steim_area(kind, samples, differences, size):
    """The frames, and how many hold a word."""
    words = [0] * ((size - 64) // 4)
    number = 2
    for layout, held in division(kind, tuple(differences)):
        number += 2 if number % 16 == 15 else 1
        code, words[number] = word_of(layout, held)
        words[number - number % 16] |= code << (30 - 2 * (number % 16))
    words[1], words[2] = samples[0] & 0xFFFF_FFFF, samples[-1] & 0xFFFF_FFFF
    return struct.pack(f">{len(words)}I", *words), number // 16 + 1


def record(key, start, number, samples, differences, kind, size):
    """The bytes of a record."""
    frames = 0
    if kind in WIDTHS:
        area = b"".join(sample.to_bytes(WIDTHS[kind], "big", signed=True) for sample in samples)
    else:
        area, frames = steim_area(kind, samples, differences, size)
    year, day, hour, minute, second, fract, fine = parts(start)
    head = b"%06d%s " % (number, key.quality.encode())
    head += key.station + key.location + key.channel + key.network
    head += struct.pack(">HHBBBBH", year, day, hour, minute, second, 0, fract)
    head += struct.pack(">Hhh", len(samples), key.factor, key.multiplier)
    head += struct.pack(">BBBBiHH", key.activity, key.clock, key.data, 2, key.correction, 64, 48)
    head += struct.pack(">HHBBBB", 1000, 56, kind, 1, size.bit_length() - 1, 0)
    head += struct.pack(">HHBBBB", 1001, 0, key.timing, fine, 0, frames if frames <= 255 else 0)
    return (head + area).ljust(size, b"\0")


def name(key):
    def letter(byte):
        if byte == 32:
            return "_"
        return chr(byte) if chr(byte).isascii() and chr(byte).isalnum() else f"%{byte:02x}"

    fields = (key.network, key.station, key.location, key.channel)
    return ".".join("".join(map(letter, field)) for field in fields)


def codes(key):
    """Network, station, location and channel, without the spaces after them, as they stand in a path."""
    return tuple(bytes(field).decode("latin-1").rstrip(" ") for field in key[:4])


def code_text(code):
    """A code, each byte of it as a line of a report has it."""
    return "".join(letter if letter.isascii() and letter.isalnum() else "_" if letter == " " else f"%{ord(letter):02x}" for letter in code)


def segment_line(segment):
    key = segment.key
    year, day, hour, minute, second, fract, fine = parts(segment.start)
    return (
        f"segment {name(key)} {key.quality} rate {key.factor} {key.multiplier}"
        f" flags {key.activity:02x} {key.clock:02x} {key.data:02x} correction {key.correction} timing {key.timing}"
        f" start {year:04},{day:03},{hour:02}:{minute:02}:{second:02}.{100 * fract + fine:06}"
        f" samples {len(segment.samples)}"
    )


def counts_line(counts):
    return "read {} empty {} mismatched {}".format(*counts)


def json_text(field):
    """A field of a name in a string of JSON: without the spaces at its end, and each byte as the character of its number."""
    plain = {byte: chr(byte) for byte in range(32, 127)} | {34: '\\"', 92: "\\\\"}
    return "".join(plain.get(byte, f"\\u{byte:04x}") for byte in bytes(field).rstrip(b" "))


def iso(micros):
    """The time of an instant in ISO 8601."""
    days, rest = divmod(micros, DAY)
    date, (seconds, micros) = EPOCH + datetime.timedelta(days=days), divmod(rest, SECOND)
    clock = f"{seconds // 3600:02}:{seconds // 60 % 60:02}:{seconds % 60:02}"
    return f"{date.year:04}-{date.month:02}-{date.day:02}T{clock}.{micros:06}Z"


def began(before, segment):
    """Why the segment does not go on the one before it, and how far after that one's next sample it begins."""
    if before is None:
        return "first", None
    if before.key[:4] != segment.key[:4]:
        return "channel", None
    gap = segment.start - rounded(nominal(before.key, before.start, len(before.samples)))
    return ("settings" if before.key != segment.key else "gap" if gap > 0 else "overlap"), gap


def json_line(before, segment):
    """The object of a segment, which comes after another of its file or after None."""
    key, start, samples = segment
    why, gap = began(before, segment)
    names = zip(["network", "station", "location", "channel", "quality"], [*key[:4], key.quality.encode()])
    members = [f'"{name}":"{json_text(field)}"' for name, field in names]
    end = rounded(nominal(key, start, len(samples) - 1))
    members += [f'"start":"{iso(start)}"', f'"end":"{iso(end)}"', f'"samples":{len(samples)}']
    numbers = ["rate_factor", "rate_multiplier", "activity", "clock", "data_quality", "correction"]
    members += [f'"{name}":{number}' for name, number in zip(numbers, key[5:11])]
    members += [f'"timing":{key.timing or "null"}', f'"began":"{why}"']
    return "{" + ",".join(members + ([] if gap is None else [f'"gap_us":{gap}'])) + "}"


def json_counts(counts):
    return '{{"read":{},"empty":{},"mismatched":{}}}'.format(*counts)


def text(lines):
    return "".join(f"{line}\n" for line in lines)


def listed(content, tolerance, strict=False, json=False):
    """The text of a list, in lines of words or of JSON, and the fault."""
    read = read_all(content, tolerance, strict)
    if json:
        lines = [*map(json_line, [None, *read.segments], read.segments), json_counts(read.counts)]
    else:
        lines = [*map(segment_line, read.segments), counts_line(read.counts)]
    return text(lines), read.fault


def packed(segments, size, kinds=KINDS):
    """The records of segments, and their lines in a report."""
    records, lines = [], []
    for segment in segments:
        runs, separators, differences = packing(segment.samples, size, kinds)
        for start, end, kind in runs:
            time = rounded(nominal(segment.key, segment.start, start))
            number = len(records) % 999_999 + 1
            records.append(record(segment.key, time, number, segment.samples[start:end], differences[start:end], kind, size))
        lines.append(f"{segment_line(segment)} records {len(runs)}")
        lines.append(" ".join(map(str, ["separators", *separators])))
    return records, lines


def repacked(content, size, tolerance, strict=False, kinds=KINDS):
    """The records of all rows before the fault, the text of the report if there is none, and the fault."""
    read = read_all(content, tolerance, strict)
    records, lines = packed(read.segments, size, kinds)
    head = ["msrepack 1", f"length {size}", f"tolerance {tolerance}", *NAMED[kinds], counts_line(read.counts)]
    end = f"end {len(read.segments)} segments {len(records)} records"
    return Repacked(b"".join(records), None if read.fault else text([*head, *lines, end]), read.fault)


# Comparing.


def difference(one, other):
    """In what two segments differ, of which one may be missing; None if they are the same."""
    if one is None or other is None:
        return f"only in {'OTHER' if one is None else 'ONE'}"
    if one.key != other.key:
        return "key"
    if one.start != other.start:
        return "start"
    for number, (sample, other_sample) in enumerate(itertools.zip_longest(one.samples, other.samples)):
        if sample is None or other_sample is None:
            return f"sample {number} only in {'OTHER' if sample is None else 'ONE'}"
        if sample != other_sample:
            return f"sample {number} values {sample} {other_sample}"
    return None


def compared(one, other, tolerance):
    """What is told of two inputs."""
    both = [read_all(content, tolerance) for content in (one, other)]
    for whose, read in enumerate(both):
        if read.fault:
            return Compared([], 1, whose, read.fault)
    segments, others = both[0].segments, both[1].segments
    for number, pair in enumerate(itertools.zip_longest(segments, others), 1):
        how = difference(*pair)
        if how:
            return Compared([f"differ segment {number} {how}"], 3, None, None)
    samples = sum(len(segment.samples) for segment in segments)
    told = [f"same segments {len(segments)} samples {samples}", f"moved {both[0].moved} {both[1].moved}"]
    return Compared(told, 0, None, None)
