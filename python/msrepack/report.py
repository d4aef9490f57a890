"""Reports and segments, in the text of docs/PROFILE.md: read, and written again to the byte."""
import datetime
import functools
import json
import os
import re
from dataclasses import dataclass
from fractions import Fraction
from typing import TYPE_CHECKING, Any, Callable, Dict, List, NamedTuple, Optional, Tuple, Type, Union, overload

from msrepack.errors import NotAReport

Path = Union[str, "os.PathLike[str]"]
EPOCH = datetime.datetime(1970, 1, 1, tzinfo=datetime.timezone.utc)
FIRST_DAY = EPOCH.toordinal()
SECOND = 1_000_000
DAY = 86_400 * SECOND
LENGTHS = tuple(2**exponent for exponent in range(8, 17))
KINDS: Tuple[str, ...] = ("steim2", "steim1", "int16", "int24", "int32")
WITHOUT_INT24: Tuple[str, ...] = ("steim2", "steim1", "int16", "int32")
MOST = 2**64 - 1

NUMBER, SIGNED, BYTE = "(0|[1-9][0-9]{0,19})", "(0|-?[1-9][0-9]{0,9})", "[0-9a-f]{2}"
# A name has all bytes of its codes, with dots between. Letters and digits stand for themselves, a space is `_`, and any
# other byte `%` and its code.
WIDTHS = (2, 5, 2, 3)
PLACES = (slice(0, 2), slice(3, 8), slice(9, 11), slice(12, 15))
LETTER = "(?:[A-Za-z0-9_]|%(?!20|3[0-9]|4[1-9a-f]|5[0-9a]|6[1-9a-f]|7[0-9a])[0-9a-f]{2})"
NAME = r"\.".join(f"{LETTER}{{{width}}}" for width in WIDTHS)
# A segment's line before ` start `, and after it.
HEAD = re.compile(
    f"segment ({NAME}) ([DRQM]) rate {SIGNED} {SIGNED} flags ({BYTE} {BYTE} {BYTE}) correction {SIGNED} timing {NUMBER}"
)
TAIL = re.compile(
    r"([0-9]{4},[0-9]{3}),([01][0-9]|2[0-3]):([0-5][0-9]):([0-5][0-9])\.([0-9]{6})"
    f" samples {NUMBER}(?: records {NUMBER})?"
)
SEPARATORS = re.compile("separators((?: (?:0|[1-9][0-9]{0,19}))*)")
LENGTH, TOLERANCE = re.compile(f"length {NUMBER}"), re.compile(f"tolerance {NUMBER}")
COUNTS = re.compile(f"read {NUMBER} empty {NUMBER} mismatched {NUMBER}")
END = re.compile(f"end {NUMBER} segments {NUMBER} records")


class Flags(NamedTuple):
    """The three bytes of flags of a record's header.

    >>> import msrepack
    >>> msrepack.segments("examples/one-record.mseed")[0].flags
    Flags(activity=0, clock=0, quality=0)
    """

    activity: int
    clock: int
    quality: int


class Segment(NamedTuple):
    """A stretch of samples of one channel without a gap, as a report or a list tells it.

    Codes are without the spaces that fill them in a header. `start` and `end` are microseconds from 1970 on, those of
    the first and of the last sample; `start_time` and `end_time` are the same as `datetime`, in UTC. `correction` counts
    units of 0.0001 s. `records` and `separators` tell of a repack: a report has them. `began` and `gap_us` are those of
    `list --json`: why it does not go on the segment before it, and the microseconds between the two; `segments` and
    `listing` have them. What is not told is None.

    >>> import msrepack
    >>> [segment] = msrepack.segments("examples/one-record.mseed")
    >>> segment.id, segment.quality, segment.samples, segment.rate
    ('XX.TEST.00.BHZ', 'D', 302, Fraction(20, 1))
    >>> print(segment.start_time, segment.end_time)
    2020-01-01 00:00:00+00:00 2020-01-01 00:00:15.050000+00:00
    """

    network: str
    station: str
    location: str
    channel: str
    quality: str
    rate_factor: int
    rate_multiplier: int
    flags: Flags
    correction: int
    timing: int
    start: int
    samples: int
    records: Optional[int] = None
    separators: Optional[Tuple[int, ...]] = None
    began: Optional[str] = None
    gap_us: Optional[int] = None

    @property
    def id(self) -> str:
        """Network, station, location and channel, with dots between."""
        return ".".join(self[:4])

    @property
    def rate(self) -> Fraction:
        """Samples in a second."""
        return _rate(self.rate_factor, self.rate_multiplier)

    @property
    def end(self) -> int:
        """The time of the last sample."""
        return self.time_of(self.samples - 1)

    def time_of(self, sample: int) -> int:
        """The time of a sample, counted from 0, by start and rate, in the nearest microsecond, of two the later.

        That after the last one is where a segment without a gap goes on.

        >>> import msrepack
        >>> [segment] = msrepack.segments("examples/one-record.mseed")
        >>> segment.time_of(302) - segment.end
        50000
        """
        rate = self.rate
        twice = 2 * (self.start * rate.numerator + sample * SECOND * rate.denominator)
        return (twice + rate.numerator) // (2 * rate.numerator)

    @property
    def start_time(self) -> datetime.datetime:
        """The start as `datetime`, in UTC."""
        return EPOCH + datetime.timedelta(microseconds=self.start)

    @property
    def end_time(self) -> datetime.datetime:
        """The end as `datetime`, in UTC."""
        return EPOCH + datetime.timedelta(microseconds=self.end)

    def __str__(self) -> str:
        """Its line, without the separators."""
        days, rest = divmod(self.start, DAY)
        minutes, micros = divmod(rest, 60 * SECOND)
        records = "" if self.records is None else f" records {self.records}"
        return (
            f"segment {_text_of_name(*self[:4])} {self.quality} rate {self.rate_factor} {self.rate_multiplier}"
            f" flags {_text_of_flags(self.flags)} correction {self.correction} timing {self.timing}"
            f" start {_text_of_day(days)},{minutes // 60:02}:{minutes % 60:02}:{micros // SECOND:02}"
            f".{micros % SECOND:06} samples {self.samples}{records}"
        )


if TYPE_CHECKING:

    class _Read:
        """Of a report it is how many records were read; `Report.read` of the class reads a file."""

        @overload
        def __get__(self, report: None, owner: Type["Report"]) -> Callable[[Path], "Report"]: ...

        @overload
        def __get__(self, report: "Report", owner: Type["Report"]) -> int: ...

        def __get__(self, report: Optional["Report"], owner: Type["Report"]) -> object: ...


@dataclass(frozen=True)
class Report:
    """The text that `repack` prints: what was asked for and read, and the segments with their records and separators.

    `Report.parse` and `str` are inverse to the byte. `Report.read` reads a file.

    >>> import msrepack
    >>> report = msrepack.repack("examples/two-segments.mseed").report
    >>> report.read, report.records, report.saved, len(report.segments)
    (5, 2, 3, 2)
    >>> Report.parse(str(report)) == report
    True
    """

    length: int
    tolerance: int
    kinds: Tuple[str, ...]
    if TYPE_CHECKING:
        read = _Read()
    else:
        read: int
    empty: int
    mismatched: int
    segments: Tuple[Segment, ...]
    if TYPE_CHECKING:

        def __init__(
            self, length: int, tolerance: int, kinds: Tuple[str, ...], read: int, empty: int, mismatched: int,
            segments: Tuple[Segment, ...],
        ) -> None: ...

    @classmethod
    def parse(cls, text: Union[str, bytes]) -> "Report":
        """The report of a text; `NotAReport` if it is none.

        >>> empty = "msrepack 1\\nlength 512\\ntolerance 1000\\nread 0 empty 0 mismatched 0\\nend 0 segments 0 records\\n"
        >>> Report.parse(empty).kinds
        ('steim2', 'steim1', 'int16', 'int24', 'int32')
        """
        if not isinstance(text, (str, bytes)):
            raise TypeError(f"the text of a report is str or bytes, not {type(text).__name__}: Report.read reads a file")
        return _parsed(_Lines(text if isinstance(text, str) else text.decode("latin-1")))

    @property
    def records(self) -> int:
        """How many records the segments have in all."""
        return sum(segment.records or 0 for segment in self.segments)

    @property
    def saved(self) -> int:
        """How many records fewer were written than read; below 0 if there were more."""
        return self.read - self.records

    def __str__(self) -> str:
        kinds = () if self.kinds == KINDS else (f"kinds {' '.join(self.kinds)}",)
        lines = ["msrepack 1", f"length {self.length}", f"tolerance {self.tolerance}", *kinds]
        lines.append(f"read {self.read} empty {self.empty} mismatched {self.mismatched}")
        for segment in self.segments:
            lines += [str(segment), " ".join(("separators", *map(str, segment.separators or ())))]
        lines.append(f"end {len(self.segments)} segments {self.records} records\n")
        return "\n".join(lines)


def _read(cls: Type[Report], path: Path) -> Report:
    """The report of a file.

    >>> import msrepack, tempfile
    >>> with tempfile.TemporaryDirectory() as there:
    ...     packed = msrepack.repack("examples/one-record.mseed", report=f"{there}/report.txt")
    ...     Report.read(f"{there}/report.txt") == packed.report
    True
    """
    with open(path, "rb") as file:
        return cls.parse(file.read())


# A report has a number of that name, and so the class gets this once its fields are known.
setattr(Report, "read", classmethod(_read))


# The fields of a segment before its start.
Head = Tuple[str, str, str, str, str, int, int, Flags, int, int]


@functools.lru_cache(None)
def _rate(factor: int, multiplier: int) -> Fraction:
    rate = Fraction(1)
    for number in (factor, multiplier):
        rate = rate * number if number > 0 else rate / -number
    return rate


def _name_of(text: str) -> Tuple[str, str, str, str]:
    """The codes of a name, without the spaces at their ends."""
    codes = re.sub("%(..)", lambda found: chr(int(found[1], 16)), text.replace("_", " "))
    network, station, location, channel = (codes[place].rstrip(" ") for place in PLACES)
    return network, station, location, channel


@functools.lru_cache(4096)
def _text_of_name(*codes: str) -> str:
    def letter(code: str) -> str:
        if code == " ":
            return "_"
        return code if code.isascii() and code.isalnum() else f"%{ord(code):02x}"

    padded = (code.ljust(width) for code, width in zip(codes, WIDTHS))
    return ".".join("".join(map(letter, code)) for code in padded)


@functools.lru_cache(4096)
def _text_of_flags(flags: Flags) -> str:
    return bytes(flags).hex(" ")


@functools.lru_cache(1 << 16)
def _midnight_of(text: str) -> Optional[int]:
    """The start of a day `YYYY,DDD`, if there is one."""
    year, day = int(text[:4]), int(text[5:])
    if not 1900 <= year <= 2100:
        return None
    first = datetime.date(year, 1, 1).toordinal()
    is_day = 1 <= day <= datetime.date(year, 12, 31).toordinal() - first + 1
    return (first + day - 1 - FIRST_DAY) * DAY if is_day else None


@functools.lru_cache(1 << 16)
def _text_of_day(days: int) -> str:
    date = datetime.date.fromordinal(FIRST_DAY + days)
    return f"{date.year:04},{date.timetuple().tm_yday:03}"


@functools.lru_cache(4096)
def _head_of(text: str) -> Optional[Head]:
    """What a line tells before its start, if it does. Many lines have the same."""
    found = HEAD.fullmatch(text)
    if not found:
        return None
    name, quality, flags = found.group(1, 2, 5)
    factor, multiplier, correction, timing = map(int, found.group(3, 4, 6, 7))
    has_rate = all(number != 0 and -(2**15) <= number < 2**15 for number in (factor, multiplier))
    if not has_rate or not -(2**31) <= correction < 2**31 or timing > 255:
        return None
    return (*_name_of(name), quality, factor, multiplier, Flags(*bytes.fromhex(flags)), correction, timing)


def segment_of(line: str, separators: Optional[Tuple[int, ...]] = None) -> Optional[Segment]:
    """The segment that a line of a report or a list tells, if it does."""
    before, _, after = line.partition(" start ")
    head, tail = _head_of(before), TAIL.fullmatch(after)
    if not head or not tail:
        return None
    day, hour, minute, second, micros, samples, records = tail.groups()
    midnight, count = _midnight_of(day), int(samples)
    written = None if records is None else int(records)
    if midnight is None or count > MOST or (written or 0) > MOST:
        return None
    start = midnight + (int(hour) * 60 + int(minute)) * 60 * SECOND + int(second + micros)
    return Segment(*head, start, count, written, separators)


def segments_of(text: str) -> List[Segment]:
    """The segments of a list, or of a report whose separators are of no matter and take no time; ValueError at a line
    that is none."""
    found = []
    for piece in f"\n{text}".split("\nsegment ")[1:]:
        line = f"segment {piece.partition(chr(10))[0]}"
        segment = segment_of(line)
        if segment is None:
            raise ValueError(f"no segment: {line}")
        found.append(segment)
    return found


def segments_of_report(text: str) -> List[Segment]:
    """The same of a report, if its first and its last line are those of one."""
    found = segments_of(text)
    end = END.fullmatch(text.rpartition("\n")[0].rpartition("\n")[2])
    if not text.startswith("msrepack 1\n") or not end or int(end[1]) != len(found):
        raise ValueError("no report")
    return found


# The members of an object of `list --json`, and the types of their values.
CODES, NUMBERS = ("network", "station", "location", "channel"), ("rate_factor", "rate_multiplier")
MEMBERS = [*CODES, "quality", "start", "end", "samples", *NUMBERS, "activity", "clock", "data_quality", "correction"]
MEMBERS += ["timing", "began"]
BEGAN = ("first", "channel", "settings", "gap", "overlap")
TIME = re.compile(r"([0-9]{4})-([0-9]{2})-([0-9]{2})T([01][0-9]|2[0-3]):([0-5][0-9]):([0-5][0-9])\.([0-9]{6})Z")


def segments_of_objects(text: str) -> Tuple[List[Segment], Tuple[int, int, int]]:
    """The segments and the counts of what `list --json` prints; ValueError if something is missing or added."""
    *lines, last, rest = text.split("\n") if "\n" in text else ("", text)
    counts = json.loads(last)
    if rest or not isinstance(counts, dict) or list(counts) != ["read", "empty", "mismatched"]:
        raise ValueError("the counts are not last")
    return [_segment_of_object(json.loads(line)) for line in lines], (
        _whole(counts["read"]), _whole(counts["empty"]), _whole(counts["mismatched"])
    )


def _segment_of_object(it: Dict[str, Any]) -> Segment:
    """The segment that an object tells, each of whose members has to be there, in its order."""
    members = list(it) if isinstance(it, dict) else []
    if members not in (MEMBERS, [*MEMBERS, "gap_us"]) or it["began"] not in BEGAN or it["quality"] not in list("DRQM"):
        raise ValueError("not an object of a list")
    codes = [it[name] for name in CODES]
    if not all(isinstance(code, str) and len(code) <= width for code, width in zip(codes, WIDTHS)):
        raise ValueError("no name")
    rate = [_whole(it[name], -(2**15), 2**15 - 1) for name in NUMBERS]
    flags = Flags(*(_whole(it[name], 0, 255) for name in ("activity", "clock", "data_quality")))
    correction = _whole(it["correction"], -(2**31), 2**31 - 1)
    timing = 0 if it["timing"] is None else _whole(it["timing"], 1, 255)
    gap = _whole(it["gap_us"], -MOST, MOST) if "gap_us" in it else None
    if 0 in rate:
        raise ValueError("no rate")
    start, samples = _micros_of(it["start"]), _whole(it["samples"], 1)
    rest = (flags, correction, timing, start, samples, None, None, it["began"], gap)
    segment = Segment._make((*codes, it["quality"], *rate, *rest))
    if segment.end != _micros_of(it["end"]):
        raise ValueError("not the end")
    return segment


def _whole(value: object, least: int = 0, most: int = MOST) -> int:
    """A whole number of that range."""
    if type(value) is not int or not least <= value <= most:
        raise ValueError(f"no number: {value!r}")
    return value


def _micros_of(text: object) -> int:
    """A time in ISO 8601, in microseconds from 1970 on."""
    found = TIME.fullmatch(text) if isinstance(text, str) else None
    if not found:
        raise ValueError(f"no time: {text!r}")
    year, month, day, hour, minute, second, micros = map(int, found.groups())
    days = datetime.date(year, month, day).toordinal() - FIRST_DAY
    return days * DAY + ((hour * 60 + minute) * 60 + second) * SECOND + micros


class _Lines:
    """The lines of a text, one after another; each has to be there, with its line feed."""

    def __init__(self, text: str) -> None:
        lines = text.split("\n")
        self.rest = lines.pop()
        self.left = iter(lines)
        self.number = 0

    def next(self) -> str:
        self.number += 1
        line = next(self.left, None)
        if line is None:
            raise NotAReport(self.number)
        return line

    def hold(self, is_so: bool) -> None:
        """The line that was just taken has to be so."""
        if not is_so:
            raise NotAReport(self.number)

    def numbers(self, form: "re.Pattern[str]", line: str) -> Tuple[int, ...]:
        """The numbers of the line that was just taken."""
        found = form.fullmatch(line)
        numbers = tuple(map(int, found.groups())) if found else (MOST + 1,)
        self.hold(max(numbers) <= MOST)
        return numbers

    def segment(self, line: str) -> Segment:
        """The segment of the line that was just taken, and of the next one, which has its separators."""
        found = SEPARATORS.fullmatch(next(self.left, ""))
        separators = tuple(map(int, found[1].split())) if found else (MOST + 1,)
        segment = segment_of(line, separators)
        if segment is None or segment.records is None:
            raise NotAReport(self.number)
        self.number += 1
        self.hold(not separators or max(separators) <= MOST)
        return segment

    def end(self) -> None:
        """Nothing comes after the line that was just taken."""
        if self.rest or next(self.left, None) is not None:
            raise NotAReport(self.number + 1)


def _parsed(lines: _Lines) -> Report:
    lines.hold(lines.next() == "msrepack 1")
    [length] = lines.numbers(LENGTH, lines.next())
    lines.hold(length in LENGTHS)
    [tolerance] = lines.numbers(TOLERANCE, lines.next())
    lines.hold(1 <= tolerance <= 1_000_000)
    kinds, line = KINDS, lines.next()
    if line == f"kinds {' '.join(WITHOUT_INT24)}":
        kinds, line = WITHOUT_INT24, lines.next()
    read, empty, mismatched = lines.numbers(COUNTS, line)
    segments: List[Segment] = []
    line = lines.next()
    while line.startswith("segment "):
        segments.append(lines.segment(line))
        line = lines.next()
    report = Report(length, tolerance, kinds, read, empty, mismatched, tuple(segments))
    lines.hold(lines.numbers(END, line) == (len(segments), report.records))
    lines.end()
    return report
