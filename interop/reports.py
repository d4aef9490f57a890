"""Reports that are read back, and the verdict on packed records: docs/PROFILE.md, "The text of a report" and "Verdicts
on packed records", and what docs/MANUAL.md says of `check`.
"""
import re
from collections import namedtuple

import model

Report = namedtuple("Report", "length tolerance kinds counts lines")
# A segment's line, and its separators.
Line = namedtuple("Line", "text samples records separators")

NUMBER, SIGNED, BYTE = "(0|[1-9][0-9]*)", "(0|-?[1-9][0-9]*)", "([0-9a-f]{2})"
LETTER = "(?:[A-Za-z0-9_]|%[0-9a-f]{2})"
NAME = r"\.".join(f"({LETTER}{{{count}}})" for count in (2, 5, 2, 3))
TIME = r"(\d{4}),(\d{3}),(\d{2}):(\d{2}):(\d{2})\.(\d{4})(\d{2})"
SEGMENT = re.compile(
    f"segment {NAME} [DRQM] rate {SIGNED} {SIGNED} flags {BYTE} {BYTE} {BYTE} correction {SIGNED} timing {NUMBER}"
    f" start {TIME} samples {NUMBER} records {NUMBER}",
    re.ASCII,
)
MOST = 2**64 - 1


class NotAReport(Exception):
    """The first line that no report has."""

    def __init__(self, number):
        super().__init__(f"report line {number}")


def is_name(text):
    """Whether each byte is written as it has to be: `%` only for what is no letter, no digit and no space."""
    codes = [int(code, 16) for code in re.findall("%(..)", text)]
    return not any(code == 32 or chr(code).isascii() and chr(code).isalnum() for code in codes)


def segment_of(text):
    """The numbers of samples and records of a segment's line; None if it is none."""
    found = SEGMENT.fullmatch(text)
    if not found:
        return None
    factor, multiplier = map(int, found.group(5, 6))
    correction, timing = map(int, found.group(10, 11))
    year, day, hour, minute, second, fract, _ = map(int, found.groups()[11:18])
    samples, records = map(int, found.group(19, 20))
    holds = (
        all(map(is_name, found.groups()[:4])),
        all(rate != 0 and model.is_in(rate, 16) for rate in (factor, multiplier)),
        model.is_in(correction, 32) and timing <= 255,
        second < 60 and model.instant(year, day, hour, minute, second, fract) is not None,
        max(samples, records) <= MOST,
    )
    return (samples, records) if all(holds) else None


class Lines:
    """The lines of a text, one after another; each has to be there, with its line feed."""

    def __init__(self, text):
        self.lines, self.number = text.split(b"\n"), 0
        self.rest = self.lines.pop()

    def fail(self):
        raise NotAReport(self.number)

    def next(self):
        self.number += 1
        if not self.lines:
            self.fail()
        try:
            return self.lines.pop(0).decode("ascii")
        except UnicodeDecodeError:
            return self.fail()

    def numbers(self, form):
        """The numbers of a line of that form."""
        return self.checked(re.fullmatch(form, self.next(), re.ASCII))

    def checked(self, found):
        if not found or any(int(number) > MOST for number in found.groups()):
            self.fail()
        return [int(number) for number in found.groups()]


def separators_of(lines):
    """Numbers, how many and in which order is not the text's matter."""
    first, *numbers = lines.next().split(" ")
    if first != "separators" or any(not re.fullmatch(NUMBER, one) or int(one) > MOST for one in numbers):
        lines.fail()
    return [int(one) for one in numbers]


def kinds_of(lines):
    """The kinds of the records, which a line names if they are not all; and the line after it."""
    line = lines.next()
    for kinds, named in model.NAMED.items():
        if [line] == named:
            return kinds, lines.next()
    return model.KINDS, line


def parsed(text):
    lines, segments = Lines(text), []
    lines.numbers("msrepack 1")
    [length] = lines.numbers(f"length {NUMBER}")
    if length not in [2**exponent for exponent in range(8, 17)]:
        lines.fail()
    [tolerance] = lines.numbers(f"tolerance {NUMBER}")
    if not 1 <= tolerance <= 1_000_000:
        lines.fail()
    kinds, line = kinds_of(lines)
    counts = lines.checked(re.fullmatch(f"read {NUMBER} empty {NUMBER} mismatched {NUMBER}", line, re.ASCII))
    line = lines.next()
    while line.startswith("segment "):
        found = segment_of(line) or lines.fail()
        segments.append(Line(line, *found, separators_of(lines)))
        line = lines.next()
    ended = lines.checked(re.fullmatch(f"end {NUMBER} segments {NUMBER} records", line, re.ASCII))
    if ended != [len(segments), sum(one.records for one in segments)]:
        lines.fail()
    if lines.lines or lines.rest:
        lines.number += 1
        lines.fail()
    return Report(length, tolerance, kinds, counts, segments)


def stands_in(segment, rows, line, report):
    """Whether these rows are runs of the segment that fit a record of theirs, one of the report's kinds, and the line's
    separators as many."""
    size, kinds = report.length, report.kinds
    samples, end = segment.samples, 0
    differences = [0] + [after - before for before, after in zip(samples, samples[1:])]
    for row in rows:
        start, end = end, end + len(row.samples)
        if row.kind not in kinds or model.end_of(row.kind, samples, differences, start, size) < end:
            return False
    is_told = line.text == f"{model.segment_line(segment)} records {len(rows)}"
    is_as_many = len(line.separators) == len(rows)
    return is_told and is_as_many and model.is_separating(samples, size, line.separators, kinds)


def verdict(packed, report):
    """Whether the report shows that the records are the fewest."""
    read = model.read_all(packed, report.tolerance)
    if read.fault:
        raise model.Refused(read.fault)
    if any(length != report.length or row is None for length, row in read.rows):
        return False
    rows, segments = iter(read.rows), []
    for segment in read.segments:
        own, count = [], 0
        while count < len(segment.samples):
            own.append(next(rows)[1])
            count += len(own[-1].samples)
        segments.append((segment, own))
    is_shown = (stands_in(*one, line, report) for one, line in zip(segments, report.lines))
    return len(segments) == len(report.lines) and all(is_shown)
