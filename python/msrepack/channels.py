"""What reports tell of channels over time: `extents`, `gaps` and `daily`, by times and settings alone, without data."""
import datetime
from typing import Any, Dict, Iterable, Iterator, List, NamedTuple, Optional, Sequence, Tuple

from msrepack.report import DAY, EPOCH, SECOND, Segment
from msrepack.sources import Day, Given, Source, Span, day_of, time_of


class Extent(NamedTuple):
    """A stretch of a channel without a gap, in one quality and at one rate: its first and its last sample.

    Of a channel that is expected and has no data all but `id` is None or 0.

    >>> import msrepack
    >>> [one, other] = msrepack.extents(msrepack.segments("examples/two-segments.mseed"))
    >>> print(one.id, one.quality, one.rate, one.start, one.end, one.samples)
    XX.TEST.00.BHZ D 20.0 2020-01-01 00:00:00+00:00 2020-01-01 00:00:14.950000+00:00 300
    """

    id: str
    quality: Optional[str]
    rate: Optional[float]
    start: Optional[datetime.datetime]
    end: Optional[datetime.datetime]
    samples: int


class Whole(NamedTuple):
    """All extents of a channel in one quality and at one rate as one, and when the newest of its reports was written.

    >>> import msrepack
    >>> from msrepack import channels
    >>> [whole] = channels.wholes(channels.Source(msrepack.segments("examples/two-segments.mseed")))
    >>> print(whole.start, whole.end, whole.samples, whole.extents)
    2020-01-01 00:00:00+00:00 2020-01-01 00:00:34.950000+00:00 500 2
    """

    id: str
    quality: Optional[str]
    rate: Optional[float]
    start: Optional[datetime.datetime]
    end: Optional[datetime.datetime]
    samples: int
    extents: int
    updated: datetime.datetime


class Gap(NamedTuple):
    """A time without data (`kind` is `gap`) or with data twice (`overlap`): from when the next sample was due.

    >>> import msrepack
    >>> [gap] = msrepack.gaps(msrepack.segments("examples/two-segments.mseed"))
    >>> print(gap.id, gap.kind, gap.start, gap.end, gap.seconds)
    XX.TEST.00.BHZ gap 2020-01-01 00:00:15+00:00 2020-01-01 00:00:25+00:00 10.0
    """

    id: str
    kind: str
    start: datetime.datetime
    end: datetime.datetime
    seconds: float


class Daily(NamedTuple):
    """A day of a channel: per cent of its time with data, stretches of data, gaps, overlaps, and samples.

    >>> import msrepack
    >>> msrepack.daily(msrepack.segments("examples/two-segments.mseed")).__next__()[2:]
    (0.0289, 2, 1, 0, 500)
    """

    id: str
    day: Day
    percent: float
    segments: int
    gaps: int
    overlaps: int
    samples: int


class Row(NamedTuple):
    """A channel over time, in microseconds from 1970 on: its stretches of data, the gaps between them, where data stand
    twice, and when the rate changes.

    What begins within half a sample of where the stretch before it ends goes on with it. `period` is that of a sample, the
    longest if there are more.

    >>> import msrepack
    >>> from msrepack import channels
    >>> row = channels.row_of("XX.TEST.00.BHZ", msrepack.segments("examples/two-segments.mseed"))
    >>> row.id, len(row.stretches), [end - start for start, end in row.gaps], row.overlaps
    ('XX.TEST.00.BHZ', 2, [10000000], [])
    """

    id: str
    stretches: List[Span]
    gaps: List[Span]
    overlaps: List[Span]
    changes: List[int] = []
    period: int = 0

    def within(self, window: Span, is_expected: bool = False) -> "Row":
        """The same of a part of the time. Less than a sample that is missing at its ends is nothing; more is a gap if the
        channel is expected all the time."""
        first, last = window
        stretches, gaps, overlaps = (_clipped(spans, window) for spans in self[1:4])
        begin, end = (stretches[0][0], stretches[-1][1]) if stretches else (last, last)
        is_whole = not gaps or gaps[0][0] > begin
        if first < begin and is_whole and stretches and begin - first < self.period:
            stretches[0] = (first, stretches[0][1])
        elif first < begin and is_whole and is_expected:
            gaps.insert(0, (first, begin))
        is_whole = not gaps or gaps[-1][1] < last
        if end < last and is_whole and 2 * (last - end) <= self.period:
            stretches[-1] = (stretches[-1][0], last)
        elif end < last and is_whole and is_expected:
            gaps.append((end, last))
        return Row(self.id, stretches, gaps, overlaps, [it for it in self.changes if first <= it < last], self.period)

    @property
    def present(self) -> int:
        """The microseconds that have data."""
        return sum(end - start for start, end in self.stretches)


def _clipped(spans: List[Span], window: Span) -> List[Span]:
    first, last = window
    return [(max(start, first), min(end, last)) for start, end in spans if start < last and end > first]


def row_of(name: str, segments: Iterable[Segment]) -> Row:
    """The row of a channel, from its segments in any order."""
    row, began, ended, rate, longest = Row(name, [], [], [], [], 0), 0, 0, None, 0
    for start, end, period, rate_here in sorted(map(_placed, segments)):
        longest = max(longest, period)
        if rate is None:
            began = ended = start
        elif rate is not rate_here and rate != rate_here:
            row.changes.append(start)
        apart, rate = start - ended, rate_here
        if 2 * abs(apart) > period and apart > 0:
            row.stretches.append((began, ended))
            row.gaps.append((ended, start))
            began = start
        elif 2 * abs(apart) > period:
            row.overlaps.append((start, min(ended, end)))
        ended = max(ended, end)
    if rate is not None:
        row.stretches.append((began, ended))
    return row._replace(period=longest)


def _placed(segment: Segment) -> Tuple[int, int, int, Any]:
    rate = segment.rate
    return segment.start, segment.time_of(segment.samples), rate.denominator * SECOND // rate.numerator, rate


def part_of(present: int, whole: int, digits: int) -> float:
    """Per cent, rounded, but 0 or 100 only if nothing or all is there.

    >>> part_of(1, 10**9, 2), part_of(10**9 - 1, 10**9, 2), part_of(5, 5, 2)
    (0.01, 99.99, 100.0)
    """
    unit: int = 10**digits
    part = max(min(round(100 * unit * present / whole), 100 * unit - (present < whole)), int(present > 0))
    return part / unit


def rows(source: Source, window: Span, expect: Sequence[str] = ()) -> Iterator[Row]:
    """The channels that have data in the window or are expected, as rows of it."""
    for name, segments in source.channels(window, expect):
        row = row_of(name, segments).within(window, name in expect)
        if row.stretches or name in expect:
            yield row


def extents(
    reports: Given,
    *,
    first: Optional[Day] = None,
    last: Optional[Day] = None,
    channel: str = "*",
    expect: Sequence[str] = (),
    unread: Optional[List[str]] = None,
) -> Iterator[Extent]:
    """The stretches of each channel, over the borders of files and days, parted where rate or quality change.

    `reports` is a folder, a report, several of these, or segments. `first` and `last` are days; without them all is told.
    `expect` has channels that are told even if they have no data. What is no report raises ValueError, or is added to
    `unread`.

    >>> import msrepack, tempfile
    >>> with tempfile.TemporaryDirectory() as there:
    ...     walk = list(msrepack.archive("examples/sds", f"{there}/packed", f"{there}/reports"))
    ...     for extent in msrepack.extents(f"{there}/reports", channel="*.BHN"):
    ...         print(extent.start, extent.samples)
    2020-01-01 00:00:00+00:00 500
    2020-01-02 00:00:00+00:00 200
    2020-01-02 00:00:40+00:00 200
    """
    source = Source(reports, channel, unread)
    return (extent for some in extents_of(source, first, last, expect) for extent in some)


def extents_of(
    source: Source, first: Optional[Day] = None, last: Optional[Day] = None, expect: Sequence[str] = ()
) -> Iterator[List[Extent]]:
    """The extents of one channel after another."""
    window = source.window(first, last)
    bounds = (window[0] if first else None, window[1] if last else None)
    for name, segments in source.channels(window, expect):
        found = list(_extents_of(name, segments, bounds))
        yield found or [Extent(name, None, None, None, None, 0)] * (name in expect)


def wholes(
    source: Source, first: Optional[Day] = None, last: Optional[Day] = None, expect: Sequence[str] = ()
) -> Iterator[Whole]:
    """The same, each channel, quality and rate as a whole."""
    source.updated = 0.0
    for some in extents_of(source, first, last, expect):
        updated = EPOCH + datetime.timedelta(seconds=int(source.updated or 0))
        found: Dict[Tuple[Any, Any], List[Extent]] = {}
        for extent in some:
            found.setdefault((extent.quality, extent.rate), []).append(extent)
        for (quality, rate), of_one in found.items():
            end = max((extent.end for extent in of_one if extent.end), default=None)
            samples, count = sum(extent.samples for extent in of_one), sum(extent.samples > 0 for extent in of_one)
            yield Whole(of_one[0].id, quality, rate, of_one[0].start, end, samples, count, updated)


def _extents_of(
    name: str, segments: Iterable[Segment], bounds: Tuple[Optional[int], Optional[int]]
) -> Iterator[Extent]:
    """The extents of a channel within these times, in the order of their starts."""
    # Of each quality and rate the extents that can go on: where each begins and ends, its last sample, and its samples.
    opened: Dict[Tuple[str, Any], List[List[int]]] = {}
    found = []
    for segment in sorted(segments, key=lambda it: it.start):
        piece = _piece_of(segment, bounds)
        if piece is None:
            continue
        start, end, last, samples = piece
        rate = segment.rate
        half = rate.denominator * SECOND // rate.numerator / 2
        some = opened.setdefault((segment.quality, rate), [])
        before = next((it for it in some if abs(start - it[1]) <= half), None)
        if before:
            before[1:] = end, last, before[3] + samples
        else:
            some.append([start, end, last, samples])
        found += [(it, segment.quality, rate) for it in some if it[1] + half < start]
        some[:] = [it for it in some if it[1] + half >= start]
    found += [(it, *key) for key, some in opened.items() for it in some]
    for (start, _, last, samples), quality, rate in sorted(found):
        yield Extent(name, quality, float(rate), time_of(start), time_of(last), samples)


def _piece_of(
    segment: Segment, bounds: Tuple[Optional[int], Optional[int]]
) -> Optional[Tuple[int, int, int, int]]:
    """Start, end, last sample and number of samples of what a segment has within these times."""
    first = 0 if bounds[0] is None else max(0, _index_at(segment, bounds[0]))
    after = segment.samples if bounds[1] is None else min(segment.samples, _index_at(segment, bounds[1]))
    if first >= after:
        return None
    return segment.time_of(first), segment.time_of(after), segment.time_of(after - 1), after - first


def _index_at(segment: Segment, micros: int) -> int:
    """The first sample at that time or later; below 0 or past the last one if the time is outside."""
    rate = segment.rate
    return -(-(micros - segment.start) * rate.numerator // (rate.denominator * SECOND))


def gaps(
    reports: Given,
    *,
    first: Optional[Day] = None,
    last: Optional[Day] = None,
    channel: str = "*",
    expect: Sequence[str] = (),
    unread: Optional[List[str]] = None,
) -> Iterator[Gap]:
    """The gaps between the data of each channel and the overlaps, as far as they lie in the time; the words are those of
    `extents`. What is off by at most half a sample is neither. A channel that is expected has a gap wherever it has no
    data.

    >>> import msrepack
    >>> [gap.seconds for gap in msrepack.gaps(msrepack.segments("examples/two-segments.mseed"))]
    [10.0]
    """
    return gaps_of(Source(reports, channel, unread), first, last, expect)


def gaps_of(
    source: Source, first: Optional[Day] = None, last: Optional[Day] = None, expect: Sequence[str] = ()
) -> Iterator[Gap]:
    """The gaps and overlaps of one channel after another."""
    for row in rows(source, source.window(first, last), expect):
        kinds = [(span, "gap") for span in row.gaps] + [(span, "overlap") for span in row.overlaps]
        for (start, end), kind in sorted(kinds):
            yield Gap(row.id, kind, time_of(start), time_of(end), (end - start) / SECOND)


def daily(
    reports: Given,
    *,
    first: Optional[Day] = None,
    last: Optional[Day] = None,
    channel: str = "*",
    expect: Sequence[str] = (),
    unread: Optional[List[str]] = None,
) -> Iterator[Daily]:
    """Each day of each channel, also those without data; the words are those of `extents`.

    >>> import msrepack
    >>> [one] = msrepack.daily(msrepack.segments("examples/two-segments.mseed"))
    >>> print(one.day, one.percent, one.gaps, one.samples)
    2020-01-01 0.0289 1 500
    """
    return daily_of(Source(reports, channel, unread), first, last, expect)


def daily_of(
    source: Source, first: Optional[Day] = None, last: Optional[Day] = None, expect: Sequence[str] = ()
) -> Iterator[Daily]:
    """The days of one channel after another."""
    window = source.window(first, last)
    for name, segments in source.channels(window, expect):
        row = row_of(name, segments).within(window, name in expect)
        if row.stretches or name in expect:
            yield from _days_of(row, segments, window)


def _days_of(row: Row, segments: Iterable[Segment], window: Span) -> Iterator[Daily]:
    present: Dict[int, int] = {}
    counts: List[Dict[int, int]] = [{}, {}, {}]
    for spans, count in zip(row[1:4], counts):
        for start, end in spans:
            for day in range(start // DAY, (end - 1) // DAY + 1):
                count[day] = count.get(day, 0) + 1
                if spans is row.stretches:
                    part = min(end, (day + 1) * DAY) - max(start, day * DAY)
                    present[day] = present.get(day, 0) + part
    samples = _samples_of_days(segments)
    for day in range(window[0] // DAY, window[1] // DAY):
        stretches, missing, twice = (count.get(day, 0) for count in counts)
        percent = part_of(present.get(day, 0), DAY, 4)
        yield Daily(row.id, day_of(day * DAY), percent, stretches, missing, twice, samples.get(day, 0))


def _samples_of_days(segments: Iterable[Segment]) -> Dict[int, int]:
    """How many samples there are in each day, counted from 1970 on."""
    samples: Dict[int, int] = {}
    for segment in segments:
        for day in range(segment.start // DAY, segment.end // DAY + 1):
            piece = _piece_of(segment, (day * DAY, (day + 1) * DAY))
            if piece:
                samples[day] = samples.get(day, 0) + piece[3]
    return samples
