"""Reports by the channels and days of their names: one channel after another is read.

The memory that it takes is that of the channel with the most segments, and the names of the reports.
"""
import datetime
import fnmatch
import os
import re
from typing import Any, Callable, Dict, Iterable, Iterator, List, Optional, Sequence, Tuple, Union

from msrepack.program import Path
from msrepack.report import DAY, EPOCH, FIRST_DAY, SECOND, Segment, segments_of_report

Span = Tuple[int, int]
Day = datetime.date
# Reports, folders of them, or segments.
Given = Union[Path, Iterable[Path], Iterable[Segment]]
Heard = Callable[[int], None]
HOUR = 3600 * SECOND
NAME = re.compile(r"([^./]*\.[^./]*\.[^./]*\.[^./]*)\.[A-Z]\.([0-9]{4})\.([0-9]{3})")
RECORD = re.compile(r"[0-9 ]{6}[DRQM][ \0]")


def midnight(day: Day) -> int:
    """The start of a day, in microseconds from 1970 on.

    >>> midnight(datetime.date(1970, 1, 2))
    86400000000
    """
    return (day.toordinal() - FIRST_DAY) * DAY


def day_of(micros: int) -> Day:
    """The day that a time lies in."""
    return datetime.date.fromordinal(FIRST_DAY + micros // DAY)


def time_of(micros: int) -> datetime.datetime:
    """A time in UTC."""
    return EPOCH + datetime.timedelta(microseconds=micros)


def report_files(folder: Path) -> List[str]:
    """The reports below a folder, or the one that is named.

    >>> report_files("examples")
    []
    """
    place = os.fsdecode(folder)
    if not os.path.isdir(place):
        os.stat(place)
        return [place]
    found = []
    for top, folders, names in os.walk(place, onerror=_raise):
        folders.sort()
        found += [os.path.join(top, name) for name in sorted(names) if name.endswith(".txt")]
    return found


def _raise(why: OSError) -> None:
    raise why


def _named(file: str) -> Optional[Tuple[str, Day]]:
    """The channel and the day of a report, by its name."""
    found = NAME.match(os.path.basename(file))
    if not found or not 1900 <= int(found[2]) <= 2100 or not 1 <= int(found[3]) <= 366:
        return None
    return found[1], datetime.date(int(found[2]), 1, 1) + datetime.timedelta(int(found[3]) - 1)


def _segments_of(file: str) -> List[Segment]:
    """The segments of a report; ValueError says what else the file is."""
    with open(file, "rb", buffering=0) as opened:
        text = opened.read().decode("latin-1")
    if RECORD.match(text):
        raise ValueError("miniSEED, no report: archive or repack makes one")
    return segments_of_report(text)


class Source:
    """Reports by the channels and days of their names, or segments, to be read once. `unread` gets what could not be read;
    without it that is an error. `heard` is told how many reports are done."""

    def __init__(
        self, given: Given, channel: str = "*", unread: Optional[List[str]] = None, heard: Heard = lambda count: None
    ) -> None:
        self.channel, self.unread, self.heard, self.count = channel, unread, heard, 0
        # How many reports there are, and how many of them could be read.
        self.whole, self.read = 0, 0
        # If it is asked for: when the newest report of the channel was written that was given last, in seconds from 1970 on.
        self.updated: Optional[float] = None
        # Of each channel its reports by day, and segments that no name told of before.
        self.files: Dict[str, List[Tuple[Day, str]]] = {}
        self.others: Dict[str, List[Segment]] = {}
        self.days: List[Day] = []
        places, segments = _sorted_out(given)
        if places:
            self._take_files(places)
        self._take_segments(segments, getattr(given, "days", None))

    def _take_files(self, places: Sequence[Path]) -> None:
        files: Dict[str, None] = {}
        for place in places:
            found = dict.fromkeys(report_files(place))
            if not found:
                raise ValueError(f"no reports below {os.fsdecode(place)}: no name there ends with .txt")
            files.update(found)
        self.whole = len(files)
        unnamed, is_asked = [], {}
        for file in files:
            named = _named(file)
            if named is None:
                unnamed.append(file)
                continue
            name, day = named
            if name not in is_asked:
                is_asked[name] = fnmatch.fnmatchcase(name, self.channel)
            if is_asked[name]:
                self.files.setdefault(name, []).append((day, file))
            else:
                self.heard(self._counted())
        for reports in self.files.values():
            reports.sort()
            self.days += [reports[0][0], reports[-1][0]]
        for file in unnamed:
            self._take_segments(self._read(file), None)

    def _take_segments(self, segments: Iterable[Segment], days: Optional[Sequence[int]]) -> None:
        """Takes segments of these days, or else of those that they have data of."""
        for segment in segments:
            if fnmatch.fnmatchcase(segment.id, self.channel):
                self.others.setdefault(segment.id, []).append(segment)
                if days is None:
                    self.days += map(day_of, _ends(segment))
        self.days += map(day_of, days or ())

    def _counted(self) -> int:
        self.count += 1
        return self.count

    def _read(self, file: str) -> List[Segment]:
        try:
            if self.updated is not None:
                self.updated = max(self.updated, os.stat(file).st_mtime)
            found = _segments_of(file)
            self.read += 1
            return found
        except (OSError, ValueError) as why:
            self._tell(f"{file}: {getattr(why, 'strerror', None) or why}")
            return []
        finally:
            self.heard(self._counted())

    def _tell(self, text: str) -> None:
        if self.unread is None:
            raise ValueError(text) from None
        self.unread.append(text)

    def window(self, first: Optional[Day], last: Optional[Day]) -> Span:
        """The time that is asked for, or that of the days which have reports."""
        if first and last and first > last:
            raise ValueError("the time ends before it begins")
        if not self.days and not (first and last):
            if self.unread:
                raise ValueError("no report could be read")
            raise ValueError("no data of that channel and time")
        start = first or min(self.days)
        end = last or max(self.days)
        return midnight(start), max(midnight(end), midnight(start)) + DAY

    def channels(self, window: Span, expect: Sequence[str] = ()) -> Iterator[Tuple[str, List[Segment]]]:
        """One channel after another, in the order of names, with the segments of the window and those next to it.

        A segment of another channel than its report is named after goes to its own, unless that was given before.
        """
        expected = [name for name in expect if fnmatch.fnmatchcase(name, self.channel)]
        given = set()
        for name in sorted({*self.files, *self.others, *expected}):
            given.add(name)
            segments = [*self._of_files(name, window, name in expected, given), *self.others.pop(name, ())]
            if segments or name in expected:
                yield name, segments
        yield from sorted(self.others.items())

    def _of_files(self, name: str, window: Span, is_expected: bool, given: Iterable[str]) -> List[Segment]:
        """The segments of a channel: of the days of the window, of the day before and after it, since a record can spill
        over midnight, and the next ones further away, which tell whether the window begins or ends with a gap."""
        first, last = (day_of(micros) for micros in (window[0] - DAY, window[1]))
        reports, count = self.files.pop(name, []), self.count
        self.updated = self.updated and 0.0
        before = [file for day, file in reports if day < first]
        after = [file for day, file in reports if last < day]
        found = [it for day, file in reports if first <= day <= last for it in self._own(file, name, given)]
        if is_expected or any(segment.start < window[1] and segment.end >= window[0] for segment in found):
            found += next(filter(None, (self._own(file, name, given) for file in reversed(before))), [])
            found += next(filter(None, (self._own(file, name, given) for file in after)), [])
        self.count = count + len(reports)
        self.heard(self.count)
        return found

    def _own(self, file: str, name: str, given: Iterable[str]) -> List[Segment]:
        """The segments of a report that are of the channel which it is named after."""
        found = self._read(file)
        if all(segment.id == name for segment in found):
            return found
        late = {segment.id for segment in found if segment.id != name and segment.id in given}
        if late:
            self._tell(f"{file}: its segments of {' '.join(sorted(late))}, which it is not named after")
        self._take_segments((segment for segment in found if segment.id not in late and segment.id != name), ())
        return [segment for segment in found if segment.id == name]


def _sorted_out(given: Given) -> Tuple[List[Path], Iterable[Segment]]:
    """The places of reports, or the segments."""
    if isinstance(given, (str, os.PathLike)):
        return [given], []
    if isinstance(given, Segments):
        return [], given
    found: List[Any] = list(given)
    if found and isinstance(found[0], Segment):
        return [], found
    return found, []


def _ends(segment: Segment) -> Span:
    """Times of the first and the last day of a segment, but for a spill over midnight that is less than an hour and less
    than the rest."""
    start, end = segment.start, segment.time_of(segment.samples)
    early, late = -start % DAY, end % DAY
    first = start + early if early < min(HOUR, end - start - early) else start
    last = end - late - 1 if 0 < late < min(HOUR, end - start - late) else end - 1
    return first, max(first, last)


class Segments(Iterator[Segment]):
    """Segments of reports, and the days that the reports are named after."""

    def __init__(self, found: Iterator[Segment], days: Optional[Span]) -> None:
        self.found, self.days = found, days

    def __next__(self) -> Segment:
        return next(self.found)


def read_reports(
    files: Sequence[str],
    *,
    first: Optional[Day] = None,
    last: Optional[Day] = None,
    channel: str = "*",
    done: Heard = lambda count: None,
    unread: Optional[List[str]] = None,
) -> Segments:
    """The segments of reports, one channel after another; of days further away only what tells where a gap ends is read.

    What is no report raises ValueError, or is added to `unread`. `done` is told how many files are done.

    >>> import msrepack, tempfile
    >>> with tempfile.TemporaryDirectory() as there:
    ...     walk = list(msrepack.archive("examples/sds", f"{there}/packed", f"{there}/reports"))
    ...     found = list(read_reports(report_files(f"{there}/reports"), channel="*.BHZ"))
    >>> {segment.id for segment in found}, sum(segment.samples for segment in found)
    ({'XX.TEST.00.BHZ'}, 900)
    """
    source = Source(files, channel, unread, done)
    if not source.days:
        return Segments(iter(()), None)
    window = source.window(first, last)
    found = (segment for _, segments in source.channels(window) for segment in segments)
    return Segments(found, (midnight(min(source.days)), midnight(max(source.days))))
