"""Calls about one file or two: `repack`, `check`, `listing`, `segments` and `compare`."""
import contextlib
import os
import re
import secrets
from dataclasses import dataclass, field
from typing import Iterator, List, NamedTuple, Optional, Tuple, Union, overload

from msrepack.errors import Failed
from msrepack.program import Data, Ended, Path, options, run
from msrepack.report import Report, Segment, segments_of_objects

SAME = re.compile("same segments ([0-9]+) samples ([0-9]+)\nmoved ([0-9]+) ([0-9]+)\n")
DIFFER = re.compile(
    "differ segment ([0-9]+) (?:(key|start)|(?:sample ([0-9]+) )?(?:values (-?[0-9]+) (-?[0-9]+)|only in (ONE|OTHER)))\n"
)


@dataclass(frozen=True)
class Packed:
    """What `repack` gives: the records, and the report that shows that they are the fewest.

    >>> import msrepack
    >>> packed = msrepack.repack("examples/one-record.mseed", length=256)
    >>> len(packed.records), packed.report.records
    (1024, 4)
    """

    records: bytes = field(repr=False)
    report: Report


@dataclass(frozen=True)
class Written:
    """What `repack` gives if it writes the records to a file: the path, and the report.

    >>> import msrepack, tempfile
    >>> with tempfile.TemporaryDirectory() as there:
    ...     written = msrepack.repack("examples/one-record.mseed", output=f"{there}/packed.mseed", length=256)
    ...     msrepack.check(written.output, written.report)
    True
    """

    output: str
    report: Report


class Counts(NamedTuple):
    """How many records a file has, how many of them have no samples, and how many Steim records end with another sample
    than their reverse constant.

    >>> import msrepack
    >>> msrepack.listing("examples/two-segments.mseed").counts
    Counts(read=5, empty=0, mismatched=0)
    """

    read: int
    empty: int
    mismatched: int


@dataclass(frozen=True)
class Listing:
    """What `listing` gives: the segments, in the order of the file, and the counts of its records.

    >>> import msrepack
    >>> listing = msrepack.listing("examples/two-segments.mseed")
    >>> [(segment.began, segment.gap_us) for segment in listing.segments], listing.counts.read
    ([('first', None), ('gap', 10000000)], 5)
    """

    segments: List[Segment]
    counts: Counts


@dataclass(frozen=True)
class Same:
    """Both files have the same segments; `moved` tells by how many microseconds a record of the first, and of the other,
    is at most away from its place.

    >>> import msrepack
    >>> msrepack.compare("examples/one-record.mseed", "examples/one-record.mseed")
    Same(segments=1, samples=302, moved=(0, 0))
    """

    segments: int
    samples: int
    moved: Tuple[int, int]


@dataclass(frozen=True)
class Difference:
    """The first difference of two files. It is false, where `Same` is true.

    `segment` is its number, counted from 1. `what` is `key`, `start`, `sample` or `segment`: names or settings differ,
    or the start; or a sample, `sample` being its number, counted from 0, and `values` what the two have; or `only_in`,
    `ONE` or `OTHER`, tells which of them alone has that sample or that segment.

    >>> import msrepack
    >>> with open("examples/two-segments.mseed", "rb") as file:
    ...     msrepack.compare("examples/two-segments.mseed", file.read(2048))
    Difference(segment=2, what='sample', sample=100, values=None, only_in='ONE')
    """

    segment: int
    what: str
    sample: Optional[int] = None
    values: Optional[Tuple[int, int]] = None
    only_in: Optional[str] = None

    def __bool__(self) -> bool:
        return False


@overload
def repack(
    data: Data,
    *,
    length: int = 512,
    int24: bool = False,
    tolerance: int = 1000,
    strict: bool = False,
    output: None = None,
    report: Optional[Path] = None,
    timeout: Optional[float] = None,
) -> Packed: ...


@overload
def repack(
    data: Data,
    *,
    length: int = 512,
    int24: bool = False,
    tolerance: int = 1000,
    strict: bool = False,
    output: Path,
    report: Optional[Path] = None,
    timeout: Optional[float] = None,
) -> Written: ...


def repack(
    data: Data,
    *,
    length: int = 512,
    int24: bool = False,
    tolerance: int = 1000,
    strict: bool = False,
    output: Optional[Path] = None,
    report: Optional[Path] = None,
    timeout: Optional[float] = None,
) -> Union[Packed, Written]:
    """Repacks records into the fewest of one length.

    `data` is a path, bytes, an array or a binary file. 24-bit integers are not written unless `int24` is set: libmseed 2
    does not read them. `output` and `report` are paths: the records and the report are then written there, whole or not
    at all, and the records are never in memory. `timeout` is in seconds. The other words are those of the program's
    options.

    >>> import msrepack
    >>> msrepack.repack("examples/two-segments.mseed").report.records
    2
    """
    chosen = options({"--no-int24": not int24, "--strict": strict})
    words = ["repack", f"--length={length}", f"--tolerance={tolerance}", *chosen]
    with contextlib.ExitStack() as stack:
        parts = Parts(stack)
        records = None if output is None else parts.beside("output", output)
        text = None if report is None else parts.beside("report", report)
        ended = run(words, {"data": data}, output is None, records, timeout)
        if ended.status != 0:
            raise ended.error()
        told = Report.parse(ended.printed)
        if text is not None:
            with open(text, "w", encoding="latin-1", newline="\n") as file:
                file.write(str(told))
        parts.name()
    return Packed(ended.records, told) if output is None else Written(os.fsdecode(output), told)


class Parts:
    """Files that are written beside their names, and get them all once they are whole; else nothing is left of them."""

    def __init__(self, stack: contextlib.ExitStack) -> None:
        self.stack = stack
        self.places: List[Tuple[str, str]] = []

    def beside(self, argument: str, path: Path) -> str:
        """The path of a file that is to be that one. A link is followed, as if the file was written in its place."""
        place = os.path.realpath(os.fsdecode(path))
        if not is_file(place):
            raise ValueError(f"{argument}: no regular file: {place}")
        if place in (other for _, other in self.places):
            raise ValueError(f"{argument}: another argument names the same file: {place}")
        folder, name = os.path.split(place)
        part = os.path.join(folder, f".part-{os.getpid()}-{secrets.token_hex(4)}-{name[-100:]}")
        os.close(os.open(part, os.O_CREAT | os.O_EXCL | os.O_WRONLY | os.O_CLOEXEC, 0o666))
        self.stack.callback(_remove, part)
        self.places.append((part, place))
        return part

    def name(self) -> None:
        """Gives them their names, once all that they have is on the disk."""
        for part, _ in self.places:
            with open(part, "rb") as file:
                os.fsync(file.fileno())
        for part, place in self.places:
            os.replace(part, place)


def is_file(path: Path) -> bool:
    """Whether a path is that of a regular file, or there is nothing.

    >>> is_file("examples/README.md"), is_file("examples"), is_file("examples/nowhere")
    (True, False, True)
    """
    return os.path.isfile(path) or not os.path.exists(path)


def _remove(part: str) -> None:
    with contextlib.suppress(FileNotFoundError):
        os.remove(part)


@contextlib.contextmanager
def written(*paths: Path) -> Iterator[List[str]]:
    """Files to be written in the place of these: each gets its name at the end, unless something fails. What is no file,
    as a terminal, is written as it is.

    >>> import tempfile
    >>> with tempfile.TemporaryDirectory() as there:
    ...     with written(f"{there}/a.txt") as [part]:
    ...         os.path.exists(f"{there}/a.txt")
    ...     os.listdir(there)
    False
    ['a.txt']
    """
    with contextlib.ExitStack() as stack:
        parts = Parts(stack)
        yield [parts.beside("the output", path) if is_file(path) else os.fsdecode(path) for path in paths]
        parts.name()


def check(records: Data, report: Union[Report, Data], *, timeout: Optional[float] = None) -> bool:
    """Whether the report shows that the records are the fewest. A `str` is a path, so the text of a report is bytes.

    >>> import msrepack
    >>> packed = msrepack.repack("examples/one-record.mseed")
    >>> msrepack.check(packed.records, packed.report)
    True
    """
    if isinstance(records, Report) or isinstance(records, bytes) and records.startswith(b"msrepack 1\n"):
        raise TypeError("records is a report: the records come first, then the report")
    _hold_apart("records", records, "report", report)
    text = str(report).encode("latin-1") if isinstance(report, Report) else report
    ended = run(["check"], {"records": records, "report": text}, timeout=timeout)
    if ended.status not in (0, 3):
        raise ended.error()
    answer = {"least\n": True, "not shown\n": False}.get(ended.printed)
    if answer is None:
        raise _unknown(ended)
    return answer


def _hold_apart(name: str, one: object, other_name: str, other: object) -> None:
    """A file that is read twice is empty the second time."""
    if one is other and hasattr(one, "read") and not isinstance(one, os.PathLike):
        raise ValueError(f"{name} and {other_name} are one open file, which can be read only once: give its path")


def listing(
    data: Data, *, tolerance: int = 1000, strict: bool = False, timeout: Optional[float] = None
) -> Listing:
    """The segments of records and the counts, without writing any.

    >>> import msrepack
    >>> msrepack.listing("examples/one-record.mseed").counts
    Counts(read=1, empty=0, mismatched=0)
    """
    words = ["list", "--json", f"--tolerance={tolerance}", *options({"--strict": strict})]
    ended = run(words, {"data": data}, timeout=timeout)
    if ended.status != 0:
        raise ended.error()
    try:
        found, counts = segments_of_objects(ended.printed)
    except ValueError:
        raise _unknown(ended) from None
    return Listing(found, Counts(*counts))


def segments(
    data: Data, *, tolerance: int = 1000, strict: bool = False, timeout: Optional[float] = None
) -> List[Segment]:
    """The segments of records alone.

    >>> import msrepack
    >>> [segment.samples for segment in msrepack.segments("examples/two-segments.mseed")]
    [300, 200]
    """
    return listing(data, tolerance=tolerance, strict=strict, timeout=timeout).segments


def compare(
    one: Data, other: Data, *, tolerance: int = 1000, timeout: Optional[float] = None
) -> Union[Same, Difference]:
    """Whether two files have the same segments: names and settings, starts, and every sample.

    >>> import msrepack
    >>> packed = msrepack.repack("examples/two-segments.mseed", length=4096)
    >>> bool(msrepack.compare("examples/two-segments.mseed", packed.records))
    True
    """
    _hold_apart("one", one, "other", other)
    ended = run(["compare", f"--tolerance={tolerance}"], {"one": one, "other": other}, timeout=timeout)
    if ended.status not in (0, 3):
        raise ended.error("one", "other")
    answer = _compared(ended.printed)
    if answer is None:
        raise _unknown(ended)
    return answer


def _compared(text: str) -> Optional[Union[Same, Difference]]:
    same, differ = SAME.fullmatch(text), DIFFER.fullmatch(text)
    if same:
        segments, samples, *moved = map(int, same.groups())
        return Same(segments, samples, (moved[0], moved[1]))
    if not differ:
        return None
    number, what, sample, value, other, only_in = differ.groups()
    values = None if value is None else (int(value), int(other))
    told = what or ("segment" if sample is None else "sample")
    return Difference(int(number), told, None if sample is None else int(sample), values, only_in)


def _unknown(ended: Ended) -> Failed:
    told = ended.printed.strip()
    return Failed(f"an answer that this package does not know: {told if len(told) < 300 else f'{told[:300]}..'}", ended.status)
