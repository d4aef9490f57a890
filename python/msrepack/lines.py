"""The lines that `archive` and `verify` print, a type for each: `str` of one is the line again, to the byte.

A path is as the line has it, below ROOT, with a control character as `%` and its number. Bytes are None unless `archive`
was asked for them.
"""
import json
import re
from dataclasses import dataclass
from typing import Callable, ClassVar, Dict, Optional, Tuple, Type, Union

from msrepack.errors import FAULT, refusal


def _bytes_told(read: Optional[int], written: Optional[int]) -> str:
    return "" if read is None else f" bytes {read} {written}"


def _known_told(known: Optional[int]) -> str:
    return "" if known is None else f" known {known}"


@dataclass(frozen=True)
class _Named:
    path: str
    WORD: ClassVar[str] = ""

    def __str__(self) -> str:
        return f"{self.WORD} {self.path}"


@dataclass(frozen=True)
class _Counted:
    path: str
    read: int
    written: int
    bytes_read: Optional[int] = None
    bytes_written: Optional[int] = None
    WORD: ClassVar[str] = ""

    def __str__(self) -> str:
        bytes_told = _bytes_told(self.bytes_read, self.bytes_written)
        return f"{self.WORD} {self.path} read {self.read} written {self.written}{bytes_told}"


class Done(_Counted):
    """A file was repacked.

    >>> parse("done 2020/XX/TEST/BHN.D/XX.TEST.00.BHN.D.2020.001 read 5 written 3").written
    3
    """

    WORD = "done"


class Would(_Counted):
    """What repacking the file would give, of a dry run.

    >>> parse("would 2020/XX/TEST/BHN.D/XX.TEST.00.BHN.D.2020.001 read 5 written 3").written
    3
    """

    WORD = "would"


class Same(_Counted):
    """An earlier walk did it, and it was left alone.

    >>> parse("same 2020/XX/TEST/BHN.D/XX.TEST.00.BHN.D.2020.001 read 5 written 3 bytes 2560 1536").bytes_written
    1536
    """

    WORD = "same"


class Larger(_Counted):
    """The records are not fewer bytes than the file, and were not kept.

    >>> parse("larger 2020/XX/TEST/BHN.D/XX.TEST.00.BHN.D.2020.001 read 1 written 2").read
    1
    """

    WORD = "larger"


class NotShown(_Named):
    """The report does not show that the records are the fewest.

    >>> parse("notshown 2020/XX/TEST/BHN.D/XX.TEST.00.BHN.D.2020.001").path
    '2020/XX/TEST/BHN.D/XX.TEST.00.BHN.D.2020.001'
    """

    WORD = "notshown"


class Differs(_Named):
    """File and records have not the same segments.

    >>> parse("differs 2020/XX/TEST/BHN.D/XX.TEST.00.BHN.D.2020.001").path
    '2020/XX/TEST/BHN.D/XX.TEST.00.BHN.D.2020.001'
    """

    WORD = "differs"


class Changed(_Named):
    """The same, and the file was changed while it was repacked.

    >>> parse("changed 2020/XX/TEST/BHN.D/XX.TEST.00.BHN.D.2020.001").path
    '2020/XX/TEST/BHN.D/XX.TEST.00.BHN.D.2020.001'
    """

    WORD = "changed"


@dataclass(frozen=True)
class Shrunk:
    """The file has fewer samples than an earlier walk found in it, `was`, and what that made of it stays.

    >>> parse("shrunk 2020/XX/TEST/BHN.D/XX.TEST.00.BHN.D.2020.001 samples 500 400")
    Shrunk(path='2020/XX/TEST/BHN.D/XX.TEST.00.BHN.D.2020.001', was=500, samples=400)
    """

    path: str
    was: int
    samples: int

    def __str__(self) -> str:
        return f"shrunk {self.path} samples {self.was} {self.samples}"


@dataclass(frozen=True)
class Misplaced:
    """The file has a segment of this channel that begins on this day of the year, and does not belong to the path.

    >>> parse("misplaced 2020/XX/TEST/BHN.D/XX.TEST.00.BHN.D.2020.001 XX.TEST.00.BHZ 2020,032")
    Misplaced(path='2020/XX/TEST/BHN.D/XX.TEST.00.BHN.D.2020.001', id='XX.TEST.00.BHZ', year=2020, day=32)
    """

    path: str
    id: str
    year: int
    day: int

    def __str__(self) -> str:
        return f"misplaced {self.path} {self.id} {self.year:04},{self.day:03}"


class Young(_Named):
    """The file was changed in the last days, or in the future, and was left alone.

    >>> parse("young 2020/XX/TEST/BHN.D/XX.TEST.00.BHN.D.2020.001").path
    '2020/XX/TEST/BHN.D/XX.TEST.00.BHN.D.2020.001'
    """

    WORD = "young"


class Verified(_Named):
    """The records have the segments of the file, and the report shows that they are the fewest.

    >>> parse("verified 2020/XX/TEST/BHN.D/XX.TEST.00.BHN.D.2020.001").path
    '2020/XX/TEST/BHN.D/XX.TEST.00.BHN.D.2020.001'
    """

    WORD = "verified"


class InPlace(_Named):
    """There are no records, and the report shows that the file is records, and the fewest, as after `replace`.

    >>> parse("inplace 2020/XX/TEST/BHN.D/XX.TEST.00.BHN.D.2020.001").path
    '2020/XX/TEST/BHN.D/XX.TEST.00.BHN.D.2020.001'
    """

    WORD = "inplace"


class Missing(_Named):
    """There is no report, or there are no records, and the file is not in place.

    >>> parse("missing 2020/XX/TEST/BHN.D/XX.TEST.00.BHN.D.2020.001").path
    '2020/XX/TEST/BHN.D/XX.TEST.00.BHN.D.2020.001'
    """

    WORD = "missing"


class Orphan(_Named):
    """There are records, and no file.

    >>> parse("orphan 2020/XX/TEST/BHN.D/XX.TEST.00.BHN.D.2020.001").path
    '2020/XX/TEST/BHN.D/XX.TEST.00.BHN.D.2020.001'
    """

    WORD = "orphan"


@dataclass(frozen=True)
class Skipped:
    """The name is not that of a day of waveform data, and why.

    >>> parse("skipped notes.txt: not an SDS path")
    Skipped(path='notes.txt', text='not an SDS path')
    """

    path: str
    text: str

    def __str__(self) -> str:
        return f"skipped {self.path}: {self.text}"


@dataclass(frozen=True)
class _Refusal:
    path: str
    text: str
    of: Optional[str] = None
    reason: Optional[str] = None
    side: Optional[str] = None
    WORD: ClassVar[str] = ""

    @property
    def offset(self) -> Optional[int]:
        """Where the record begins."""
        why = refusal(self.text)
        return why.offset if why else None

    @property
    def number(self) -> Optional[int]:
        """The number of the refusal."""
        why = refusal(self.text)
        return why.number if why else None

    @property
    def name(self) -> Optional[str]:
        """The name of the refusal."""
        why = refusal(self.text)
        return why.name if why else None

    @property
    def value(self) -> Optional[int]:
        """The value of the refusal, if it has one."""
        why = refusal(self.text)
        return why.value if why else None

    def __str__(self) -> str:
        return f"{self.WORD} {self.path}: {f'{self.of}: ' if self.of else ''}{self.text}"


class Refused(_Refusal):
    """A file or a folder that was refused, and why.

    `of` is `report`, `records` or `file` if `verify` tells of which the text is; `side` is the same of `archive` too, if it
    tells which could not be opened or made, or has a fault. `offset`, `number`, `name` and `value` are those of a record that
    is refused, else None. `reason` is that of the system, if it gave one. A line in words has no `side` and no `reason`.

    >>> refused = parse("refused 2020/XX/TEST/BHN.D/XX.TEST.00.BHN.D.2020.001: records: offset 512: 15 OtherEncoding 4")
    >>> refused.of, refused.offset, refused.number, refused.name, refused.value
    ('records', 512, 15, 'OtherEncoding', 4)
    """

    WORD = "refused"


class Known(_Refusal):
    """The same of what lines of earlier runs tell as refused; of `verify` also a day that is missing, with the text of these.

    >>> known = parse("known 2020/XX/TEST/BHN.D/XX.TEST.00.BHN.D.2020.001: offset 512: 1 Truncated")
    >>> known.name
    'Truncated'
    """

    WORD = "known"


@dataclass(frozen=True)
class Channel:
    """The sums of a channel, over its files that are done or the same.

    >>> parse("channel XX.TEST.00.BHN files 2 read 9 written 5")
    Channel(id='XX.TEST.00.BHN', files=2, read=9, written=5, bytes_read=None, bytes_written=None)
    """

    id: str
    files: int
    read: int
    written: int
    bytes_read: Optional[int] = None
    bytes_written: Optional[int] = None

    def __str__(self) -> str:
        bytes_told = _bytes_told(self.bytes_read, self.bytes_written)
        return f"channel {self.id} files {self.files} read {self.read} written {self.written}{bytes_told}"


@dataclass(frozen=True)
class ArchiveTotals:
    """The last line of `archive`; `larger` is None unless only smaller files were asked for, `young` unless only older ones,
    `known` without lines of earlier runs.

    >>> parse("files 4 skipped 1 refused 0 larger 2 young 3")
    ArchiveTotals(files=4, skipped=1, refused=0, larger=2, bytes_read=None, bytes_written=None, young=3, known=None)
    """

    files: int
    skipped: int
    refused: int
    larger: Optional[int] = None
    bytes_read: Optional[int] = None
    bytes_written: Optional[int] = None
    young: Optional[int] = None
    known: Optional[int] = None

    def __str__(self) -> str:
        known = _known_told(self.known)
        larger = "" if self.larger is None else f" larger {self.larger}"
        young = "" if self.young is None else f" young {self.young}"
        bytes_told = _bytes_told(self.bytes_read, self.bytes_written)
        return f"files {self.files} skipped {self.skipped} refused {self.refused}{known}{larger}{young}{bytes_told}"


@dataclass(frozen=True)
class VerifyTotals:
    """The last line of `verify`; `files` are those that are verified or in place, `known` is None without lines of earlier
    runs.

    >>> parse("files 4 skipped 1 refused 0 missing 0 notshown 0 differs 2 orphan 0").differs
    2
    """

    files: int
    skipped: int
    refused: int
    missing: int
    notshown: int
    differs: int
    orphan: int
    known: Optional[int] = None

    def __str__(self) -> str:
        return (
            f"files {self.files} skipped {self.skipped} refused {self.refused}{_known_told(self.known)}"
            f" missing {self.missing} notshown {self.notshown} differs {self.differs} orphan {self.orphan}"
        )


ArchiveLine = Union[Done, Would, Same, Larger, Young, NotShown, Differs, Changed, Shrunk, Misplaced, Skipped, Refused, Known, Channel, ArchiveTotals]
VerifyLine = Union[Verified, InPlace, Missing, NotShown, Differs, Misplaced, Skipped, Refused, Known, Orphan, VerifyTotals]
Line = Union[ArchiveLine, VerifyLine]

N = "([0-9]+)"
BYTES = f"(?: bytes {N} {N})?"
# The texts of a refusal. A path ends before the first text of these, since it can have a colon itself.
TEXTS = (
    "cannot open|read fault|write fault|out of memory|another walk is at work|listing|the file itself|line [0-9]+"
    "|offset [0-9]+: [0-9]+ [A-Za-z0-9]+(?: [0-9]+)?"
)
Maker = Callable[..., Line]
COUNTED: Dict[str, Maker] = {"done": Done, "would": Would, "same": Same, "larger": Larger}
RefusalKind = Union[Type[Refused], Type[Known]]
REFUSED: Dict[str, RefusalKind] = {"refused": Refused, "known": Known}
NAMED: Dict[str, Maker] = {
    "notshown": NotShown,
    "differs": Differs,
    "changed": Changed,
    "young": Young,
    "verified": Verified,
    "inplace": InPlace,
    "missing": Missing,
    "orphan": Orphan,
}


def _numbers(*texts: Optional[str]) -> Tuple[Optional[int], ...]:
    return tuple(None if text is None else int(text) for text in texts)


def _archive_totals(files: str, skipped: str, refused: str, *told: Optional[str]) -> Line:
    known, larger, young, read, written = _numbers(*told)
    return ArchiveTotals(int(files), int(skipped), int(refused), larger, read, written, young, known)


def _verify_totals(files: str, skipped: str, refused: str, known: Optional[str], *counts: str) -> Line:
    return VerifyTotals(int(files), int(skipped), int(refused), *map(int, counts), *_numbers(known))


def _refused(word: str, path: str, of: Optional[str], text: str) -> Line:
    return REFUSED[word](path, text, of)


FORMS: Tuple[Tuple["re.Pattern[str]", Maker], ...] = (
    (
        re.compile(f"({'|'.join(COUNTED)}) (.*) read {N} written {N}{BYTES}"),
        lambda word, path, *counts: COUNTED[word](path, *_numbers(*counts)),
    ),
    (re.compile(f"({'|'.join(NAMED)}) (.*)"), lambda word, path: NAMED[word](path)),
    (re.compile(f"shrunk (.*) samples {N} {N}"), lambda path, *counts: Shrunk(path, *map(int, counts))),
    (
        re.compile("misplaced (.*) ([0-9A-Za-z_%.]*) ([0-9]{4}),([0-9]{3})"),
        lambda path, name, *day: Misplaced(path, name, *map(int, day)),
    ),
    (re.compile("skipped (.*?): (not an SDS path|not waveform data|bad day)"), Skipped),
    (re.compile(f"({'|'.join(REFUSED)}) (.*?): (?:(report|records|file): )?({TEXTS})"), _refused),
    (
        re.compile(rf"channel ([0-9A-Za-z.]+) files {N} read {N} written {N}{BYTES}"),
        lambda name, *counts: Channel(name, *_numbers(*counts)),  # type: ignore[arg-type]
    ),
    (
        re.compile(f"files {N} skipped {N} refused {N}(?: known {N})?(?: larger {N})?(?: young {N})?{BYTES}"),
        _archive_totals,
    ),
    (
        re.compile(f"files {N} skipped {N} refused {N}(?: known {N})? missing {N} notshown {N} differs {N} orphan {N}"),
        _verify_totals,
    ),
)


def parse(line: str) -> Line:
    """The line of `archive` or `verify` that a text is, without its line feed; ValueError if it is none.

    >>> with open("examples/README.md", encoding="utf-8") as file:
    ...     parse(file.readline())
    Traceback (most recent call last):
    ValueError: no line of archive or verify: # Sample files
    """
    for form, make in FORMS:
        found = form.fullmatch(line)
        if found:
            return make(*found.groups())
    raise ValueError(f"no line of archive or verify: {line.rstrip()}")


def parse_object(text: str) -> Line:
    """The line of `archive` or `verify` that an object of `--json` tells.

    >>> parse_object('{"what":"refused","path":"2020","side":"records","text":"records: listing"}')
    Refused(path='2020', text='listing', of='records', reason=None, side='records')
    >>> parse_object('{"what":"done","path":"2020/XX/TEST/BHN.D/XX.TEST.00.BHN.D.2020.001","read":5,"written":3}').written
    3
    >>> day = "2020/XX/TEST/BHN.D/XX.TEST.00.BHN.D.2020.001"
    >>> parse_object(f'{{"what":"shrunk","path":"{day}","samples_was":500,"samples":400}}').was
    500
    >>> print(parse_object(f'{{"what":"inplace","path":"{day}"}}'))
    inplace 2020/XX/TEST/BHN.D/XX.TEST.00.BHN.D.2020.001
    """
    members = json.loads(text)
    what = members.pop("what")
    if what == "files":
        return VerifyTotals(**members) if "missing" in members else ArchiveTotals(**members)
    if what == "channel":
        return Channel(**members)
    path = re.sub("[\\x00-\\x1f\\x7f]", lambda found: f"%{ord(found[0]):02x}", members.pop("path"))
    if what == "skipped":
        return Skipped(path, members["text"])
    if what == "shrunk":
        return Shrunk(path, members["samples_was"], members["samples"])
    if what == "misplaced":
        return Misplaced(path, **members)
    if what in REFUSED:
        return _refused_object(REFUSED[what], path, members["text"], members.get("side"), members.get("reason"))
    return COUNTED[what](path, **members) if what in COUNTED else NAMED[what](path)


def _refused_object(kind: RefusalKind, path: str, text: str, side: Optional[str], reason: Optional[str]) -> Line:
    """`verify` begins its texts with the side."""
    if side and text.startswith(f"{side}: "):
        return kind(path, text[len(f"{side}: ") :], side, reason, side)
    return kind(path, text, None, reason, side)
