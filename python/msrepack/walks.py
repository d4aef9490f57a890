"""The walks over an archive: their lines as they come."""
import contextlib
import os
import select
import signal
import subprocess
from typing import IO, Iterable, Iterator, List, Optional, Union, cast

from msrepack.errors import Failed, error_of
from msrepack.lines import ArchiveLine, ArchiveTotals, Line, VerifyLine, VerifyTotals, parse_object
from msrepack.program import Limit, Path, complaint_of, find_program, options, send, started, word_of_path

PIECE = 1 << 16
# How many seconds a walk that is closed has for the file in hand, and then after SIGTERM.
FOR_A_FILE, AFTER_SIGTERM = 1.0, 2.0


def archive(
    root: Path,
    out: Path,
    reports: Path,
    *,
    length: Union[int, str] = 512,
    int24: bool = False,
    tolerance: int = 1000,
    strict: bool = False,
    below: Optional[Iterable[str]] = None,
    resume: bool = False,
    check: bool = False,
    only_smaller: bool = False,
    keep_old: bool = False,
    older_than: int = 0,
    known: Optional[Path] = None,
    names: bool = False,
    bytes: bool = False,
    timeout: Optional[float] = None,
) -> Iterator[ArchiveLine]:
    """Repacks each day below `root` to `out`, its report to `reports`; gives each line as its file is done, the totals last.

    The words are those of the program's options, `length` also `"same"`, `older_than` in days, `known` a file of lines in words; 24-bit integers are not
    written unless `int24` is set. Without `below` it is the whole archive; if no folder is in it, no day is. `timeout` is in seconds, of the
    whole walk, which goes on in a process of its own while a line is looked at. If the loop ends before the totals, by
    `break` or an exception, the walk ends once the file in hand is done. If that takes longer than a second it gets
    SIGTERM, and after two more SIGKILL: the next walk removes what that leaves.

    >>> import msrepack, tempfile
    >>> with tempfile.TemporaryDirectory() as there:
    ...     for line in msrepack.archive("examples/sds", f"{there}/packed", f"{there}/reports", below=["2020/XX/TEST/BHN.D"]):
    ...         print(line)
    done 2020/XX/TEST/BHN.D/XX.TEST.00.BHN.D.2020.001 read 5 written 3
    done 2020/XX/TEST/BHN.D/XX.TEST.00.BHN.D.2020.002 read 4 written 2
    channel XX.TEST.00.BHN files 2 read 9 written 5
    files 2 skipped 0 refused 0
    """
    chosen = {
        "--no-int24": not int24,
        "--strict": strict,
        "--resume": resume,
        "--check": check,
        "--only-smaller": only_smaller,
        "--keep-old": keep_old,
        "--names": names,
        "--bytes": bytes,
    }
    words = ["archive", "--json", f"--length={length}", f"--tolerance={tolerance}", *options(chosen)]
    words += [f"--older-than={older_than}"] if older_than else []
    words += _known_word(known)
    none = (0 if bytes else None,) * 2
    young, of_known = 0 if older_than else None, None if known is None else 0
    nothing = ArchiveTotals(0, 0, 0, 0 if only_smaller else None, *none, young, of_known)
    return cast(Iterator[ArchiveLine], _walk(words, below, (root, out, reports), nothing, timeout))


def dry_run(
    root: Path,
    *,
    length: Union[int, str] = 512,
    int24: bool = False,
    tolerance: int = 1000,
    strict: bool = False,
    below: Optional[Iterable[str]] = None,
    older_than: int = 0,
    bytes: bool = False,
    timeout: Optional[float] = None,
) -> Iterator[ArchiveLine]:
    """Tells what `archive` with these words would give of each day below `root`, and writes nothing.

    >>> import msrepack
    >>> *_, totals = msrepack.dry_run("examples/sds", bytes=True)
    >>> totals.files, totals.bytes_read, totals.bytes_written
    (4, 9216, 6656)
    """
    chosen = {"--no-int24": not int24, "--strict": strict, "--bytes": bytes}
    words = ["archive", "--dry-run", "--json", f"--length={length}", f"--tolerance={tolerance}", *options(chosen)]
    words += [f"--older-than={older_than}"] if older_than else []
    none = (0 if bytes else None,) * 2
    nothing = ArchiveTotals(0, 0, 0, None, *none, 0 if older_than else None)
    return cast(Iterator[ArchiveLine], _walk(words, below, (root,), nothing, timeout))


def verify(
    root: Path,
    out: Path,
    reports: Path,
    *,
    names: bool = False,
    below: Optional[Iterable[str]] = None,
    known: Optional[Path] = None,
    timeout: Optional[float] = None,
) -> Iterator[VerifyLine]:
    """Says of each day below `root` whether its records below `out` and its report below `reports` hold, the totals last.

    `known` is a file of lines that earlier walks printed in words.

    >>> import msrepack, tempfile
    >>> with tempfile.TemporaryDirectory() as there:
    ...     folders = ("examples/sds", f"{there}/packed", f"{there}/reports")
    ...     done = list(msrepack.archive(*folders))
    ...     *_, totals = msrepack.verify(*folders)
    >>> totals.files, totals.missing, totals.differs
    (4, 0, 0)
    """
    nothing = VerifyTotals(0, 0, 0, 0, 0, 0, 0, None if known is None else 0)
    words = ["verify", "--json", *options({"--names": names}), *_known_word(known)]
    return cast(Iterator[VerifyLine], _walk(words, below, (root, out, reports), nothing, timeout))


def _known_word(known: Optional[Path]) -> List[str]:
    return [] if known is None else [f"--known={os.fspath(known)}"]


def _walk(
    words: List[str], below: Optional[Iterable[str]], folders: Iterable[Path], nothing: Line, timeout: Optional[float]
) -> Iterator[Line]:
    """The lines of a walk over the folders of `below`, or of all; `nothing` are the totals of no folder."""
    if isinstance(below, (str, bytes)):
        raise TypeError("below is a list of folders")
    belows = None if below is None else [f"--below={folder}" for folder in below]
    if belows == []:
        return iter([nothing])
    return _lines([*words, *(belows or ()), *map(word_of_path, folders)], type(nothing), Limit(timeout))


def _lines(words: List[str], totals: type, limit: Limit) -> Iterator[Line]:
    """The lines of a walk. It failed if its totals did not come last, or if it complains."""
    last: Optional[Line] = None
    program = find_program(limit)
    with started([program, *words], subprocess.PIPE, subprocess.PIPE, []) as process:
        output = _Output(process)
        with process, contextlib.closing(output):
            for text in output.lines(limit):
                last = _line_of(text.decode(errors="surrogateescape"))
                yield last
            status = limit.wait_for(process)
    complained = output.complained.decode(errors="replace")
    if complained or status not in (0, 1) or not isinstance(last, totals):
        raise error_of(complaint_of(status, complained), status)


class _Output:
    """What a walk prints, and the end of what it complains, which is read as it comes: no pipe fills, and no file is
    needed."""

    def __init__(self, process: "subprocess.Popen[bytes]") -> None:
        self.process = process
        self.complained = b""

    def lines(self, limit: Limit) -> Iterator[bytes]:
        """The whole lines, without their line feeds."""
        rest, poll, opened = b"", select.poll(), self.pipes()
        for number in opened:
            poll.register(number, select.POLLIN)
        while opened:
            left = limit.left()
            for number, _ in poll.poll(None if left is None else 1000 * left + 1):
                piece = os.read(number, PIECE)
                if not piece:
                    poll.unregister(number)
                    opened.remove(number)
                elif number == self.number_of(self.process.stdout):
                    *whole, rest = (rest + piece).split(b"\n")
                    yield from whole
                else:
                    self.complained = (self.complained + piece)[-PIECE:]

    def pipes(self) -> List[int]:
        return [self.number_of(pipe) for pipe in (self.process.stdout, self.process.stderr)]

    @staticmethod
    def number_of(pipe: Optional[IO[bytes]]) -> int:
        return -1 if pipe is None else pipe.fileno()

    def close(self) -> None:
        """A walk that cannot print the line of the file in hand ends there, with nothing half done; one that takes long
        for it is ended."""
        if self.process.stdout is not None:
            self.process.stdout.close()
        for seconds, number in ((FOR_A_FILE, signal.SIGTERM), (AFTER_SIGTERM, signal.SIGKILL)):
            try:
                self.process.wait(seconds)
            except subprocess.TimeoutExpired:
                send(self.process, number)
        self.process.wait()


def _line_of(text: str) -> Line:
    try:
        return parse_object(text)
    except (ValueError, KeyError, TypeError, AttributeError):
        raise Failed(f"a line that this package does not know: {text}", 0) from None
