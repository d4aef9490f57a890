"""The program: where it is, and a run of it. All that is asked and answered goes through pipes."""
import contextlib
import errno
import fcntl
import functools
import importlib.metadata
import io
import os
import re
import select
import shutil
import signal
import subprocess
import threading
import time
from types import FrameType
from typing import (
    IO, TYPE_CHECKING, Any, BinaryIO, Dict, Iterator, List, Mapping, NamedTuple, Optional, Protocol, Sequence, Set, Tuple, Union
)

from msrepack.errors import Error, NotFound, TimedOut, error_of, refusal

if TYPE_CHECKING:
    import array


class Array(Protocol):
    """An array of NumPy, or what gives its bytes as one."""

    @property
    def __array_interface__(self) -> Dict[str, Any]: ...


Path = Union[str, "os.PathLike[str]"]
Data = Union[bytes, bytearray, memoryview, "array.array[Any]", Array, Path, BinaryIO]

# The oldest program that has all that is asked of it.
NEEDED = (1, 1)
HERE = os.path.dirname(os.path.realpath(__file__))
INSTALL = "install one (README.md tells how), put it on the path, or let MSREPACK name it"
VERSION = re.compile(r"msrepack ([0-9]+)\.([0-9]+)\S*\s*")
PIECE = 1 << 18


# Where it is.


class Limit:
    """The time that a call may take: None is as long as it takes."""

    def __init__(self, seconds: Optional[float] = None) -> None:
        self.seconds = seconds
        self.end = None if seconds is None else time.monotonic() + seconds

    def left(self) -> Optional[float]:
        """The seconds that are left; `TimedOut` if none are."""
        if self.end is None:
            return None
        left = self.end - time.monotonic()
        if left <= 0:
            raise TimedOut(f"longer than {self.seconds:g} s")
        return left

    def wait_for(self, process: "subprocess.Popen[bytes]") -> int:
        """The status of a process, once it has ended."""
        try:
            return process.wait(self.left())
        except subprocess.TimeoutExpired:
            raise TimedOut(f"longer than {self.seconds:g} s") from None


NO_LIMIT = Limit()
_new: Set[str] = set()


def find_program(limit: Limit = NO_LIMIT) -> str:
    """The path of the program: what MSREPACK names, else that of the wheel, of the clone, or on the path.

    >>> import msrepack, subprocess
    >>> subprocess.run([msrepack.find_program(), "--version"], capture_output=True).stdout[:9]
    b'msrepack '
    """
    named = os.environ.get("MSREPACK")
    program = shutil.which(named) if named else _of_wheel() or _of_clone() or shutil.which("msrepack")
    if named and not program:
        raise NotFound(f"MSREPACK names {named}, which is no program: let it name one, or unset it", named)
    if not program:
        raise NotFound(f"there is no program msrepack: {INSTALL}")
    if program not in _new:
        _require_new(program, limit)
        _new.add(program)
    return program


@functools.lru_cache(None)
def _of_wheel() -> Optional[str]:
    """The program that was installed with this package, as its wheel noted it."""
    try:
        wheel = importlib.metadata.distribution("msrepack")
    except importlib.metadata.PackageNotFoundError:
        return None
    files = [os.path.realpath(str(wheel.locate_file(file))) for file in wheel.files or ()]
    if os.path.join(HERE, "__init__.py") not in files:
        return None
    # pip --target notes another place than that where it puts the program.
    files.append(os.path.join(os.path.dirname(HERE), "bin", "msrepack"))
    programs = (file for file in files if os.path.basename(file) == "msrepack" and os.path.isfile(file))
    return next((file for file in programs if os.access(file, os.X_OK)), None)


@functools.lru_cache(None)
def _of_clone() -> Optional[str]:
    """The program of the clone of which this package is a folder, shipped or built: none is built here, since that takes
    long."""
    clone = os.path.dirname(os.path.dirname(HERE))
    asked = os.path.join(clone, "tools", "program")
    if not os.path.isfile(os.path.join(clone, "crates.txt")) or not os.access(asked, os.X_OK):
        return None
    told = _told([asked, "--ready"])
    if told.status != 0:
        raise NotFound(told.complaint or f"{asked} ended with status {told.status}", asked)
    return told.printed.rstrip("\n")


def _require_new(program: str, limit: Limit) -> None:
    """Other programs have this name too, as an example of libmseed's."""
    try:
        told = _told([program, "--version"], limit=limit)
    except TimedOut:
        raise
    except OSError as why:
        number = why.errno or errno.ENOEXEC
        raise NotFound(f"{program} does not run ({why.strerror}): {INSTALL}", program, number) from None
    found = VERSION.fullmatch(told.printed)
    if not found:
        raise NotFound(f"{program} is not msrepack, or does not run: {INSTALL}", program)
    if tuple(map(int, found.groups())) < NEEDED:
        needed = ".".join(map(str, NEEDED))
        raise NotFound(f"{program} is {found[0].strip()}, and this package wants {needed} or newer: {INSTALL}", program)


# What it is given.


def word_of_path(path: Path) -> str:
    """A path as a word that is taken for no option and not for standard input."""
    word = os.fsdecode(path)
    return os.path.join(os.curdir, word) if word.startswith("-") else word


def options(chosen: Mapping[str, object]) -> List[str]:
    """The options that are chosen."""
    return [option for option, is_chosen in chosen.items() if is_chosen]


def pieces_of(data: Any, name: str) -> Iterator[memoryview]:
    """The bytes of what is no path, none of them copied but one piece of a file at a time. `name` is the argument's."""
    try:
        return iter([_bytes_of(memoryview(data), name)])
    except (ValueError, BufferError):
        raise TypeError(f"{name}: {type(data).__name__} does not give its bytes") from None
    except TypeError:
        if hasattr(data, "read"):
            return _pieces_of_file(data, name)
        if isinstance(data, memoryview) or hasattr(data, "__array_interface__"):
            raise
        what = "a path, bytes, an array, or a file that was opened in binary"
        raise TypeError(f"{name} has to be {what}, not {type(data).__name__}") from None


def _bytes_of(view: memoryview, name: str) -> memoryview:
    if not view.c_contiguous or "O" in view.format:
        raise TypeError(f"{name} has to be C-contiguous, and of numbers: give a copy of that kind")
    if not view.nbytes:
        return memoryview(b"")
    try:
        return view.cast("B")
    except TypeError:  # Numbers in the other order of bytes, or records.
        return memoryview(view.tobytes())


def _pieces_of_file(file: BinaryIO, name: str) -> Iterator[memoryview]:
    while True:
        piece = file.read(PIECE)
        if not isinstance(piece, bytes):
            raise TypeError(f"{name}: a file has to be opened in binary")
        if not piece:
            return
        yield memoryview(piece)


# A run.


class Ended(NamedTuple):
    """How a run ended."""

    status: int
    printed: str
    records: bytes
    # Its last line on standard error, the words that its inputs had, and the paths of those that were given by one.
    complaint: str
    names: Tuple[str, ...]
    paths: Tuple[Optional[str], ...]

    def error(self, *sources: str) -> Error:
        """What the complaint tells; if it begins with the name of an input, of which of these sources."""
        for name, path, source in zip(self.names, self.paths, sources):
            if self.complaint.startswith(f"{name}: "):
                return error_of(self.complaint[len(name) + 2 :], self.status, source, path)
        is_first = len(self.paths) == 1 or refusal(self.complaint)
        return error_of(self.complaint, self.status, path=self.paths[0] if is_first and self.paths else None)


def _above_streams(number: int) -> int:
    """The same file under a number that is no standard stream's, which it gets if one of these was closed."""
    if number > 2:
        return number
    other = fcntl.fcntl(number, fcntl.F_DUPFD_CLOEXEC, 3)
    os.close(number)
    return other


class _Pipes:
    """The pipes of one run, and the ends of them that the program gets."""

    def __init__(self, stack: contextlib.ExitStack) -> None:
        self.stack = stack
        self.feeds: Dict[int, Tuple[IO[bytes], Iterator[memoryview]]] = {}
        self.drains: Dict[int, Tuple[IO[bytes], io.BytesIO]] = {}
        self.theirs: List[IO[bytes]] = []

    def make(self) -> Tuple[IO[bytes], IO[bytes]]:
        reading, writing = map(_above_streams, os.pipe())
        opened: Tuple[IO[bytes], IO[bytes]] = (open(reading, "rb", buffering=0), open(writing, "wb", buffering=0))
        for file in opened:
            self.stack.callback(file.close)
        return opened

    def feed(self, pieces: Iterator[memoryview]) -> str:
        """The name by which the program opens what has these pieces."""
        theirs, ours = self.make()
        os.set_blocking(ours.fileno(), False)
        self.feeds[ours.fileno()] = ours, pieces
        self.theirs.append(theirs)
        return f"/dev/fd/{theirs.fileno()}"

    def drain(self) -> Tuple[int, io.BytesIO]:
        """The file number for the program, and what comes of it."""
        ours, theirs = self.make()
        content = io.BytesIO()
        self.drains[ours.fileno()] = ours, content
        self.theirs.append(theirs)
        return theirs.fileno(), content

    def pump(self, limit: Limit) -> None:
        """Moves bytes until the program has closed all that it writes."""
        for file in self.theirs:
            file.close()
        poll, pending = select.poll(), dict.fromkeys(self.feeds, memoryview(b""))
        for number in self.feeds:
            poll.register(number, select.POLLOUT)
        for number in self.drains:
            poll.register(number, select.POLLIN)
        while self.drains:
            left = limit.left()
            for number, event in poll.poll(None if left is None else 1000 * left + 1):
                if number in self.drains:
                    is_open = self.take(number)
                else:
                    is_open = not event & select.POLLERR and self.give(number, pending)
                if not is_open:
                    poll.unregister(number)
                    file, _ = self.drains.pop(number, None) or self.feeds.pop(number)
                    file.close()

    def take(self, number: int) -> bool:
        piece = os.read(number, PIECE)
        self.drains[number][1].write(piece)
        return bool(piece)

    def give(self, number: int, pending: Dict[int, memoryview]) -> bool:
        """Writes what there is room for; False if nothing is left, or nobody reads it."""
        if not pending[number]:
            pending[number] = next(self.feeds[number][1], memoryview(b""))
        if not pending[number]:
            return False
        try:
            pending[number] = pending[number][os.write(number, pending[number]) :]
        except BlockingIOError:
            pass
        except BrokenPipeError:
            return False
        return True


def run(
    words: Sequence[str],
    inputs: Mapping[str, Data],
    has_records: bool = False,
    output: Optional[str] = None,
    timeout: Optional[float] = None,
) -> Ended:
    """A run of the program: its words, then one for each input, then one for the records if it writes some.

    A path is a word as it is. All else goes through pipes, and so do the answers: there is no file to be left behind.
    `BytesIO` gives its bytes without a copy. The inputs are by the names of the arguments that they are; `output` is a
    path that the records are written to.
    """
    limit = Limit(timeout)
    return _told([find_program(limit), *words], inputs, has_records, output, limit)


def _told(
    words: Sequence[str],
    inputs: Mapping[str, Data] = {},
    has_records: bool = False,
    output: Optional[str] = None,
    limit: Limit = NO_LIMIT,
) -> Ended:
    """What any program tells."""
    with contextlib.ExitStack() as stack:
        pipes = _Pipes(stack)
        names = [_name_of(data, name, pipes) for name, data in inputs.items()]
        number, records = pipes.drain() if has_records else (None, io.BytesIO())
        outputs = [] if number is None else [f"/dev/fd/{number}"]
        outputs += [] if output is None else [word_of_path(output)]
        printing, printed = pipes.drain()
        complaining, complained = pipes.drain()
        with started([*words, *names, *outputs], printing, complaining, pipes.theirs) as process:
            pipes.pump(limit)
            status = limit.wait_for(process)
    paths = [os.fsdecode(data) if isinstance(data, (str, os.PathLike)) else None for data in inputs.values()]
    complaint = complaint_of(status, _text(complained))
    return Ended(status, _text(printed), records.getvalue(), complaint, tuple(names), tuple(paths))


def _name_of(data: Data, name: str, pipes: _Pipes) -> str:
    if isinstance(data, (str, os.PathLike)):
        return word_of_path(data)
    return pipes.feed(pieces_of(data, name))


def _text(content: io.BytesIO) -> str:
    return content.getvalue().decode(errors="surrogateescape")


def complaint_of(status: int, complained: str) -> str:
    """The program's line, which is the last one of its own."""
    if status < 0:
        return f"the program was ended by {_name_of_signal(-status)}"
    lines = complained.strip().split("\n")
    last = next((line for line in reversed(lines) if line.startswith("msrepack: ")), lines[0])
    return last[len("msrepack: ") :] if last.startswith("msrepack: ") else last


def _name_of_signal(number: int) -> str:
    try:
        return signal.Signals(number).name
    except ValueError:
        return f"signal {number}"


@contextlib.contextmanager
def _interrupts_later() -> Iterator[None]:
    """Holds a Ctrl-C back until the end. Only the main thread gets one."""
    handler = signal.getsignal(signal.SIGINT)
    if threading.current_thread() is not threading.main_thread() or not callable(handler):
        yield
        return
    held: List[Tuple[int, Optional[FrameType]]] = []
    signal.signal(signal.SIGINT, lambda number, frame: held.append((number, frame)))
    try:
        yield
    finally:
        signal.signal(signal.SIGINT, handler)
        if held:
            handler(*held[0])


@contextlib.contextmanager
def started(
    words: Sequence[str], printing: int, complaining: int, passed: Sequence[IO[bytes]]
) -> Iterator["subprocess.Popen[bytes]"]:
    """A process that is gone once this ends, however it does. It has a session of its own: a Ctrl-C is ours alone to
    answer."""
    process = None
    try:
        # One in the midst of Popen would leave a process that nobody knows.
        with _interrupts_later():
            process = subprocess.Popen(
                words,
                stdin=subprocess.DEVNULL,
                stdout=printing,
                stderr=complaining,
                pass_fds=[file.fileno() for file in passed],
                start_new_session=True,
            )
        yield process
    finally:
        if process is not None:
            end(process)


def end(process: "subprocess.Popen[bytes]") -> None:
    """Ends a process if it is still there, and takes its status."""
    send(process, signal.SIGKILL)
    process.wait()


def send(process: "subprocess.Popen[bytes]", number: int) -> None:
    """Sends a signal to a process that is still there, and to what it started."""
    if process.poll() is None:
        os.killpg(process.pid, number)
