"""What a call raises. All of it is an `Error`."""
import errno
import os
import re
from typing import Optional, Tuple

FAULT = re.compile(r"offset ([0-9]+): ([0-9]+) ([A-Za-z0-9]+)(?: ([0-9]+))?")
AT_LINE = re.compile(r"report line ([0-9]+)")
OPENED = re.compile("cannot open (.+)", re.DOTALL)


class Error(Exception):
    """Whatever a call of this package raises of its own.

    >>> issubclass(Refused, Error) and issubclass(Failed, Error)
    True
    """


class Refused(Error, ValueError):
    """A record that the program refuses, and so the whole input: where it begins, and why.

    `of` says of which argument the input is, if a call has two; `path` is that of the input, if it was given by one.

    >>> import msrepack
    >>> try:
    ...     msrepack.segments(b"no record")
    ... except msrepack.Refused as why:
    ...     print(why, "/", why.offset, why.number, why.name, why.value, why.path)
    offset 0: 1 Truncated / 0 1 Truncated None None
    """

    def __init__(
        self,
        offset: int,
        number: int,
        name: str,
        value: Optional[int] = None,
        of: Optional[str] = None,
        path: Optional[str] = None,
    ) -> None:
        super().__init__(offset, number, name, value, of, path)
        self.offset, self.number, self.name, self.value, self.of, self.path = offset, number, name, value, of, path

    def __str__(self) -> str:
        source = f"{self.of}: " if self.of else ""
        value = "" if self.value is None else f" {self.value}"
        return f"{source}offset {self.offset}: {self.number} {self.name}{value}"


class NotAReport(Error, ValueError):
    """A text that is no report, with the number of its first line at fault, counted from 1.

    >>> from msrepack import Report
    >>> try:
    ...     Report.parse("msrepack 1\\nlength 500\\n")
    ... except NotAReport as why:
    ...     print(why, "/", why.line)
    report line 2 / 2
    """

    def __init__(self, line: int) -> None:
        super().__init__(line)
        self.line = line

    def __str__(self) -> str:
        return f"report line {self.line}"


class Failed(Error, OSError):
    """A run that failed: a file could not be opened, read or written, memory ran out, or the program was killed.

    `line` is what the program said, without its name in front; `status` that of its end, negative for a signal.
    `filename` and `errno` are those of what could not be opened, as far as the line and the system tell them.

    >>> import msrepack
    >>> try:
    ...     msrepack.segments("nowhere.mseed")
    ... except msrepack.Failed as why:
    ...     print(why.line, "/", why.status, why.filename, why.errno)
    cannot open nowhere.mseed / 1 nowhere.mseed 2
    """

    def __init__(
        self, line: str, status: int = 1, filename: Optional[str] = None, number: Optional[int] = None
    ) -> None:
        super().__init__(line)
        self.line, self.status = line, status
        self.filename = filename
        self.errno: Optional[int] = number  # type: ignore[assignment]

    def __reduce__(self) -> Tuple[type, Tuple[object, ...]]:
        return type(self), (self.line, self.status, self.filename, self.errno)

    def __str__(self) -> str:
        return self.line


class TimedOut(Error, TimeoutError):
    """A call that took longer than its `timeout`. Its process is gone.

    >>> import msrepack
    >>> try:
    ...     msrepack.repack(bytes(50_000_000), timeout=0.001)
    ... except TimeoutError as why:
    ...     print(why)
    longer than 0.001 s
    """


class BadCall(Error, ValueError):
    """Arguments that the program does not take, in its words.

    >>> import msrepack
    >>> try:
    ...     print(*msrepack.archive("examples/sds", "examples/sds/packed", "reports"))
    ... except msrepack.BadCall as why:
    ...     print(why)
    the folders overlap
    """


class NotFound(Error, FileNotFoundError):
    """No program, or one that is too old or another: the text says what to do. `filename` is what was looked for.

    >>> import os, msrepack
    >>> before = os.environ.get("MSREPACK")
    >>> os.environ["MSREPACK"] = "/nowhere/msrepack"
    >>> try:
    ...     msrepack.segments("examples/one-record.mseed")
    ... except msrepack.NotFound as why:
    ...     print(why)
    MSREPACK names /nowhere/msrepack, which is no program: let it name one, or unset it
    >>> del os.environ["MSREPACK"]
    >>> os.environ.update({} if before is None else {"MSREPACK": before})
    """

    def __init__(self, text: str, filename: str = "msrepack", number: Optional[int] = errno.ENOENT) -> None:
        super().__init__(text)
        self.text, self.filename = text, filename
        self.errno: Optional[int] = number  # type: ignore[assignment]

    def __reduce__(self) -> Tuple[type, Tuple[object, ...]]:
        return type(self), (self.text, self.filename, self.errno)

    def __str__(self) -> str:
        return self.text


def refusal(text: str, of: Optional[str] = None, path: Optional[str] = None) -> Optional[Refused]:
    """The refusal that a text tells, if it is one."""
    found = FAULT.fullmatch(text)
    if not found:
        return None
    offset, number, name, value = found.groups()
    return Refused(int(offset), int(number), name, None if value is None else int(value), of, path)


def error_of(text: str, status: int, of: Optional[str] = None, path: Optional[str] = None) -> Error:
    """The error that a complaint of the program tells, if it is one; `path` is that of the input, if it is told of one."""
    refused, line = refusal(text, of, path), AT_LINE.fullmatch(text)
    if refused:
        return refused
    if line:
        return NotAReport(int(line[1]))
    if status == 2 and text:
        return BadCall(text)
    source = f"{of}: " if of else ""
    return Failed(source + (text or f"the program ended with status {status} and said nothing"), status, *_place(text, path))


def _place(text: str, path: Optional[str]) -> Tuple[Optional[str], Optional[int]]:
    """Of which file a line tells, and the number of the system's reason."""
    opened = OPENED.fullmatch(text)
    if not opened or opened[1].startswith("/dev/fd/"):
        return path if text == "read fault" else None, errno.ENOMEM if text == "out of memory" else None
    try:
        os.stat(opened[1])
    except (OSError, ValueError) as why:
        return opened[1], getattr(why, "errno", None)
    return opened[1], None if os.access(opened[1], os.R_OK) else errno.EACCES
