"""Plays the script of crates/msr_transcripts with the program itself, over real files, pipes and standard streams.

A step has to print what stands in the transcript, byte for byte. What the runs of the transcript have of the tests' own
devices is made by the system here: a socket whose other end is gone, a closed output, a file that may not grow, a lock, a
folder without permission. What the system has nothing for is skipped, with its reason, and so is each step that looks at
what a skipped one would have changed.
"""
import concurrent.futures
import contextlib
import fcntl
import functools
import io
import itertools
import os
import pty
import re
import resource
import socket
import subprocess
import tempfile
import tty
from collections import namedtuple

import commands
import transcript
from commands import Unsaid
from jobs import Result

# What a run may take, in seconds, before it is ended.
LONGEST = 60
# A file that may not grow: it can be written up to this place, which no other file of the script comes to.
FILE_END = 1 << 30
# The steps that ask what stands in files, and the files that their words name.
ASKS = {verb: ("read",) for verb in ("show", "size", "has", "names", "ends", "hex", "shapes", "rises")}
ASKS.update({verb: ("read", "read") for verb in ("same", "prefix")})
# Those that make files: a word names one that is read, changed, or written whole, whatever stood there.
MAKES = {verb: ("changed",) for verb in ("cut", "behead", "edit", "set", "many", "folder", "remove")}
MAKES.update({verb: ("written",) for verb in ("samples", "text")}, make=("", "written"), record=("", "written"))
MAKES.update(copy=("read", "written"), append=("changed", "read"), claim=("changed", "changed"))
MAKES.update(hard=("read", "changed"), soft=("", "changed"))
# The settings of a run that the system has nothing for, and why.
DURING = "what another program does, or fails to do, just while msrepack is at work on a day"
GONE = "names that stand in a folder's list and are gone when they are looked at"
SETTINGS_LEFT = {name: DURING for name in ("earlier", "later", "gone", "made", "other", "taken", "when", "linked", "stays")}
# Those that are made by the system.
SETTINGS = {"from", "into", "cut", "reading", "writing", "redirected", "redirecting", "folder", "names", "held", "terminal"}
SETTINGS_LEFT["reads"] = "what was printed at each read: feed_live.py looks at that"
NAMES_LEFT = {"cut": "a folder whose list fails before its end", "marked": GONE, "day": GONE}
A_FEW = "an output that takes only some bytes in each call"
NOBODY_SEES = "what is printed to a device, where nobody sees it"
CAN_LIST = "a folder that cannot be listed: who runs this may list all"
NO_TERMINAL = "a standard error that is a terminal: this system gives none (/dev/pts)"
# The line that shows how far a walk is, and what takes it away: whether a walk takes so long no transcript tells.
PROGRESS = re.compile(rb"\r[^\r\n]*\x1b\[K")
FOLLOWS = "steps that look at what a skipped one would have changed"

Ran = namedtuple("Ran", "status printed complaint")


def is_asked(line):
    """Whether a step looks at what the program does or did; the others only make files."""
    return "$" in line or line.split(" ")[0] in ASKS


def is_in(path, folder):
    """Whether it is the folder or stands below it."""
    return f"{os.path.normpath(path)}/".startswith(f"{os.path.normpath(folder)}/")


def is_help(words):
    """Whether a run prints help or the version, before which the output is not tried."""
    try:
        commands.read_words(words)
    except commands.Asked:
        return True
    return False


def outputs_of(words):
    """The files and folders that a run may change."""
    try:
        task = commands.read_words(words)
    except (commands.Ends, commands.Asked):
        return []
    changed = {"repack": task.names[1:], "feed": task.names, "archive": task.names[1:], "replace": [*task.names, task.aside]}
    return changed.get(task.command, [])


def all_of(terminal):
    """What came to a terminal, once all that wrote to it have ended."""
    text = b""
    while True:
        try:
            some = os.read(terminal, 65536)
        except OSError:
            some = b""
        if not some:
            return text
        text += some


def broken(content):
    """A standard input that has these bytes, and then fails: the other end went without reading what was sent to it."""
    given, other = socket.socketpair()
    other.sendall(content)
    given.send(b"unread")
    other.close()
    return given


class Player(transcript.Script):
    """The steps, with runs of the program; `there` is the transcript, at the place of the step."""

    def __init__(self, program, there, streams):
        super().__init__()
        self.program, self.there, self.streams = program, there, streams
        # What a skipped step would have changed, and the runs of the program, counted.
        self.unknown, self.counted = set(), itertools.count()

    # Steps after one that was skipped.

    def is_unknown(self, path):
        return any(is_in(path, other) or is_in(other, path) for other in self.unknown)

    def skip(self, changed, why):
        self.unknown.update(map(os.path.normpath, changed))
        raise Unsaid(why)

    def step(self, verb, one, other):
        if verb == "clear":
            cleared = f"{one} {other}".split()
            self.unknown = {path for path in self.unknown if not any(is_in(path, folder) for folder in cleared)}
        used = list(zip(ASKS.get(verb) or MAKES.get(verb, ()), (one, other)))
        changed = [path for use, path in used if use in ("changed", "written")]
        for use, path in used:
            if use == "written":
                self.unknown.discard(os.path.normpath(path))
            if use and self.is_unknown(path):
                self.skip(changed, FOLLOWS)
        return super().step(verb, one, other)

    # Runs.

    def runs(self, asked):
        with concurrent.futures.ThreadPoolExecutor(2) as threads:
            yield from threads.map(lambda one: self.run(*one), asked)

    def run(self, before, words):
        told = dict(word.partition("=")[::2] for word in before.split())
        if told.keys() - SETTINGS - SETTINGS_LEFT.keys():
            raise transcript.NoStep
        into = told.pop("into", None)
        changed = [*outputs_of(words), *filter(None, (into, *map(told.get, ("later", "taken", "linked", "reads"))))]
        why = self.why_left(told)
        if why or any(map(self.is_unknown, [*words, *told.values()])):
            self.skip(changed, why or FOLLOWS)
        try:
            with contextlib.ExitStack() as undo:
                ran = self.ran(words, told, undo)
        except Unsaid as reason:
            self.skip(changed, str(reason))
        next(self.counted)
        rest = (b"! " + ran.complaint if ran.complaint else b"") + b"status %d\n" % ran.status
        files = {into: ran.printed} if into else {}
        return [transcript.Print(b"" if into else ran.printed, rest, files=files)]

    def why_left(self, told):
        """Why a run with these settings is not made, if it is not."""
        unreal = [why for name, why in SETTINGS_LEFT.items() if name in told]
        writing = transcript.device(told.get("writing", ""))
        if told.get("names") in NAMES_LEFT:
            unreal.append(NAMES_LEFT[told["names"]])
        if writing.most and writing.fails is None:
            unreal.append(A_FEW)
        if "redirecting" in told and not os.path.isfile(told["redirecting"]):
            unreal.append(NOBODY_SEES)
        return unreal[0] if unreal else None

    def ran(self, words, told, undo):
        """A run with what its settings make around it, which is taken away again."""
        if "folder" in told:
            {"closed": self.close, "latin": self.name_oddly}[told["names"]](told["folder"], undo)
        if "held" in told:
            fcntl.flock(undo.enter_context(open(told["held"], "ab")), fcntl.LOCK_EX | fcntl.LOCK_NB)
        given = self.input(told, undo)
        if "terminal" in told:
            return self.at_terminal(words, given)
        redirecting, writing = told.get("redirecting"), transcript.device(told.get("writing", ""))
        if writing.fails is not None and writing.fails > 0:
            return self.to_an_end(words, given, self.taken(words, writing))
        if redirecting and writing.fails == 0:
            return self.end(words, given, stdout=undo.enter_context(open(redirecting, "rb")))
        if redirecting:
            return self.to_file(words, given, redirecting)
        if writing.fails == 0:
            return self.end(words, given, preexec_fn=functools.partial(os.close, 1))
        return self.end(words, given, stdout=subprocess.PIPE)

    def at_terminal(self, words, given):
        """A run whose standard error is a terminal."""
        try:
            terminal, other = pty.openpty()
        except OSError:
            raise Unsaid(NO_TERMINAL) from None
        tty.setraw(other)
        ran = self.end(words, given, stdout=subprocess.PIPE, stderr=other)
        os.close(other)
        complaint = PROGRESS.sub(b"", all_of(terminal))
        os.close(terminal)
        return ran._replace(complaint=complaint)

    def close(self, folder, undo):
        """Takes away the permission to list a folder, which not everybody needs."""
        undo.callback(os.chmod, folder, os.stat(folder).st_mode & 0o777)
        os.chmod(folder, 0o311)
        if os.access(folder, os.R_OK):
            raise Unsaid(CAN_LIST)

    def name_oddly(self, folder, undo):
        """Makes a file whose name is not UTF-8."""
        path = os.fsencode(folder) + b"\xff"
        with open(path, "xb"):
            undo.callback(os.remove, path)

    def input(self, told, undo):
        """What standard input is: the bytes that come through a pipe, or an opened file or socket."""
        content = self.read(told["from"]) if "from" in told else b""
        content = content[: int(told.get("cut", len(content)))]
        reading = transcript.device(told.get("reading", ""))
        if "redirected" in told:
            if self.read(told["redirected"]) != content:
                raise transcript.NoStep
            return undo.enter_context(open(told["redirected"], "rb"))
        if reading.fails is None:
            return content
        if reading.fails > len(commands.calls_for(content, reading)):
            raise transcript.NoStep
        calls = commands.calls_for(content, reading)[: reading.fails]
        return undo.enter_context(broken(b"".join(calls)))

    def taken(self, words, writing):
        """How many bytes an output takes that fails at a call: of each call before the most, or else a line, as the
        transcript shows it. The first call moves none, but for help."""
        calls = writing.fails if is_help(words) else writing.fails - 1
        if writing.most:
            return calls * writing.most
        lines = self.there.content[self.there.place :].splitlines(True)
        return sum(map(len, lines[:calls]))

    def to_an_end(self, words, given, most):
        """A run whose output is a file that can take so many bytes and no more."""
        start = FILE_END - most
        with open(os.path.join(self.streams, "printed"), "w+b") as file:
            file.seek(start)
            limit = functools.partial(resource.setrlimit, resource.RLIMIT_FSIZE, (FILE_END, FILE_END))
            # Python has the signals of a limit and of a closed pipe ignored, and so has the program here.
            ran = self.end(words, given, stdout=file, preexec_fn=limit, restore_signals=False)
            file.seek(start)
            return ran._replace(printed=file.read())

    def to_file(self, words, given, path):
        """A run whose output goes to a file, after what stands there, which then is as before."""
        before = self.read(path)
        with open(path, "ab") as file:
            ran = self.end(words, given, stdout=file)
        after = self.read(path)
        if not after.startswith(before):
            return ran._replace(printed=b"(what stood in the file is another)\n" + after)
        if after != before:
            os.truncate(path, len(before))
        return ran._replace(printed=after[len(before) :])

    def end(self, words, given, **streams):
        """A run to its end; one that has none is ended."""
        source = {"input": given} if isinstance(given, bytes) else {"stdin": given}
        try:
            both = {"stderr": subprocess.PIPE, **source, **streams}
            done = subprocess.run([self.program, *words], timeout=LONGEST, check=False, **both)
        except subprocess.TimeoutExpired:
            return Ran(-1, b"", b"no end after %d s\n" % LONGEST)
        return Ran(done.returncode, done.stdout or b"", done.stderr)


def play(program, lines, there):
    """What came of a script. Of the steps that only make files those count that fail."""
    said = io.StringIO()
    with tempfile.TemporaryDirectory() as top:
        files, streams = (os.path.join(top, name) for name in ("files", "streams"))
        os.mkdir(files)
        os.mkdir(streams)
        player = Player(program, there, streams)
        with transcript.inside(files), contextlib.redirect_stdout(said):
            kinds, left, differ = transcript.compare(player, lines, there)
    asked = {number for number, line in enumerate(lines, start=1) if is_asked(line)}
    passed = sum(len(asked.intersection(numbers)) for numbers in kinds.values())
    skipped = {why: len(asked.intersection(numbers)) for why, numbers in left.items()}
    return Result(passed, differ, skipped, said.getvalue(), f" ({next(player.counted)} runs of the program)")


def script(program):
    """The script of the gate."""
    return play(program, *transcript.read_both())
