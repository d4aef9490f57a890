#!/usr/bin/env python3
"""Works out the transcript of crates/msr_transcripts from its script, apart from the program, and compares the two.

    interop/transcript.py
    interop/transcript.py --script FILE --transcript FILE        # another script
    interop/transcript.py --print                                # what is worked out

Inputs are made here from the layout of a record; what a run does is said in commands.py, walks.py, reports.py and
model.py. Each difference is printed with the script's line; the last line is `N steps, M differ`. Steps are compared

- `exact`: the documents say each byte;
- `prefix only`, if a device or an input fails while records, a report or lines are printed: what stands there has to be
  a first part of the whole, and no more than the device moved; of a feed whose input fails it also has to have all
  records that no later sample can change;
- by `the product's own words`, as of the version and the texts of help: each command, option, name of a file and status,
  and each line of a walk, has to be named; of the parser's text for a wrong command line only the status is compared;
- with `one of several` outcomes that the documents allow, as when a device fails at a later call than the fewest that
  are needed;
- not, if `not determined`: what is asked of a file of which only a first part may be there, or that has words of the
  product's own.

Three things stand elsewhere than in docs/MANUAL.md, docs/PROFILE.md and README.md: by the page of msr_command a closed
standard output is found before anything is opened but the report of a feed; by the system a folder can be opened and
not read; and `--`, `-h` and `help COMMAND` do what is usual.
"""
import argparse
import collections
import contextlib
import difflib
import fcntl
import itertools
import math
import os
import re
import shutil
import struct
import sys
import tempfile
import time

import commands
import model
import walks
from commands import Device, Given, Loose, Unsaid

ROOT = os.path.dirname(os.path.dirname(os.path.realpath(__file__)))
SCRIPT, TRANSCRIPT = (os.path.join(ROOT, "crates/msr_transcripts", name) for name in ("stdin", "stdout"))
NO_STEP = b"no such step, or a file that cannot be used\n"
START = model.instant(2020, 1, 0, 0, 0, 0)

# What a step prints: the text, or any first part of it (`loose`) of at least so many bytes, or one of the product's own
# words, of which a function tells whether they are right (`own`); then the rest. And what stands in files then.
Print = collections.namedtuple("Print", "whole rest loose files own least", defaults=(b"", False, {}, None, 0))


class NoStep(Exception):
    """A line that is no step, or whose files cannot be used."""


@contextlib.contextmanager
def inside(folder):
    """In that folder, and then in the one before."""
    before = os.getcwd()
    os.chdir(folder)
    try:
        yield
    finally:
        os.chdir(before)


# The records and the inputs, from the layout of docs/PROFILE.md.


def key_at(factor=20, multiplier=1):
    return model.Key(b"XX", b"TEST ", b"00", b"BHZ", "D", factor, multiplier, 0, 0, 0, 0, 0)


def zeros_at(encoding, count, frames, area, size=256, number=1, second=0):
    """A record with the area, from a second after 2020-01-01 00:00:00 on, 20 samples a second."""
    head = b"%06dD TEST 00BHZXX" % number + struct.pack(">HHBBBBH", 2020, 1, 0, 0, second, 0, 0)
    head += struct.pack(">HhhBBBBiHH", count, 20, 1, 0, 0, 0, 2, 0, 64, 48)
    head += struct.pack(">HHBBBB", 1000, 56, encoding, 1, size.bit_length() - 1, 0)
    head += struct.pack(">HHBbBB", 1001, 0, 0, 0, 0, frames)
    return (head + area).ljust(size, b"\0")


def sevens():
    """Three frames in which each data word has seven differences of 0: code 3, decode nibble 2."""
    first = struct.pack(">16I", 0x03FF_FFFF, 0, 0, *[2 << 30] * 13)
    return first + 2 * struct.pack(">16I", 0x3FFF_FFFF, *[2 << 30] * 15)


def two():
    """Five records of 512 bytes with a wave that dies down, in 16 bits; a gap of ten seconds after the third."""
    wave = [round(3000 * math.exp(-place / 40) * math.sin(place / 3)) for place in range(100)]
    area = struct.pack(">100h", *wave)
    seconds = enumerate((0, 5, 10, 25, 30), start=1)
    return b"".join(zeros_at(model.INT16, 100, 0, area, 512, number, second) for number, second in seconds)


INPUTS = {
    "zeros": lambda: zeros_at(model.INT32, 302, 0, b"", 4096),
    # One sample of 0 in a word of four differences, and a reverse constant of 1.
    "mismatched": lambda: zeros_at(model.STEIM2, 1, 0, struct.pack(">3I", 1 << 24, 0, 1), 4096),
    "two": two,
    "nothing": lambda: b"",
}
RECORDS = {
    "plain": lambda: zeros_at(model.STEIM2, 301, 3, b""),
    "steim": lambda: zeros_at(model.STEIM2, 301, 3, sevens()),
    "int32": lambda: zeros_at(model.INT32, 48, 0, b""),
}
# Where a field of a record stands, as numbers that are separated by signs, or as text.
FIELDS = {
    "day": (20, "HH"),
    "clock": (24, "BBBxH"),
    "samples": (30, "H"),
    "rate": (32, "hh"),
    "activity": (36, "B"),
    "clocking": (37, "B"),
    "flags": (38, "B"),
    "correction": (40, "i"),
    "data": (44, "H"),
    "first": (46, "H"),
    "after1000": (50, "H"),
    "encoding": (52, "B"),
    "order": (53, "B"),
    "exponent": (54, "B"),
    "second": (56, "H"),
    "after1001": (58, "H"),
    "timing": (60, "B"),
    "micros": (61, "b"),
    "frames": (63, "B"),
}
TEXTS = {"sequence": 0, "quality": 6, "station": 8, "location": 13, "channel": 15, "network": 18}


def change(content, name, value):
    """Writes a field by its name, or bytes from a place on."""
    if name.isdecimal():
        place, held = int(name), bytes.fromhex(value)
    elif name in TEXTS:
        place, held = TEXTS[name], value.replace("_", " ").encode()
    elif name in FIELDS:
        place, form = FIELDS[name]
        held = struct.pack(f">{form}", *map(int, re.split("[,:./]", value)))
        if name == "clock":
            content[place : place + 3], content[place + 4 : place + 6] = held[:3], held[4:]
            return
    else:
        raise NoStep
    if place + len(held) > len(content):
        raise NoStep
    content[place : place + len(held)] = held


def numbers(word):
    """Those of a word: `FROM..TO`, or `NUMBER,NUMBER*COUNT`."""
    if ".." in word:
        return range(*map(int, word.split("..")))
    some, _, times = word.partition("*")
    return [int(number) for number in some.split(",")] * int(times or "1")


def sampled(text):
    """Records of 4096 bytes with 1008 numbers of 32 bits each, at the nominal times."""
    rate, *words = text.split()
    key = key_at(*map(int, rate.split("/")))
    samples, records = list(itertools.chain(*map(numbers, words))), []
    for place in range(0, len(samples), 1008):
        run, start = samples[place : place + 1008], model.rounded(model.nominal(key, START, place))
        records.append(model.record(key, start, place // 1008 + 1, run, [], model.INT32, 4096))
    return b"".join(records)


class Script:
    """The steps, over the files of the folder that this runs in."""

    def __init__(self):
        self.names, self.loose, self.clock = {}, {}, time.time_ns()

    # Files.

    def read(self, path):
        held = self.loose.get(os.path.realpath(path))
        if held is not None:
            raise Unsaid("a text of the product's own words" if held.whole is None else "any first part may be there")
        with open(path, "rb") as file:
            return file.read()

    def write(self, path, content):
        """Writes a file with its folder; no two times of change are the same. A first part of nothing is nothing."""
        content = b"" if content == Loose(b"") else content
        os.makedirs(os.path.dirname(path) or ".", exist_ok=True)
        with open(path, "wb") as file:
            file.write((content.whole or b"") if isinstance(content, Loose) else content)
        self.clock += 1_000_000
        if os.path.isfile(path):
            os.utime(path, ns=(self.clock, self.clock))
        self.loose[os.path.realpath(path)] = content if isinstance(content, Loose) else None

    def changed(self, path, change_of):
        self.write(path, change_of(self.read(path)))

    def edit(self, path, text):
        old, new = [one.encode() for one in text.replace("\\n", "\n").split("/", 1)]
        if old not in self.read(path):
            raise NoStep
        self.changed(path, lambda content: content.replace(old, new))

    def set(self, path, text):
        content = bytearray(self.read(path))
        for word in text.split():
            change(content, *word.split("=", 1))
        self.write(path, bytes(content))

    def soft(self, to, path):
        os.makedirs(os.path.dirname(path) or ".", exist_ok=True)
        os.symlink(to, path)

    def many(self, folder, count):
        for number in range(int(count)):
            self.write(f"{folder}/{number}", b"")

    def claim(self, records, report):
        """What a walk that was killed left of a day."""
        self.write(f"{records}.claim", b"")
        number = os.stat(f"{records}.claim").st_ino
        for path in (records, f"{report}.txt", f"{report}.from"):
            self.write(f"{path}.{number}.part", b"killed")

    def clear(self, *folders):
        for folder in " ".join(folders).split():
            shutil.rmtree(folder, ignore_errors=True)

    # Questions.

    def named(self, folder):
        """The names in a folder, with the number of a claim as `N`."""
        return sorted(re.sub(r"\.\d+\.part$", ".N.part", name) for name in os.listdir(folder))

    def show(self, path):
        held = self.loose.get(os.path.realpath(path))
        return Print(held.whole, loose=True, least=held.least) if held and held.whole else self.read(path)

    def shapes(self, path, length):
        """The number of samples and the encoding of each record, like neighbours in one line."""
        content, length = self.read(path), int(length)
        starts = range(0, len(content), length)
        each = [(int.from_bytes(content[start + 30 : start + 32], "big"), content[start + 52]) for start in starts]
        for (samples, encoding), alike in itertools.groupby(each):
            count = len(list(alike))
            yield f"{samples} {encoding}" + (f" *{count}" if count > 1 else "")

    def rises(self, path, line):
        """The numbers after the first word of a line, those that are equally far apart in one line."""
        row = []
        for number in map(int, self.read(path).decode().splitlines()[int(line) - 1].split(" ")[1:]):
            if row and (number == row[-1] or len(row) > 1 and number - row[-1] != row[1] - row[0]):
                yield risen(row)
                row = []
            row.append(number)
        if row:
            yield risen(row)

    def ends(self, path, counts):
        content, (first, last) = self.read(path), map(int, counts.split("/"))
        return ended(content[:first]) + ended(content[max(0, len(content) - last) :])

    def hex(self, path, places):
        start, end = map(int, places.split(".."))
        return self.read(path)[start:end].hex()

    def prefix(self, one, whole):
        held = self.loose.get(os.path.realpath(one))
        if held is not None and self.read(whole).startswith(held.whole):
            return True
        return self.read(whole).startswith(self.read(one))

    def step(self, verb, one, other):
        """What a step with files prints: nothing, a text, a word, or lines."""
        does = {
            "let": lambda: self.names.update({one: other}),
            "make": lambda: self.write(other, INPUTS[one]()),
            "record": lambda: self.write(other, RECORDS[one]()),
            "samples": lambda: self.write(one, sampled(other)),
            "text": lambda: self.write(one, other.replace("\\n", "\n").encode()),
            "copy": lambda: self.write(other, self.read(one)),
            "append": lambda: self.write(one, self.read(one) + self.read(other)),
            "cut": lambda: self.changed(one, lambda content: content[: int(other)]),
            "behead": lambda: self.changed(one, lambda content: content[1:]),
            "edit": lambda: self.edit(one, other),
            "set": lambda: self.set(one, other),
            "many": lambda: self.many(one, other),
            "folder": lambda: os.makedirs(one, exist_ok=True),
            "hard": lambda: os.link(one, other),
            "soft": lambda: self.soft(one, other),
            "claim": lambda: self.claim(one, other),
            "remove": lambda: os.remove(one),
            "clear": lambda: self.clear(one, other),
            "show": lambda: self.show(one),
            "size": lambda: f"{len(self.read(one))} bytes",
            "has": lambda: os.path.lexists(one),
            "names": lambda: self.named(one),
            "same": lambda: self.read(one) == self.read(other),
            "prefix": lambda: self.prefix(one, other),
            "ends": lambda: self.ends(one, other),
            "hex": lambda: self.hex(one, other),
            "shapes": lambda: list(self.shapes(one, other)),
            "rises": lambda: list(self.rises(one, other)),
        }
        if verb not in does:
            raise NoStep
        return does[verb]()

    # Runs.

    def settings(self, before):
        """What a run is given, and the file that keeps what it prints."""
        words = before.split()
        told = dict(word.split("=", 1) for word in words if word != "terminal")
        devices = [device(told.pop(name, "")) for name in ("reading", "writing")]
        names = ("from", "into", "reads", "redirected", "redirecting")
        source, into, reads, *redirects = [told.pop(name, None) for name in names]
        content = (self.read(source) if source else b"")[: int(told.pop("cut", sys.maxsize))]
        unsaid = {path for path, held in self.loose.items() if held}
        return Given(content, *devices, *redirects, walks.Odd(**told), unsaid, "terminal" in words, reads), into

    def run(self, before, words):
        """What a run may print; another program may have a file locked meanwhile."""
        settings = [word for word in before.split() if not word.startswith("held=")]
        held = [word.removeprefix("held=") for word in before.split() if word not in settings]
        given, into = self.settings(" ".join(settings))
        with contextlib.ExitStack() as files:
            for path in held:
                file = os.open(path, os.O_RDONLY)
                files.callback(os.close, file)
                fcntl.flock(file, fcntl.LOCK_EX | fcntl.LOCK_NB)
            return [printed(outcome, words, into) for outcome in commands.run(words, given)]

    def runs(self, asked):
        """What each of some runs may print, of which none hangs on another."""
        return (self.run(*one) for one in asked)

    def each(self, first, last, text):
        """What a run prints with each number, like neighbours once; what stands in files after the last one."""
        if first > last:
            raise NoStep
        alike, files = [], {}
        numbered = [halves(text.replace("{number}", str(number))) for number in range(first, last + 1)]
        for number, (one, *others) in enumerate(self.runs(numbered), start=first):
            if others or one.own or one.loose:
                raise Unsaid("a repeated run whose text is not said")
            text_of = ended(one.whole) + one.rest
            if not alike or alike[-1][2] != text_of:
                alike.append([number, number, text_of])
            alike[-1][1], files = number, {**files, **one.files}
        return Print(b"".join(marked(*row) for row in alike), files=files)

    def line(self, line):
        """What a line may print."""
        for name, text in self.names.items():
            line = line.replace(f"{{{name}}}", text)
        if not line or line.startswith("#"):
            return [Print(b"")]
        try:
            if repeated := re.match(r"each (\d+) to (\d+) (.*)", line):
                return [self.each(int(repeated[1]), int(repeated[2]), repeated[3])]
            if "{" in line:
                raise NoStep
            if "$" in line:
                return self.run(*halves(line))
            verb, _, rest = line.partition(" ")
            one, _, other = rest.partition(" ")
            answer = self.step(verb, one, other)
        except (NoStep, OSError, ValueError, LookupError, TypeError, struct.error):
            return [Print(NO_STEP)]
        return [answer if isinstance(answer, Print) else Print(shown(answer))]


def risen(row):
    """Numbers that are equally far apart."""
    return f"{row[0]}" if len(row) == 1 else f"{row[0]} by {row[1] - row[0]} to {row[-1]}"


def halves(line):
    """The settings of a run, and its words."""
    if "{" in line:
        raise NoStep
    before, after = line.split("$", 1)
    return before, after.split()


def marked(first, last, text):
    """What came of a run with these numbers, which stand before it."""
    return (f"{first}: " if first == last else f"{first} to {last}: ").encode() + text


def device(text):
    """`MOST@CALL` or `CALL`."""
    most, _, fails = text.rpartition("@")
    return Device(int(most) if most else None, int(fails) if fails else None)


def ended(text):
    """A text as it is printed: one without a line's end at its end gets a mark and one."""
    return text if not text or text.endswith(b"\n") else text + b"\\\n"


def shown(answer):
    """A step's answer: bytes as they are, words in a line each."""
    if answer is None or isinstance(answer, bytes):
        return answer or b""
    lines = answer if isinstance(answer, list) else [answer]
    return model.text(str(line).lower() if isinstance(line, bool) else line for line in lines).encode()


# What a text of help has to say, by docs/MANUAL.md: on all commands, and on each.
STATUSES = ["0", "1", "2"]
LENGTH = ["--length", "256, 512, 1024", "65536", "[default: 512]"]
KINDS = ["--no-int24", "kinds steim2 steim1 int16 int32", "libmseed 2 and the tools built on it can read"]
TOLERANCE = ["--tolerance", "1 to 1000000", "[default: 1000]"]
REFUSES = ["--strict", "18 ReverseMismatch"]
LINES = ["done PATH", "same PATH", "skipped PATH: not an SDS path", "not waveform data", "bad day", "notshown PATH", "differs PATH"]
LINES += ["changed PATH", "larger PATH", "shrunk PATH samples N M", "misplaced PATH", "young PATH", "refused PATH: TEXT", "refused PATH: listing"]
OF_TRIAL = ["would PATH read N written M", "channel NET.STA.LOC.CHAN files N read N written N", "files N skipped N refused N [young N]"]
LINES += ["cannot open", "another walk is at work", OF_TRIAL[0]]
LINES += ["channel NET.STA.LOC.CHAN files N read N written N", "known PATH: TEXT", "files N skipped N refused N [known N] [larger N] [young N]"]
SAID = ["same segments N samples N", "moved N N", "differ segment K key", "differ segment K start"]
SAID += ["differ segment K sample N values V V", "differ segment K sample N only in ONE", "differ segment K only in ONE"]
HELP = {
    None: [*commands.COMMANDS, *STATUSES, "3", "--help", "--version", "does what `msrepack repack -` does"],
    "repack": [*STATUSES, *LENGTH, *KINDS, *TOLERANCE, *REFUSES, "IN", "OUT"],
    "feed": [*STATUSES, *LENGTH, *KINDS, *TOLERANCE, *REFUSES, "REPORT"],
    "list": [*STATUSES, *TOLERANCE, *REFUSES, "--json", "IN"],
    "check": [*STATUSES, "3", "PACKED", "REPORT", "least", "not shown"],
    "compare": [*STATUSES, "3", *TOLERANCE, *SAID, "ONE", "OTHER"],
    "archive": [*STATUSES, *LENGTH, *KINDS, *TOLERANCE, *REFUSES, *LINES, "--below", *commands.OF_DAYS, "same"],
}
HELP["archive"] += ["--older-than", "[default: 0]", "--known", "FILE", "--quiet", "--json", "--dry-run", "ROOT", "OUT", "REPORTS"]
HELP["--dry-run"] = [*STATUSES, *LENGTH, *KINDS, *TOLERANCE, *REFUSES, *OF_TRIAL, "--below", "--bytes", "same"]
HELP["--dry-run"] += ["--older-than", "[default: 0]", "--quiet", "--json", "--dry-run", "ROOT"]
FOUND = ["verified PATH", "inplace PATH", "missing PATH", "notshown PATH", "differs PATH", "orphan PATH"]
FOUND += ["refused PATH: file: TEXT", "refused PATH: records: TEXT", "refused PATH: report: TEXT", "refused PATH: listing"]
FOUND += ["skipped PATH: TEXT", "cannot open", "the file itself", "known PATH: TEXT", "files N skipped N refused N [known N] missing N notshown N differs N orphan N"]
HELP["verify"] = [*STATUSES, *FOUND, "misplaced PATH", "--known", "FILE", "--names", "--quiet", "--json", "--below", "ROOT", "OUT", "REPORTS"]
PLACED = ["replaced PATH bytes N M", "same PATH", "young PATH", "larger PATH bytes N M", "changed PATH", "refused PATH: TEXT"]
PLACED += ["missing PATH", "notshown PATH", "differs PATH", "skipped PATH: TEXT", "orphan PATH", "restored PATH"]
PLACED += ["total replaced N same N young N larger N changed N skipped N refused N missing N notshown N differs N orphan N"]
PLACED += ["unfinished FOLDER", "unfinished N bytes N M", "total restored N changed N refused N unfinished N", "PATH.touch-time", "0 to 4294967295", "[default: 7]"]
HELP["replace"] = [*STATUSES, *PLACED, *commands.OF_ORIGINALS, "ROOT", "OUT", "REPORTS", "ASIDE"]


def is_told(words, text):
    """Whether a text of the product's own words says what it has to; help in short (`-h`) at least the names."""
    if words[0] in ("--version", "-V"):
        return re.fullmatch(rb"msrepack \d+\.\d+\.\d+\n", text) is not None
    asked = HELP["--dry-run" if "--dry-run" in words else next((word for word in words if word in HELP), None)]
    needed = [one for one in asked if one.isupper() or one.startswith("--")] if "-h" in words else asked
    said = " ".join(text.decode().split())
    return all(one in said for one in needed)


def printed(outcome, words, into):
    """What a run prints in the transcript: the text or its first part, the complaint after its mark, the status."""
    whole, rest = outcome.printed, b"status %d\n" % outcome.status
    files = dict(outcome.files)
    if outcome.complaint:
        rest = b"! " + outcome.complaint + rest
    if into:
        files[into] = Loose(whole, outcome.least) if outcome.loose or whole is None else whole
        whole = b""
    own = None
    if outcome.complaint is None:
        own = lambda text: text.startswith(b"! ") and not text.startswith(b"! msrepack: ")
    elif whole is None:
        own = lambda text: outcome.loose or is_told(words, text)
    return Print(whole, rest, outcome.loose and not into, files, own, outcome.least)


def matches(one, text):
    """Whether the text is one that may be printed."""
    if not text.endswith(one.rest):
        return False
    body = text[: len(text) - len(one.rest)]
    if one.own:
        return one.own(body)
    if not one.loose:
        return body == ended(one.whole)
    part = body.removesuffix(b"\\\n")
    return one.whole.startswith(part) and body == ended(part) and len(part) >= one.least


# The transcript beside it.


class Transcript:
    """What stands in it from a place on."""

    def __init__(self, content):
        self.content, self.place = content, 0

    def is_at(self, place, line):
        """Whether that line stands there, or one that is much like it."""
        end = self.content.find(b"\n", place)
        there = self.content[place:end] if end >= 0 else None
        return there == line or there and difflib.SequenceMatcher(None, there, line).ratio() > 0.8

    def take_line(self, line):
        """The line that stands there in the place of that one; none if it is not much like it."""
        if not self.is_at(self.place, line):
            return b""
        start, self.place = self.place, self.content.index(b"\n", self.place) + 1
        return self.content[start : self.place - 1]

    def take(self, prints, following):
        """What stands before the following lines; which of the texts that may be printed it is, or None."""
        start, after = self.place, following[0] if following else None
        for one in prints:
            whole = ended(one.whole or b"") + one.rest
            end = start + len(whole)
            is_exact = not one.own and self.content.startswith(whole, start)
            if is_exact and (end == len(self.content) if after is None else self.is_at(end, after)):
                self.place = end
                return one, self.content[start:end]
        head = b"".join(line + b"\n" for line in following)
        end = self.content.find(head, start) if following else len(self.content)
        if end < 0:
            lines = (prints[0].whole or b"").count(b"\n") + prints[0].rest.count(b"\n") if prints else 0
            end = start + sum(len(line) + 1 for line in self.content[start:].split(b"\n")[:lines])
        self.place = end
        text = self.content[start:end]
        return next((one for one in prints if matches(one, text)), None), text


def is_step(line):
    return bool(line) and not line.startswith("#")


def lines_after(lines, number):
    """The lines from there on, to the first that is a step."""
    following = []
    for line in lines[number:]:
        following.append(line.encode())
        if is_step(line):
            break
    return following


def tell(number, line, wanted, there):
    """A difference, line by line."""
    print(f"line {number}: {line}")
    wanted, there = [text.decode(errors="backslashreplace").split("\n") for text in (wanted, there)]
    differ = [f"    {text}" for text in difflib.ndiff(wanted, there) if text[0] in "-+"]
    print(re.sub(r"[\x00-\x09\x0b-\x1f\x7f]", lambda sign: f"\\x{ord(sign[0]):02x}", model.text(differ[:20])), end="")


def kind_of(prints, one):
    if len(prints) > 1:
        return "one of several, not determined which"
    if one.own:
        return "the product's own words"
    return "prefix only" if one.loose and one.whole else "exact"


def work_out(lines):
    """Prints the transcript as it is worked out; what the documents leave open is marked."""
    script = Script()
    for line in lines:
        sys.stdout.buffer.write(line.encode() + b"\n")
        try:
            one, *others = script.line(line)
        except Unsaid as why:
            one, others = Print(f"(not determined: {why})\n".encode()), []
        mark = b"(or otherwise)\n" if others else b"(or a first part of it)\n" if one.loose and one.whole else b""
        own = b"(the product's own words)\n" if one.own else ended(one.whole)
        sys.stdout.buffer.write(own + mark + one.rest)
        for path, content in one.files.items():
            script.write(path, content)


def compare(script, lines, transcript):
    """The lines of the steps that were compared, by kind, and of those that were not, by reason; how many differ, each of
    which is printed."""
    kinds, left, differ = collections.defaultdict(list), collections.defaultdict(list), 0
    for number, line in enumerate(lines, start=1):
        head = transcript.take_line(line.encode())
        if head != line.encode():
            differ += 1
            tell(number, "the line is another one", line.encode(), head)
        following = lines_after(lines, number)
        try:
            prints = script.line(line)
        except Unsaid as why:
            transcript.take([], following)
            left[str(why)].append(number)
            continue
        one, text = transcript.take(prints, following)
        if one is None:
            differ += 1
            one = prints[0]
            tell(number, line, (b"(the product's own words)\n" if one.own else ended(one.whole)) + one.rest, text)
        elif is_step(line):
            kinds[kind_of(prints, one)].append(number)
        for path, content in one.files.items():
            script.write(path, content)
    return kinds, left, differ


def read_both(script=SCRIPT, transcript=TRANSCRIPT):
    """The lines of a script, and its transcript."""
    with open(script, encoding="utf-8") as file:
        lines = file.read().splitlines()
    with open(transcript, "rb") as file:
        return lines, Transcript(file.read())


def main():
    options = argparse.ArgumentParser(description=__doc__, formatter_class=argparse.RawDescriptionHelpFormatter)
    options.add_argument("--script", default=SCRIPT)
    options.add_argument("--transcript", default=TRANSCRIPT)
    options.add_argument("--print", action="store_true", help="prints what is worked out, and compares nothing")
    asked = options.parse_args()
    lines, transcript = read_both(asked.script, asked.transcript)
    steps = sum(map(is_step, lines))
    with tempfile.TemporaryDirectory() as folder, inside(folder):
        if asked.print:
            work_out(lines)
            return 0
        kinds, left, differ = compare(Script(), lines, transcript)
    kinds.update({f"not determined: {why}": numbers_of for why, numbers_of in left.items()})
    for kind, numbers_of in kinds.items():
        print(f"{kind}: {len(numbers_of)} steps" + ("" if kind == "exact" else f", lines {numbers_of}"))
    print(f"{steps} steps, {differ} differ")
    return 1 if differ else 0


if __name__ == "__main__":
    sys.exit(main())
