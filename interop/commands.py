"""What a run of msrepack does with files and streams, said a second time from docs/MANUAL.md.

Records, reports, lists and faults are those of model.py; here is everything around them: which files are opened when,
what is printed, the complaint on standard error, the status, and what stands in files afterwards. It shares no line
with the product. What the documents leave open is left open here: an outcome can have a text of which any first part
may be there (`loose`), words that are the product's own (None), and a run can have more than one outcome.
"""
import itertools
import os
import re
from collections import namedtuple

import model
import replaced
import walks
from reports import NotAReport, parsed, verdict

OF_RECORDS = ("--length", "--no-int24", "--tolerance", "--strict")
OF_KEPT = ("--resume", "--check", "--only-smaller", "--keep-old", "--names")
OF_DAYS = (*OF_KEPT, "--bytes")
OF_ORIGINALS = ("--undo", "--below", "--only-smaller", "--older-than", "--touch", "--int24")
COMMANDS = {
    "repack": (OF_RECORDS, (1, 2)),
    "feed": (OF_RECORDS, (1, 1)),
    "list": (("--tolerance", "--strict", "--json"), (1, 1)),
    "check": ((), (2, 2)),
    "compare": (("--tolerance",), (2, 2)),
    "archive": ((*OF_RECORDS, "--below", *OF_DAYS, "--older-than", "--known", "--quiet", "--json", "--dry-run"), (3, 3)),
    "verify": (("--known", "--names", "--quiet", "--json", "--below"), (3, 3)),
    "replace": (OF_ORIGINALS, (4, 4)),
}
# The options that have a value; of a number the least and the greatest.
VALUED = {"--length": (0, 2**32 - 1), "--tolerance": (1, 1_000_000), "--older-than": (0, 2**32 - 1), "--below": None, "--known": None}
WALKS = ("archive", "verify", "replace")
LENGTHS = [2**exponent for exponent in range(8, 17)]
HINT_OF_LENGTHS = b"hint: msrepack writes records of %d, %d, %d, %d, %d, %d, %d, %d or %d bytes\n" % tuple(LENGTHS)

OF_TASK = "command names length kinds tolerance strict json quiet below resume check only_smaller keep_old misplaced bytes"
Task = namedtuple("Task", f"{OF_TASK} aside undo older_than touch int24 known dry_run")
Device = namedtuple("Device", "most fails")
# What a run is given beside its words.
# The last is the file that tells what standard output had at each read, if one does.
Given = namedtuple("Given", "content reading writing redirected redirecting odd unsaid is_terminal reads", defaults=(None,))
# The status, what is printed (or any first part of it, of at least so many bytes), the complaint; what stands in files
# then, and if printing fails; whether each line is printed by itself.
FIELDS = "status printed complaint loose files failed lines least"
Outcome = namedtuple("Outcome", FIELDS, defaults=(False, {}, {}, False, 0))
# A file's content of which only a first part may be there, of at least so many bytes.
Loose = namedtuple("Loose", "whole least", defaults=(0,))


class Ends(Exception):
    """A run that ends before its task begins: with that status and these words, or the parser's (None); and what a person
    is told besides."""

    def __init__(self, status, complaint, hint=b""):
        self.outcome = Outcome(status, b"", complaint)
        self.at_terminal = Outcome(status, b"", complaint and complaint + hint)


class Asked(Exception):
    """A run that prints a text of the product's own words: the version, or help."""


class Unsaid(Exception):
    """A step whose answer the documents do not say, for this reason."""


def told(text):
    return f"msrepack: {text}\n".encode()


# The words of a command line.


def value_of(option, text):
    """The value of an option; a wrong tolerance is the parser's matter, but of a length only that it is a number."""
    if option == "--below":
        return text.removesuffix("/")
    if option == "--known":
        return text
    if (option, text) == ("--length", "same"):
        return text
    number = int(text) if re.fullmatch("-?[0-9]+", text) else -1
    least, most = VALUED[option]
    if not least <= number <= most:
        raise Ends(2, None)
    return number


def told_apart(words, options):
    """The names and the options of a command; only `--below` may come again; after `--` all are names."""
    names, chosen, words = [], {"--below": []}, list(words)
    while words:
        word = words.pop(0)
        option, equals, text = word.partition("=")
        if word == "--":
            return names + words, chosen
        if not word.startswith("-") or word == "-":
            names.append(word)
        elif word in ("-h", "--help"):
            raise Asked
        elif option not in options or (equals and option not in VALUED) or (option in chosen and option != "--below"):
            raise Ends(2, None)
        elif option not in VALUED:
            chosen[option] = True
        elif not equals and (not words or words[0].startswith("-") and words[0] != "-"):
            raise Ends(2, None)
        else:
            value = value_of(option, text if equals else words.pop(0))
            chosen[option] = chosen["--below"] + [value] if option == "--below" else value
    return names, chosen


def overlap(words):
    """Whether two are the same word, or one with `/` after it begins another."""
    pairs = [(one, other) for place, one in enumerate(words) for number, other in enumerate(words) if place != number]
    return any(one == other or other.startswith(f"{one}/") for one, other in pairs)


def is_place(word):
    """Whether it is a path of one to four names."""
    names = word.split("/")
    return len(names) <= 4 and all(name not in ("", ".", "..") for name in names)


def read_words(words):
    """The task; without words it is to repack standard input."""
    command, *rest = words or ["repack", "-"]
    if command in ("--help", "-h", "--version", "-V", "help") and (not rest or rest[0] in COMMANDS):
        raise Asked
    if command not in COMMANDS:
        raise Ends(2, None)
    options, (fewest, most) = COMMANDS[command]
    names, chosen = told_apart(rest, options)
    if "--dry-run" in chosen:
        # Nothing is kept: neither where nor how is to be said.
        fewest = most = 1
        if chosen.keys() & set(OF_KEPT):
            raise Ends(2, None)
    if not fewest <= len(names) <= most:
        raise Ends(2, None)
    length, below = chosen.get("--length", 512), chosen["--below"]
    if length == "same" and command != "archive":
        raise Ends(2, None)
    if length not in [*LENGTHS, "same"]:
        raise Ends(2, told("not a record length"), HINT_OF_LENGTHS)
    if command == "repack" and len(names) == 2 and names[0] == names[1]:
        raise Ends(2, told("the output is the input"))
    if command == "compare" and names == ["-", "-"]:
        raise Ends(2, told("only one input can be standard input"))
    if command in WALKS and (overlap(names) or overlap(below)):
        raise Ends(2, told("the folders overlap"))
    if "--undo" in chosen and "--touch" in chosen:
        raise Ends(2, told("--undo takes no --touch"))
    if not all(map(is_place, below)):
        raise Ends(2, told("not a folder of an archive"))
    kinds = model.WITHOUT_INT24 if "--no-int24" in chosen else model.KINDS
    flags = [option in chosen for option in OF_DAYS]
    tolerance, strict, json = chosen.get("--tolerance", 1000), "--strict" in chosen, "--json" in chosen
    quiet = "--quiet" in chosen
    aside = names.pop() if command == "replace" else None
    older_than = chosen.get("--older-than", 7 if command == "replace" else 0)
    of_originals = "--undo" in chosen, older_than, "--touch" in chosen, "--int24" in chosen
    dry_run = "--dry-run" in chosen
    of_days = chosen.get("--known"), dry_run
    return Task(command, names, length, kinds, tolerance, strict, json, quiet, below, *flags, aside, *of_originals, *of_days)


# Files and streams.


def is_one(name, other):
    """Whether both are one regular file."""
    return bool(name and other) and os.path.isfile(name) and os.path.isfile(other) and os.path.samefile(name, other)


def read_apart(name, given):
    """An input is not the file that is printed to."""
    if is_one(name, given.redirecting):
        raise Ends(2, told("the output is the input"))


def calls_for(text, device, is_by_lines=False):
    """What the fewest calls move, each; a text that is printed by lines takes a call for each at least."""
    pieces = text.splitlines(True) if is_by_lines else [text] * bool(text)
    most = device.most or len(text)
    return [piece[start : start + most] for piece in pieces for start in range(0, len(piece), most)]


def stream(given):
    """What comes of standard input, and whether it fails then: both ways if it is not said how many calls are made, or
    whether a record is refused before more is read."""
    content, reading = given.content, given.reading
    if reading.fails is None:
        return [(content, False)]
    calls = calls_for(content, reading)
    failing, whole = (b"".join(calls[: reading.fails]), True), (content, False)
    if reading.fails > len(calls):
        return [whole, failing]
    is_refused = model.read_all(content, 1000, True).fault is not None
    return [failing, whole] if is_refused and reading.fails > 0 else [failing]


def opened(name, given):
    """The bytes of a file, and whether reading fails: that of a folder does."""
    if os.path.realpath(name) in given.unsaid:
        raise Unsaid("any first part may be there")
    try:
        file = os.open(name, os.O_RDONLY)
    except OSError:
        raise Ends(1, told(f"cannot open {walks.in_one_line(name)}")) from None
    read_apart(name, given)
    content = walks.read_to_end(file)
    return content or b"", content is None


def inputs(name, given):
    """What may come of an input; only here `-` is no file."""
    if name != "-":
        return [opened(name, given)]
    read_apart(given.redirected, given)
    return stream(given)


def made(name, source, given):
    """Makes an output, or cuts it to nothing; it is neither the input nor the file that is printed to."""
    if is_one(name, source):
        raise Ends(2, told("the output is the input"))
    if is_one(name, given.redirecting):
        raise Ends(2, told("two outputs are one file"))
    try:
        os.close(os.open(name, os.O_WRONLY | os.O_CREAT | os.O_TRUNC, 0o666))
    except OSError:
        raise Ends(1, told(f"cannot open {walks.in_one_line(name)}")) from None


# The commands: each gives the outcomes that there may be.


def repack(task, given):
    source, *outputs = task.names
    read = inputs(source, given)
    for name in outputs:
        made(name, given.redirected if source == "-" else source, given)
    for content, fails in read:
        records, report, fault = model.repacked(content, task.length, task.tolerance, task.strict, task.kinds)
        left = {name: Loose(records) for name in outputs}
        if fails or fault:
            yield Outcome(1, b"", told("read fault" if fails else fault), files=left)
        else:
            yield Outcome(0, report.encode(), b"", files={name: records for name in outputs}, failed=left)


def decided(content, task):
    """How many bytes of records no later sample can change. The sample that is easiest to add is the last one once
    more; a frontier that holds even so is settled, and a record when two frontiers after its own are."""
    segments = model.read_all(content, task.tolerance, task.strict).segments
    form = task.length, task.kinds
    whole = sum(len(model.packing(segment.samples, *form)[0]) for segment in segments[:-1])
    last = [model.packing(one.samples + one.samples[-1:], *form)[1] for one in segments[-1:]]
    return task.length * (whole + sum(max(0, len(frontiers) - 2) for frontiers in last))


def out_after(content, task):
    """How many bytes are out when all of this has come: the records of all segments that have ended. None of the last one
    is decided while it has fewer samples than the smallest full record."""
    segments = model.read_all(content, task.tolerance, task.strict).segments
    if segments and len(segments[-1].samples) >= (task.length - 64) // 4:
        raise Unsaid("what is out of a segment that goes on")
    return task.length * len(model.packed(segments[:-1], task.length, task.kinds)[0])


def at_reads(given, task):
    """The file that tells what was out at each read of standard input, of which the last finds nothing."""
    if not given.reads:
        return {}
    calls = calls_for(given.content, given.reading)
    counts = [out_after(b"".join(calls[:number]), task) for number in range(len(calls) + 1)]
    return {given.reads: " ".join(map(str, ["reads", *counts])).encode() + b"\n"}


def feed(task, given):
    [report_name] = task.names
    read = inputs("-", given)
    made(report_name, given.redirected, given)
    empty = {report_name: b""}
    if given.writing.fails == 0:
        yield Outcome(1, b"", told("write fault"), files=empty)
        return
    for content, fails in read:
        records, report, fault = model.repacked(content, task.length, task.tolerance, task.strict, task.kinds)
        if fails:
            yield Outcome(1, records, told("read fault"), True, empty, empty, least=decided(content, task))
        elif fault:
            yield Outcome(1, records, told(fault), True, empty, empty)
        else:
            files = {report_name: report.encode(), **at_reads(given, task)}
            yield Outcome(0, records, b"", files=files, failed=empty)


def list_segments(task, given):
    [source] = task.names
    for content, fails in inputs(source, given):
        text, fault = model.listed(content, task.tolerance, task.strict, task.json)
        segments = "".join(text.splitlines(True)[:-1]).encode()
        if fails or fault:
            yield Outcome(1, segments, told("read fault" if fails else fault), True)
        else:
            yield Outcome(0, text.encode(), b"")


def check(task, given):
    """Both are opened first; then the report is judged, then the records."""
    (packed, packed_fails), (text, text_fails) = [opened(name, given) for name in task.names]
    if text_fails:
        yield Outcome(1, b"", told("read fault"))
        return
    try:
        report = parsed(text)
        if packed_fails:
            yield Outcome(1, b"", told("read fault"))
            return
        is_shown = verdict(packed, report)
    except (NotAReport, model.Refused) as why:
        yield Outcome(1, b"", told(why))
        return
    yield Outcome(0, b"least\n", b"") if is_shown else Outcome(3, b"not shown\n", b"")


def compare(task, given):
    """Both are opened first, and then read record by record in turns: if reading the other one fails, a fault of the
    first may be found before."""
    both = [inputs(name, given) for name in task.names]
    for (one, one_fails), (other, other_fails) in itertools.product(*both):
        for name, fails in zip(task.names, (one_fails, other_fails)):
            if fails:
                yield Outcome(1, b"", told(f"{walks.in_one_line(name)}: read fault"))
        answer = model.compared(one, other, task.tolerance)
        if answer.fault and not one_fails and not (other_fails and answer.whose == 1):
            yield Outcome(1, b"", told(f"{walks.in_one_line(task.names[answer.whose])}: {answer.fault}"))
        elif not one_fails and not other_fails:
            yield Outcome(answer.status, model.text(answer.lines).encode(), b"")


def hint_of(walk, given):
    """What a person is told of a walk that came to its end."""
    return b"hint: no folder of an archive below ROOT\n" if given.is_terminal and walk.has_no_day() else b""


def known_of(task, given):
    """The lines that tell of something refused in the file of `--known`, without their line feeds; None without that option."""
    if task.known is None:
        return None
    try:
        file = os.open(task.known, os.O_RDONLY)
    except OSError as why:
        hint = f"hint: {why.strerror} (os error {why.errno})\n".encode()
        raise Ends(1, told(f"cannot open {walks.in_one_line(task.known)}"), hint) from None
    if is_one(task.known, given.redirecting):
        raise Ends(2, told("the output is the input"))
    content = walks.read_to_end(file)
    if content is None:
        hint = b"hint: a folder: msrepack archive reads archives\n"
        raise Ends(1, told(f"{walks.in_one_line(task.known)}: read fault"), hint)
    return [line.decode() for line in content.split(b"\n") if line.startswith(b"refused ")]


def archive(task, given):
    if walks.overlap(task.names):
        raise Ends(2, told("the folders overlap"))
    walk = walks.Trial(task, given.odd) if task.dry_run else walks.Walk(task, given.odd, known_of(task, given))
    text = model.text(walk.lines()).encode()
    yield Outcome(int(walk.refused > 0), text, hint_of(walk, given), lines=True)


def verify(task, given):
    if walks.overlap(task.names):
        raise Ends(2, told("the folders overlap"))
    found = walks.Verification(task, given.odd, known_of(task, given))
    text = model.text(found.lines()).encode()
    yield Outcome(int(found.is_to_be_looked_at()), text, hint_of(found, given), lines=True)


def replace(task, given):
    if walks.overlap([*task.names, task.aside]):
        raise Ends(2, told("the folders overlap"))
    for folder in [task.names[0], task.aside][: 1 + task.undo]:
        try:
            os.listdir(folder)
        except (FileNotFoundError, NotADirectoryError) as why:
            hint = f"hint: {why.strerror} (os error {why.errno})\n".encode()
            raise Ends(1, told(f"cannot open {walks.in_one_line(folder)}"), hint) from None
    walk = replaced.Restoration(task) if task.undo else replaced.Replacement(task, given.odd)
    text = model.text(walk.lines()).encode()
    hint = b"" if task.undo else hint_of(walk, given)
    yield Outcome(int(walk.is_to_be_looked_at()), text, hint, lines=True)


DOES = {
    "repack": repack,
    "feed": feed,
    "list": list_segments,
    "check": check,
    "compare": compare,
    "archive": archive,
    "verify": verify,
    "replace": replace,
}


def printing(outcome, device):
    """The same if the device that is printed to behaves so; its first call tries whether it is open."""
    printed = outcome.printed
    if device.fails is None or printed == b"":
        return [outcome]
    if printed is None:
        return [Outcome(1, None, told("write fault"), True)] + [outcome] * (device.fails > 1)
    calls = calls_for(printed, device, outcome.lines)
    fault = Outcome(1, b"".join(calls[: max(0, device.fails - 1)]), told("write fault"), True, outcome.failed)
    is_surely_short = device.fails <= len(calls) and not outcome.loose
    return [fault] if is_surely_short else [outcome, fault]


def run(words, given):
    """The outcomes that a run may have; an output that is closed is found before anything is opened but a feed's report,
    which is made even so."""
    try:
        task = read_words(words)
        if given.is_terminal and task.command not in WALKS:
            raise Unsaid("what a person is told")
        if given.writing.fails == 0 and task.command != "feed":
            return [Outcome(1, b"", told("write fault"))]
        outcomes = list(DOES[task.command](task, given))
    except Ends as end:
        return [end.at_terminal if given.is_terminal else end.outcome]
    except Asked:
        outcomes = [Outcome(0, None, b"")]
    return [one for outcome in outcomes for one in printing(outcome, given.writing)]
