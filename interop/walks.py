"""The walks over an archive, said again from docs/MANUAL.md (`archive`, "Shares of an archive", `verify`) and
docs/PROFILE.md ("Paths of an archive"), over the files that there are.
"""
import contextlib
import errno
import fcntl
import os
import re
import stat
import time
from collections import namedtuple

import model
from reports import MOST, NotAReport, parsed, verdict

DAY_PATH = re.compile(
    r"(\d{4})/([A-Za-z0-9]{1,8})/([A-Za-z0-9]{1,8})/([A-Za-z0-9]{1,8})\.([A-Z])"
    r"/\2\.\3\.([A-Za-z0-9]{0,8})\.\4\.\5\.\1\.(\d{3})",
    re.ASCII,
)
# What is odd in the folders that a run sees, by the words of its setting, which the page of msr_transcripts explains.
ODD = "folder names earlier later made other gone taken when linked stays"
Odd = namedtuple("Odd", ODD, defaults=(None,) * len(ODD.split()))
# The names that a folder has by the word of the setting `names`, where it has any.
NAMES = {
    "marked": [b"\t", b"a\nrefused b", b"\x7f\x1f", "\u00e9 ~".encode()],
    "latin": [b"a", b"\xff"],
    "day": [b"XX.TEST.00.BHZ.D.2020.001"],
}
# Where the records, the report and the line of size and time of a day stand, and the claim of who has the day.
Places = namedtuple("Places", "records report stamp claim")
# Who has a day: the open file that is locked.
Claim = namedtuple("Claim", "path file number")
MISSING = (errno.ENOENT, errno.ENOTDIR)
TAKEN = "another walk is at work"
SECONDS_OF_DAY = 86400


class NotDone(Exception):
    """Why a day is not done, as its line tells it; then whose fault it is, and the system's reason, as far as they are told."""


class NotKept(NotDone):
    """A day whose records are not kept, with the word of its line."""


class Larger(NotDone):
    """A day that did not get smaller, with its counts."""


class Shrunk(NotDone):
    """A day with fewer samples than an earlier walk left of it: how many that were, and how many it has."""


class Misplaced(NotDone):
    """A day whose segments do not belong to it: the name of one, and the year and the day of its first sample."""


def is_like(pattern, path):
    """Whether the path is that one, or begins and ends as the pattern does around its `*`."""
    if pattern is None or "*" not in pattern:
        return path == pattern
    head, tail = pattern.split("*")
    return path.startswith(head) and path[len(head) :].endswith(tail)


def read_to_end(file):
    """The bytes of an opened file; None if reading fails, as that of a folder does."""
    pieces = []
    try:
        while not pieces or pieces[-1]:
            pieces.append(os.read(file, 1 << 24))
    except OSError:
        return None
    finally:
        os.close(file)
    return b"".join(pieces)


def make_folder(path):
    """Makes a folder and those that lead to it, if it is not there; a file in the way of one is no folder."""
    try:
        os.makedirs(path, exist_ok=True)
    except FileExistsError:
        raise NotADirectoryError(errno.ENOTDIR, os.strerror(errno.ENOTDIR)) from None


def read_regular(path):
    """The bytes of a file; nothing else is opened."""
    if not stat.S_ISREG(os.stat(path).st_mode):
        raise OSError("not a regular file")
    with open(path, "rb") as file:
        return file.read()


def found(path):
    """What the system tells of a path; None if nothing stands there."""
    try:
        return os.stat(path)
    except OSError as why:
        if why.errno in MISSING:
            return None
        raise


def is_young(told, days):
    """Whether a file, of which this is told, was changed in the last days, or in the future; with 0 days none was."""
    return days > 0 and told.st_mtime > time.time() - days * SECONDS_OF_DAY


def in_one_line(path):
    """A path as a line tells it: a control character by its number."""
    return re.sub(r"[\x00-\x1f\x7f]", lambda found: f"%{ord(found[0]):02x}", path)


def id_of(path):
    told = os.stat(path)
    return told.st_dev, told.st_ino


def ids_above(path):
    """The folder in which the path stands, or will stand once its folders are made, and all that one comes to by `..`."""
    while not os.path.isdir(path):
        path = os.path.dirname(path) or ("/" if path.startswith("/") else ".")
    ids = []
    while id_of(path) not in ids:
        ids.append(id_of(path))
        path += "/.."
    return ids


def overlap(folders):
    """Whether one of the folders that there are is another, or one that will be made in it is below it."""
    for one in folders:
        if os.path.exists(one) and any(id_of(one) in ids_above(other) for other in folders if other != one):
            return True
    return False


def json_text(text):
    """A text in a string of JSON: a quote or a backslash after a backslash, a control character by its number."""
    return re.sub(r"[\x00-\x1f\x7f]", lambda found: f"\\u{ord(found[0]):04x}", re.sub(r'(["\\])', r"\\\1", text))


def reason_of(why):
    """Why a file cannot be opened, or a folder listed."""
    return f"{why.strerror} (os error {why.errno})" if why.errno else str(why)


def json_line(word, path, why, reason, side=None):
    """The object of an entry. A refusal tells whose fault it is, and where it is, as far as its text says so."""
    members = [f'"what":"{word}"', f'"path":"{json_text(path)}"']
    if word in ("refused", "known"):
        told = re.match(r"(file|records|report): ", why)
        side = side or (told and told[1])
        members += [f'"side":"{side}"'] if side else []
        line, place = re.search(r"report: line (\d+)$", why), re.search(r"offset (\d+): (\d+) (\w+)( \d+)?$", why)
        members += [f'"line":{line[1]}'] if line else []
        members += [f'"offset":{place[1]}', f'"number":{place[2]}', f'"name":"{place[3]}"'] if place else []
        members += [f'"value":{place[4].strip()}'] if place and place[4] else []
    members += [f'"{name}":"{json_text(told)}"' for name, told in (("text", why), ("reason", reason)) if told]
    return "{" + ",".join(members) + "}"


def skipped(path):
    """Why a path is that of no day of waveform data."""
    fields = DAY_PATH.fullmatch(path)
    if not fields:
        return "not an SDS path"
    if fields[5] != "D":
        return "not waveform data"
    return "bad day" if model.instant(int(fields[1]), int(fields[7]), 0, 0, 0, 0) is None else None


def channel_of(path):
    fields = DAY_PATH.fullmatch(path)
    return ".".join((fields[2], fields[3], fields[6], fields[4]))


class Walk:
    """One walk: its lines come one by one, each when its file is done."""

    def __init__(self, task, odd, known=None):
        self.task, self.odd, self.lines_known = task, odd, known
        self.root, *kept = task.names
        self.out, self.reports = kept or (None, None)
        self.done, self.skips, self.refused, self.known, self.larger, self.young, self.channels = 0, 0, 0, 0, 0, 0, {}

    def lines(self):
        for top in self.task.below or [""]:
            yield from filter(None, self.folder(top))
        for name, (files, *sums) in self.channels.items():
            if self.task.json:
                yield f'{{"what":"channel","id":"{name}","files":{files}{self.told(*sums)}}}'
            else:
                yield f"channel {name} files {files}{self.told(*sums)}"
        sizes = [sum(sums[place] for sums in self.channels.values()) for place in (3, 4)]
        counts = [("files", self.done), ("skipped", self.skips), ("refused", self.refused)]
        counts += [] if self.lines_known is None else [("known", self.known)]
        counts += [("larger", self.larger)] if self.task.only_smaller else []
        counts += [("young", self.young)] if self.task.older_than else []
        if self.task.json:
            yield '{"what":"files",' + ",".join(f'"{word}":{count}' for word, count in counts) + f"{self.told_bytes(*sizes)}}}"
        else:
            yield " ".join(f"{word} {count}" for word, count in counts) + self.told_bytes(*sizes)

    def told(self, read, written, *sizes):
        counts = f',"read":{read},"written":{written}' if self.task.json else f" read {read} written {written}"
        return counts + self.told_bytes(*sizes)

    def told_bytes(self, read, written):
        if not self.task.bytes:
            return ""
        return f',"bytes_read":{read},"bytes_written":{written}' if self.task.json else f" bytes {read} {written}"

    def line(self, word, path, why=None, side=None, reason=None):
        """The line of an entry, or None if it is left out."""
        if self.task.quiet and word in ("skipped", "young", "known"):
            return None
        if self.task.json:
            return json_line(word, path, why, reason, side)
        return f"{word} {in_one_line(path)}" + (f": {why}" if why else "")

    def counted(self, word, path, *counts):
        """The line of a day with these counts, or None if it is left out."""
        if self.task.quiet and word != "larger":
            return None
        if self.task.json:
            return f'{{"what":"{word}","path":"{path}"{self.told(*counts)}}}'
        return f"{word} {path}{self.told(*counts)}"

    def misplaced(self, path, name, year, day):
        return misplaced_line(path, name, year, day, self.task.json)

    def shrunk(self, path, was, samples):
        if self.task.json:
            return f'{{"what":"shrunk","path":"{path}","samples_was":{was},"samples":{samples}}}'
        return f"shrunk {path} samples {was} {samples}"

    @staticmethod
    def names_in(top, odd):
        """The names in a folder, in the order of their bytes; an odd one cannot be listed, or has odd names."""
        if odd.folder != f"{top}/":
            names = os.listdir(os.fsencode(top))
        elif odd.names in NAMES:
            names = NAMES[odd.names]
            os.stat(top)
        elif odd.names == "closed":
            raise PermissionError(errno.EACCES, os.strerror(errno.EACCES))
        else:
            raise OSError("other error")
        return [name.decode() for name in sorted(names)]

    def folder(self, path):
        """The lines of a folder; the one of a day has four above it below ROOT."""
        try:
            names = self.names_in(f"{self.root}/{path}" if path else self.root, self.odd)
        except UnicodeDecodeError:
            yield self.refuse(path or ".", "listing", None, "invalid filename")
            return
        except OSError as why:
            yield self.refuse(path or ".", "listing", None, reason_of(why))
            return
        for name in names:
            below = f"{path}/{name}" if path else name
            if below.count("/") == 4:
                yield self.entry(below)
                continue
            place = f"{self.root}/{below}"
            try:
                told = found(place)
            except OSError as why:
                yield self.refuse(below, "listing", None, reason_of(why))
                continue
            if told and stat.S_ISDIR(told.st_mode):
                yield from self.folder(below)
            elif told or os.path.lexists(place):
                yield self.entry(below)
            else:
                yield self.refuse(below, "cannot open", "file")

    def has_no_day(self):
        return not (self.task.below or self.done or self.refused or self.known or self.larger or self.young)

    def refuse(self, path, text, side=None, reason=None):
        if f"refused {in_one_line(path)}: {text}" in (self.lines_known or ()):
            self.known += 1
            return self.line("known", path, text, side, reason)
        self.refused += 1
        return self.line("refused", path, text, side, reason)

    def entry(self, path):
        why = skipped(path)
        if why:
            self.skips += 1
            return self.line("skipped", path, why)
        if self.is_young(f"{self.root}/{path}"):
            self.young += 1
            return self.line("young", path)
        try:
            word, *counts = self.day(path)
        except Larger as why:
            self.larger += 1
            return self.counted("larger", path, *why.args)
        except Shrunk as why:
            self.refused += 1
            return self.shrunk(path, *why.args)
        except Misplaced as why:
            self.refused += 1
            return self.misplaced(path, *why.args)
        except NotKept as why:
            self.refused += 1
            return self.line(str(why), path)
        except NotDone as why:
            return self.refuse(path, *why.args)
        self.done += 1
        name = channel_of(path)
        sums = self.channels.get(name, (0, 0, 0, 0, 0))
        self.channels[name] = tuple(sum(pair) for pair in zip(sums, (1, *counts)))
        return self.counted(word, path, *counts)

    def is_young(self, source):
        """Whether the day's file, which is a regular one, was changed too late."""
        with contextlib.suppress(OSError):
            told = os.stat(source)
            return stat.S_ISREG(told.st_mode) and is_young(told, self.task.older_than)
        return False

    def day(self, path):
        """What was done with a day, and its counts."""
        source, records, report = (f"{top}/{path}" for top in (self.root, self.out, self.reports))
        places = Places(records, f"{report}.txt", f"{report}.from", f"{records}.claim")
        if self.is_in_archive(source, places) or self.is_own(source, places):
            raise NotDone("cannot open")
        claim = self.claimed(places)
        try:
            return self.do(source, places, claim)
        finally:
            is_clean = self.remove(*self.parts(places, claim.number))
            if is_clean and self.has(claim):
                self.remove(claim.path)
            os.close(claim.file)

    def do(self, source, places, claim):
        """What is done with a day that this walk has; what is not done leaves neither records nor report, unless those of
        an earlier walk are to stay, and it is not only no smaller."""
        if self.task.resume:
            counts = self.counts_before(source, places)
            if counts:
                return ("same", *counts)
        try:
            return ("done", *self.repack(source, places, claim))
        except NotDone as why:
            if not self.has(claim):
                raise NotDone(TAKEN) from None
            if not self.task.keep_old or isinstance(why, Larger):
                self.remove(*places[:3])
            raise

    def remove(self, *paths):
        """Removes these files, as far as that can be done; whether none of them is there any more."""
        for path in paths:
            if not is_like(self.odd.stays, path):
                with contextlib.suppress(OSError):
                    os.remove(path)
        return not any(map(os.path.lexists, paths))

    def is_in_archive(self, source, places):
        """Whether what is made of a day would stand in the archive, or in the folder of the day, which the archive may
        have by a link; or the system does not tell."""
        try:
            tops = {id_of(self.root), id_of(os.path.dirname(source))}
            return any(tops & set(ids_above(os.path.dirname(path))) for path in places)
        except OSError:
            return True

    def is_own(self, source, places):
        """Whether records, report or stamp would be the day's own file; nothing is touched then."""
        try:
            day = found(source)
            return any(day and (file := found(path)) and os.path.samestat(file, day) for path in places[:3])
        except OSError:
            return True

    # Claims.

    def parts(self, places, number):
        """The names under which a walk writes whose claim has that number."""
        return [f"{path}.{number}.part" for path in places[:3]]

    def has(self, claim):
        """Whether what stands under the name of the claim is its file."""
        with contextlib.suppress(OSError):
            return os.path.samestat(os.lstat(claim.path), os.fstat(claim.file))
        return False

    def make(self, path):
        """Makes a file, where nothing has its name, not even a link; other programs do then what is odd."""
        file = os.open(path, os.O_WRONLY | os.O_CREAT | os.O_EXCL, 0o666)
        odd = self.odd
        if is_like(odd.when, path):
            os.remove(odd.taken)
            with open(odd.taken, "xb") as taken:
                taken.write(b"another's")
        if odd.linked and path.endswith(".claim"):
            os.link(odd.linked, f"{path.removesuffix('.claim')}.{os.fstat(file).st_ino}.part")
        return file

    def claimed(self, places):
        """The claim of the day, which another walk may have; what is left by one that ended is removed."""
        path = places.claim
        try:
            make_folder(os.path.dirname(path))
            if os.path.lexists(path):
                self.clear(places)
            file = self.make(path)
        except OSError as why:
            raise NotDone("cannot open", "records", reason_of(why)) from None
        fcntl.flock(file, fcntl.LOCK_EX | fcntl.LOCK_NB)
        return Claim(path, file, os.fstat(file).st_ino)

    def clear(self, places):
        """Removes the claim of a walk that ended, and what has its number; what is no regular file is no claim."""
        if not stat.S_ISREG(os.lstat(places.claim).st_mode):
            raise OSError
        file = os.open(places.claim, os.O_WRONLY)
        try:
            fcntl.flock(file, fcntl.LOCK_EX | fcntl.LOCK_NB)
        except BlockingIOError:
            raise NotDone(TAKEN) from None
        finally:
            number = os.fstat(file).st_ino
            os.close(file)
        if not self.remove(*self.parts(places, number)):
            raise OSError
        os.remove(places.claim)

    # What is done.

    def counts_before(self, source, places):
        """How many records and bytes an earlier walk read and wrote, if all is as that one left it; or as `replace` did, which
        put the records in the place of the day's file."""
        is_placed = not os.path.exists(places.records)
        try:
            report = parsed(read_regular(places.report))
            is_as_it_was = read_regular(places.stamp) == stamp_of(source, is_placed).encode()
            length, size = self.length_for(read_regular(source)), os.path.getsize(source)
        except (OSError, NotAReport):
            return None
        written = sum(line.records for line in report.lines)
        is_asked = (report.length, report.kinds, report.tolerance) == (length, self.task.kinds, self.task.tolerance)
        is_small = is_placed or not self.task.only_smaller or written * length < size
        kept = source if is_placed else places.records
        is_whole = os.path.isfile(kept) and os.path.getsize(kept) == written * report.length
        is_strict = not self.task.strict or report.counts[2] == 0
        is_strict = is_strict and not (self.task.misplaced and stray(source, read_regular(source), report.tolerance))
        is_kept = is_asked and is_small and is_whole and is_strict and is_as_it_was
        return (report.counts[0], written, size, written * length) if is_kept else None

    def length_for(self, content):
        """The length in which a day is written: if each is to have that of its first record, this one, if it is one."""
        if self.task.length != "same":
            return self.task.length
        with contextlib.suppress(model.Refused):
            length = model.read_record(memoryview(content), False)[0]
            return length if 256 <= length <= 65536 else 512
        return 512

    @staticmethod
    def opened(source):
        """A day's file, if it is a regular one."""
        try:
            if not stat.S_ISREG(os.stat(source).st_mode):
                raise OSError
            return os.open(source, os.O_RDONLY)
        except OSError as why:
            raise NotDone("cannot open", "file", reason_of(why)) from None

    def packed(self, content):
        """The records and the report of what was read of a day, or its fault."""
        length = self.length_for(content or b"")
        asked = self.task.tolerance, self.task.strict, self.task.kinds
        records, report, fault = model.repacked(content or b"", length, *asked)
        return records, report, "read fault" if content is None else fault

    def repack(self, source, places, claim):
        """Repacks a day: all is written beside its names, and then the report gets its name first."""
        file = self.opened(source)
        stamp, parts = stamp_of(source), self.parts(places, claim.number)
        content = read_to_end(file)
        records, report, fault = self.packed(content)
        for path, text, side in zip(parts, (records, report.encode() if report else b""), ("records", "report")):
            self.write(path, text, side)
        if fault:
            raise NotDone(fault, "file" if fault.startswith("offset") else None)
        read = parsed(report.encode())
        counts = read.counts[0], sum(line.records for line in read.lines), len(content), len(records)
        found = self.task.misplaced and stray(source, content, self.task.tolerance)
        if found:
            raise Misplaced(*found)
        if self.task.keep_old and all(map(os.path.isfile, places[:2])):
            self.look_back(places.report, samples_in(read))
        if self.task.only_smaller and len(content) <= len(records):
            raise Larger(*counts)
        if self.task.check:
            self.hold(source, stamp, parts)
        if not self.has(claim):
            raise NotDone(TAKEN)
        self.name(places, parts)
        if self.task.resume:
            self.write(parts[2], stamp.encode(), "report")
            with contextlib.suppress(OSError):
                self.rename(parts[2], places.stamp)
        return counts

    def look_back(self, path, samples):
        """A day may not have fewer samples than the report of an earlier walk tells, if it is one."""
        with contextlib.suppress(NotAReport):
            was = samples_in(parsed(self.read_again(path, "report")))
            if samples < was:
                raise Shrunk(was, samples)

    def write(self, path, content, side):
        """Makes a file with its folder, in the place of one that stands there; nothing is written to that one."""
        try:
            make_folder(os.path.dirname(path))
            self.remove(path)
            file = self.make(path)
        except OSError as why:
            raise NotDone("cannot open", side, reason_of(why)) from None
        with open(file, "wb") as opened:
            opened.write(content)

    def hold(self, source, stamp, parts):
        """The report that was written has to show the records that were, and these have to have the segments of the
        day's file, which may have been changed since it had this stamp; all are read again first, and another file may
        be read in the place of one of them."""
        packed, report = (self.read_again(*of) for of in zip(parts, ("records", "report")))
        try:
            content = read_regular(source)
        except OSError as why:
            raise NotDone("cannot open", "file", reason_of(why)) from None
        try:
            is_shown = verdict(packed, parsed(report))
        except (NotAReport, model.Refused):
            is_shown = False
        if not is_shown:
            raise NotKept("notshown")
        if model.compared(content, packed, self.task.tolerance).status != 0:
            raise NotKept("differs" if stamp_of(source) == stamp else "changed")

    def read_again(self, path, side):
        try:
            file = os.open(self.odd.other if is_like(self.odd.made, path) else path, os.O_RDONLY)
        except OSError as why:
            raise NotDone("cannot open", side, reason_of(why)) from None
        content = read_to_end(file)
        if content is None:
            raise NotDone("read fault")
        return content

    def name(self, places, parts):
        """The old stamp and the old records go; the report gets its name, and then the records."""
        try:
            for path, side in ((places.stamp, "report"), (places.records, "records")):
                if os.path.lexists(path):
                    os.remove(path)
            for side, part, path in (("report", parts[1], places.report), ("records", parts[0], places.records)):
                self.rename(part, path)
        except OSError as why:
            raise NotDone("cannot open", side, reason_of(why)) from None

    def rename(self, part, path):
        odd = self.odd
        if path == odd.later:
            os.stat(odd.earlier)
            if odd.gone and os.path.exists(odd.gone):
                raise OSError("other error")
        os.rename(part, path)


class Trial(Walk):
    """A walk that only tells what repacking each day would give."""

    def day(self, path):
        content = read_to_end(self.opened(f"{self.root}/{path}"))
        records, report, fault = self.packed(content)
        if fault:
            raise NotDone(fault, "file" if fault.startswith("offset") else None)
        read = parsed(report.encode())
        return "would", read.counts[0], sum(line.records for line in read.lines), len(content), len(records)


class Verification:
    """What is found of each day of an archive, and then of the days of its records."""

    SUMS = "files skipped refused missing notshown differs orphan".split()
    # The words of the days that the first number counts.
    GOOD = ("verified", "inplace")

    def __init__(self, task, odd, known=None):
        self.task, self.odd, self.lines_known = task, odd, known
        self.root, self.out, self.reports = task.names
        sums = self.SUMS if known is None else [*self.SUMS[:3], "known", *self.SUMS[3:]]
        self.sums = dict.fromkeys(sums, 0)

    def lines(self):
        yield from filter(None, self.entries_told())
        if self.task.json:
            yield '{"what":"files",' + ",".join(f'"{word}":{count}' for word, count in self.sums.items()) + "}"
        else:
            yield " ".join(f"{word} {count}" for word, count in self.sums.items())

    def entries_told(self):
        tops = self.task.below or [""]
        for top in tops:
            for path, *why in self.entries(self.root, top, "listing", "file: cannot open"):
                yield self.refused(path, *why) if why else self.entry(path)
        for top in tops:
            for path, *why in self.entries(self.out, top, "records: listing", None):
                if why:
                    yield self.refused(path, *why)
                elif not skipped(path) and self.is_not_there(f"{self.root}/{path}"):
                    yield self.told("orphan", path)

    def is_to_be_looked_at(self):
        """What is not verified, in place, skipped or known; the whole archive has to have a day."""
        return self.has_no_day() or any(count for word, count in self.sums.items() if word not in ("files", "skipped", "known"))

    def has_no_day(self):
        return not self.task.below and all(word == "skipped" or not count for word, count in self.sums.items())

    def told(self, word, path, why=None, reason=None):
        """The line of an entry, as known if it is, or None if it is left out."""
        begin = f"refused {in_one_line(path)}: "
        told_so = [line for line in self.lines_known or () if line.startswith(begin)]
        if word == "missing" and told_so:
            self.sums["known"] += 1
            why = told_so[0].removeprefix(begin)
            object_told = f'{{"what":"known","path":"{json_text(path)}","text":"{json_text(why)}"}}'
            return None if self.task.quiet else object_told if self.task.json else f"known {in_one_line(path)}: {why}"
        word = "known" if word == "refused" and f"{begin}{why}" in told_so else word
        self.sums["files" if word in self.GOOD else word] += 1
        if self.task.quiet and word in (*self.GOOD, "skipped", "known"):
            return None
        if self.task.json:
            return json_line(word, path, why, reason)
        return f"{word} {in_one_line(path)}" + (f": {why}" if why else "")

    def refused(self, path, why, reason=None):
        return self.told("refused", path, why, reason)

    def entries(self, top, path, unlisted, gone):
        """The paths of what is no folder of the walk; or of one that has no list, or of what is gone, why it is told, and of
        the first the reason."""
        place = f"{top}/{path}" if path else top
        if unlisted != "listing" and self.is_not_there(place):
            return
        try:
            names = Walk.names_in(place, self.odd)
        except UnicodeDecodeError:
            yield path or ".", unlisted, "invalid filename"
            return
        except OSError as why:
            yield path or ".", unlisted, reason_of(why)
            return
        for name in names:
            below = f"{path}/{name}" if path else name
            place = f"{top}/{below}"
            try:
                told = found(place) if below.count("/") < 4 else True
            except OSError as why:
                yield below, unlisted, reason_of(why)
                continue
            if told is not True and told and stat.S_ISDIR(told.st_mode):
                yield from self.entries(top, below, unlisted, gone)
            elif told or os.path.lexists(place):
                yield (below,)
            elif gone:
                yield below, gone

    @staticmethod
    def is_not_there(path):
        """Whether nothing stands there, not even a link that leads nowhere."""
        try:
            os.lstat(path)
        except OSError as why:
            return why.errno in MISSING
        return False

    def entry(self, path):
        why = skipped(path)
        if why:
            return self.told("skipped", path, why)
        try:
            word = self.found_of(*(f"{top}/{path}" for top in (self.root, self.out, self.reports)))
            if self.task.misplaced and word in self.GOOD:
                found = self.stray(path)
                if found:
                    self.sums["refused"] += 1
                    return misplaced_line(path, *found, self.task.json)
            return self.told(word, path)
        except NotDone as why:
            return self.refused(path, *why.args)

    def found_of(self, file, records, report):
        """What is told of a day. All of its files are opened first; then the report is judged, and then the records, read
        side by side with its own file: what cannot be read to its end comes first."""
        report = f"{report}.txt"
        if self.is_not_there(report):
            return "missing"
        if self.is_not_there(records):
            return self.found_alone(file, report)
        text, packed = self.opened("report", report), self.opened("records", records)
        if os.path.exists(file) and os.path.samefile(file, records):
            raise NotDone("records: the file itself")
        content = self.opened("file", file)
        try:
            read = parsed(self.whole("report", text))
        except NotAReport as why:
            raise NotDone(f"report: {str(why).removeprefix('report ')}") from None
        packed, content = self.whole("records", packed), self.whole("file", content)
        try:
            if not verdict(packed, read):
                return "notshown"
        except model.Refused as why:
            raise NotDone(f"records: {why}") from None
        answer = model.compared(content, packed, read.tolerance)
        if answer.fault:
            raise NotDone(f"file: {answer.fault}")
        return "differs" if answer.status else "verified"

    def found_alone(self, file, report):
        """What is told of a day without records: its own file may be the records, as the report shows then."""
        try:
            text, content = self.opened("report", report), self.opened("file", file)
        except NotDone:
            return "missing"
        try:
            read = parsed(self.whole("report", text))
            return "inplace" if verdict(self.whole("file", content), read) else "missing"
        except (NotAReport, model.Refused):
            return "missing"

    def stray(self, path):
        """What of ROOT's file does not belong to its path, read with the tolerance that the report tells."""
        tolerance = parsed(read_regular(f"{self.reports}/{path}.txt")).tolerance
        source = f"{self.root}/{path}"
        return stray(source, read_regular(source), tolerance)

    def opened(self, which, path):
        """The bytes of a regular file; None if reading fails."""
        try:
            if not stat.S_ISREG(os.stat(path).st_mode):
                raise OSError("not a regular file")
            file = os.open(path, os.O_RDONLY)
        except OSError as why:
            raise NotDone(f"{which}: cannot open", reason_of(why)) from None
        return read_to_end(file)

    @staticmethod
    def whole(which, content):
        if content is None:
            raise NotDone(f"{which}: read fault")
        return content


def stray(path, content, tolerance):
    """The name of the segment by which a file does not belong to its path, and the year and the day of its first sample:
    the first segment of another name; or the first of all, if none has a sample on the day."""
    network, station, location, channel, _, year, day = os.path.basename(path).split(".")
    segments = model.read_all(content, tolerance).segments
    others = [segment for segment in segments if model.codes(segment.key) != (network, station, location, channel)]
    first_of_day = model.instant(int(year), int(day), 0, 0, 0, 0)
    if not others and not any(has_sample_between(segment, first_of_day, first_of_day + model.DAY) for segment in segments):
        others = segments
    if not others:
        return None
    found = others[0]
    year, day, *_ = model.parts(found.start)
    return ".".join(model.code_text(code) for code in model.codes(found.key)), year, day


def has_sample_between(segment, first, end):
    """Whether the rounded instant of a sample is not before the first instant, and before the other: one by one."""
    places = range(len(segment.samples))
    return any(first <= model.rounded(model.nominal(segment.key, segment.start, place)) < end for place in places)


def misplaced_line(path, name, year, day, in_json):
    if in_json:
        return f'{{"what":"misplaced","path":"{path}","id":"{name}","year":{year},"day":{day}}}'
    return f"misplaced {path} {name} {year:04},{day:03}"


def samples_in(report):
    """How many samples the segments of a report have, as far as 64 bits count them."""
    return min(MOST, sum(line.samples for line in report.lines))


def stamp_of(path, is_placed=False):
    """The line of a day's size and the time of its last change, and whether its records have its place; the form is ours
    here, the documents have none."""
    told = os.stat(path)
    return f"{told.st_size} {told.st_mtime_ns}{' records' * is_placed}\n"
