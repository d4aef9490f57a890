"""`replace` and its undo, said again from docs/MANUAL.md, over the files that there are: each day has one thing that is to
be told of it, or none.
"""
import contextlib
import os
import shutil

from reports import parsed
from walks import NotDone, Verification, in_one_line, is_young, read_regular, skipped, stamp_of

# Where the encoding of a written record stands, and the one of 24-bit integers.
ENCODING, INT24 = 52, 2
NOTED = ".touch-time"


def lies_straight(top, path):
    """Whether no name on the way from there is a link."""
    names = path.split("/")
    return not any(os.path.islink("/".join([top, *names[:count]])) for count in range(1, len(names) + 1))


def size_and_time(path):
    told = os.stat(path)
    return told.st_size, told.st_mtime_ns


def put(source, path, dress=None):
    """A file gets a name, in the place of what has it; dressed as another one, if that is named."""
    os.makedirs(os.path.dirname(path), exist_ok=True)
    part = f"{path}.part"
    shutil.copyfile(source, part)
    shutil.copystat(dress or source, part)
    os.replace(part, path)


def stamp(reports, path, file, is_placed):
    """The stamp by which `archive --resume` leaves the day alone."""
    with contextlib.suppress(OSError), open(f"{reports}/{path}.from", "w", encoding="utf-8") as it:
        it.write(stamp_of(file, is_placed))


class Replacement(Verification):
    """What becomes of each day of an archive whose records are to take its place."""

    SUMS = "replaced same young larger changed skipped refused missing notshown differs orphan unfinished".split()

    def __init__(self, task, odd):
        super().__init__(task, odd)
        self.aside, self.bytes = task.aside, [0, 0]

    def lines(self):
        *lines, sums = super().lines()
        yield from lines
        yield f"total {sums} bytes {self.bytes[0]} {self.bytes[1]}"

    def is_to_be_looked_at(self):
        well = ("replaced", "same", "young", "larger", "skipped")
        return self.has_no_day() or any(count for word, count in self.sums.items() if word not in well)

    def found_of(self, file, records, report):
        path = file.removeprefix(f"{self.root}/")
        if self.is_young(file, f"{self.aside}/{path}{NOTED}"):
            return "young"
        self.look(path)
        word = super().found_of(file, records, report)
        if word == "verified":
            word = self.replaced(path, file, records)
        is_placed = os.path.isfile(f"{self.aside}/{path}") and not os.path.lexists(records)
        if word.split()[0] in ("replaced", "same") and is_placed:
            stamp(self.reports, path, file, True)
        return word

    def told(self, word, path, why=None, reason=None):
        word, *sizes = word.split()
        line = super().told(word, path, why, reason)
        if word == "replaced":
            self.bytes = [sum(pair) for pair in zip(self.bytes, map(int, sizes))]
        return f"{line} bytes {' '.join(sizes)}" if sizes else line

    def is_young(self, file, noted):
        """Whether it was changed in the last days, but not by a replace that gave it the time of then."""
        changed = os.stat(file)
        is_noted = os.path.isfile(noted) and os.stat(noted).st_mtime_ns == changed.st_mtime_ns
        return is_young(changed, self.task.older_than) and not is_noted

    def look(self, path):
        for top, side in ((self.root, ""), (self.out, "records: "), (self.aside, "aside: ")):
            if not lies_straight(top, path):
                raise NotDone(f"{side}a link")

    def found_alone(self, file, report):
        """A day that is in place is the same; one whose files cannot be read is missing."""
        try:
            return "same" if super().found_alone(file, report) == "inplace" else "missing"
        except NotDone:
            return "missing"

    def replaced(self, path, file, records):
        """Gives the records of a verified day the place of its file."""
        old, new, original = read_regular(file), read_regular(records), f"{self.aside}/{path}"
        length = parsed(read_regular(f"{self.reports}/{path}.txt")).length
        if not self.task.int24 and INT24 in new[ENCODING::length]:
            raise NotDone("records: 24-bit integers")
        if self.task.only_smaller and len(new) >= len(old):
            return f"larger {len(old)} {len(new)}"
        if old == new:
            if os.path.isfile(original):
                os.remove(records)
            return "same"
        if os.path.lexists(original) and (read_regular(original) != old or size_and_time(original) != size_and_time(file)):
            raise NotDone("aside: another file of this name")
        put(file, original)
        put(records, file, dress=original)
        if self.task.touch:
            os.utime(file)
            with open(original + NOTED, "wb"):
                pass
            shutil.copystat(file, original + NOTED)
        os.remove(records)
        return f"replaced {len(old)} {len(new)}"


class Restoration:
    """What becomes of each original that was set aside."""

    SUMS = "restored changed refused unfinished".split()

    def __init__(self, task):
        self.task, self.sums = task, dict.fromkeys(self.SUMS, 0)
        self.root, self.out, self.reports = task.names
        self.aside = task.aside

    def lines(self):
        for top in self.task.below or [""]:
            for folder, names, files in os.walk(os.path.join(self.aside, top)):
                names.sort()
                for name in sorted(files):
                    path = os.path.relpath(os.path.join(folder, name), self.aside)
                    if not skipped(path):
                        yield self.line(path)
        yield "total " + " ".join(f"{word} {count}" for word, count in self.sums.items())

    def is_to_be_looked_at(self):
        return any(count for word, count in self.sums.items() if word != "restored")

    def line(self, path):
        try:
            word, why = self.restored(path), ""
        except NotDone as reason:
            word, why = "refused", f": {reason}"
        self.sums[word] += 1
        return f"{word} {in_one_line(path)}{why}"

    def restored(self, path):
        file, records, original = (f"{top}/{path}" for top in (self.root, self.out, self.aside))
        if not lies_straight(self.root, path):
            raise NotDone("a link")
        if os.path.lexists(file) and read_regular(file) != read_regular(original):
            if not self.is_untouched(file, original):
                return "changed"
            if os.path.lexists(records) and read_regular(records) != read_regular(file):
                raise NotDone("records: other ones are in OUT")
            put(file, records)
        put(original, file)
        stamp(self.reports, path, file, False)
        for one in (original + NOTED, original):
            if os.path.lexists(one):
                os.remove(one)
        self.leave(os.path.dirname(original))
        return "restored"

    @staticmethod
    def is_untouched(file, original):
        noted = original + NOTED
        return os.stat(file).st_mtime_ns == os.stat(noted if os.path.isfile(noted) else original).st_mtime_ns

    def leave(self, folder):
        """Removes folders in which nothing is left."""
        while folder != self.aside and not os.listdir(folder):
            os.rmdir(folder)
            folder = os.path.dirname(folder)
