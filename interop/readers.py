#!/usr/bin/python3
"""Shows that other readers of miniSEED find in msrepack's output what they find in its input.

    interop/readers.py [--install] [--program FILE] [--only TEXT]

The readers are those that Debian has: libmseed, through libmseed_reads.c, and mseed2sac. Each input is repacked to each
length, with --no-int24 and without; then it is shown what the readers make of files that msrepack refuses. --install
fetches what is missing with apt-get. The tables are markdown; README.md sums them up. The status is 1 if a reader found a
difference, or if with --no-int24 a record was written that it does not read.
"""
import argparse
import array
import collections
import datetime
import fractions
import os
import re
import struct
import subprocess
import sys
import tempfile

HERE = os.path.dirname(os.path.realpath(__file__))
ROOT = os.path.dirname(HERE)
sys.dont_write_bytecode = True
sys.path.insert(0, os.path.join(ROOT, "python"))
import compare
import inputs
from msrepack import Report

PACKAGES = ["gcc", "libc6-dev", "libmseed-dev", "libmseed-doc", "mseed2sac"]
LENGTHS = [256, 512, 1024, 2048, 4096, 8192, 16384, 32768, 65536]
KINDS = {11: "Steim-2", 10: "Steim-1", 1: "16-bit", 2: "24-bit", 3: "32-bit"}
# The encoding that the other readers do not know.
UNREAD = 2
TYPES = {"i": "integers", "f": "floats", "d": "doubles", "a": "characters"}
SIZES = {"i": 4, "f": 4, "d": 8, "a": 1, "-": 0}
CODES = {"i": "i", "f": "f", "d": "d", "a": "B"}

Record = collections.namedtuple(
    "Record", "name start factor multiplier rate said count type encoding length samples")
Trace = collections.namedtuple("Trace", "name start rate count type samples")
# What libmseed finds in a file: its records, its traces.
Found = collections.namedtuple("Found", "records traces")
# What was found for an input; `kinds` and `written` tell of each length the records, the last four list the lengths that
# were not compared, and those at which a reader found something else.
FIELDS = "input segments samples traces files apart kinds written unread records_wrong traces_wrong files_wrong"
Row = collections.namedtuple("Row", FIELDS)
# How msrepack is called for each choice of kinds, by the title of its tables.
CHOICES = {"Of all five kinds": [], "Without 24-bit integers": ["--no-int24"]}


def packages_there():
    words = ["dpkg-query", "-W", "-f", "${Package} ${Version} ${Status}\n", *PACKAGES]
    said = subprocess.run(words, capture_output=True, text=True)
    return {line.split()[0]: line.split()[1] for line in said.stdout.splitlines() if line.endswith(" installed")}


def ensure_packages(install):
    missing = [it for it in PACKAGES if it not in packages_there()]
    if missing and install:
        for words in (["update"], ["install", "-y", "--no-install-recommends", *missing]):
            subprocess.run(["apt-get", *words], stdout=sys.stderr, check=False)
        missing = [it for it in missing if it not in packages_there()]
    if missing:
        sys.exit(f"not there: {' '.join(missing)}; --install fetches it with apt-get, as root")


class Bench:
    def __init__(self, program, folder):
        self.program, self.folder = program, folder
        self.libmseed, self.samples = f"{folder}/libmseed_reads", f"{folder}/samples"
        words = ["cc", "-O2", "-Wall", "-o", self.libmseed, f"{HERE}/libmseed_reads.c", "-lmseed"]
        subprocess.run(words, check=True)

    def run(self, *words, folder=None):
        """What a command ends with: status, standard output, standard error."""
        plain = {"PATH": os.environ["PATH"], "LC_ALL": "C"}
        it = subprocess.run(words, stdin=subprocess.DEVNULL, capture_output=True, cwd=folder, env=plain, timeout=600)
        return it.returncode, it.stdout.decode(errors="replace"), it.stderr.decode(errors="replace")

    def said(self, *words):
        """What a command says; a fault ends this program."""
        status, output, complaint = self.run(*words)
        if status:
            sys.exit(f"{' '.join(words)}: status {status}, {complaint}")
        return output

    def records(self, name, skips):
        """The records that libmseed reads, and what it ends with."""
        status, output, complaint = self.run(self.libmseed, "records", str(int(skips)), name, self.samples)
        return [Record(*it) for it in self.lines(output, "siiifiisii")], status, complaint

    def traces(self, name):
        """The traces with samples; a record without samples is a trace of its own for libmseed."""
        output = self.said(self.libmseed, "traces", name, self.samples)
        return [it for it in (Trace(*it) for it in self.lines(output, "sifis")) if it.count]

    def lines(self, output, form):
        """Lines of words of these forms, each with its samples after it; SAMPLES has them in the order of the lines."""
        readers = {"s": str, "i": int, "f": float}
        with open(self.samples, "rb") as it:
            for line in output.splitlines():
                words = [readers[kind](word) for kind, word in zip(form, line.split())]
                count, kind = words[form.rindex("is")], words[form.rindex("is") + 1]
                yield *words, it.read(count * SIZES[kind])

    def found(self, name):
        records, status, complaint = self.records(name, False)
        if status or complaint:
            sys.exit(f"libmseed on {name}: status {status}, {complaint}")
        return Found([it for it in records if it.count], self.traces(name))

    def sac(self, name):
        """The files that mseed2sac writes, by name, and what it complains of."""
        with tempfile.TemporaryDirectory(dir=self.folder) as folder:
            status, _, complaint = self.run("mseed2sac", name, folder=folder)
            files = {}
            for each in sorted(os.listdir(folder)):
                with open(f"{folder}/{each}", "rb") as it:
                    files[each] = it.read()
        return files, status, complaint


def channels(records):
    """For each name its samples, joined, and of each record the place of its first sample, its start and period."""
    samples, starts, place = {}, {}, collections.Counter()
    for it in records:
        samples.setdefault(it.name, []).append(it.samples)
        period = fractions.Fraction(*inputs.period((it.factor, it.multiplier)))
        starts.setdefault(it.name, []).append((place[it.name], it.start, period))
        place[it.name] += it.count
    return {name: b"".join(parts) for name, parts in samples.items()}, starts


def time_at(starts, at, place):
    """Where a sample's record stands, which is the last one that starts at or before it, and the sample's time."""
    while at + 1 < len(starts) and starts[at + 1][0] <= place:
        at += 1
    first, start, period = starts[at]
    return at, start + (place - first) * period


def farthest(before, after):
    """How far apart a sample's time is in two lists of records at most; between their starts it does not change."""
    apart = at = there = 0
    for place in sorted({it[0] for it in before} | {it[0] for it in after}):
        at, one = time_at(before, at, place)
        there, other = time_at(after, there, place)
        apart = max(apart, abs(one - other))
    return apart


def apart(before, after):
    """How far apart a sample's time is at most, by libmseed's records; None if their samples are not the same."""
    (samples, starts), (samples_after, starts_after) = channels(before.records), channels(after.records)
    if samples != samples_after:
        return None
    return max(farthest(starts[name], starts_after[name]) for name in starts)


def kinds_of(encodings):
    counts = collections.Counter(encodings)
    return ", ".join(f"{counts[code]:,} {kind}" for code, kind in KINDS.items() if counts[code])


def as_made(found, made):
    """Whether libmseed reads from the input the samples that were made."""
    samples, _ = channels(found.records)
    return all(samples.get(name) == array.array("i", it).tobytes() for name, it in made.items())


def repacked(bench, name, length, options):
    """The file repacked to this length: its records' encodings, what libmseed and mseed2sac find in it, and its segments.

    They find nothing if a record has 24-bit integers, which they do not read.
    """
    out, report = f"{bench.folder}/out", f"{bench.folder}/report"
    text = bench.said(bench.program, "repack", *options, "--length", str(length), name, out)
    with open(report, "w", encoding="ascii") as it:
        it.write(text)
    if bench.said(bench.program, "check", out, report) != "least\n":
        sys.exit(f"check does not say least of {name} at {length}")
    segments = len(Report.parse(text).segments)
    with open(out, "rb") as it:
        encodings = it.read()[52::length]
    if UNREAD in encodings:
        return encodings, None, None, segments
    found = bench.found(out)
    if {it.length for it in found.records} != {length}:
        sys.exit(f"libmseed finds records of another length than {length}")
    return encodings, found, bench.sac(out), segments


def rows_of(bench, each):
    """A row for each choice of kinds."""
    name = f"{bench.folder}/in"
    made = each.make(name, bench.libmseed)
    before, sac = bench.found(name), bench.sac(name)
    if not as_made(before, made):
        sys.exit(f"{each.title}: libmseed reads other samples from the input than were made")
    return [row_of(bench, each, before, sac, options) for options in CHOICES.values()]


def row_of(bench, each, before, sac, options):
    name, samples = f"{bench.folder}/in", sum(it.count for it in before.records)
    row = Row(each, 0, samples, len(before.traces), len(sac[0]), 0, [], [], [], [], [], [])
    for length in LENGTHS:
        encodings, after, sac_after, segments = repacked(bench, name, length, options)
        row = row._replace(segments=segments)
        row.kinds.append(kinds_of(encodings))
        row.written.append(len(encodings))
        if after is None:
            row.unread.append(length)
            continue
        there = apart(before, after)
        row = row._replace(apart=max(row.apart, there or 0))
        row.records_wrong.extend([length] * (there is None or there > each.apart))
        row.traces_wrong.extend([length] * (before.traces != after.traces))
        row.files_wrong.extend([length] * (not sac[0] or sac_after[:2] != sac[:2]))
    return row


def yes(wrong, unread):
    if wrong:
        return f"no, at {' '.join(map(str, wrong))}"
    return f"yes, but unread at {' '.join(map(str, unread))}" if unread else "yes"


def is_wrong(row):
    return bool(row.records_wrong or not row.input.again and (row.traces_wrong or row.files_wrong))


def print_rows(title, rows):
    print(f"\n## {title}\n")
    print("| input | segments | samples | libmseed: same | µs apart | traces | same | mseed2sac: files | same |")
    print("|---|---|---|---|---|---|---|---|---|")
    for it in rows:
        cells = [it.input.title, it.segments, f"{it.samples:,}", yes(it.records_wrong, it.unread), f"{float(it.apart):.3g}"]
        cells += [it.traces, yes(it.traces_wrong, it.unread), it.files, yes(it.files_wrong, it.unread)]
        print(f"| {' | '.join(map(str, cells))} |")
    print_sums(rows)
    print("\n### The kinds of records written\n")
    print_by_length((it.input.title, it.kinds) for it in rows)


def print_sums(rows):
    outputs, unread = len(rows) * len(LENGTHS), sum(len(it.unread) for it in rows)
    compared = [count for it in rows for length, count in zip(LENGTHS, it.written) if length not in it.unread]
    samples = sum(it.samples * (len(LENGTHS) - len(it.unread)) for it in rows)
    print(f"\n{len(rows)} inputs, {outputs} outputs, {unread} of them not compared; the others have {sum(compared):,} records", end="")
    print(f" and {samples:,} samples; {sum(map(is_wrong, rows))} inputs wrong")


def print_by_length(cells):
    print(f"| input | {' | '.join(map(str, LENGTHS))} |\n|---{'|---' * len(LENGTHS)}|")
    for title, each in cells:
        print(f"| {title} | {' | '.join(each)} |")


def more(few, many):
    return f"{many:,}" if few == many else f"{few:,} to {many:,}, {100 * (many - few) / few:.1f} %"


def print_cost(pairs):
    """How many records each choice of kinds takes, if the numbers differ at a length."""
    print("\n## Records of all five kinds, and without 24-bit integers\n")
    dearer = [(few, many) for few, many in pairs if few.written != many.written]
    print_by_length((few.input.title, map(more, few.written, many.written)) for few, many in dearer)
    print(f"\n{len(pairs) - len(dearer)} of {len(pairs)} inputs take as many at each length.")


def bare(complaint):
    """What a line of complaint says, without the words that name the record."""
    return re.sub(r"^(Error: |Warning: |libmseed: |msr_unpack(_data)?\(XX_TEST_\w+\): |XX_TEST_\w+: )+", "", complaint)


def telling(complaint):
    """What the lines of a complaint say but those that tell of success; a file's name is left out."""
    lines = [bare(it) for it in complaint.splitlines() if not re.match(r"Wrote \d+ samples", it)]
    return [re.sub(r": /\S+$", "", it) for it in lines]


def quoted(lines, place):
    return f": `{lines[place]}`" if lines else ", silently"


def told_too(lines):
    return f"; `{lines[0]}`" if lines else ""


def what_libmseed_does(found, status, complaint, three, case):
    """What became of the second of three records; `three` are those that were made, before the edit."""
    _, middle, follows = case
    lines, samples = telling(complaint), [it.samples for it in found]
    others = [it for it in found if it.samples not in (three[0].samples, three[2].samples)]
    if three[0].samples not in samples or follows and others and three[2].samples not in samples:
        sys.exit("a reader does what these tables have no words for")
    if others:
        return read_as(others[0], three[1], middle.samples) + told_too(lines)
    if status:
        return "stops" + quoted(lines, -1)
    return lost(three[2].samples in samples, follows) + quoted(lines, 0)


def lost(third, follows):
    """The second was not read; what became of the third."""
    return "ends before it" if not follows else "skips it" if third else "loses it and the third"


def read_as(it, made, samples):
    """How a record was read that was edited, where these samples had been put in."""
    told = f"reads it as made ({TYPES[it.type]})"
    if it.samples != array.array(CODES[it.type], samples).tobytes():
        told = f"reads {it.count} {TYPES[it.type]} that were not made"
    days = (it.start - made.start) / 86_400e6
    if days:
        told += f", {abs(days):,.0f} days {'early' if days < 0 else 'late'}"
    return told + (f", rate {it.rate:g}" if it.rate != made.rate else "")


def sac_samples(text):
    """The samples of a binary SAC file of this host: as many numbers of 32 bits as its header says."""
    return text[632 : 632 + 4 * struct.unpack_from("<i", text, 316)[0]]


def floats(samples):
    return array.array("f", samples).tobytes()


def what_mseed2sac_does(files, status, complaint, three, case):
    _, middle, follows = case
    first, _, third = (floats(array.array("i", it.samples)) for it in three)
    lines, samples = telling(complaint), [sac_samples(it) for it in files.values()]
    if status:
        return "stops" + quoted(lines, -1)
    others = [it.removeprefix(first).removesuffix(third) for it in samples if it not in (first, third)]
    if not others:
        return lost(third in samples, follows) + quoted(lines, 0)
    if len(others) > 1 or first not in b"".join(samples) or follows and third not in b"".join(samples):
        sys.exit("a reader does what these tables have no words for")
    told = "reads it as made" if others[0] == floats(middle.samples) else f"reads {len(others[0]) // 4} samples that were not made"
    return told + f", in {len(samples)} files" * (len(samples) > 1) + told_too(lines)


def three_records(bench):
    """The three as they are before the second is edited, as libmseed reads them."""
    name = f"{bench.folder}/three"
    inputs.three().write(name)
    found, status, complaint = bench.records(name, False)
    if status or complaint or len(found) != 3:
        sys.exit(f"libmseed does not read the three records: {complaint}")
    return found


def refused_row(bench, case, three):
    title, middle, follows = case
    name = f"{bench.folder}/refused"
    made = inputs.three().records
    with open(name, "wb") as out:
        out.writelines([made[0], middle.text, *made[2:] * follows])
    status, _, complaint = bench.run(bench.program, "repack", name, f"{bench.folder}/out")
    if status != 1:
        sys.exit(f"msrepack does not refuse: {title}")
    refusal = complaint.strip().replace("msrepack: ", "").replace("offset 512: ", "")
    strict = what_libmseed_does(*bench.records(name, False), three, case)
    skipping = what_libmseed_does(*bench.records(name, True), three, case)
    sac = what_mseed2sac_does(*bench.sac(name), three, case)
    return f"| {title} | `{refusal}` | {strict} | {'the same' if skipping == strict else skipping} | {sac} |"


def print_refused(bench):
    three = three_records(bench)
    print("| the second of three records | msrepack | libmseed | libmseed, skipping | mseed2sac |")
    print("|---|---|---|---|---|")
    for case in inputs.REFUSED:
        print(refused_row(bench, case, three))


def kept(found):
    return f"{len(found.records)} | {sum(it.count for it in found.records):,}"


def written_row(bench, length):
    """Samples of 0, packed as Steim-2 by libmseed itself, and by msrepack."""
    name = f"{bench.folder}/in"
    inputs.by_libmseed(inputs.zeros, 11, 1, length)(name, bench.libmseed)
    theirs = bench.found(name)
    inputs.by_libmseed(inputs.zeros, 11, 1, 4096)(name, bench.libmseed)
    _, ours, _, _ = repacked(bench, name, length, [])
    return f"| {inputs.COUNT:,} | {length} | {kept(theirs)} | {kept(ours)} |"


def print_longest(bench):
    print("| samples of 0 | length | libmseed: records | samples in them | msrepack: records | samples in them |")
    print("|---|---|---|---|---|---|")
    for length in LENGTHS[-2:]:
        print(written_row(bench, length))


def versions(bench):
    there = packages_there()
    said = subprocess.run(["git", "-C", ROOT, "describe", "--always"], capture_output=True, text=True)
    with open("/etc/debian_version", encoding="ascii") as it:
        debian = it.read().strip()
    readers = [
        f"{bench.said(bench.program, '--version').strip()} at {said.stdout.strip()}",
        f"libmseed {bench.said(bench.libmseed, 'version').strip()} (package {there['libmseed-dev']})",
        f"{bench.run('mseed2sac', '-V')[2].strip()} (package {there['mseed2sac']})",
    ]
    return f"{datetime.date.today()}, Debian {debian}: {', '.join(readers)}.\n"


def main():
    words = argparse.ArgumentParser(description=__doc__.splitlines()[0])
    words.add_argument("--install", action="store_true", help="fetch what is missing with apt-get")
    words.add_argument("--program")
    words.add_argument("--only", default="", help="only inputs with this text in their titles, and nothing that is refused")
    asked = words.parse_args()
    program = compare.program_of(asked.program)
    ensure_packages(asked.install)
    with tempfile.TemporaryDirectory(prefix="msrepack-interop-") as folder:
        bench = Bench(program, folder)
        print(versions(bench))
        pairs = [rows_of(bench, it) for it in inputs.INPUTS if asked.only in it.title]
        for title, rows in zip(CHOICES, zip(*pairs)):
            print_rows(title, rows)
        print_cost(pairs)
        if not asked.only:
            print("\n## What libmseed writes in the longest records\n")
            print_longest(bench)
            print("\n## What msrepack refuses\n")
            print_refused(bench)
    sys.exit(any(is_wrong(it) for pair in pairs for it in pair) or any(without.unread for _, without in pairs))


if __name__ == "__main__":
    main()
