#!/usr/bin/env python3
"""Lets each call of the system that msrepack makes fail in turn, and holds each run against the undisturbed one.

    bench/faults.py [--only TEXT] [--program FILE]

strace lets a call of reading, writing, opening, closing, syncing or memory fail, once or from there on; a pipe gives
single bytes; limits make a disk full at some byte, and memory short. Each run has to end as the undisturbed one does,
or with status 1, the fault's line, and a prefix of the report and of the records. The last line is
`N faults, M wrong`, and the status 0 if none is wrong. --only takes the runs with this text in their titles;
archive_faults.py tries `archive`.

The commands are `repack` to a file and to a report only, `list`, `check` (of both verdicts), `compare` (of files that are
the same and that differ, with standard input on either side), `feed`, `repack`, `feed` and `compare` of a file that is cut,
and help, over both examples and a file of 3 MB. What fails, and how:

- reading, writing, opening, looking at a file, cutting it to nothing, syncing, closing, memory: each call after the
  program's start, with the errors that fit it (EIO, ENOSPC, EMFILE, EINVAL, ENOMEM), once and for all from there on;
- interruptions: EINTR once, 63 and 64 in a row at each reading and writing; once at each other call but those of memory;
- short writes: each takes 1 byte, half or all but one; none at all is a fault;
- short reads: standard input from a pipe that gives a byte at a time;
- a full disk: files that cannot grow past a byte, by a limit: at 0, 1, half and all but one of what is written; standard
  output to /dev/full;
- memory: a limit of 3 MB and more, in steps of 128 KB, until it is enough;
- standard output: closed; redirected to OUT or to the REPORT of `feed`, which is told with status 2.

A run is right if it ends as the undisturbed one in every byte, and the fault allows that (a file that could not be
closed, 63 interruptions, memory that was found elsewhere); or if its status is 1, standard error has the line of that
fault alone, what was printed is a prefix of the undisturbed text, and OUT has a prefix of the records, or, if the fault
came before it was cut to nothing, what stood there before. After a fault, and if nothing can be printed, the REPORT of
`feed` is empty. The line of `compare` names the file that could not be read, or of two the one that failed first.
"""
import argparse
import collections
import fcntl
import os
import resource
import shutil
import signal
import struct
import subprocess
import sys
import tempfile
import termios
import threading

import archive_faults
import day
import station
from calls import IN_A_ROW, calls_in, faults_of, injected, words_of_trace

OLD = b"what stood in OUT before"
SAME = "no fault"

# Words, what is standard input, and whether standard output is a pipe, not a file.
Case = collections.namedtuple("Case", "title words input pipes")
Outcome = collections.namedtuple("Outcome", "status printed complained records")

HELP = Case("help", ["repack", "--help"], None, False)


class Bench:
    def __init__(self, program, folder):
        self.program, self.folder, self.out = program, folder, f"{folder}/out"
        self.faults = self.wrong = 0

    def run(self, case, before=(), limit=None, source=None):
        """Runs a case, OUT being an old file; `before` are the words before the program's."""
        with open(self.out, "wb") as it:
            it.write(OLD)
        printed = f"{self.folder}/printed"
        with open(source or case.input or os.devnull, "rb") as given, open(printed, "wb") as to:
            output = subprocess.PIPE if case.pipes else to
            words = [*before, self.program, *case.words]
            settings = {"stdin": given, "stdout": output, "stderr": subprocess.PIPE, "preexec_fn": limit}
            try:
                ended = subprocess.run(words, **settings, timeout=60, check=False)
            except subprocess.TimeoutExpired:
                return Outcome("none after a minute", b"", b"", OLD)
        with open(self.out, "rb") as records, open(printed, "rb") as text:
            return Outcome(ended.returncode, ended.stdout if case.pipes else text.read(), ended.stderr, records.read())

    def traced(self, case, words=()):
        trace = f"{self.folder}/trace"
        outcome = self.run(case, words_of_trace(trace, words))
        with open(trace, encoding="utf-8", errors="replace") as it:
            return outcome, it.read()

    def hold(self, title, wrong):
        self.faults += 1
        if wrong:
            self.wrong += 1
            print(f"{title}: {wrong}", flush=True)


def read_fault(case, call):
    """The line that tells that an input cannot be read: with its name if there are two."""
    name = "-" if call.fd == 0 else call.target
    return f"{name}: read fault" if case.words[0] == "compare" else "read fault"


def allowed(case, call, fault):
    """The lines that may tell the fault, SAME for a run that ends as the undisturbed one."""
    names = [word for word in case.words if word == call.target]
    opened = {f"cannot open {name}" for name in names}
    answers = {
        "reading": {read_fault(case, call)},
        "writing": {"write fault"},
        "opening": opened or {SAME},
        "looking": {SAME} if call.target.startswith("/dev/") else opened | {"write fault"},
        # A report is cut once more after a fault.
        "cutting": opened if call.number == 1 else {SAME},
        "syncing": {"write fault"},
        "closing": {SAME},
        "memory": {SAME, "out of memory"},
        "freeing": {SAME},
    }[call.kind]
    if fault.short or fault.what == "error=EINVAL":
        return {SAME}
    if fault.what == "error=EINTR" and fault.row < IN_A_ROW:
        # A write of nothing asks whether the output is open, and is asked once.
        once = call.kind == "writing" and call.result == "0"
        return {SAME} if call.kind in ("reading", "writing") and not once else answers | {SAME}
    return answers


def allowed_of(case, call, hit, fault):
    """The same of all calls that were hit, in order: while the run may go on, the next one counts, too."""
    lines = allowed(case, call, fault)
    for following in hit[1:] if fault.row == 0 else ():
        if SAME in lines:
            lines = lines - {SAME} | allowed(case, following, fault)
    return lines


def without(text, calls, at, short):
    """The bytes that a file has if a write to it took `short` bytes and kept none of them."""
    before = [call for call in calls[:at] if call.kind == "writing" and call.target == calls[at].target]
    begin = sum(int(call.result) for call in before)
    return text[:begin] + text[begin + short :]


def undisturbed(calm, calls, at, fault):
    """The outcome of the undisturbed run; at a short write, without what was taken and not kept."""
    if not fault.short:
        return calm
    if calls[at].fd == 1:
        return calm._replace(printed=without(calm.printed, calls, at, fault.short))
    if calls[at].fd == 2:
        return calm._replace(complained=without(calm.complained, calls, at, fault.short))
    return calm._replace(records=without(calm.records, calls, at, fault.short))


def told(outcome, lines, silent):
    """Whether the status is 1 and one of these lines stands on standard error; or none does, if it failed too."""
    if outcome.status != 1:
        return False
    said = [f"msrepack: {line}\n".encode() for line in lines - {SAME}]
    return outcome.complained in said or silent and outcome.complained == b""


def prefixes(outcome, calm, records):
    """What is wrong with what was printed and written before a fault; `records` may stand in OUT, too."""
    if not calm.printed.startswith(outcome.printed):
        return f"printed {outcome.printed[-60:]!r}, which is no prefix"
    if outcome.records not in records and (not calm.records.startswith(outcome.records) or records == {OLD}):
        return f"OUT has {len(outcome.records)} bytes that are neither what they were nor a prefix"
    return None


def old_report(case, outcome):
    """What is wrong with the report of a feed after status 1."""
    if case.words[0] != "feed" or outcome.status != 1 or not outcome.records:
        return None
    return f"REPORT has {len(outcome.records)} bytes, and is to be empty"


def judged(case, calm, calls, at, fault, outcome, hit):
    """What is wrong with a run in which these calls were hit, or None."""
    if not hit:
        return "the call did not come again"
    call, lines = calls[at], allowed_of(case, calls[at], hit, fault)
    if call.fd == 2 and SAME not in lines:
        right = outcome._replace(complained=calm.complained) == calm and calm.complained.startswith(outcome.complained)
        return None if right else f"without its line on standard error status {outcome.status}"
    if SAME in lines and outcome == undisturbed(calm, calls, at, fault):
        return None
    if not told(outcome, lines, call.kind == "writing" and fault.row == 0):
        return f"status {outcome.status}, {outcome.complained[-200:]!r}, where it is to be: {' or '.join(sorted(lines))}"
    cut = next((n for n, it in enumerate(calls) if it.kind == "cutting"), len(calls))
    # The report of a feed is cut, too, if the write of nothing before it fails.
    is_cut = at > cut or case.words[0] == "feed" and call.kind == "writing"
    if is_cut:
        return old_report(case, outcome) or prefixes(outcome, calm, set())
    return prefixes(outcome, calm, {OLD} if fault.row else {OLD, b""})


def each_call(bench, case):
    """Lets each call of the program fail in each way."""
    calm, trace = bench.traced(case)
    if calm != bench.run(case):
        sys.exit(f"{case.title}: two undisturbed runs differ")
    calls, begin = calls_in(trace)
    for at in range(begin, len(calls)):
        for fault in faults_of(calls[at]):
            call = calls[at]
            outcome, trace = bench.traced(case, ("-e", injected(call, fault)))
            hit = [it for it in calls_in(trace)[0] if it.hit]
            wrong = judged(case, calm, calls, at, fault, outcome, hit)
            bench.hold(f"{case.title}, {injected(call, fault)} at {call.target or call.name}", wrong)


def ended(outcome, calm, line):
    """What is wrong with a run that may end with the line of a fault, or as the undisturbed one."""
    if outcome == calm:
        return None
    if not told(outcome, {line}, False):
        return f"status {outcome.status}, {outcome.complained[-200:]!r}"
    return prefixes(outcome, calm, {OLD, b""})


def full_disk(bench, case):
    """Files that cannot grow past a byte: the write before it is short, the next one fails."""
    calm = bench.run(case)
    texts = [text for text in (calm.records, b"" if case.pipes else calm.printed) if text != OLD]
    sizes = {size for text in texts for size in (0, 1, len(text) // 2, len(text) - 1) if 0 <= size < len(text)}
    for size in sorted(sizes):

        def limit(size=size):
            signal.signal(signal.SIGXFSZ, signal.SIG_IGN)
            resource.setrlimit(resource.RLIMIT_FSIZE, (size, size))

        outcome = bench.run(case, limit=limit)
        wrong = "as if nothing had been lost" if outcome == calm else ended(outcome, calm, "write fault")
        bench.hold(f"{case.title}, disk full at {size}", wrong)


def lost_output(bench, case):
    """Standard output that is closed, or takes nothing."""
    calm = bench.run(case)
    for to in (">&-", "> /dev/full"):
        outcome = bench.run(case, ("sh", "-c", f'exec "$0" "$@" {to}'))
        bench.hold(f"{case.title}, {to}", ended(outcome, calm, "write fault") or old_report(case, outcome))


def one_output(bench, case):
    """Standard output that is redirected to the file of the other output: nothing is written to it."""
    for to, left in ((">", b""), (">>", OLD)):
        outcome = bench.run(case, ("sh", "-c", f'exec "$0" "$@" {to} {bench.out}'))
        right = Outcome(2, b"", b"msrepack: two outputs are one file\n", left)
        bench.hold(f"{case.title}, {to} OUT", None if outcome == right else f"status {outcome.status}")


def short_memory(bench, case):
    """Memory of more and more bytes, until it is enough."""
    calm = bench.run(case)
    for size in range(3 << 20, 1 << 30, 1 << 17):

        def limit(size=size):
            resource.setrlimit(resource.RLIMIT_AS, (size, size))

        outcome = bench.run(case, limit=limit)
        if b"shared libraries" in outcome.complained:
            continue
        bench.hold(f"{case.title}, {size} bytes of memory", ended(outcome, calm, "out of memory"))
        if outcome == calm:
            break


def give_single_bytes(name, data):
    """Writes to a pipe, each byte once the one before has been read."""
    with open(name, "wb", buffering=0) as pipe:
        for at in range(len(data)):
            pipe.write(data[at : at + 1])
            while struct.unpack("i", fcntl.ioctl(pipe, termios.FIONREAD, b"\0" * 4))[0]:
                os.sched_yield()


def single_bytes(bench, case):
    """Standard input that gives a byte at a time."""
    calm = bench.run(case)
    with open(case.input, "rb") as it:
        data = it.read()
    name = f"{bench.folder}/pipe"
    os.mkfifo(name)
    giver = threading.Thread(target=give_single_bytes, args=(name, data), daemon=True)
    giver.start()
    outcome = bench.run(case, source=name)
    giver.join(5)
    os.unlink(name)
    bench.hold(f"{case.title}, a byte at a time", None if outcome == calm else f"status {outcome.status}")


def with_another_sample(packed):
    """Records whose first sample is another one: byte 71 is its lowest one in Steim, and in wider integers part of it."""
    return packed[:71] + bytes([packed[71] ^ 1]) + packed[72:]


def cases_of(bench, title, name):
    """The commands over a file, with its records and reports beside it."""
    beside = f"{bench.folder}/{os.path.basename(name)}"
    packed, report, edited, cut, other = (f"{beside}.{it}" for it in ("packed", "report", "edited", "cut", "other"))
    day.run([bench.program, "repack", "--length", "256", name, packed], report)
    with open(report, "rb") as it, open(edited, "wb") as to:
        to.write(it.read().replace(b"start 2020,001", b"start 2020,002", 1))
    with open(name, "rb") as it, open(cut, "wb") as to:
        to.write(it.read()[:-1])
    with open(packed, "rb") as it, open(other, "wb") as to:
        to.write(with_another_sample(it.read()))
    repack, feed = ["repack", "--length", "256"], ["feed", "--length", "256"]
    return [
        Case(f"{title}: repack IN OUT > FILE", [*repack, name, bench.out], None, False),
        Case(f"{title}: repack IN OUT | ..", [*repack, name, bench.out], None, True),
        Case(f"{title}: repack - OUT < IN", [*repack, "-", bench.out], name, False),
        Case(f"{title}: repack IN > FILE", [*repack, name], None, False),
        Case(f"{title}: repack of a file that is cut", [*repack, cut, bench.out], None, False),
        Case(f"{title}: feed REPORT < IN > FILE", [*feed, bench.out], name, False),
        Case(f"{title}: feed REPORT < IN | ..", [*feed, bench.out], name, True),
        Case(f"{title}: feed of an input that is cut", [*feed, bench.out], cut, True),
        Case(f"{title}: list IN > FILE", ["list", name], None, False),
        Case(f"{title}: list - < IN | ..", ["list", "-"], name, True),
        Case(f"{title}: check, least", ["check", packed, report], None, False),
        Case(f"{title}: check, not shown", ["check", packed, edited], None, True),
        Case(f"{title}: compare ONE OTHER > FILE, same", ["compare", name, packed], None, False),
        Case(f"{title}: compare - OTHER < ONE | .., same", ["compare", "-", packed], name, True),
        Case(f"{title}: compare ONE - < OTHER | .., differ", ["compare", name, "-"], other, True),
        Case(f"{title}: compare with a file that is cut", ["compare", packed, cut], None, False),
    ]


def hold_case(bench, case):
    each_call(bench, case)
    full_disk(bench, case)
    lost_output(bench, case)
    if bench.out in case.words:
        one_output(bench, case)
    short_memory(bench, case)
    if case.input and os.path.getsize(case.input) < 10_000:
        single_bytes(bench, case)


def inputs(folder):
    examples = f"{day.ROOT}/examples"
    for name in sorted(os.listdir(examples)):
        if name.endswith(".mseed"):
            yield name, f"{examples}/{name}"
    station.write_plain(f"{folder}/day", 4096, station.INT32, station.noise_and_events(800_000))
    yield "some MB", f"{folder}/day"


def main():
    words = argparse.ArgumentParser(description=__doc__.splitlines()[0])
    words.add_argument("--only", default="", help="only cases with this text in their titles")
    words.add_argument("--program")
    asked = words.parse_args()
    program = day.program_of(asked.program)
    if not shutil.which("strace"):
        sys.exit("strace is not here: apt-get install strace")
    signal.signal(signal.SIGTERM, lambda *_: sys.exit(1))
    with tempfile.TemporaryDirectory(prefix="msrepack-faults-") as folder:
        bench = Bench(program, folder)
        for case in [*(it for title, name in inputs(folder) for it in cases_of(bench, title, name)), HELP]:
            if asked.only in case.title:
                hold_case(bench, case)
        archive_faults.hold_trees(bench, asked.only)
    print(f"{bench.faults} faults, {bench.wrong} wrong")
    sys.exit(bench.wrong > 0)


if __name__ == "__main__":
    main()
