"""What `msrepack archive` leaves when a call of the system fails, or when it is killed: the part of faults.py for a
small archive.

Each run has the folders anew. In those of the records and the reports stand what an earlier run left of one day, what a
run that was killed left beside it (its claim, and what has the number of the claim), and a file of which the archive
knows nothing; with --resume or --keep-old also what an earlier walk left whole of another day. Whatever fails, each line
printed is that of the undisturbed run, or tells that this very entry is refused, by a text for such a fault; if a day is
left alone it may be repacked, and if it is checked it may be told as not shown; the totals and the status are those of
the lines; a day that is told as done or left alone has its records and its report whole, a refused one has neither,
unless it could not be claimed: then nothing of it was touched; with --keep-old a day that the undisturbed run refuses
has what it had, and any refused one if no call failed that gives or takes a name; records that have their name have
their report; the stamp of an input stands beside nothing that was not made from that input; what stands beside a day's
files stands there with its claim; and no other file is touched. One more walk, undisturbed, then leaves what the
undisturbed one does.
"""
import collections
import os
import re
import resource
import shutil
import signal
import subprocess

import day
from calls import IN_A_ROW, calls_in, faults_of, injected, words_of_trace

BELOW = "2020/XX/TEST"
FIRST = f"{BELOW}/BHN.D/XX.TEST.00.BHN.D.2020.001"
SECOND = f"{BELOW}/BHZ.D/XX.TEST.00.BHZ.D.2020.001"
OTHER = f"{BELOW}/LOG.L/XX.TEST.00.LOG.L.2020.001"
# What stands in the folders of the output before a walk: files of its own, and of one day.
OTHERS = {"out/2019/kept": b"of a day that is no more", "reports/notes": b"of somebody else"}
OLD = (b"old records", b"old report", b"an old stamp\n")
# When the files of the archive were changed, in nanoseconds: a stamp has it.
CHANGED = 1_600_000_000_000_000_123
# The texts by which a line, or the program when it stops, may tell that such a call failed.
TEXTS = {
    "reading": {"read fault"},
    "writing": {"write fault"},
    "opening": {"cannot open", "listing"},
    "looking": {"another walk is at work", "cannot open", "listing", "write fault"},
    "locking": {"another walk is at work"},
    "cutting": {"cannot open"},
    "syncing": {"write fault"},
    "closing": set(),
    "memory": {"out of memory"},
    "freeing": set(),
    "listing": {"listing"},
    "making": {"cannot open"},
    "naming": {"cannot open"},
    "removing": {"cannot open"},
}
KILLED = -signal.SIGKILL
# The first words of lines that are counted as refused, and the calls without which no name of a day changes.
REFUSED = "refused", "notshown", "differs", "shrunk", "misplaced"
NAMING = {"naming", "removing", "syncing", KILLED}

Walked = collections.namedtuple("Walked", "status printed complained files")
# What may have failed: kinds of calls, the texts that may tell it, whether standard error may have failed with it,
# whether the day may not have been claimed for it.
Failed = collections.namedtuple("Failed", "kinds texts silent unclaimed", defaults=(False, False))


def names_of(path):
    """The files of a day's records, of its report and of the stamp of its input."""
    return f"out/{path}", f"reports/{path}.txt", f"reports/{path}.from"


def claim_of(path):
    return f"out/{path}.claim"


def beside(path, files):
    """What stands beside the files of a day: its claim, and what has the number of one."""
    parts = re.compile("|".join(rf"{re.escape(name)}\.\d+\.part" for name in names_of(path)))
    return {name: text for name, text in files.items() if name == claim_of(path) or parts.fullmatch(name)}


class Tree:
    def __init__(self, bench, title, cut=None, pipes=False, options=()):
        self.bench, self.title, self.cut, self.pipes, self.options = bench, title, None, pipes, options
        self.top = f"{bench.folder}/tree"
        self.earlier = {}
        if {"--resume", "--keep-old"} & set(options):
            done = self.run(options=("--resume", "--below", os.path.dirname(FIRST))).files
            self.earlier = {name: done[name] for name in names_of(FIRST)}
        self.cut = cut
        self.calm = self.run()

    def put(self, path, text):
        os.makedirs(os.path.dirname(f"{self.top}/{path}"), exist_ok=True)
        with open(f"{self.top}/{path}", "wb") as it:
            it.write(text)
        os.utime(f"{self.top}/{path}", ns=(CHANGED, CHANGED))

    def make(self):
        """Makes the folders anew, and gives what stands in them."""
        shutil.rmtree(self.top, ignore_errors=True)
        left = SECOND if self.earlier else FIRST
        files = {**OTHERS, **self.earlier, **dict(zip(names_of(left), OLD)), claim_of(left): b""}
        for path in (FIRST, SECOND, OTHER):
            with open(f"{day.ROOT}/examples/sds/{path}", "rb") as it:
                files[f"sds/{path}"] = it.read()
        files[f"sds/{FIRST}"] = files[f"sds/{FIRST}"][: self.cut]
        for path, text in files.items():
            self.put(path, text)
        number = os.stat(f"{self.top}/{claim_of(left)}").st_ino
        for name in names_of(left):
            self.put(f"{name}.{number}.part", b"of a run that was killed")
        return self.files()

    def run(self, before=(), limit=None, options=None):
        """Walks the folders made anew; `before` are the words before the program's."""
        self.made = self.make()
        return self.walk(before, limit, options)

    def walk(self, before=(), limit=None, options=None):
        """Walks the folders as they are."""
        folders = [f"{self.top}/{name}" for name in ("sds", "out", "reports")]
        more = self.options if options is None else options
        words = [*before, self.bench.program, "archive", "--length", "256", *more, *folders]
        name = f"{self.bench.folder}/printed"
        with open(name, "wb") as to:
            output = subprocess.PIPE if self.pipes else to
            settings = {"stdin": subprocess.DEVNULL, "stdout": output, "stderr": subprocess.PIPE, "preexec_fn": limit}
            try:
                ended = subprocess.run(words, **settings, timeout=60, check=False)
            except subprocess.TimeoutExpired:
                return Walked("none after a minute", "", "", self.files())
        with open(name, "rb") as it:
            printed = ended.stdout if self.pipes else it.read()
        return Walked(ended.returncode, printed.decode(), ended.stderr.decode(), self.files())

    def files(self):
        found = {}
        for folder, _, names in os.walk(self.top):
            for name in names:
                with open(f"{folder}/{name}", "rb") as it:
                    found[os.path.relpath(f"{folder}/{name}", self.top)] = it.read()
        return found

    def traced(self, words=()):
        trace = f"{self.bench.folder}/trace"
        walked = self.run(words_of_trace(trace, words))
        with open(trace, encoding="utf-8", errors="replace") as it:
            return walked, it.read()

    def hold(self, what, walked, failed):
        wrong = wrong_with(self, walked, failed)
        if not wrong and walked.files != self.calm.files and self.walk().files != self.calm.files:
            wrong = "the next walk does not leave what the undisturbed one does"
        self.bench.hold(f"{self.title}, {what}", wrong)


def entries_of(printed):
    """The lines of entries of a whole walk."""
    words = ("done", "same", "skipped", "refused", "notshown", "differs", "shrunk", "misplaced")
    return [line for line in printed.splitlines() if line.split(" ")[0] in words]


def path_of(line):
    return line.split(" ")[1].rstrip(":")


def is_within(path, folder):
    return folder == "." or path == folder or path.startswith(f"{folder}/")


def last_lines(told):
    """The lines that follow those of the entries."""
    channels, count = {}, collections.Counter(line.split(" ")[0] for line in told)
    for line in told:
        found = re.fullmatch(r"(?:done|same) \S*/(\w+\.\w+\.\w*\.\w+)\.D\.\d+\.\d+ read (\d+) written (\d+)", line)
        if found:
            files, read, written = channels.get(found[1], (0, 0, 0))
            channels[found[1]] = files + 1, read + int(found[2]), written + int(found[3])
    for name, (files, read, written) in channels.items():
        yield f"channel {name} files {files} read {read} written {written}"
    done, refused = count["done"] + count["same"], sum(count[word] for word in REFUSED)
    yield f"files {done} skipped {count['skipped']} refused {refused}"


def forms_of(tree, line, kinds):
    """The lines that may tell of an entry that is not refused: that of the undisturbed run, and if looking at what an
    earlier walk left failed, or reading what was written, what is told then."""
    forms = [line]
    if line.startswith("same ") and kinds & {"looking", "opening", "reading", "memory"}:
        forms.append(line.replace("same ", "done ", 1))
    if line.startswith(("same ", "done ")) and "--check" in tree.options and "reading" in kinds:
        forms.append(f"notshown {path_of(line)}")
    return forms


def told_in(tree, printed, failed):
    """The lines of the entries that were told, and what may follow them: the next line, in one of these forms."""
    ahead, told, texts = entries_of(tree.calm.printed), [], failed.texts
    for line in printed.splitlines(keepends=True):
        if not ahead or not line.endswith("\n"):
            break
        path = path_of(line) if " " in line else ""
        refused = line.startswith("refused ") and line[len(f"refused {path}: ") : -1] in texts
        if line[:-1] in forms_of(tree, ahead[0], failed.kinds):
            ahead = ahead[1:]
        elif refused and is_within(path_of(ahead[0]), path):
            ahead = [it for it in ahead if not is_within(path_of(it), path)]
        else:
            break
        told.append(line[:-1])
    if not ahead:
        return told, ["".join(f"{line}\n" for line in last_lines(told))]
    parts = path_of(ahead[0]).split("/")
    places = [".", *("/".join(parts[:n]) for n in range(1, len(parts) + 1))]
    refusals = [f"refused {place}: {text}\n" for place in places for text in texts]
    return told, [*(f"{form}\n" for form in forms_of(tree, ahead[0], failed.kinds)), *refusals]


def wrong_with(tree, walked, failed):
    """What is wrong with a run, or None."""
    told, following = told_in(tree, walked.printed, failed)
    rest = walked.printed[sum(len(line) + 1 for line in told) :]
    if not any(text.startswith(rest) for text in following):
        return f"printed {rest[-120:]!r} after {told[-1:]}"
    whole = rest == following[0] and rest.startswith(("channel ", "files "))
    complaints = {f"msrepack: {text}\n" for text in failed.texts}
    refused = any(line.split(" ")[0] in REFUSED for line in told)
    if walked.status == KILLED:
        right = KILLED in failed.kinds
    elif walked.complained:
        right = walked.status == 1 and walked.complained in complaints
    else:
        right = whole and walked.status == int(refused) or failed.silent and walked.status == 1
    if not right:
        return f"status {walked.status}, {walked.complained!r}, after {walked.printed[-120:]!r}"
    return files_wrong_with(tree, walked, told, failed)


def left_wrong_with(path, left, killed, stays, kinds):
    """What is wrong with what stands beside a day's files: of a killed walk it may stay whole or in part, if it may at all;
    of this one only what could not be removed, and a claim of which the system did not tell whose it is. By the claim the
    next walk finds the rest."""
    if left and claim_of(path) not in left:
        return f"something beside it is left without its claim: {sorted(left)}"
    if KILLED in kinds or "removing" in kinds:
        return None
    left = {name: text for name, text in left.items() if not (stays and killed.get(name) == text)}
    if left and not (set(left) == {claim_of(path)} and kinds & {"looking", "locking"}):
        return f"something beside it is left: {sorted(left)}"
    return None


def day_wrong_with(tree, path, line, files, failed):
    """What is wrong with the files of a day of which this line was told, or none, or None. They are taken out of `files`."""
    kinds, names, left = failed.kinds, names_of(path), beside(path, files)
    has = [files.pop(name, None) for name in names]
    for name in left:
        files.pop(name)
    old, killed = [tree.made.get(name) for name in names], beside(path, tree.made)
    new = [tree.calm.files.get(name) for name in names]
    unclaimed = has == old and ("looking" in kinds or failed.unclaimed)
    stays = KILLED in kinds or "removing" in kinds or not line or unclaimed
    if any(it not in (None, o, n) for it, o, n in zip(has, old, new)):
        return "neither whole nor as it was"
    if "--keep-old" in tree.options and new == old and has != old:
        return "not kept"
    if has[0] is not None and has[0] == new[0] and has[1] != new[1]:
        return "records without their report"
    if has[2] is not None and not any(has[2] == of[2] and all(map(same_or_none, has, of)) for of in (old, new)):
        return "a stamp beside what was not made with it"
    if line.startswith(("done ", "same ")) and (has[:2] != new[:2] or None in has[:2] or has[2] not in (None, new[2])):
        return "done, and not as in the undisturbed run"
    if line.startswith("same ") and has != new:
        return "left alone, and touched"
    if line.startswith("refused ") and path_of(line) != path and (has, left) != (old, killed):
        return "in a folder without a list, and touched"
    if line.split(" ")[0] in REFUSED and path_of(line) == path:
        if "--keep-old" not in tree.options and any(has) and not stays:
            return "refused, and not removed"
        if "--keep-old" in tree.options and has != old and not kinds & NAMING:
            return "refused, and not kept"
    return left_wrong_with(path, left, killed, stays or path_of(line) != path, kinds)


def same_or_none(here, there):
    return here in (None, there)


def files_wrong_with(tree, walked, told, failed):
    """What is wrong with the files that a run left, or None."""
    files, made = dict(walked.files), dict(tree.made)
    for path in (FIRST, SECOND):
        line = next((it for it in told if is_within(path, path_of(it))), "")
        wrong = day_wrong_with(tree, path, line, files, failed)
        if wrong:
            return f"{path}: {wrong}"
        for name in (*names_of(path), *beside(path, made)):
            made.pop(name, None)
    return None if files == made else f"other files: {sorted(files.items() ^ made.items())}"


def failed_of(hit, fault):
    """What may follow when these calls were hit."""
    kinds = {call.kind for call in hit}
    silent = "writing" in kinds and fault.row == 0
    if fault.what == "error=EINVAL":
        return Failed(kinds, set())
    # A write of nothing asks whether the output is open, and is asked once.
    asks = any(call.kind == "writing" and call.fd == 1 and call.number == 1 for call in hit)
    waits = kinds <= {"reading", "writing", "locking"}
    patient = waits and fault.what == "error=EINTR" and fault.row < IN_A_ROW and not asks
    texts = set() if patient else set().union(*(TEXTS[kind] for kind in kinds))
    return Failed(kinds, texts, silent, any(may_unclaim(call) for call in hit))


def may_unclaim(call):
    """Whether a day may not be claimed if this call fails."""
    return call.target.endswith(".claim") or call.kind == "making" and "/tree/out" in call.target


def each_call(tree):
    """Lets each call of the program fail in each way, and kills the program before it."""
    calm, trace = tree.traced()
    if calm != tree.calm:
        raise SystemExit(f"{tree.title}: two undisturbed runs differ")
    calls, begin = calls_in(trace)
    for call in calls[begin:]:
        for fault in faults_of(call):
            if fault.short:
                continue
            walked, trace = tree.traced(("-e", injected(call, fault)))
            hit = [it for it in calls_in(trace)[0] if it.hit]
            failed = failed_of(hit, fault)
            what = f"{injected(call, fault)} at {call.target or call.name}"
            if hit:
                tree.hold(what, walked, failed)
            else:
                tree.bench.hold(f"{tree.title}, {what}", "the call did not come again")
        words = f"inject={call.name}:signal=KILL:when={call.number}"
        walked, _ = tree.traced(("-e", words))
        tree.hold(f"killed at {call.name} {call.target}", walked, Failed({KILLED}, set()))


def limits(tree):
    """Files that cannot grow past a byte, standard output that is lost, memory of more and more bytes."""
    sizes = {n for text in tree.calm.files.values() for n in (0, 1, len(text) // 2, len(text) - 1)}
    for size in sorted(sizes):

        def small_files(size=size):
            signal.signal(signal.SIGXFSZ, signal.SIG_IGN)
            resource.setrlimit(resource.RLIMIT_FSIZE, (size, size))

        failed = Failed({"writing"}, {"write fault"})
        tree.hold(f"disk full at {size}", tree.run(limit=small_files), failed)
    for to in (">&-", "> /dev/full"):
        walked = tree.run(("sh", "-c", f'exec "$0" "$@" {to}'))
        tree.hold(to, walked, Failed({"writing"}, {"write fault"}))
    for size in range(3 << 20, 1 << 30, 1 << 17):

        def small_memory(size=size):
            resource.setrlimit(resource.RLIMIT_AS, (size, size))

        walked = tree.run(limit=small_memory)
        if "shared libraries" in walked.complained:
            continue
        tree.hold(f"{size} bytes of memory", walked, Failed({"memory"}, {"out of memory"}))
        if walked == tree.calm:
            break


def hold_trees(bench, only):
    kinds_of_tree = {
        "archive > FILE": {},
        "archive with a day that is cut | ..": {"cut": -1, "pipes": True},
        "archive --check > FILE": {"options": ("--check",)},
        "archive --resume, a day done before > FILE": {"options": ("--resume",)},
        "archive --resume --check, a day done before | ..": {"pipes": True, "options": ("--resume", "--check")},
        "archive --keep-old, a day done before and cut > FILE": {"cut": -1, "options": ("--keep-old",)},
        "archive --keep-old, a day done before with more records > FILE": {"cut": 512, "options": ("--keep-old",)},
    }
    for title, words in kinds_of_tree.items():
        if only in title:
            tree = Tree(bench, title, **words)
            each_call(tree)
            limits(tree)
