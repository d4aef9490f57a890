"""Programs that are wrong, each in one way, over a little of each part: where a part has to notice and does not, the test
itself is wrong. The first is not wrong, and nothing may be noticed. And reports that are wrong, each in one byte: the Python
package has to say of each what the program says.
"""
import itertools
import os
import re
import subprocess
import sys
import tempfile
from collections import namedtuple

ROOT = os.path.dirname(os.path.dirname(os.path.realpath(__file__)))
sys.path.insert(0, os.path.join(ROOT, "python"))
import compare
import model
import pages
import parts
import play
import same_segments
import transcript
from jobs import Job, Result
from msrepack import NotAReport, Report

# Runs the program, and then does what is wrong: to the text that is printed, to the complaint, to the status, or to the file
# that was written, whose name is the last word.
WRAPPER = """#!{python} -IS
import os, signal, subprocess, sys
words, way = sys.argv[1:], {way!r}
def time_of(path): return os.stat(path).st_mtime_ns if os.path.isfile(path) else None
def turned(text): return bytes([text[0] ^ 128]) + text[1:] if text else text
if way == "does nothing": sys.exit(0)
before = time_of(words[-1])
done = subprocess.run([{program!r}, *words], stdout=subprocess.PIPE, stderr=subprocess.PIPE)
printed, complaint, status = done.stdout, done.stderr, done.returncode
if time_of(words[-1]) != before and way == "another byte in a file":
    with open(words[-1], "r+b") as file:
        text = turned(file.read(1))
        file.seek(0)
        file.write(text)
if time_of(words[-1]) != before and way == "a file lost": os.remove(words[-1])
sys.stdout.buffer.write(turned(printed) if way == "another byte printed" else printed)
sys.stderr.buffer.write(turned(complaint) if way == "another byte in a complaint" else complaint)
sys.stdout.flush(), sys.stderr.flush()
if way == "ends by a signal": os.kill(os.getpid(), signal.SIGKILL)
sys.exit(status ^ 1 if way == "another status" else status)
"""

SEGMENT = "segment XX.TEST_.00.BHZ D rate 20 1 flags 00 00 00 correction 0 timing 0 start 2020,001,00:00:00.000000 samples 302"
COUNTS = "read 1 empty 0 mismatched 0"
REPORT = f"""msrepack 1
length 256
tolerance 1000
{COUNTS}
{SEGMENT} records 2
separators 0 301
end 1 segments 2 records
"""
# Steps, and what they print.
STEPS = [
    ("make zeros in.mseed", ""),
    ("$ repack --length 256 in.mseed packed.mseed", f"{REPORT}status 0\n"),
    ("record steim want.mseed", ""),
    ("prefix want.mseed packed.mseed", "true\n"),
    ("from=in.mseed into=fed.mseed $ feed --length 256 report.txt", "status 0\n"),
    ("prefix want.mseed fed.mseed", "true\n"),
    ("show report.txt", REPORT),
    ("text no.mseed no record", ""),
    ("$ list no.mseed", "! msrepack: offset 0: 1 Truncated\nstatus 1\n"),
    ("text printed old", ""),
    ("redirecting=printed $ list in.mseed", f"{SEGMENT}\n{COUNTS}\nstatus 0\n"),
    ("show printed", "old\\\n"),
    ("reading=0 $ list -", "! msrepack: read fault\nstatus 1\n"),
    (
        "each 0 to 1 from=in.mseed cut={number} $ list -",
        "0: read 0 empty 0 mismatched 0\nstatus 0\n1: ! msrepack: offset 0: 1 Truncated\nstatus 1\n",
    ),
]
RUNS = {2, 5, 9, 11, 13, 14}
RECIPES = [
    ["./msrepack repack --length 256 examples/one-record.mseed packed.mseed > report.txt", []],
    ["./msrepack check packed.mseed report.txt", ["least"]],
]

# The steps that have to fail; whether a file that is repacked and one that is refused do; how many of two pairs, of which one
# is refused, of the recipes, and of three reports, of which one shows the fewest records, one does not, and one is none. None if
# it hangs on the file.
Noticed = namedtuple("Noticed", "steps repacked refused pairs recipes reports")
WAYS = {
    "nothing wrong": Noticed(set(), 0, 0, 0, 0, 0),
    "another byte printed": Noticed({2, 6, 11, 14}, 1, None, 1, 1, 2),
    "another byte in a complaint": Noticed({9, 13, 14}, 0, 1, 1, 0, 1),
    "another status": Noticed(RUNS, 1, 1, 2, 0, 3),
    "another byte in a file": Noticed({4, 7}, 1, None, 0, 1, 0),
    "a file lost": Noticed({4, 7}, 1, 1, 0, 1, 0),
    "ends by a signal": Noticed(RUNS, 1, 1, 2, 2, 3),
    "does nothing": Noticed(RUNS - {5} | {4, 6, 7}, 1, 1, 2, 1, 3),
}

# Of the reports that are changed, how many a job has.
EACH = 100
VERDICTS = {0: b"least\n", 3: b"not shown\n"}


def steps_noticed(program):
    """The numbers of the steps that fail."""
    there = transcript.Transcript("".join(f"{line}\n{text}" for line, text in STEPS).encode())
    result = play.play(program, [line for line, _ in STEPS], there)
    return {int(number) for number in re.findall("^line ([0-9]+):", result.told, re.MULTILINE)}


def file_with(has_fault):
    """The number of a file that is refused, or of one that is repacked to some records."""
    for number in itertools.count():
        made = compare.make(number)
        answer = model.repacked(made.content, made.size, made.tolerance, made.strict, made.kinds)
        if answer.records and (answer.fault is not None) == has_fault:
            return number


def two_pairs():
    """The same file twice, and one that is refused."""
    known = list(same_segments.by_hand())
    return [known[0], next(pair for pair in known if isinstance(pair.known, str))]


def sample():
    """Records and report of a file of two segments, by the model."""
    with open(f"{ROOT}/examples/two-segments.mseed", "rb") as file:
        answer = model.repacked(file.read(), 256, 1000, False, model.KINDS)
    return answer.records, answer.report.encode()


def changed(report):
    """The report with each byte in turn another one, left out, and there twice."""
    for place, byte in enumerate(report):
        before, after = report[:place], report[place + 1 :]
        yield from (before + bytes([byte ^ 1]) + after, before + after, before + bytes([byte, byte]) + after)


def three_reports():
    """One of other counts, one of another separator, one with a line left out."""
    report = sample()[1]
    return report.replace(b"read 5", b"read 6"), report.replace(b"separators 0", b"separators 1", 1), report[11:]


def told_by_package(report):
    """The status, the print and the complaint of `check`, as the package has it; the status and the print are one of the
    verdicts if it is a report."""
    try:
        read = Report.parse(report)
    except NotAReport as why:
        return {(1, b"", f"msrepack: {why}\n".encode())}
    if str(read).encode("latin-1") != report:
        return set()
    return {(status, verdict, b"") for status, verdict in VERDICTS.items()}


def reports_noticed(program, texts):
    """The reports of which the program says something else than the package."""
    wrong = []
    with tempfile.TemporaryDirectory() as folder:
        packed, path = f"{folder}/packed.mseed", f"{folder}/report.txt"
        with open(packed, "wb") as file:
            file.write(sample()[0])
        for text in texts:
            with open(path, "wb") as file:
                file.write(text)
            both = {"stdin": subprocess.DEVNULL, "stdout": subprocess.PIPE, "stderr": subprocess.PIPE}
            done = subprocess.run([program, "check", packed, path], check=False, **both)
            if (done.returncode, done.stdout, done.stderr) not in told_by_package(text):
                wrong.append(text)
    return wrong


def play_reports(program, texts):
    wrong = reports_noticed(program, texts)
    return Result(len(texts) - len(wrong), len(wrong), told=parts.told(f"the package reads another report: {it}" for it in wrong))


def noticed(program):
    return Noticed(
        steps_noticed(program),
        parts.files(program, [file_with(False)]).failed,
        parts.files(program, [file_with(True)]).failed,
        parts.pairs(program, two_pairs).failed,
        len(pages.play_block("", program, RECIPES)[1]),
        len(reports_noticed(program, three_reports())),
    )


def play_way(program, way):
    """How many of the parts notice what they have to."""
    with tempfile.TemporaryDirectory() as folder:
        path = os.path.join(folder, "wrong")
        with open(path, "w", encoding="utf-8") as file:
            file.write(WRAPPER.format(python=sys.executable, way=way, program=program))
        os.chmod(path, 0o755)
        got = noticed(path)
    asked = [(name, is_so, wanted) for name, is_so, wanted in zip(Noticed._fields, got, WAYS[way]) if wanted is not None]
    wrong = [f"{way}: {name}: {is_so}, and not {wanted}" for name, is_so, wanted in asked if is_so != wanted]
    return Result(len(asked) - len(wrong), len(wrong), told=parts.told(wrong))


def play_scripts():
    """The scripts that count for themselves, with a program that does nothing but fail."""
    scripts = (parts.HINTS, parts.REDIRECTS)
    wrong = [f"{words[1]} passes a program that fails" for words in scripts if not parts.counted(*words, "/bin/false").failed]
    return Result(len(scripts) - len(wrong), len(wrong), told=parts.told(wrong))


def jobs(program):
    yield Job("programs that are wrong", play_scripts, ())
    for way in WAYS:
        yield Job("programs that are wrong", play_way, (program, way))
    texts = list(changed(sample()[1]))
    for first in range(0, len(texts), EACH):
        yield Job("reports that are wrong", play_reports, (program, texts[first : first + EACH]))
