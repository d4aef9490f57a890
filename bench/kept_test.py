"""Tests of bench/kept. The figures that are kept here are of 2026-11-27; their limits were multiplied by hand."""
import os
import shutil
import subprocess
import sys
import tempfile
import unittest

import figures
import station
from figures import Figures, Kept, WithCalls

HERE = os.path.dirname(os.path.realpath(__file__))
MILLION = 1_000_000
TEXT = """\
# instructions, page faults, peak KiB
calm 1,509,000,000 13,893 57,344
noise 990000000 5246 22,000
archive 579,590,659 456 2,200 143,271

noise rose 980,000,000 5,246 22,000 to 990,000,000 5,246 22,000: jumps that cannot be predicted cost more
"""
CALM = Figures(1509 * MILLION, 13_893, 57_344)
NOISE = Figures(990 * MILLION, 5_246, 22_000)
ARCHIVE = WithCalls(579_590_659, 456, 2_200, 143_271)
# It counts what it is told to, if it is called as it has to be.
VALGRIND = """\
#!/bin/sh
case "$GLIBC_TUNABLES $1" in *stosb*=1000000000:*movsb*=1000000000\ --tool=callgrind) shift 3 ;; *) exit 3 ;; esac
"$@" && echo "==7== Collected : MILLIONS000000 CALLS 12" >&2
"""
ROSE = "calm rose 1,509,000,000 13,893 57,344 to 1,600,000,000 13,000 57,345: a test more"


class Limits(unittest.TestCase):
    def assert_last(self, field, kept, last, row=CALM):
        """The last value that is within its limit, and the first that is not."""
        old = row._replace(**{field: kept})
        title = getattr(figures.TITLES, field)
        self.assertEqual(figures.beyond(old, old._replace(**{field: last})), [])
        found = figures.beyond(old, old._replace(**{field: last + 1}))
        self.assertEqual([it.rpartition(" ")[0] for it in found], [title])

    def test_instructions(self):
        for kept, last in (
            (1509 * MILLION, 1_539_180_000),
            (2224 * MILLION, 2_268_480_000),
            (2598 * MILLION, 2_649_960_000),
            (1039 * MILLION, 1_059_780_000),
            (990 * MILLION, 1_009_800_000),
            (1391 * MILLION, 1_418_820_000),
        ):
            self.assert_last("instructions", kept, last)

    def test_page_faults(self):
        for kept, last in (
            (13_893, 15_282),
            (14_268, 15_694),
            (18_969, 20_865),
            (14_426, 15_868),
            (5_246, 5_770),
            (9_937, 10_930),
        ):
            self.assert_last("faults", kept, last)

    def test_memory(self):
        for kept, last in ((57_344, 86_016), (10, 15), (2_119, 3_178)):
            self.assert_last("kib", kept, last)

    def test_archive(self):
        for field, kept, last in (
            ("instructions", 579_590_659, 585_386_565),
            ("faults", 456, 501),
            ("kib", 2_200, 3_300),
            ("calls", 143_271, 144_703),
        ):
            self.assert_last(field, kept, last, ARCHIVE)

    def test_call_a_day(self):
        """One call more for each day of the archive, in one of its jobs, is too much."""
        more = ARCHIVE._replace(calls=ARCHIVE.calls + station.STATIONS * station.DAYS_EACH)
        self.assertEqual(figures.beyond(ARCHIVE, more), ["calls 1.0140"])

    def test_how_much(self):
        found = figures.beyond(CALM, CALM._replace(instructions=3018 * MILLION, kib=114_688))
        self.assertEqual(found, ["instructions 2.0000", "peak KiB 2.0000"])

    def test_table(self):
        now = {"calm": CALM, "noise": NOISE._replace(faults=5_771), "archive": ARCHIVE._replace(calls=145_271)}
        lines, worse = figures.table(Kept(TEXT), now)
        self.assertEqual(worse, 2)
        calm = "| calm | 1,509,000,000 | 1,509,000,000 | 13,893 | 13,893 | 57,344 | 57,344 |  |  |  |"
        noise = "| noise | 990,000,000 | 990,000,000 | 5,771 | 5,246 | 22,000 | 22,000 |  |  | page faults 1.1001 |"
        archive = "| archive | 579,590,659 | 579,590,659 | 456 | 456 | 2,200 | 2,200 | 145,271 | 143,271 | calls 1.0140 |"
        self.assertEqual(lines[2:5], [calm, noise, archive])
        self.assertEqual({it.count("|") for it in lines[:5]}, {11})
        self.assertEqual(lines[-1], TEXT.splitlines()[-1])


class Reading(unittest.TestCase):
    def test_figures(self):
        self.assertEqual(Kept(TEXT).rows, {"calm": (1, CALM), "noise": (2, NOISE), "archive": (3, ARCHIVE)})

    def test_malformed(self):
        for line in (
            "early 1 2",
            "early 1 2 3 4",
            "early 1 2 0",
            "early 1 2 -3",
            "early 1.5 2 3",
            "early 1,50 2 3",
            "calm 1 2 3",
            "calm rises:",
            "calm: a test more",
            "calm rose 1 2 3: a test more",
            "calm rose 1 2 3 4 to 1 2 3 5: a test more",
            "archive 1 2 3 4",
            "archive rose 1 2 3 to 1 2 4: a test more",
            "archive rose 1 2 3 4 to 1 2 5: a test more",
            "<<<<<<< HEAD",
        ):
            with self.subTest(line), self.assertRaisesRegex(figures.Malformed, "^line 8: "):
                Kept(f"{TEXT}\n{line}\n")

    def test_malformed_archive(self):
        for figures_of_it in ("1 2 3", "1 2 3 4 5", "1 2 3 0", "1 2 3 -4", "1 2 3 4.5", "1 2 3 4,50"):
            with self.subTest(figures_of_it), self.assertRaisesRegex(figures.Malformed, "^line 1: neither"):
                Kept(f"archive {figures_of_it}\n")

    def test_names(self):
        both = ["calm", "noise", "archive"]
        more = Kept(f"{TEXT}early rises: a test more\n")
        self.assertEqual([*Kept(TEXT).without_workload(both)], [])
        said = ["line 3: noise is no workload: remove the line"]
        self.assertEqual([*Kept(TEXT).without_workload(["calm", "archive"])], said)
        self.assertEqual([it[:13] for it in more.without_workload([*both, "early"])], ["line 7: early"])
        self.assertEqual([it[:5] for it in more.lacking(["early", "calm"])], ["early"])


class Writing(unittest.TestCase):
    def written(self, text, **measured):
        return Kept(text).beside(measured)

    def test_lower_alone(self):
        now = Figures(1500 * MILLION, 13_894, 57_343)
        wanted = TEXT.replace("calm 1,509,000,000 13,893 57,344", "calm 1,500,000,000 13,893 57,343")
        self.assertEqual(self.written(TEXT, calm=now, noise=NOISE), wanted)

    def test_higher_without_reason(self):
        text = f"{TEXT}noise rises: a test more\n"
        for more in ({"instructions": 1509 * MILLION + 1}, {"faults": 99_999}, {"kib": 57_345}):
            self.assertEqual(self.written(text, calm=CALM._replace(**more), noise=NOISE), text)

    def test_higher_with_reason(self):
        now = Figures(1600 * MILLION, 13_000, 57_345)
        found = self.written(f"{TEXT}calm rises: a test more\n", calm=now, noise=NOISE._replace(kib=99_999))
        wanted = TEXT.replace("calm 1,509,000,000 13,893 57,344", "calm 1,600,000,000 13,000 57,345")
        self.assertEqual(found, f"{wanted}{ROSE}\n")
        self.assertIn(ROSE, figures.table(Kept(found), {"calm": now})[0])

    def test_archive(self):
        now = WithCalls(579_000_000, 460, 2_100, 145_271)
        lower = TEXT.replace("archive 579,590,659 456 2,200 143,271", "archive 579,000,000 456 2,100 143,271")
        self.assertEqual(self.written(TEXT, archive=now), lower)
        found = self.written(f"{TEXT}archive rises: a test more\n", archive=now)
        higher = TEXT.replace("archive 579,590,659 456 2,200 143,271", "archive 579,000,000 460 2,100 145,271")
        rose = "archive rose 579,590,659 456 2,200 143,271 to 579,000,000 460 2,100 145,271: a test more"
        self.assertEqual(found, f"{higher}{rose}\n")
        self.assertEqual(self.written(found, archive=now._replace(calls=150_000)), found)

    def test_reason_serves_once(self):
        text = f"{TEXT}{ROSE}\n"
        self.assertEqual(self.written(text, calm=CALM._replace(kib=99_999), noise=NOISE), text)

    def test_reason_without_rise(self):
        text = f"{TEXT}calm rises: a test more\n"
        self.assertEqual(self.written(text, calm=CALM, noise=NOISE), text)
        self.assertEqual([it.partition(":")[0] for it in Kept(text).unused()], ["line 7"])
        self.assertEqual([*Kept(TEXT).unused()], [])

    def test_new_rows(self):
        self.assertEqual(self.written("", calm=CALM), "calm 1,509,000,000 13,893 57,344\n")
        found = self.written(TEXT, calm=CALM, noise=NOISE, early=Figures(1, 2, 3))
        self.assertEqual(found, TEXT.replace("143,271\n\n", "143,271\nearly 1 2 3\n\n"))
        text = TEXT.replace("archive 579,590,659 456 2,200 143,271\n", "")
        self.assertEqual(self.written(text, calm=CALM, archive=ARCHIVE), TEXT)


class Script(unittest.TestCase):
    """The script itself over a day, an archive, a program and a valgrind that are lines of Python and of a shell."""

    DAYS = """\
import collections, os
DAYS = {"calm": collections.namedtuple("Day", "first second")(512, 4096)}
STATIONS, DAYS_EACH = 1, 2
def write(path, name, seed, parts):
    with open(path, "w") as out:
        print(name, seed, parts, file=out)
def write_archive(root):
    os.mkdir(root)
"""
    # It does its work if it is called for a tenth of a day with seed 1, or with an archive, and gets no huge pages. By
    # turns the archive is not done yet, and done.
    PROGRAM = """\
#!/bin/sh
[ -e root ] || grep -qx "calm 1 10" day || exit 5
! grep -q "^THP_enabled:.*1" /proc/self/status || exit 5
case "$*" in
"archive --resume --no-int24 --length 512 root out reports")
    if [ -e done ]; then it=same; rm done; else it=done; mkdir out reports && >done || exit 7; fi
    printf "$it %s\\\\n" one two
    echo channel one
    echo files 2 skipped 0 refused 0 ;;
"verify root out reports")
    printf "verified %s\\\\n" one two
    echo files 2 skipped 0 refused 0 missing 0 notshown 0 differs 0 orphan 0 ;;
"repack --no-int24 --length 512 day first") echo first >first ;;
"repack --no-int24 --length 4096 first second") cp first second ;;
"check first first.txt" | "check second second.txt") echo least ;;
"list first" | "list second") cat "$2" ;;
"compare day first" | "compare first second") echo same segments 1 samples 302 ;;
*) exit 6 ;;
esac
"""
    ARCHIVE = "archive 4,500,000,000 1,000,000 1,000,000 3,000\n"
    ROOMY = f"calm 12,000,000,000 1,000,000 1,000,000\n{ARCHIVE}"

    def setUp(self):
        room = tempfile.TemporaryDirectory(prefix="msrepack-bench-")
        self.addCleanup(room.cleanup)
        self.root = room.name
        for name in ("bench/kept", "bench/figures.py", "bench/workloads.py", "bench/day.py", "tools/built.py"):
            os.makedirs(os.path.dirname(f"{self.root}/{name}"), exist_ok=True)
            shutil.copy(f"{os.path.dirname(HERE)}/{name}", f"{self.root}/{name}")
        self.put("bench/station.py", self.DAYS)
        self.put("bench/kept.txt", self.ROOMY)
        self.put("tools/program", f'#!/bin/sh\n[ "$*" = --ready ] && echo {self.root}/program\n')
        self.put("program", self.PROGRAM)
        self.count(1500)

    def put(self, name, text):
        os.makedirs(os.path.dirname(f"{self.root}/{name}"), exist_ok=True)
        with open(f"{self.root}/{name}", "w", encoding="utf-8") as it:
            it.write(text)
        os.chmod(f"{self.root}/{name}", 0o755)

    def count(self, millions, calls=1000):
        """Has valgrind count that many instructions and calls of each of the eight jobs, and of the three of the archive."""
        self.put("path/valgrind", VALGRIND.replace("MILLIONS", str(millions)).replace("CALLS", str(calls)))

    def kept(self, *words, path=None):
        """The status of the script, and all that it says."""
        env = {"PATH": path or f"{self.root}/path:{os.defpath}"}
        words = [sys.executable, f"{self.root}/bench/kept", *words]
        ran = subprocess.run(words, env=env, stdout=subprocess.PIPE, stderr=subprocess.STDOUT, text=True)
        return ran.returncode, ran.stdout

    def assert_stops(self, said, *words, path=None, status=1):
        before = self.text()
        ended, found = self.kept(*words, path=path)
        self.assertEqual(ended, status, found)
        self.assertIn(said, found)
        self.assertNotIn("Traceback", found)
        self.assertEqual(self.text(), before)

    def text(self):
        with open(f"{self.root}/bench/kept.txt", encoding="utf-8") as it:
            return it.read()

    def test_as_kept(self):
        status, said = self.kept()
        self.assertEqual((status, said.splitlines()[-1]), (0, "bench/kept: 0 of 2 workloads are beyond a limit"))
        self.put("bench/kept.txt", self.ROOMY.replace("4,500", "4,590"))
        self.count(1530, 1010)
        self.assertEqual(self.kept()[0], 0)

    def test_on_disk(self):
        """Where nothing is in memory the archive stands with all temporary files."""
        with open(f"{HERE}/kept", encoding="utf-8") as it:
            text = it.read()
        self.put("bench/kept", text.replace('"/dev/shm"', '"/nonexistent"'))
        self.assertEqual(self.kept()[0], 0)

    def test_beyond(self):
        self.count(1531)
        for words in ((), ("--write",)):
            self.put("bench/kept.txt", "calm 12,000,000,000 1 1\narchive 1 1 1 1\n")
            self.assert_stops("| instructions 1.0207, page faults ", *words)
        self.put("bench/kept.txt", f"calm 12,248,000,000 1 1,000,000\n{self.ARCHIVE}")
        self.assert_stops("| page faults ")
        self.put("bench/kept.txt", f"calm 12,248,000,000 1,000,000 1\n{self.ARCHIVE}")
        self.assert_stops("| peak KiB ")

    def test_beyond_archive(self):
        calm = "calm 12,000,000,000 1 1"
        for archive, calls, said in (
            ("archive 4,500,000,000 1,000,000 1,000,000 3,000", 1011, "| 3,033 | 3,000 | calls 1.0110 |"),
            ("archive 4,450,000,000 1,000,000 1,000,000 3,000", 1000, "| 3,000 | 3,000 | instructions 1.0112 |"),
        ):
            self.count(1500, calls)
            self.put("bench/kept.txt", f"{calm}\n{archive}\n")
            self.assert_stops(said)
            self.assertEqual(self.kept("--write")[0], 1)
            numbers = archive.split()
            self.assertRegex(self.text(), rf"^{calm}\narchive {numbers[1]} [\d,]+ [\d,]+ {numbers[4]}\n$")

    def test_write_archive(self):
        self.count(1500, 1011)
        self.put("bench/kept.txt", self.ROOMY.replace(self.ARCHIVE, "archive 4,500,000,000 1 1 3,000\n"))
        self.assertEqual(self.kept("--write")[0], 1)
        self.put("bench/kept.txt", self.ROOMY.replace(self.ARCHIVE, "archive 4,500,000,000 1 1 3,000\narchive rises: a call\n"))
        self.assertEqual(self.kept("--write")[0], 0)
        row = r"4,500,000,000 [\d,]+ [\d,]+ 3,033"
        self.assertRegex(self.text(), rf"(?m)^archive {row}\narchive rose 4,500,000,000 1 1 3,000 to {row}: a call$")
        self.put("bench/kept.txt", self.ROOMY.replace(self.ARCHIVE, ""))
        self.assert_stops("archive has no figures")
        self.assertEqual(self.kept("--write")[0], 0)
        self.assertRegex(self.text(), rf"(?m)^archive {row}$")

    def test_memory(self):
        """The peak is that of the program, and not of this script, which takes more."""
        self.put("bench/kept.txt", f"calm 12,000,000,000 1,000,000 7,000\n{self.ARCHIVE}")
        self.assertEqual(self.kept()[0], 0)

    def test_write(self):
        self.count(1490)
        self.assertEqual(self.kept("--write")[0], 0)
        self.assertRegex(self.text(), "^calm 11,920,000,000 ")
        self.count(1540)
        self.put("bench/kept.txt", "calm 11,920,000,000 1 1\narchive 1 1 1 1\n")
        self.assert_stops("| instructions 1.0336, page faults ", "--write")
        archive = self.ARCHIVE.replace("4,500", "4,620")
        self.put("bench/kept.txt", f"calm 11,920,000,000 1 1\ncalm rises: a test more\n{archive}")
        self.assert_stops("line 2: unused reason")
        status, said = self.kept("--write")
        self.assertEqual(status, 0)
        self.assertRegex(said, "(?m)^calm rose 11,920,000,000 .* to 12,320,000,000 .*: a test more$")
        self.assertRegex(self.text(), r"^calm 12,320,000,000 .*\ncalm rose .*: a test more\narchive 4,620,.*\n$")
        self.assertEqual(os.listdir(f"{self.root}/bench").count("kept.txt.new"), 0)

    def test_reason_without_rise(self):
        self.put("bench/kept.txt", f"{self.ROOMY}calm rises: a test more\n")
        status, said = self.kept("--write")
        self.assertEqual(status, 1)
        self.assertIn("line 3: unused reason", said)

    def test_names(self):
        self.put("bench/kept.txt", f"{self.ROOMY}early 1 2 3\n")
        for words in ((), ("--write",)):
            self.assert_stops("line 3: early is no workload", *words)
        self.put("bench/kept.txt", "")
        self.assert_stops("calm has no figures")

    def test_malformed(self):
        self.put("bench/kept.txt", f"{self.ROOMY}\nearly 7\n")
        for words in ((), ("--write",)):
            self.assert_stops("kept.txt: line 4: neither", *words)
        self.put("bench/kept.txt", self.ROOMY.replace(" 3,000\n", "\n"))
        self.assert_stops("kept.txt: line 2: neither")

    def test_no_valgrind(self):
        for words in ((), ("--write",), ("--selftest",)):
            self.assert_stops("apt-get install valgrind", *words, path=f"{self.root}/bench")

    def test_no_program(self):
        self.put("tools/program", "#!/bin/sh\necho no program is built >&2\nexit 1\n")
        for words in ((), ("--write",)):
            self.assert_stops("no program is built", *words, status=2)
        os.remove(f"{self.root}/tools/program")
        self.assert_stops("no checkout of msrepack", status=2)

    def test_failing_program(self):
        for body, said in (("exit 7", "ended with status 7"), ("kill -9 $$", "ended with status -9")):
            self.put("program", f"#!/bin/sh\n{body}\n")
            for words in ((), ("--write",)):
                self.assert_stops(said, *words)

    def test_work_not_done(self):
        for done, said in (
            ("least", "not least: fewer records"),
            ("same segments 1 samples 302", "same segments 0 samples 0"),
            ("same segments 1 samples 302", "different 0 0"),
        ):
            self.put("program", self.PROGRAM.replace(f"echo {done}", f"echo {said}"))
            self.assert_stops(f"said {said}")
        for done, instead, said in (
            ("it=same", "it=done", "\ndone two\nchannel one\nfiles 2 "),
            ("it=done;", "it=same;", "\nsame two\nchannel one\nfiles 2 "),
            ("channel one", "nothing", "\nnothing\nfiles 2 "),
            ("skipped 0 refused 0 ;;", "skipped 0 refused 1 ;;", "files 2 skipped 0 refused 1"),
            ("verified %s", "missing %s", "said missing one"),
            ("files 2 skipped 0 refused 0 missing 0", "files 1 skipped 0 refused 0 missing 1", "files 1 "),
        ):
            self.put("program", self.PROGRAM.replace(done, instead))
            self.assert_stops(said)

    def test_failing_valgrind(self):
        for body in ("exit 1", "exit 0", "echo Collected : 7 >&2; exit 1"):
            self.put("path/valgrind", f"#!/bin/sh\n{body}\n")
            for words in ((), ("--write",)):
                self.assert_stops("callgrind did not count", *words)

    def test_nothing_kept(self):
        os.remove(f"{self.root}/bench/kept.txt")
        status, said = self.kept()
        self.assertEqual(status, 1)
        self.assertIn("calm has no figures", said)
        self.assertEqual(self.kept("--write")[0], 0)
        self.assertRegex(self.text(), "^calm 12,000,000,000 ")


if __name__ == "__main__":
    unittest.main()
