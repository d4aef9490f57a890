"""`archive` and `verify` over archives that are made here, line by line against the independent model."""
import json
import os
import shutil
import signal
import subprocess
import sys
import tempfile
import textwrap
import time
import unittest
import unittest.mock

from support import EXAMPLES, ROOT, Tidy, example, other_program, read

import commands
import walks
from msrepack import BadCall, Failed, archive, lines, verify

SDS = os.path.join(EXAMPLES, "sds")
DAY = "2020/XX/TEST/BHZ.D/XX.TEST.00.BHZ.D.2020.{:03}"
NOTHING = commands.Device(0, None)


def echo(what, **members):
    """A command of a shell that prints the object of a line."""
    return f"echo '{json.dumps(dict(what=what, **members))}'"


DONE, NONE = echo("done", path=DAY.format(1), read=2, written=1), echo("files", files=0, skipped=0, refused=0)
TYPES = {
    "done": lines.Done, "same": lines.Same, "larger": lines.Larger, "notshown": lines.NotShown, "differs": lines.Differs,
    "changed": lines.Changed, "shrunk": lines.Shrunk, "misplaced": lines.Misplaced, "young": lines.Young, "skipped": lines.Skipped, "refused": lines.Refused,
    "channel": lines.Channel, "verified": lines.Verified, "inplace": lines.InPlace, "missing": lines.Missing,
    "orphan": lines.Orphan,
}


def modelled(*words):
    """The lines that the model prints for a walk."""
    given = commands.Given(
        content=b"", reading=NOTHING, writing=NOTHING, redirected=None, redirecting=None, odd=walks.Odd(), unsaid=(),
        is_terminal=False,
    )
    [outcome] = commands.run([*words], given)
    return outcome.printed.decode().splitlines()


class Walks(Tidy):
    def setUp(self):
        super().setUp()
        self.root = self.path("root")

    def folders(self, name):
        return self.path(f"{name}.packed"), self.path(f"{name}.reports")

    def hold(self, found, wanted, totals):
        """The lines against the model's, and the type of each."""
        found = list(found)
        self.assertEqual([str(line) for line in found], wanted)
        words = [line.split(" ")[0] for line in wanted]
        self.assertEqual([type(line) for line in found], [TYPES.get(word, totals) for word in words])
        self.assertIs(type(found[-1]), totals)
        return {type(line) for line in found}

    def walk(self, words, **options):
        """The same walk by both, each to folders of its own."""
        wanted = modelled("archive", *words, self.root, *self.folders("model"))
        found = archive(self.root, *self.folders("found"), **options)
        return self.hold(found, wanted, lines.ArchiveTotals)

    def verify(self, words=(), **options):
        """The same of what the walk made."""
        folders = self.root, *self.folders("found")
        return self.hold(verify(*folders, **options), modelled("verify", *words, *folders), lines.VerifyTotals)

    def make(self):
        """An archive with what there is: whole days, refused ones, and names that are skipped."""
        shutil.copytree(SDS, self.root)
        whole, steps = read(example("one-record.mseed")), read(example("two-segments.mseed"))
        days = [whole, steps, b"", whole[:200], steps[:600], steps[:5] + b"x" + steps[6:], whole[:52] + b"\4" + whole[53:]]
        for number, content in enumerate(days, 10):
            self.path(os.path.join("root", DAY.format(number)), content)
        names = ("notes.txt", DAY.format(400), "2020/XX/TEST/BHZ.D/a: b", "2020/a\nb", "2020/XX/TEST/LOG.L/XX.TEST.00.LOG.L.2020.003")
        for name in names:
            self.path(os.path.join("root", name), b"")
        os.makedirs(os.path.join(self.root.encode(), b"2021: listing", b"\xff"))
        os.mkfifo(os.path.join(self.root, DAY.format(30)))


class Archive(Walks):
    OPTIONS = [
        ([], {"int24": True}),
        (["--no-int24"], {}),
        (["--no-int24", "--length", "256", "--bytes"], {"length": 256, "bytes": True}),
        (["--no-int24", "--length", "same", "--only-smaller"], {"length": "same", "only_smaller": True}),
        (["--no-int24", "--length=4096", "--only-smaller", "--bytes"], {"length": 4096, "only_smaller": True, "bytes": True}),
        (["--no-int24", "--tolerance", "1000000", "--strict"], {"tolerance": 1_000_000, "strict": True}),
        (["--no-int24", "--check"], {"check": True}),
        (["--no-int24", "--below=2020/XX/TEST/BHN.D", "--below=2019"], {"below": ["2020/XX/TEST/BHN.D", "2019"]}),
        (["--no-int24", "--resume"], {"resume": True}),
        (["--no-int24", "--resume"], {"resume": True}),
    ]

    def test_each_option(self):
        self.make()
        seen = set()
        for words, options in self.OPTIONS:
            with self.subTest(options=options):
                seen |= self.walk(words, **options)
                self.assertEqual(self.made("found"), self.made("model"))
        named = {lines.Done, lines.Same, lines.Larger, lines.Skipped, lines.Refused, lines.Channel, lines.ArchiveTotals}
        self.assertEqual(seen, named)

    def test_older_than(self):
        """By the time of last change. What was made of a young day stays, though the day would be refused now."""
        whole = read(example("two-segments.mseed"))
        for number in range(1, 5):
            self.path(os.path.join("root", DAY.format(number)), whole)
        self.walk(["--no-int24"])
        for number, days in ((1, 2.01), (2, 1.99), (3, -1)):
            path = self.path(os.path.join("root", DAY.format(number)), whole[:600])
            changed = time.time() - days * 86400
            os.utime(path, (changed, changed))
        os.utime(os.path.join(self.root, DAY.format(4)), (0, 0))
        words = ["--no-int24", "--older-than", "2", "--only-smaller", "--bytes"]
        seen = self.walk(words, older_than=2, only_smaller=True, bytes=True)
        self.assertEqual(seen, {lines.Refused, lines.Young, lines.Done, lines.Channel, lines.ArchiveTotals})
        self.assertEqual(self.made("found"), self.made("model"))
        packed, _ = self.folders("found")
        left = [number for number in range(1, 5) if os.path.exists(os.path.join(packed, DAY.format(number)))]
        self.assertEqual(left, [2, 3, 4])
        *_, totals = archive(self.root, *self.folders("found"), older_than=2**32 - 1)
        self.assertEqual(totals, lines.ArchiveTotals(0, 0, 0, young=4))

    def test_keep_old(self):
        """What was made of a day stays if it has fewer samples, or is refused now; without the option it goes."""
        whole = read(example("two-segments.mseed"))
        for number in range(1, 5):
            self.path(os.path.join("root", DAY.format(number)), whole)
        self.walk(["--no-int24", "--keep-old"], keep_old=True)
        before = self.made("found")
        for number, size in enumerate((2048, 0, 600), 1):
            self.path(os.path.join("root", DAY.format(number)), whole[:size])
        seen = self.walk(["--no-int24", "--keep-old"], keep_old=True)
        self.assertEqual(seen, {lines.Shrunk, lines.Refused, lines.Done, lines.Channel, lines.ArchiveTotals})
        self.assertEqual((self.made("found"), self.made("model")), (before, before))
        cut, emptied, *_ = archive(self.root, *self.folders("found"), keep_old=True, only_smaller=True)
        self.assertEqual([cut, emptied], [lines.Shrunk(DAY.format(1), 500, 400), lines.Shrunk(DAY.format(2), 500, 0)])
        self.walk(["--no-int24"])
        self.assertEqual(self.made("found"), self.made("model"))
        self.assertFalse(os.path.exists(os.path.join(self.folders("found")[0], DAY.format(3))))

    def made(self, name):
        """The files of a walk's folders, but for the stamps, whose text is the program's own."""
        there = {}
        for top in self.folders(name):
            for folder, _, files in os.walk(top):
                for file in files:
                    place = os.path.relpath(os.path.join(folder, file), top)
                    there[place] = "" if file.endswith(".from") else read(os.path.join(folder, file))
        return there

    def test_no_folder_is_no_work(self):
        """Not the whole archive; `None` alone is that."""
        shutil.copytree(SDS, self.root)
        for none in ([], (), iter([]), set(), (name for name in ())):
            found = archive(self.root, *self.folders("found"), below=none, bytes=True)
            self.assertEqual([str(line) for line in found], ["files 0 skipped 0 refused 0 bytes 0 0"])
            found = verify(self.root, *self.folders("found"), below=none)
            self.assertEqual(list(found), [lines.VerifyTotals(0, 0, 0, 0, 0, 0, 0)])
        [totals] = archive(self.root, *self.folders("found"), below=[], only_smaller=True, older_than=1, bytes=True)
        self.assertEqual(str(totals), "files 0 skipped 0 refused 0 larger 0 young 0 bytes 0 0")
        self.assertFalse(os.path.exists(self.folders("found")[0]))
        *_, totals = archive(self.root, *self.folders("found"), below=None)
        self.assertEqual(totals.files, 4)

    def test_without_a_folder_for_temporary_files(self):
        """What is complained is told, though nothing can be written."""
        with unittest.mock.patch.object(tempfile, "tempdir", "/nowhere"):
            with self.assertRaisesRegex(BadCall, "^the folders overlap$"):
                list(archive(SDS, SDS, self.path("reports")))

    def test_complaints_without_end(self):
        """No pipe fills, and the last line is told."""
        script = "yes 'msrepack: something' | head -c 3000000 >&2; echo 'msrepack: write fault' >&2; exit 1"
        with other_program(script), self.assertRaisesRegex(Failed, "^write fault$"):
            list(archive("a", "b", "c", timeout=60))

    def test_what_a_refusal_tells(self):
        self.path(os.path.join("root", DAY.format(1)), read(example("two-segments.mseed"))[:600])
        [refused, _] = archive(self.root, *self.folders("found"))
        told = (refused.path, refused.of, refused.side, refused.offset, refused.number, refused.name, refused.value)
        self.assertEqual(told, (DAY.format(1), None, "file", 512, 10, "RecordCut", None))

    def test_what_only_a_fault_or_another_program_brings(self):
        days = [echo(what, path=DAY.format(number)) for number, what in enumerate(("notshown", "differs", "changed"), 1)]
        with other_program("; ".join((*days, echo("files", files=0, skipped=0, refused=3), "exit 1"))):
            found = list(archive("a", "b", "c", check=True))
        wanted = [lines.NotShown(DAY.format(1)), lines.Differs(DAY.format(2)), lines.Changed(DAY.format(3))]
        self.assertEqual(found, [*wanted, lines.ArchiveTotals(0, 0, 3)])

    def test_bad_calls(self):
        with self.assertRaisesRegex(BadCall, "^the folders overlap$"):
            list(archive(SDS, SDS, self.path("reports")))
        with self.assertRaisesRegex(BadCall, "^not a folder of an archive$"):
            list(archive(SDS, *self.folders("found"), below=["../up"]))
        with self.assertRaisesRegex(BadCall, "older-than"):
            list(archive(SDS, *self.folders("found"), older_than=-1))
        with self.assertRaises(TypeError):
            archive(SDS, *self.folders("found"), below="2020")


class Verify(Walks):
    def test_each_line(self):
        shutil.copytree(SDS, self.root)
        for number in range(3, 13):
            shutil.copy(example("two-segments.mseed"), os.path.join(self.root, DAY.format(number)))
        self.walk(["--no-int24"])
        self.assertEqual(self.verify(), {lines.Verified, lines.Skipped, lines.VerifyTotals})
        packed, reports = self.folders("found")
        day = [os.path.join(packed, DAY.format(number)) for number in range(13)]
        report = [os.path.join(reports, DAY.format(number) + ".txt") for number in range(13)]
        os.remove(day[3])
        self.change(report[4], lambda text: text.replace(b"length 512", b"length 500"))
        self.change(day[5], lambda content: content[:600])
        self.change(report[6], lambda text: text.replace(b"samples 300", b"samples 301"))
        self.change(os.path.join(self.root, DAY.format(7)), lambda content: content[:2048])
        self.change(os.path.join(self.root, DAY.format(8)), lambda content: content[:100])
        os.remove(os.path.join(self.root, DAY.format(9)))
        os.remove(report[10])
        os.mkdir(report[10])
        os.remove(day[11])
        os.symlink(os.path.join(self.root, DAY.format(11)), day[11])
        os.replace(day[12], os.path.join(self.root, DAY.format(12)))
        os.makedirs(os.path.join(packed.encode(), b"2022", b"\xff"))
        kinds = {lines.Verified, lines.InPlace, lines.Missing, lines.NotShown, lines.Differs, lines.Refused, lines.Orphan}
        self.assertEqual(self.verify(), {*kinds, lines.Skipped, lines.VerifyTotals})
        self.verify(["--below", "2020/XX/TEST/BHN.D"], below=["2020/XX/TEST/BHN.D"])
        refused = [line for line in verify(self.root, packed, reports) if isinstance(line, lines.Refused)]
        told = [(line.of, line.text, line.number) for line in refused]
        wanted = [
            ("report", "line 2", None), ("records", "offset 512: 10 RecordCut", 10), ("file", "offset 0: 10 RecordCut", 10),
            ("report", "cannot open", None), ("records", "the file itself", None), ("records", "listing", None),
        ]
        self.assertEqual(told, wanted)
        self.assertEqual([line.reason for line in refused], [None] * 3 + ["not a regular file", None, "invalid filename"])

    def change(self, path, how):
        content = how(read(path))
        with open(path, "wb") as file:
            file.write(content)


class AsTheyCome(Walks):
    def test_lines_are_given_while_the_walk_goes_on(self):
        """What is made to vanish after the first line is not there any more when the walk comes to it."""
        for number in range(1500):
            self.path(f"root/a/{number:04}{'x' * 200}", b"")
        self.path("root/z/last", b"")
        walk = archive(self.root, *self.folders("found"))
        first = next(walk)
        shutil.rmtree(os.path.join(self.root, "z"))
        *_, z, _ = walk
        self.assertIsInstance(first, lines.Skipped)
        self.assertEqual((z.path, type(z)), ("z", lines.Refused))

    def days(self, count):
        content = read(example("two-segments.mseed")) * 4
        for number in range(1, count + 1):
            self.path(os.path.join("root", DAY.format(number)), content)

    def hold_whole(self, at_least):
        """What was done is whole, and there is nothing else."""
        packed, reports = self.folders("found")
        names = sorted(os.listdir(os.path.dirname(os.path.join(packed, DAY.format(1)))))
        texts = sorted(os.listdir(os.path.dirname(os.path.join(reports, DAY.format(1)))))
        self.assertEqual(names, [os.path.basename(DAY.format(number)) for number in range(1, len(names) + 1)])
        self.assertEqual(texts, [f"{name}.txt" for name in names])
        self.assertGreaterEqual(len(names), at_least)
        found = list(verify(self.root, packed, reports))
        self.assertEqual(sum(isinstance(line, lines.Verified) for line in found), len(names))
        return len(names)

    def test_a_loop_that_ends_early(self):
        self.days(300)
        for line in archive(self.root, *self.folders("found"), check=True):
            break
        self.assertEqual(line.path, DAY.format(1))
        self.assertLess(self.hold_whole(1), 300)

    def test_an_error_in_the_loop(self):
        self.days(300)
        with self.assertRaisesRegex(RuntimeError, "^of the loop$"):
            for _ in archive(self.root, *self.folders("found")):
                raise RuntimeError("of the loop")
        self.hold_whole(1)

    def test_a_walk_that_never_began(self):
        archive(self.root, *self.folders("found"))
        self.assertFalse(os.path.exists(self.folders("found")[0]))

    def test_ctrl_c(self):
        self.days(300)
        script = textwrap.dedent("""
            import os, sys, msrepack
            try:
                for line in msrepack.archive(*sys.argv[1:]):
                    print(line, flush=True)
            except KeyboardInterrupt:
                try:
                    os.waitpid(-1, os.WNOHANG)
                except ChildProcessError:
                    print("no child left")
        """)
        words = [sys.executable, "-B", "-c", script, self.root, *self.folders("found")]
        place = os.path.join(ROOT, "python")
        with subprocess.Popen(words, cwd=place, stdout=subprocess.PIPE, text=True, start_new_session=True) as ran:
            ran.stdout.readline()
            os.killpg(ran.pid, signal.SIGINT)
            *_, last = ran.stdout
        self.assertEqual(last, "no child left\n")
        self.hold_whole(1)

    def test_a_killed_walk(self):
        with other_program(f"{DONE}; printf '{{'; kill -9 $$"):
            walk = archive("a", "b", "c")
            self.assertEqual(next(walk), lines.Done(DAY.format(1), 2, 1))
            with self.assertRaisesRegex(Failed, "^the program was ended by SIGKILL$"):
                next(walk)

    def test_faults_of_a_walk(self):
        for script, wanted in (
            ("echo 'msrepack: write fault' >&2; exit 1", "^write fault$"),
            (f"{NONE}; echo 'msrepack: out of memory' >&2; exit 1", "^out of memory$"),
            ("echo files 0 skipped 0", "^a line that this package does not know: files 0 skipped 0$"),
        ):
            with other_program(script), self.assertRaisesRegex(Failed, wanted):
                list(archive("a", "b", "c"))

    def test_the_end_of_a_walk_is_bounded(self):
        """By SIGTERM, for which a machine that has much to do gets time here, or by SIGKILL if that is of no use."""
        mark, waits = self.path("mark"), "while :; do sleep 0.05; done"
        for trap, seconds in ((f"trap 'echo ended > {mark}; exit' TERM", 30), ("trap '' TERM", 2)):
            with other_program(f"{trap}; {DONE}; {waits}"):
                with unittest.mock.patch("msrepack.walks.AFTER_SIGTERM", seconds):
                    walk = archive("a", "b", "c")
                    next(walk)
                    began = time.monotonic()
                    walk.close()
            self.assertLess(time.monotonic() - began, 20)
            self.assertEqual(read(mark), b"ended\n")

    def test_a_second_ctrl_c_does_not_wait(self):
        """A walk that does not come to its next line is killed."""
        with other_program(f"{DONE}; exec sleep 60"):
            walk = archive("a", "b", "c")
            next(walk)
            began = time.monotonic()
            signal.signal(signal.SIGALRM, signal.default_int_handler)
            self.addCleanup(signal.signal, signal.SIGALRM, signal.SIG_DFL)
            signal.setitimer(signal.ITIMER_REAL, 0.2)
            with self.assertRaises(KeyboardInterrupt):
                walk.close()
            self.assertLess(time.monotonic() - began, 30)


class Lines(unittest.TestCase):
    """Lines are read back by themselves, also where a path has what stands between the parts of a line."""

    def test_paths_with_colons(self):
        for path in ("a: b", "a: listing", "a: records", ": ", "a: not an SDS path", "a read 1 written 2"):
            for line in (
                lines.Refused(path, "listing"),
                lines.Refused(path, "offset 512: 5 OtherBlockette 500", "file"),
                lines.Skipped(path, "not an SDS path"),
                lines.Done(path, 1, 2, 3, 4),
                lines.NotShown(path),
                lines.InPlace(path),
            ):
                if (path, line) != ("a: records", lines.Refused(path, "listing")):
                    self.assertEqual(lines.parse(str(line)), line)

    def test_others(self):
        for text in ("", "done", "done a", "done a read 1", "done a read 1 written -1", "total files 1", "skipped a: why", "refused a"):
            with self.assertRaises(ValueError):
                lines.parse(text)

    def test_lines_of_one_word_are_not_those_of_another(self):
        self.assertNotEqual(lines.Done("a", 1, 2), lines.Same("a", 1, 2))


if __name__ == "__main__":
    unittest.main()
