"""`repack`, `check`, `segments` and `compare` on real files, against the independent model."""
import array
import datetime
import errno
import importlib.util
import io
import os
import pathlib
import random
import subprocess
import unittest
from fractions import Fraction

from support import Tidy, example, other_program, read

import compare as made_files
import model
import reports
import msrepack
from msrepack import (
    BadCall, Difference, Failed, NotAReport, Refused, Report, Same, check, compare, listing, repack, segments
)

FILES = range(16)
EPOCH = datetime.datetime(1970, 1, 1, tzinfo=datetime.timezone.utc)


def fault_told(refused):
    """The line of a refusal, from its parts."""
    value = "" if refused.value is None else f" {refused.value}"
    return f"offset {refused.offset}: {refused.number} {refused.name}{value}"


def told(answer):
    """The lines of an answer of `compare`, from its parts."""
    if isinstance(answer, Same):
        return [f"same segments {answer.segments} samples {answer.samples}", "moved {} {}".format(*answer.moved)]
    how = {"key": "key", "start": "start", "sample": f"sample {answer.sample}", "segment": ""}[answer.what]
    rest = f"values {answer.values[0]} {answer.values[1]}" if answer.values else ""
    only = f"only in {answer.only_in}" if answer.only_in else ""
    return [" ".join(filter(None, (f"differ segment {answer.segment}", how, rest, only)))]


class Given(Tidy):
    """The three ways in which data is given."""

    def ways(self, name, content):
        path = self.path(name, content)
        yield path
        yield content
        with open(path, "rb") as file:
            yield file
        yield io.BytesIO(content)


class Repack(Given):
    def test_files_made_at_random(self):
        refused = 0
        for number in FILES:
            made = made_files.make(number)
            wanted = model.repacked(made.content, made.size, made.tolerance, made.strict, made.kinds)
            asked = dict(length=made.size, tolerance=made.tolerance, strict=made.strict, int24=made.kinds == model.KINDS)
            for data in self.ways(f"in{number}", made.content):
                with self.subTest(number=number, data=type(data)):
                    if wanted.fault is None:
                        packed = repack(data, **asked)
                        self.assertEqual(packed.records, wanted.records)
                        self.assertEqual(str(packed.report), wanted.report)
                    else:
                        with self.assertRaises(Refused) as caught:
                            repack(data, **asked)
                        self.assertEqual(fault_told(caught.exception), wanted.fault)
                        self.assertEqual(str(caught.exception), wanted.fault)
                        refused += 1
        self.assertGreater(refused, 0)

    def test_without_int24_unless_asked_for(self):
        self.assertEqual(repack(b"").report.kinds, ("steim2", "steim1", "int16", "int32"))
        self.assertEqual(repack(b"", int24=True).report.kinds, ("steim2", "steim1", "int16", "int24", "int32"))

    def test_saved(self):
        content = read(example("two-segments.mseed"))
        report = repack(content, length=256).report
        wanted = model.repacked(content, 256, 1000, False, model.WITHOUT_INT24)
        self.assertEqual(report.saved, 5 - len(wanted.records) // 256)

    def test_views_and_arrays_of_bytes(self):
        content = read(example("one-record.mseed"))
        wanted = repack(content)
        self.assertEqual(repack(bytearray(content)), wanted)
        self.assertEqual(repack(memoryview(content)), wanted)

    def test_arrays_of_any_item(self):
        content = read(example("one-record.mseed"))
        wanted = repack(content)
        for code in "bBhHiIlLqQfd":
            self.assertEqual(repack(array.array(code, content)), wanted, code)
        self.assertEqual(repack(memoryview(content).cast("I")), wanted)
        self.assertEqual(repack(memoryview(content).cast("B", (2, len(content) // 2))), wanted)
        self.assertEqual(repack(array.array("i")), repack(b""))

    @unittest.skipUnless(importlib.util.find_spec("numpy"), "NumPy is not there")
    def test_arrays_of_numpy(self):
        import numpy

        content = read(example("one-record.mseed"))
        wanted = repack(content)
        for kind in ("u1", "<i4", ">i4", ">f8", [("a", ">i2"), ("b", "u1", 2)]):
            self.assertEqual(repack(numpy.frombuffer(content, kind)), wanted, kind)
        self.assertEqual(repack(numpy.frombuffer(content, "u1").reshape(8, -1)), wanted)
        self.assertEqual(repack(numpy.zeros((0, 3))), repack(b""))
        for other in (numpy.zeros(8, "M8[s]"), numpy.array([None, 1], object), numpy.zeros((4, 4))[:, 1]):
            with self.assertRaisesRegex(TypeError, "^data"):
                repack(other)

    def test_what_is_no_data_is_told_with_its_argument(self):
        good = example("one-record.mseed")
        every_other = memoryview(read(good))[::2]
        for call, name in (
            (lambda: repack(None), "data"), (lambda: repack([1, 2]), "data"), (lambda: segments(every_other), "data"),
            (lambda: check(5, b""), "records"), (lambda: check(good, None), "report"),
            (lambda: compare(3.5, good), "one"), (lambda: compare(good, every_other), "other"),
            (lambda: compare(good, io.StringIO("text")), "other"),
        ):
            with self.assertRaisesRegex(TypeError, f"^{name}\\b"):
                call()

    def test_more_than_a_pipe_holds(self):
        content = read(example("two-segments.mseed")) * 400
        for data in (content, io.BytesIO(content)):
            packed = repack(data, length=256)
            self.assertEqual(packed.report.read, 2000)
            self.assertTrue(compare(content, io.BytesIO(packed.records)))

    def test_a_path_is_no_option_and_no_standard_input(self):
        content = read(example("one-record.mseed"))
        self.addCleanup(os.chdir, os.getcwd())
        os.chdir(self.folder)
        for name in ("-", "--strict", "-x.mseed"):
            self.path(name, content)
            self.assertEqual(len(segments(name)), 1)

    def test_from_where_a_file_is_read(self):
        content = read(example("two-segments.mseed"))
        file = io.BytesIO(b"before" + content)
        file.seek(6)
        self.assertEqual(repack(file), repack(content))

    def test_bad_calls(self):
        with self.assertRaisesRegex(BadCall, "^not a record length"):
            repack(b"", length=300)
        with self.assertRaisesRegex(BadCall, "tolerance"):
            repack(b"", tolerance=0)
        with self.assertRaises(TypeError):
            repack(io.StringIO("text"))

    def test_what_cannot_be_opened_or_read(self):
        with self.assertRaises(Failed) as caught:
            repack(self.path("nowhere"))
        self.assertEqual(caught.exception.line, f"cannot open {self.path('nowhere')}")
        self.assertIsInstance(caught.exception, OSError)
        self.assertEqual((caught.exception.filename, caught.exception.errno), (self.path("nowhere"), errno.ENOENT))
        with self.assertRaisesRegex(Failed, "^read fault$") as caught:
            repack(self.folder)
        self.assertEqual(caught.exception.filename, self.folder)
        path = self.path("bad.mseed", b"no record")
        for given, told in ((path, path), (pathlib.Path(path), path), (b"no record", None)):
            with self.assertRaises(Refused) as refused:
                repack(given)
            self.assertEqual(refused.exception.path, told)


class ToFiles(Tidy):
    """Records and report under their names, or not at all."""

    def left(self):
        return sorted(name for name in os.listdir(self.folder) if name != "tmp")

    def test_both(self):
        for name in ("one-record.mseed", "two-segments.mseed"):
            packed = repack(example(name))
            written = repack(example(name), output=self.path("packed"), report=pathlib.Path(self.path("report")))
            self.assertEqual((written.output, written.report), (self.path("packed"), packed.report))
            self.assertEqual(read(self.path("packed")), packed.records)
            self.assertEqual(read(self.path("report")).decode(), str(packed.report))
            self.assertEqual(Report.read(self.path("report")), packed.report)
            self.assertEqual(self.left(), ["packed", "report"])

    def test_the_report_alone(self):
        packed = repack(example("one-record.mseed"), report=self.path("report"))
        self.assertEqual((Report.read(self.path("report")), len(packed.records)), (packed.report, 512 * packed.report.records))

    def test_in_the_place_of_the_input(self):
        path = self.path("day", read(example("two-segments.mseed")))
        wanted = repack(path).records
        repack(path, output=path)
        self.assertEqual((read(path), self.left()), (wanted, ["day"]))

    def test_nothing_is_left_of_what_fails(self):
        good = read(example("two-segments.mseed"))
        self.path("packed", b"as before")
        both = {"output": self.path("packed"), "report": self.path("report")}
        for call, error in (
            (lambda: repack(good[:600], **both), Refused),
            (lambda: repack(good, length=300, **both), BadCall),
            (lambda: repack(good, output=both["output"], report=self.path("nowhere/report")), FileNotFoundError),
            (lambda: repack(good, output=both["output"], report=both["output"]), ValueError),
            (lambda: repack(good, output=both["output"], report=self.folder), ValueError),
        ):
            with self.assertRaises(error):
                call()
            self.assertEqual((read(both["output"]), self.left()), (b"as before", ["packed"]))
        with other_program("echo 'msrepack: write fault' >&2; exit 1"), self.assertRaisesRegex(Failed, "^write fault$"):
            repack(good, **both)
        with other_program("for it; do :; done; echo half > $it; kill -9 $$"), self.assertRaisesRegex(Failed, "SIGKILL"):
            repack(good, **both)
        self.assertEqual((read(both["output"]), self.left()), (b"as before", ["packed"]))

    def test_a_link_stays(self):
        os.symlink("packed", self.path("link"))
        repack(example("one-record.mseed"), output=self.path("link"))
        self.assertEqual((os.readlink(self.path("link")), read(self.path("packed"))), ("packed", repack(example("one-record.mseed")).records))


class Check(Given):
    def test_what_goes_where(self):
        packed = repack(example("one-record.mseed"))
        for records, report in ((packed.report, packed.records), (str(packed.report).encode(), packed.records)):
            with self.assertRaisesRegex(TypeError, "the records come first, then the report"):
                check(records, report)
        with open(example("one-record.mseed"), "rb") as file, self.assertRaisesRegex(ValueError, "one open file"):
            check(file, file)
        for other in (pathlib.Path("report.txt"), None, packed.report):
            with self.assertRaisesRegex(TypeError, "Report.read reads a file"):
                Report.parse(other)

    def test_files_made_at_random(self):
        verdicts = set()
        for number in FILES:
            made = made_files.make(number)
            wanted = model.repacked(made.content, made.size, made.tolerance, made.strict, made.kinds)
            read_back = model.read_all(wanted.records, made.tolerance)
            if wanted.fault or read_back.fault:
                continue
            for text in (wanted.report, made_files.of_other_kinds(wanted.report)):
                answer = reports.verdict(wanted.records, reports.parsed(text.encode()))
                verdicts.add(answer)
                self.assertIs(check(wanted.records, Report.parse(text)), answer)
            ways = zip(self.ways(f"packed{number}", wanted.records), self.ways(f"report{number}", text.encode()))
            for records, report in ways:
                self.assertIs(check(records, report), answer)
        self.assertEqual(verdicts, {True, False})

    def test_what_is_refused(self):
        packed = repack(example("two-segments.mseed"))
        with self.assertRaises(NotAReport) as caught:
            check(packed.records, b"msrepack 1\nlength 500\n")
        self.assertEqual(caught.exception.line, 2)
        with self.assertRaises(Refused) as refused:
            check(packed.records[:600], packed.report)
        self.assertEqual(fault_told(refused.exception), model.read_all(packed.records[:600], 1000).fault)
        with self.assertRaisesRegex(Failed, "cannot open"):
            check(packed.records, self.path("nowhere"))


class Segments(Given):
    def hold(self, found, wanted):
        """A segment against the model's."""
        key, start, samples = wanted
        codes = (key.network, key.station, key.location, key.channel)
        self.assertEqual(found[:4], tuple(code.rstrip(b" ").decode("latin-1") for code in codes))
        self.assertEqual(found.quality, key.quality)
        self.assertEqual(found.rate, Fraction(1_000_000) / model.period(key))
        self.assertEqual((found.rate_factor, found.rate_multiplier), (key.factor, key.multiplier))
        self.assertEqual(found.flags, (key.activity, key.clock, key.data))
        self.assertEqual((found.correction, found.timing), (key.correction, key.timing))
        self.assertEqual((found.start, found.samples), (start, len(samples)))
        end = model.rounded(model.nominal(key, start, len(samples) - 1))
        self.assertEqual(found.end, end)
        self.assertEqual(found.start_time, EPOCH + datetime.timedelta(microseconds=start))
        self.assertEqual(found.end_time, EPOCH + datetime.timedelta(microseconds=end))
        self.assertEqual(found.start_time.utcoffset(), datetime.timedelta(0))

    def test_files_made_at_random(self):
        count = 0
        for number in FILES:
            made = made_files.make(number)
            wanted = model.read_all(made.content, made.tolerance, made.strict)
            for data in self.ways(f"in{number}", made.content):
                with self.subTest(number=number, data=type(data)):
                    if wanted.fault:
                        with self.assertRaises(Refused) as caught:
                            segments(data, tolerance=made.tolerance, strict=made.strict)
                        self.assertEqual(fault_told(caught.exception), wanted.fault)
                        continue
                    found = segments(data, tolerance=made.tolerance, strict=made.strict)
                    self.assertEqual(len(found), len(wanted.segments))
                    for one, other in zip(found, wanted.segments):
                        self.hold(one, other)
                        self.assertIsNone(one.records or one.separators)
                        count += 1
        self.assertGreater(count, 30)

    def test_why_each_begins(self):
        """The counts of the list, and the gaps: worked out from the model's times."""
        kinds = set()
        for number in FILES:
            made = made_files.make(number)
            wanted = model.read_all(made.content, made.tolerance)
            if wanted.fault:
                continue
            found = listing(made.content, tolerance=made.tolerance)
            self.assertEqual(list(found.counts), wanted.counts)
            before = None
            for one, other in zip(found.segments, wanted.segments):
                is_same = before is not None and before.key[:4] == other.key[:4]
                after = model.rounded(model.nominal(before.key, before.start, len(before.samples))) if is_same else None
                self.assertEqual(one.gap_us, other.start - after if is_same else None)
                kinds.add(one.began)
                before = other
        self.assertGreaterEqual(kinds, {"first", "gap", "overlap"})

    def test_an_answer_that_is_cut_or_is_none(self):
        content = example("two-segments.mseed")
        whole = self.printed(content)
        lines = whole.splitlines(keepends=True)
        others = ["", "random", "\x00\x7f\n", whole[:-1], whole + "\n", whole + whole, lines[0], "".join(lines[:2]), *lines[2:]]
        others += [whole.replace('"samples":300', told) for told in ('"samples":301', '"samples":"300"', '"sample":300', '"samples":-1')]
        others += [whole.replace(*pair) for pair in (('"gap"', '"gaps"'), (":00:00.", ":60:00."), ('"D"', '"X"'), ("XX", "XXX"), ("2020-01-01", "2020-02-30"))]
        others += [whole.replace('"read":5', '"read":true'), "[]\n", "5\n", "\n".join(reversed(lines))]
        for told in others:
            path = self.path("told", told.encode())
            with self.subTest(told=told), other_program(f"cat {path}"):
                if told == lines[2]:
                    self.assertEqual(segments(content), [])
                    continue
                with self.assertRaisesRegex(Failed, "an answer that this package does not know"):
                    segments(content)

    def printed(self, path):
        """What `list --json` prints."""
        ran = subprocess.run([msrepack.find_program(), "list", "--json", path], stdout=subprocess.PIPE, text=True, check=True)
        return ran.stdout

    def test_those_of_a_report(self):
        for number in FILES:
            made = made_files.make(number)
            wanted = model.read_all(made.content, made.tolerance)
            if wanted.fault:
                continue
            found = repack(made.content, tolerance=made.tolerance, int24=True).report.segments
            for one, other in zip(found, wanted.segments):
                self.hold(one, other)
                runs, separators, _ = model.packing(other.samples, 512)
                self.assertEqual((one.records, one.separators), (len(runs), tuple(separators)))


class Compare(Given):
    def test_pairs_of_files(self):
        dice, kinds = random.Random(1), set()
        for number in FILES:
            content = made_files.make(number).content
            for other in (content, made_files.damaged(dice, [content]), content[:-512], self.changed(dice, content)):
                wanted = model.compared(content, other, 1000)
                with self.subTest(number=number):
                    if wanted.fault:
                        with self.assertRaises(Refused) as caught:
                            compare(content, other)
                        self.assertEqual(fault_told(caught.exception), wanted.fault)
                        self.assertEqual(caught.exception.of, ("one", "other")[wanted.whose])
                        continue
                    answer = compare(self.path("one", content), other)
                    self.assertEqual(told(answer), wanted.lines)
                    self.assertIs(bool(answer), wanted.status == 0)
                    kinds.add(type(answer))
        self.assertEqual(kinds, {Same, Difference})

    def changed(self, dice, content):
        """The same with a byte changed of what is after the header of its last record."""
        if not content:
            return content
        place = len(content) - 1 - dice.randrange(min(60, len(content)))
        return content[:place] + bytes([content[place] ^ 1]) + content[place + 1 :]

    def test_each_difference(self):
        content = read(example("two-segments.mseed"))
        start = content[:1536] + content[1536:1564] + bytes([content[1564] ^ 1]) + content[1565:]
        key = content[:1536 + 6] + b"Q" + content[1536 + 7 :]
        sample = content[:64] + b"\x12" + content[65:]
        pairs = [content[:2048], content[:1536], start, key, sample, content + content]
        found = [compare(content, other) for other in pairs]
        self.assertEqual([told(one) for one in found], [model.compared(content, other, 1000).lines for other in pairs])
        self.assertEqual([one.what for one in found], ["sample", "segment", "start", "key", "sample", "segment"])
        self.assertEqual([one.only_in for one in found], ["ONE", "ONE", None, None, None, "OTHER"])

    def test_one_open_file(self):
        with open(example("one-record.mseed"), "rb") as file, self.assertRaisesRegex(ValueError, "one open file"):
            compare(file, file)
        one = io.BytesIO(read(example("one-record.mseed")))
        with self.assertRaisesRegex(ValueError, "one open file"):
            compare(one, one)
        content = read(example("one-record.mseed"))
        self.assertTrue(compare(content, content))

    def test_faults_of_one_of_the_two(self):
        good, bad = example("one-record.mseed"), self.path("bad.mseed", b"no record")
        for one, other, whose in ((good, bad, "other"), (bad, good, "one"), (read(bad), good, "one")):
            with self.assertRaises(Refused) as caught:
                compare(one, other)
            self.assertEqual((caught.exception.of, caught.exception.name), (whose, "Truncated"))
            self.assertEqual(caught.exception.path, bad if bad in (one, other) else None)
        with self.assertRaisesRegex(Failed, "^other: read fault$"):
            compare(good, self.folder)


if __name__ == "__main__":
    unittest.main()
