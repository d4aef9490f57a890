"""`Report.parse` and `str` on texts of the independent model, whole and changed; no program is run."""
import random
import re
import time
import unittest

import support

import compare as made_files
import model
import reports
from msrepack import NotAReport, Report

TEXTS = [
    report
    for made in map(made_files.make, range(40))
    for report in [model.repacked(made.content, made.size, made.tolerance, made.strict, made.kinds).report]
    if report
]
# What a line of a report is changed to, at a place that has the first.
CHANGES = [
    (r" ", "  "), (r"\n", ""), (r"\n", "\n\n"), (r"\d+", "0"), (r"\d+", "007"), (r"\d+", str(2**64)), (r"\d+", str(2**64 - 1)),
    (r"\d+", "-1"), (r"rate -?\d+", "rate 32768"), (r"rate -?\d+", "rate -32768"), (r"rate -?\d+", "rate 0"),
    (r"correction -?\d+", "correction -2147483649"), (r"correction -?\d+", "correction -0"), (r"timing \d+", "timing 256"),
    (r"start \d{4}", "start 1899"), (r"start \d{4}", "start 2100"), (r",\d{3},", ",366,"), (r",\d{3},", ",000,"),
    (r"\d\d:\d\d:\d\d", "24:00:00"), (r"\d\d:\d\d:\d\d", "23:59:60"), (r"\.\d{6}", ".12345"), (r" D ", " X "),
    (r"_", "%20"), (r"_", "%5f"), (r"_", "%41"), (r"_", "%2e"), (r"_", "%FF"), (r"_", "\u00e9"), (r"_", " "),
    (r"BHZ", "%62%68%7a"), (r"XX", "%00%ff"), (r"flags ..", "flags 0"), (r"flags ..", "flags FF"),
    (r"length \d+", "length 128"), (r"length \d+", "length 131072"), (r"length \d+", "length 65536"),
    (r"tolerance \d+", "tolerance 1000001"), (r"kinds .*\n", ""), (r"read", "kinds steim2\nread"),
    (r"msrepack 1", "msrepack 2"), (r"separators.*\n", "separators\n"), (r"separators", "separators 5"), (r"separators.*\n", ""),
    (r" records \d+", ""), (r"\d+ records", "9 records"), (r"\Z", "\n"), (r"\Z", "end"), (r"segment", "segments"),
]


def changed(dice, text):
    """The text with something in it changed, in one place."""
    form, other = dice.choice(CHANGES)
    places = [found.span() for found in re.finditer(form, text)]
    if not places:
        return text
    start, end = dice.choice(places)
    return text[:start] + other + text[end:]


def line_at_fault(text):
    """What the model says of a text: its first line at fault, or None."""
    try:
        reports.parsed(text.encode())
    except reports.NotAReport as why:
        return int(str(why).split()[-1])
    return None


class Texts(unittest.TestCase):
    def test_whole(self):
        self.assertGreater(sum(text.count("segment ") for text in TEXTS), 100)
        for text in TEXTS:
            report, wanted = Report.parse(text), reports.parsed(text.encode())
            self.assertEqual(str(report), text)
            self.assertEqual(Report.parse(text.encode()), report)
            self.assertEqual((report.length, report.tolerance), (wanted.length, wanted.tolerance))
            self.assertEqual([report.read, report.empty, report.mismatched], wanted.counts)
            self.assertEqual("int24" in report.kinds, wanted.kinds == model.KINDS)
            for segment, line in zip(report.segments, wanted.lines):
                self.assertEqual(str(segment), line.text)
                self.assertEqual((segment.samples, segment.records), (line.samples, line.records))
                self.assertEqual(list(segment.separators), line.separators)
            self.assertEqual(report.saved, wanted.counts[0] - sum(line.records for line in wanted.lines))

    def test_changed(self):
        dice, taken, refused = random.Random(7), 0, 0
        for _ in range(4000):
            text = changed(dice, dice.choice(TEXTS))
            if dice.random() < 0.3:
                text = changed(dice, text)
            wanted = line_at_fault(text)
            with self.subTest(text=text):
                if wanted is None:
                    self.assertEqual(str(Report.parse(text)), text)
                    taken += 1
                else:
                    with self.assertRaises(NotAReport) as caught:
                        Report.parse(text)
                    self.assertEqual(caught.exception.line, wanted)
                    refused += 1
        self.assertGreater(min(taken, refused), 500)

    def test_numbers_that_are_too_long_to_be_read(self):
        text = min(TEXTS, key=len)
        for number in re.finditer(r"\d+", text):
            with self.assertRaises(NotAReport) as caught:
                Report.parse(text[: number.start()] + "9" * 5000 + text[number.end() :])
            self.assertEqual(caught.exception.line, 1 + text.count("\n", 0, number.start()))

    def test_cut(self):
        text = min(TEXTS, key=len)
        for end in range(len(text)):
            with self.assertRaises(NotAReport) as caught:
                Report.parse(text[:end])
            self.assertEqual(caught.exception.line, line_at_fault(text[:end]))

    def test_each_byte_of_a_name(self):
        [text] = [text for text in TEXTS if text.count("segment ") == 1][:1]
        name = re.search(r"segment (\S+)", text)[1]
        for byte in range(256):
            code = chr(byte)
            shown = "_" if code == " " else code if code.isascii() and code.isalnum() else f"%{byte:02x}"
            report = Report.parse(text.replace(name, f"XX.{shown}TEST.00.BHZ"))
            self.assertEqual(report.segments[0].station, f"{code}TEST")
            self.assertIn(f"XX.{shown}TEST.00.BHZ", str(report))


def text_of_many(count):
    """A report with so many segments."""
    lines = ["msrepack 1", "length 512", "tolerance 1000", f"read {2 * count} empty 0 mismatched 0"]
    for number in range(count):
        clock = f"{number // 4167:02}:{number // 60 % 60:02}:{number % 60:02}.{number:06}"
        lines += [
            f"segment XX.TEST_.00.BHZ D rate 20 1 flags 00 00 00 correction 0 timing 0"
            f" start 2020,{1 + number % 366:03},{clock} samples 300 records 2",
            "separators 0 155",
        ]
    return "\n".join([*lines, f"end {count} segments {2 * count} records\n"])


def seconds_to_parse(text):
    """The least of three, in processor time: other work on the machine makes it longer."""
    seconds = []
    for _ in range(3):
        began = time.process_time()
        Report.parse(text)
        seconds.append(time.process_time() - began)
    return min(seconds)


class ManySegments(unittest.TestCase):
    def test_inverse(self):
        text = text_of_many(100_000)
        self.assertEqual(str(Report.parse(text)), text)

    def test_time_grows_with_their_number(self):
        """Ten times as many take about ten times as long, whatever the machine; a hundred times would be a fault."""
        self.assertLess(seconds_to_parse(text_of_many(100_000)), 30 * seconds_to_parse(text_of_many(10_000)))


if __name__ == "__main__":
    unittest.main()
