"""`extents`, `gaps` and `daily` over reports that are made here, against each second by itself and by hand; their texts
against examples of the formats; and the commands."""
import contextlib
import datetime
import importlib.util
import io
import json
import os
import random
import unittest
import unittest.mock

from support import ROOT, Tidy, example, read

import msrepack
from msrepack import Report, channels, daily, extents, gaps, sources
from msrepack.__main__ import main
from msrepack.report import Flags, Segment

DAY = 86_400
FIRST = 19_358 * DAY
START = datetime.date(2023, 1, 1)
HEAD = "msrepack 1\nlength 512\ntolerance 1000\nread 9 empty 0 mismatched 0\n"


def segment(start, samples, station="TEST", rate=1, micros=0, quality="D"):
    """A segment that starts so many seconds after the start of 2023."""
    start = (FIRST + start) * 1_000_000 + micros
    return Segment("XX", station, "00", "LHZ", quality, rate, 1, Flags(0, 0, 0), 0, 0, start, samples, 1, (0,))


def day(number):
    """A day, counted from the start of 2023."""
    return START + datetime.timedelta(number)


def at(second):
    """The seconds after the start of 2023 of a time, or the time of so many."""
    begin = datetime.datetime(2023, 1, 1, tzinfo=datetime.timezone.utc)
    if isinstance(second, datetime.datetime):
        return (second - begin) / datetime.timedelta(seconds=1)
    return begin + datetime.timedelta(seconds=second)


class Reports(Tidy):
    def setUp(self):
        super().setUp()
        self.reports = self.path("reports")
        os.mkdir(self.reports)

    def report(self, number, *segments, name=None):
        """The report of a day, under the name of its channel."""
        told = "".join(f"{segment}\nseparators 0\n" for segment in segments)
        text = f"{HEAD}{told}end {len(segments)} segments {len(segments)} records\n"
        self.assertEqual(str(Report.parse(text)), text)
        name = name or segments[0].id
        _, station, _, channel = name.split(".")
        place = f"{day(number).year}/XX/{station}/{channel}.D/{name}.D.{day(number):%Y.%j}.txt"
        return self.path(f"reports/{place}", text.encode())

    def row(self, **asked):
        """The row of the one channel, and the window."""
        source = sources.Source(self.reports)
        window = source.window(asked.get("first"), asked.get("last"))
        [row] = channels.rows(source, window)
        return row, window


class Days(Reports):
    """What spills over midnight, and what does not depend on how one asks."""

    def test_a_day_that_spills_over(self):
        self.report(0, segment(0, DAY + 21, micros=-163))
        row, window = self.row()
        self.assertEqual(window, (FIRST * 1_000_000, (FIRST + DAY) * 1_000_000))
        self.assertEqual((row.present, row.gaps), (DAY * 1_000_000, []))

    def test_a_year_that_runs_over(self):
        for number in range(365):
            self.report(number, segment(number * DAY, DAY + 3 * (number == 364)))
        row, window = self.row()
        self.assertEqual(window, (FIRST * 1_000_000, (FIRST + 365 * DAY) * 1_000_000))
        self.assertEqual(channels.part_of(row.present, window[1] - window[0], 2), 100.0)

    def test_less_than_a_sample_at_an_end_is_nothing(self):
        for micros, missing in ((0, 0), (999_999, 0), (1_000_000, 1), (-1, 0)):
            self.report(0, segment(0, DAY, micros=micros))
            row, window = self.row()
            self.assertEqual(window[1] - window[0] - row.present, missing * 1_000_000, micros)

    def test_segments_without_names(self):
        for given, first, last in (
            ([segment(0, DAY + 21, micros=-163)], 0, 0), ([segment(10, 5)], 0, 0), ([segment(DAY - 5, 30)], 1, 1),
            ([segment(DAY - 30, 35)], 0, 0), ([segment(-7200, DAY + 14400)], -1, 1), ([segment(0, 5), segment(3 * DAY, DAY)], 0, 3),
        ):
            start, end = sources.Source(given).window(None, None)
            self.assertEqual((sources.day_of(start), sources.day_of(end - 1)), (day(first), day(last)), given)

    def make(self, dice):
        """Three weeks of files, some of which are missing or spill; returns the seconds that have data."""
        there = set()
        for number in range(21):
            pieces, start = [], number * DAY + dice.choice((0, 0, 0, 7, 5000))
            if dice.random() < 0.3:
                continue
            while start < (number + 1) * DAY - 100 and len(pieces) < 4:
                end = min(start + dice.choice((60, 9000, DAY)), (number + 1) * DAY + dice.choice((0, 0, 12)))
                pieces.append(segment(start, end - start))
                there |= set(range(start, end))
                start = end + dice.choice((1, 5, 4000))
            if pieces:
                self.report(number, *pieces)
        return there

    def test_all_reports_and_those_of_the_window(self):
        """Per cent, gaps and overlaps of windows, against the seconds of all reports."""
        dice = random.Random(5)
        for _ in range(6):
            with contextlib.suppress(FileNotFoundError):
                os.rename(self.reports, self.path(f"other{dice.random()}"))
            os.makedirs(self.reports)
            there = self.make(dice)
            for _ in range(5):
                first = dice.randrange(20)
                last = dice.randrange(first, 21)
                seconds = range(first * DAY, (last + 1) * DAY)
                inside = there & set(seconds)
                if not inside:
                    continue
                row, window = self.row(first=day(first), last=day(last))
                self.assertEqual(row.present, len(inside) * 1_000_000)
                between = range(min(there), max(there))
                missing = {it for it in seconds if it in between and it not in there}
                runs = sum(it - 1 not in missing for it in missing)
                found = list(gaps(self.reports, first=day(first), last=day(last)))
                self.assertEqual(sum(gap.seconds for gap in found if gap.kind == "gap"), len(missing))
                self.assertEqual(sum(gap.kind == "gap" for gap in found), runs)

    def test_a_gap_that_begins_long_before_the_window(self):
        self.report(0, segment(0, DAY))
        self.report(9, segment(9 * DAY, DAY))
        for asked in ({"first": day(9)}, {"first": day(8), "last": day(12)}):
            found = [(at(gap.start), at(gap.end)) for gap in gaps(self.reports, **asked)]
            self.assertEqual(found, [] if asked["first"] == day(9) else [(8 * DAY, 9 * DAY)])
        self.assertEqual([one.percent for one in daily(self.reports, first=day(8), last=day(9))], [0, 100])

    def test_an_empty_report_does_not_end_the_search(self):
        self.report(0, segment(0, DAY))
        self.report(4, name="XX.TEST.00.LHZ")
        self.report(9, segment(9 * DAY + 50, DAY - 50))
        [gap] = gaps(self.reports, first=day(9))
        self.assertEqual((at(gap.start), at(gap.end), gap.seconds), (9 * DAY, 9 * DAY + 50, 50))

    def test_each_day(self):
        """Against each second by itself."""
        dice = random.Random(8)
        there = self.make(dice)
        found = list(daily(self.reports))
        self.assertEqual([one.day for one in found], [day(number) for number in range((found[-1].day - START).days + 1)])
        for number, one in enumerate(found):
            inside = there & set(range(number * DAY, (number + 1) * DAY))
            self.assertAlmostEqual(one.percent, 100 * len(inside) / DAY, delta=0.0001)
            self.assertEqual(one.segments, sum(it - 1 not in inside for it in inside))
        names = [os.path.join(top, name) for top, _, names in os.walk(self.reports) for name in names]
        whole = [one for name in names for one in Report.read(name).segments]
        spans = [(one.start // 1_000_000 - FIRST, one.samples) for one in whole]
        self.assertEqual(sum(one.samples for one in found), sum(min(samples, len(found) * DAY - start) for start, samples in spans))


class Extents(Reports):
    def told(self, **asked):
        found = extents(self.reports, **asked)
        return [(one.quality, one.rate, at(one.start), at(one.end), one.samples) for one in found]

    def test_over_the_borders_of_files(self):
        """Joined within half a sample, parted by more, by another rate, and by another quality."""
        self.report(0, segment(0, DAY))
        self.report(1, segment(DAY, DAY, micros=499_999))
        self.report(2, segment(2 * DAY, DAY, micros=-1))
        self.report(3, segment(3 * DAY, 100, quality="R"), segment(3 * DAY + 100, 100), segment(3 * DAY + 200, 100, rate=2))
        self.report(4, segment(4 * DAY, 9), segment(4 * DAY + 9, 9, micros=500_001), segment(4 * DAY + 18, 9))
        self.assertEqual(self.told(), [
            ("D", 1, 0, 3 * DAY - 1 - 1e-6, 3 * DAY),
            ("R", 1, 3 * DAY, 3 * DAY + 99, 100),
            ("D", 1, 3 * DAY + 100, 3 * DAY + 199, 100),
            ("D", 2, 3 * DAY + 200, 3 * DAY + 249.5, 100),
            ("D", 1, 4 * DAY, 4 * DAY + 8, 9),
            ("D", 1, 4 * DAY + 9.500001, 4 * DAY + 17.500001, 9),
            ("D", 1, 4 * DAY + 18, 4 * DAY + 26, 9),
        ])

    def test_of_a_window_the_samples_that_lie_in_it(self):
        self.report(0, segment(0, 3 * DAY, micros=250_000))
        self.assertEqual(self.told(first=day(1), last=day(1)), [("D", 1, DAY + 0.25, 2 * DAY - 0.75, DAY)])
        self.assertEqual(self.told(first=day(7)), [])

    def test_two_qualities_at_once(self):
        """Each goes on by itself."""
        for number in range(3):
            self.report(number, segment(number * DAY, DAY), segment(number * DAY + 5, DAY, quality="M"))
        self.assertEqual(self.told(), [("D", 1, 0, 3 * DAY - 1, 3 * DAY), ("M", 1, 5, 3 * DAY + 4, 3 * DAY)])

    def test_against_list(self):
        """The extents of reports are the segments that the program lists."""
        for name in ("one-record.mseed", "two-segments.mseed"):
            path = self.path(f"{name}.txt", str(msrepack.repack(example(name)).report).encode())
            wanted = [(it.start_time, it.end_time, it.samples) for it in msrepack.segments(example(name))]
            self.assertEqual([(it.start, it.end, it.samples) for it in extents(path)], wanted)

    def test_one_channel_after_another(self):
        """When the first is told no report of the next has been read."""
        for station in "ABC":
            for number in range(5):
                self.report(number, segment(number * DAY, DAY, station))
        opened, reading = [], sources._segments_of
        with unittest.mock.patch.object(sources, "_segments_of", lambda file: opened.append(file) or reading(file)):
            found = extents(self.reports)
            self.assertEqual(next(found).id, "XX.A.00.LHZ")
            self.assertEqual(len(opened), 5)
            self.assertEqual([one.id for one in found], ["XX.B.00.LHZ", "XX.C.00.LHZ"])

    def test_segments_of_another_channel(self):
        """They are told as theirs; if theirs was told before, the report is."""
        self.report(0, segment(0, 10, "B"), segment(0, 10, "C"), name="XX.B.00.LHZ")
        self.report(1, segment(DAY, 10, "C"))
        self.assertEqual([(one.id, at(one.start)) for one in extents(self.reports)], [
            ("XX.B.00.LHZ", 0), ("XX.C.00.LHZ", 0), ("XX.C.00.LHZ", DAY)])
        path = self.report(2, segment(2 * DAY, 10, "D"), segment(2 * DAY, 10, "B"), name="XX.D.00.LHZ")
        unread = []
        self.assertEqual(len(list(extents(self.reports, unread=unread))), 4)
        self.assertEqual(unread, [f"{path}: its segments of XX.B.00.LHZ, which it is not named after"])

    def test_what_is_no_report(self):
        self.report(0, segment(0, 10))
        bad = self.path("reports/2023/XX.TEST.00.LHZ.D.2023.002.txt", b"not one")
        with self.assertRaisesRegex(ValueError, "002.txt: no report"):
            list(gaps(self.reports))
        unread = []
        self.assertEqual((list(gaps(self.reports, unread=unread)), unread), ([], [f"{bad}: no report"]))
        for call in (extents, gaps, daily):
            with self.assertRaises(FileNotFoundError):
                list(call(self.path("nowhere")))
            with self.assertRaisesRegex(ValueError, "no reports below"):
                list(call(self.temporary))
            with self.assertRaisesRegex(ValueError, "miniSEED, no report"):
                list(call(example("one-record.mseed")))


class Gaps(Reports):
    def test_gaps_and_overlaps(self):
        self.report(0, segment(0, 100), segment(90, 100, micros=500_000), segment(200, DAY - 200))
        self.report(1, segment(DAY + 3600, 10))
        found = [(one.kind, at(one.start), at(one.end), one.seconds) for one in gaps(self.reports)]
        self.assertEqual(found, [
            ("overlap", 90.5, 100, 9.5), ("gap", 190.5, 200, 9.5), ("gap", DAY, DAY + 3600, 3600)])

    def test_a_channel_that_is_expected(self):
        """Wherever it has no data is a gap; without any it stands in each table."""
        self.report(0, segment(100, 100))
        self.report(1, segment(DAY, 10, "OTHER"))
        expect = ["XX.TEST.00.LHZ", "XX.GONE.00.LHZ"]
        found = [(one.id[3:7], at(one.start), at(one.end)) for one in gaps(self.reports, expect=expect)]
        self.assertEqual(found, [("GONE", 0, 2 * DAY), ("TEST", 0, 100), ("TEST", 200, 2 * DAY)])
        found = [(one.id[3:7], one.percent, one.gaps) for one in daily(self.reports, expect=expect, channel="XX.GONE.*", last=day(0), first=day(0))]
        self.assertEqual(found, [("GONE", 0, 1)])
        found = list(extents(self.reports, expect=expect))
        self.assertEqual(found[0], ("XX.GONE.00.LHZ", None, None, None, None, 0))
        self.assertEqual([one.id[3:7] for one in found], ["GONE", "OTHE", "TEST"])

    @unittest.skipUnless(importlib.util.find_spec("pandas"), "pandas is not there")
    def test_pandas(self):
        import pandas

        self.report(0, segment(0, 100), segment(130, 100))
        frame = pandas.DataFrame(gaps(self.reports))
        self.assertEqual(list(frame.columns), ["id", "kind", "start", "end", "seconds"])
        self.assertEqual(str(frame.start.dtype), "datetime64[ns, UTC]")
        self.assertEqual((frame.end - frame.start).dt.total_seconds().tolist(), frame.seconds.tolist())
        self.assertEqual(frame.start[0], pandas.Timestamp("2023-01-01T00:01:40Z"))
        self.assertEqual(list(pandas.DataFrame(daily(self.reports)).samples), [200])
        self.assertEqual(list(pandas.DataFrame(extents(self.reports)).samples), [100, 100])


# Typed from the description of the FDSN web service availability, version 1, and of GeoCSV 2.0.
QUERY_TEXT = """#Network Station Location Channel Quality SampleRate Earliest Latest
IU ANMO -- LHZ M 1.0 2018-01-01T00:00:00.069500Z 2018-01-01T11:59:59.069500Z
IU ANMO -- LHZ M 1.0 2018-01-01T12:30:00.069500Z 2018-01-01T23:59:59.069500Z
IU ANMO 00 VHZ M 0.1 2018-01-01T00:00:05.000000Z 2018-01-01T23:59:55.000000Z
"""
EXTENT_TEXT = """#Network Station Location Channel Quality SampleRate Earliest Latest Updated TimeSpans Restriction
IU ANMO -- LHZ M 1.0 2018-01-01T00:00:00.069500Z 2018-01-01T23:59:59.069500Z 2019-07-25T08:09:35Z 2 OPEN
IU ANMO 00 VHZ M 0.1 2018-01-01T00:00:05.000000Z 2018-01-01T23:59:55.000000Z 2019-07-25T08:09:35Z 1 OPEN
"""
QUERY_GEOCSV = """#dataset: GeoCSV 2.0
#delimiter: |
#field_unit: unitless|unitless|unitless|unitless|unitless|hertz|ISO_8601|ISO_8601
#field_type: string|string|string|string|string|float|datetime|datetime
Network|Station|Location|Channel|Quality|SampleRate|Earliest|Latest
IU|ANMO||LHZ|M|1.0|2018-01-01T00:00:00.069500Z|2018-01-01T11:59:59.069500Z
IU|ANMO||LHZ|M|1.0|2018-01-01T12:30:00.069500Z|2018-01-01T23:59:59.069500Z
IU|ANMO|00|VHZ|M|0.1|2018-01-01T00:00:05.000000Z|2018-01-01T23:59:55.000000Z
"""
EXTENT_GEOCSV = """#dataset: GeoCSV 2.0
#delimiter: |
#field_unit: unitless|unitless|unitless|unitless|unitless|hertz|ISO_8601|ISO_8601|ISO_8601|unitless|unitless
#field_type: string|string|string|string|string|float|datetime|datetime|datetime|integer|string
Network|Station|Location|Channel|Quality|SampleRate|Earliest|Latest|Updated|TimeSpans|Restriction
IU|ANMO||LHZ|M|1.0|2018-01-01T00:00:00.069500Z|2018-01-01T23:59:59.069500Z|2019-07-25T08:09:35Z|2|OPEN
IU|ANMO|00|VHZ|M|0.1|2018-01-01T00:00:05.000000Z|2018-01-01T23:59:55.000000Z|2019-07-25T08:09:35Z|1|OPEN
"""
LHZ = {"network": "IU", "station": "ANMO", "location": "", "channel": "LHZ", "quality": "M", "samplerate": 1.0}
VHZ = {"network": "IU", "station": "ANMO", "location": "00", "channel": "VHZ", "quality": "M", "samplerate": 0.1}
SPANS = [
    ["2018-01-01T00:00:00.069500Z", "2018-01-01T11:59:59.069500Z"], ["2018-01-01T12:30:00.069500Z", "2018-01-01T23:59:59.069500Z"],
]
QUERY_JSON = {"version": 1.0, "datasources": [
    {**LHZ, "timespans": SPANS}, {**VHZ, "timespans": [["2018-01-01T00:00:05.000000Z", "2018-01-01T23:59:55.000000Z"]]},
]}
REST = {"updated": "2019-07-25T08:09:35Z"}
EXTENT_JSON = {"version": 1.0, "datasources": [
    {**LHZ, "earliest": SPANS[0][0], "latest": SPANS[1][1], **REST, "timespanCount": 2, "restriction": "OPEN"},
    {**VHZ, "earliest": "2018-01-01T00:00:05.000000Z", "latest": "2018-01-01T23:59:55.000000Z", **REST, "timespanCount": 1,
     "restriction": "OPEN"},
]}


class Commands(Reports):
    def run_main(self, *words):
        out, err = io.StringIO(), io.StringIO()
        with contextlib.redirect_stdout(out), contextlib.redirect_stderr(err):
            status = main(list(words))
        self.assertEqual((status, err.getvalue()), (0, ""))
        return out.getvalue()

    def archive(self):
        """A day at ANMO."""
        start = 17_532 * DAY * 1_000_000
        flags = Flags(0, 0, 0)
        lhz = Segment("IU", "ANMO", "", "LHZ", "M", 1, 1, flags, 0, 0, start + 69_500, 43_200, 1, (0,))
        vhz = Segment("IU", "ANMO", "00", "VHZ", "M", -10, 1, flags, 0, 0, start + 5_000_000, 8640, 1, (0,))
        for some in ([lhz, lhz._replace(start=lhz.start + 45_000_000_000, samples=41_400)], [vhz]):
            told = "".join(f"{segment}\nseparators 0\n" for segment in some)
            text = f"{HEAD}{told}end {len(some)} segments {len(some)} records\n"
            path = self.path(f"reports/{some[0].id}.D.2018.001.txt", text.encode())
            written = datetime.datetime(2019, 7, 25, 8, 9, 35, tzinfo=datetime.timezone.utc).timestamp()
            os.utime(path, (written, written))

    def test_formats_of_the_availability_service(self):
        self.archive()
        for form, query, whole in (("fdsn", QUERY_TEXT, EXTENT_TEXT), ("geocsv", QUERY_GEOCSV, EXTENT_GEOCSV)):
            self.assertEqual(self.run_main("extents", self.reports, "--format", form), query)
            self.assertEqual(self.run_main("extents", self.reports, "--format", form, "--whole"), whole)
        for words, wanted in (((), QUERY_JSON), (("--whole",), EXTENT_JSON)):
            found = json.loads(self.run_main("extents", self.reports, "--format", "fdsn-json", *words))
            self.assertRegex(found.pop("created"), r"^\d{4}-\d\d-\d\dT\d\d:\d\d:\d\dZ$")
            self.assertEqual(found, wanted)
            self.assertEqual([list(one) for one in found["datasources"]], [list(one) for one in wanted["datasources"]])

    def test_expected_channels_are_no_extents_of_the_service(self):
        self.archive()
        expect = self.path("expect.txt", b"IU.GONE.00.LHZ\n")
        for form in ("fdsn", "geocsv"):
            for words in ((), ("--whole",)):
                text = self.run_main("extents", self.reports, "--format", form, *words)
                self.assertEqual(self.run_main("extents", self.reports, "--format", form, *words, "--expect", expect), text)
        text = self.run_main("extents", self.reports, "--expect", expect)
        self.assertIn("IU.GONE.00.LHZ - - - - 0", text.splitlines())

    def test_own_formats(self):
        self.archive()
        self.assertEqual(self.run_main("gaps", self.reports), (
            "# id kind start end seconds\n"
            "IU.ANMO..LHZ gap 2018-01-01T12:00:00.069500Z 2018-01-01T12:30:00.069500Z 1800\n"))
        self.assertEqual(self.run_main("daily", self.reports, "--format", "csv", "--channel", "*.LHZ"), (
            "id,day,percent,segments,gaps,overlaps,samples\nIU.ANMO..LHZ,2018-01-01,97.9167,2,1,0,84600\n"))
        [line] = self.run_main("extents", self.reports, "--format", "json", "--channel", "*.VHZ").splitlines()
        self.assertEqual(json.loads(line), {
            "id": "IU.ANMO.00.VHZ", "quality": "M", "rate": 0.1, "start": "2018-01-01T00:00:05.000000Z",
            "end": "2018-01-01T23:59:55.000000Z", "samples": 8640})
        geocsv = self.run_main("gaps", self.reports, "--format", "geocsv").splitlines()
        self.assertEqual(geocsv[4:], [
            "Network|Station|Location|Channel|Kind|Start|End|Seconds",
            "IU|ANMO||LHZ|gap|2018-01-01T12:00:00.069500Z|2018-01-01T12:30:00.069500Z|1800"])
        self.assertEqual({line.count("|") for line in geocsv[2:]}, {7})

    def test_to_a_file(self):
        self.archive()
        text = self.run_main("gaps", self.reports)
        self.assertEqual(self.run_main("gaps", self.reports, "-o", self.path("gaps.txt")), "")
        self.assertEqual(read(self.path("gaps.txt")).decode(), text)
        self.assertEqual(sorted(os.listdir(self.folder)), ["gaps.txt", "reports", "tmp"])

    def test_help(self):
        """It tells all commands, with an example each that is one."""
        with self.assertRaises(SystemExit) as caught, contextlib.redirect_stdout(io.StringIO()) as out:
            main(["--help"])
        self.assertEqual(caught.exception.code, 0)
        for command in ("availability", "extents", "gaps", "daily", "savings"):
            self.assertIn(f"python3 -m msrepack {command} ", out.getvalue())
            with self.assertRaises(SystemExit), contextlib.redirect_stdout(io.StringIO()) as own:
                main([command, "--help"])
            self.assertIn(f"example: python3 -m msrepack {command} ", " ".join(own.getvalue().split()))


if __name__ == "__main__":
    unittest.main()
