"""Pictures, by what is drawn: the bars of the axes are the seconds of the segments. Only where matplotlib is."""
import contextlib
import datetime
import importlib.util
import io
import itertools
import os
import random
import signal
import subprocess
import sys
import time
import unittest
import unittest.mock

from support import EXAMPLES, ROOT, Tidy, read

from msrepack import Report, archive, lines, plot
from msrepack.__main__ import main
from msrepack.report import Flags, Segment

HAS_MATPLOTLIB = importlib.util.find_spec("matplotlib") is not None
DAY = 86_400
FIRST = 19_358 * DAY
HEAD = "msrepack 1\nlength 512\ntolerance 1000\nread 9 empty 0 mismatched 0\n"


def segment(start, samples, station="TEST", rate=1, micros=0):
    """A segment that starts so many seconds after the start of 2023."""
    start = (FIRST + start) * 1_000_000 + micros
    return Segment("XX", station, "00", "LHZ", "D", rate, 1, Flags(0, 0, 0), 0, 0, start, samples, 1, (0,))


def bands(axes):
    """What draws the bars."""
    [found] = [artist for artist in axes.artists if artist.get_gid() == "bands"]
    return found


def seconds_drawn(axes, place, last):
    """The seconds after the start of 2023 in which a row has data, up to the last one that is asked for."""
    import numpy

    edges = (FIRST + numpy.arange(last + 1)) * 1_000_000
    return set(numpy.nonzero(bands(axes).shares(place, edges) > 0)[0].tolist())


def picture(figure):
    """The colours of its pixels, line by line."""
    import numpy

    file = io.BytesIO()
    figure.savefig(file, format="rgba")
    width, height = figure.canvas.get_width_height()
    return numpy.frombuffer(file.getvalue(), dtype=numpy.uint8).reshape(height, width, 4).astype(int)[:, :, :3]


def bar_drawn(figure, place):
    """The pixels in the middle of the bar of a row, from its left to its right."""
    pixels = picture(figure)
    [axes] = figure.axes
    height = len(pixels) - 1 - round(axes.transData.transform((0, place))[1])
    return pixels[height, round(axes.bbox.x0) : round(axes.bbox.x1)]


def rgb(colour):
    return [int(colour[at : at + 2], 16) for at in (1, 3, 5)]


def seconds(spans):
    """The whole seconds that spans have."""
    return {second for start, end in spans for second in range(int(start), int(end))}


def texts(axes):
    return [text.get_text() for text in axes.texts]


class Rows(unittest.TestCase):
    """Without matplotlib: the stretches, the gaps and the overlaps of a channel, against each second by itself."""

    def test_at_random(self):
        dice = random.Random(3)
        for _ in range(300):
            segments = [segment(dice.randrange(200), dice.randrange(1, 40)) for _ in range(dice.randrange(1, 12))]
            [row] = plot.rows_of(segments)
            counts = dict.fromkeys(range(300), 0)
            for one in segments:
                for second in range(one.samples):
                    counts[(one.start // 1_000_000 - FIRST) + second] += 1
            there = {second for second, count in counts.items() if count}
            self.assertEqual(self.of(row.stretches), there)
            self.assertEqual(self.of(row.gaps), set(range(min(there), max(there) + 1)) - there)
            self.assertEqual(self.of(row.overlaps), {second for second, count in counts.items() if count > 1})
            self.assertEqual(len(row.gaps), len(row.stretches) - 1)

    def of(self, spans):
        return seconds([(start // 1_000_000 - FIRST, end // 1_000_000 - FIRST) for start, end in spans])

    def test_half_a_sample(self):
        """What is off by half a sample goes on; what is off by more does not."""
        for apart, gaps, overlaps in ((0, 0, 0), (500_000, 0, 0), (500_001, 1, 0), (-500_000, 0, 0), (-500_001, 0, 1)):
            [row] = plot.rows_of([segment(0, 10), segment(10, 10, micros=apart)])
            self.assertEqual((len(row.gaps), len(row.overlaps)), (gaps, overlaps), apart)

    def test_those_of_a_folder(self):
        self.assertEqual([row.id for row in plot.rows_of([segment(0, 1, "B"), segment(0, 1, "A")])], ["XX.A.00.LHZ", "XX.B.00.LHZ"])


@unittest.skipUnless(HAS_MATPLOTLIB, "matplotlib is not there")
class Availability(unittest.TestCase):
    def test_bars_are_the_segments(self):
        dice = random.Random(4)
        given = {name: [segment(dice.randrange(DAY), dice.randrange(1, 9000), name) for _ in range(15)] for name in "ABC"}
        figure = plot.availability([one for name in "CAB" for one in given[name]])
        [axes] = figure.axes
        self.assertEqual([label.get_text() for label in axes.get_yticklabels()], [f"XX.{name}.00.LHZ" for name in "ABC"])
        for place, (name, text) in enumerate(zip("ABC", texts(axes))):
            begins = [(one.start // 1_000_000 - FIRST, one.samples) for one in given[name]]
            there = seconds([(start, start + samples) for start, samples in begins])
            first, last = (round(day * DAY) - FIRST for day in axes.get_xlim())
            self.assertEqual(seconds_drawn(axes, place, 2 * DAY), {it for it in there if it < last})
            self.assertEqual(text.split()[0], f"{100 * len([it for it in there if it < last]) / (last - first):.2f}")
            begun = [second for second in there if second - 1 not in there and second < last]
            self.assertEqual(text.split()[2], str(len(begun) - 1))

    def test_whole_days_or_those_that_are_asked_for(self):
        given = [segment(10, 5), segment(3 * DAY, DAY)]
        [axes] = plot.availability(given).axes
        self.assertEqual([round(day * DAY) - FIRST for day in axes.get_xlim()], [0, 4 * DAY])
        self.assertEqual(axes.get_title(loc="left"), "Data from 2023-01-01 to 2023-01-04 (UTC)")
        days = {"first": datetime.date(2023, 1, 4), "last": datetime.date(2023, 1, 4)}
        [axes] = plot.availability(given, **days).axes
        self.assertEqual(seconds_drawn(axes, 0, 5 * DAY), set(range(3 * DAY, 4 * DAY)))
        self.assertEqual(texts(axes), ["100.00 %  0 gaps"])
        self.assertEqual(axes.get_title(loc="left"), "Data of 2023-01-04 (UTC)")

    def test_the_legend_has_what_is_drawn(self):
        for given, wanted in (
            ([segment(0, DAY)], ["data"]),
            ([segment(0, 9000)], ["data", "none"]),
            ([segment(0, 9)], ["data", "in part", "none"]),
            ([segment(0, 9000), segment(9000, 9000, rate=2)], ["data", "none", "other rate"]),
            ([segment(0, DAY), segment(DAY + 1, DAY)], ["data", "none", "short gap"]),
            ([segment(0, DAY), segment(DAY - 9, DAY)], ["data", "none", "overlap"]),
        ):
            [axes] = plot.availability(given).axes
            self.assertEqual([text.get_text() for text in axes.get_legend().get_texts()], wanted)

    def test_all_and_nothing_are_told_only_if_they_are_so(self):
        for samples, told in ((DAY, "100.00 %  0 gaps"), (DAY - 1, " 99.99 %  0 gaps"), (1, "  0.01 %  0 gaps")):
            [axes] = plot.availability([segment(0, samples)]).axes
            self.assertEqual(texts(axes), [told])

    def test_what_is_narrower_than_a_pixel_has_a_tick(self):
        given = [segment(0, 40 * DAY), segment(40 * DAY + 2, 20 * DAY), segment(60 * DAY - 8, 10 * DAY), segment(80 * DAY, 9)]
        [axes] = plot.availability(given).axes
        [gaps], [overlaps] = ([one for one in axes.collections if one.get_gid() == f"{name} ticks"] for name in ("gap", "overlap"))
        places = [[float(line[0][0]) * DAY - FIRST for line in ticks.get_segments()] for ticks in (gaps, overlaps)]
        self.assertEqual([[round(place) for place in some] for some in places], [[40 * DAY + 1], [60 * DAY - 3]])
        self.assertEqual(texts(axes)[0].split("%")[1], "  2 gaps  1 overlap")
        heights = [ticks.get_segments()[0][:, 1] for ticks in (gaps, overlaps)]
        self.assertLess(max(heights[0]), 0)
        self.assertGreater(min(heights[1]), 0)

    def test_ticks_are_seen(self):
        """In the picture itself, of a gap of a second in a year."""
        figure = plot.availability([segment(0, 180 * DAY), segment(180 * DAY + 1, 185 * DAY - 1)])
        near = abs(picture(figure) - rgb(plot.GAP)).sum(axis=2) < 120
        self.assertGreater(near.sum(), 10)

    def test_data_narrower_than_a_pixel_are_seen(self):
        """A second, a minute and an hour in a year, wherever they are."""
        for samples in (1, 60, 3600):
            for start in (0, 100 * DAY + 12_345, 364 * DAY, 365 * DAY - samples):
                given = [segment(0, 365 * DAY, "ALL"), segment(start, samples, "FEW")]
                bar = bar_drawn(plot.availability(given), 1)
                blue = abs(bar - rgb(plot.DATA)).sum(axis=1) < 150
                self.assertIn(blue.sum(), (1, 2, 3), (samples, start))
                self.assertAlmostEqual(float(blue.nonzero()[0][0]) / len(bar), start / (365 * DAY), delta=3 / len(bar))

    def test_a_pixel_is_as_blue_as_its_time_has_data(self):
        """Of stretches that are much narrower, in each part of the year more of its time: no bands, and never darker for
        less."""
        parts = (0, 0.01, 0.1, 0.3, 0.6, 0.95, 1)
        day = [[] if not part else [segment(0, DAY)] if part == 1 else [
            segment(start, int(2000 * part)) for start in range(0, DAY - 2000, 2000)] for part in parts]
        given = [
            one._replace(start=one.start + (at * 50 + number) * DAY * 1_000_000)
            for at, some in enumerate(day) for number in range(50) for one in some
        ]
        window = {"first": datetime.date(2023, 1, 1), "last": datetime.date(2023, 12, 16)}
        bar = bar_drawn(plot.availability(given, **window), 0)
        width = len(bar) / len(parts)
        middles = [bar[round(at * width) + 4 : round((at + 1) * width) - 4] for at in range(len(parts))]
        reds = [float(some[:, 0].mean()) for some in middles]
        self.assertEqual(reds, sorted(reds, reverse=True))
        self.assertEqual((reds[0], reds[-1]), (rgb(plot.NOTHING)[0], rgb(plot.DATA)[0]))
        self.assertGreater(reds[0] - reds[1], 50)
        for some in middles:
            self.assertLess(some[:, 0].max() - some[:, 0].min(), 16)

    def test_too_many_short_gaps_have_no_ticks(self):
        """Between triggered stretches a gap is no fault: their number stands at the right, and a note."""
        for count, names, text, note in (
            (200, ["gap ticks"], "199 gaps", False), (202, [], "201 gaps*", False), (5412, [], "5,411 gaps*", True)
        ):
            step = 365 * DAY // 5500
            [axes] = plot.availability([segment(0, 1, "Z"), segment(365 * DAY - 1, 1, "Z")] + [segment(at * step, step - 60) for at in range(count)]).axes
            self.assertTrue(texts(axes)[0].endswith(text), texts(axes))
            self.assertEqual("too short" in axes.get_xlabel(), "*" in text)
            self.assertEqual([one.get_gid() for one in axes.collections if one.get_gid() == "gap ticks"], names)

    def test_a_row_of_many_stretches_is_one_image(self):
        """Ten times as many stretches take little longer."""
        def cost(count):
            given = [segment(at * 315, 10) for at in range(count)]
            figure = plot.availability(given, first=datetime.date(2023, 1, 1), last=datetime.date(2023, 12, 31))
            began = time.process_time()
            figure.savefig(io.BytesIO(), format="png")
            return time.process_time() - began

        cost(10)
        self.assertLess(cost(50_000), 5 * cost(500) + 0.5)

    def test_a_channel_that_is_expected(self):
        given = [segment(0, DAY // 2)]
        expect = ["XX.TEST.00.LHZ", "XX.GONE.00.LHZ", "YY.OTHER.00.LHZ"]
        [axes] = plot.availability(given, expect=expect, channel="XX.*").axes
        self.assertEqual([label.get_text() for label in axes.get_yticklabels()], ["XX.GONE.00.LHZ", "XX.TEST.00.LHZ"])
        self.assertEqual(texts(axes), ["  0.00 %  1 gap", " 50.00 %  1 gap"])

    def test_names_are_text(self):
        """A `$` begins no formula."""
        given = [segment(0, DAY, "A$B$"), segment(0, DAY, "_^$")]
        figure = plot.availability(given)
        figure.draw_without_rendering()
        [axes] = figure.axes
        self.assertEqual([label.get_text() for label in axes.get_yticklabels()], ["XX.A$B$.00.LHZ", "XX._^$.00.LHZ"])
        self.assertEqual({label.get_parse_math() for label in axes.get_yticklabels()}, {False})

    def test_a_change_of_rate(self):
        [axes] = plot.availability([segment(0, DAY), segment(DAY, 2 * DAY, rate=2), segment(2 * DAY, 2 * DAY, rate=2)]).axes
        [marks] = [one for one in axes.collections if one.get_gid() == "rates"]
        self.assertEqual([round(float(line[0][0]) * DAY) - FIRST for line in marks.get_segments()], [DAY])

    def test_pages(self):
        given = [segment(number, 1000, f"S{number:03}") for number in range(95)]
        figures = list(plot.availability_pages(given))
        names = [[label.get_text() for label in figure.axes[0].get_yticklabels()] for figure in figures]
        self.assertEqual(list(map(len, names)), [40, 40, 15])
        self.assertEqual([name for page in names for name in page], [f"XX.S{number:03}.00.LHZ" for number in range(95)])
        self.assertEqual(len({figure.axes[0].get_xlim() for figure in figures}), 1)

    def test_labels_do_not_overlap(self):
        given = [segment(number, 1000 + 500 * step, f"S{number:03}") for number in range(40) for step in range(2)]
        for figure in (plot.availability(given[:2]), plot.availability(given)):
            figure.draw_without_rendering()
            [axes] = figure.axes
            for some in (axes.get_yticklabels(), axes.get_xticklabels(), axes.texts, [axes.title, axes._left_title, axes.get_legend()]):
                boxes = [text.get_window_extent() for text in some if not hasattr(text, "get_text") or text.get_text()]
                for one, other in itertools.combinations(boxes, 2):
                    self.assertFalse(one.overlaps(other), (one, other))
            edge = figure.bbox
            for text in (*axes.get_yticklabels(), *axes.texts):
                box = text.get_window_extent()
                self.assertTrue(edge.x0 <= box.x0 and box.x1 <= edge.x1, text.get_text())

    def test_a_figure_of_ones_own(self):
        from matplotlib.figure import Figure

        own = Figure(figsize=(4, 3))
        self.assertIs(plot.availability([segment(0, 9)], figure=own), own)
        self.assertEqual(len(own.axes), 1)

    def test_axes_of_ones_own(self):
        from matplotlib.figure import Figure

        own = Figure(figsize=(9, 6))
        above, below = own.subplots(2)
        self.assertIs(plot.availability([segment(0, 9)], ax=below), own)
        self.assertEqual((len(above.artists), len(below.artists), len(own.axes)), (0, 1, 2))
        line = "done 2020/XX/TEST/BHN.D/XX.TEST.00.BHN.D.2020.001 read 5 written 3 bytes 2560 1536"
        self.assertIs(plot.savings([lines.parse(line)], ax=own.subplots(1, 2)), own)
        own.savefig(io.BytesIO(), format="png")

    def test_nothing_to_draw(self):
        later = datetime.date(2024, 1, 1)
        for given, asked in (([], {}), ([segment(0, 9)], {"channel": "YY.*"}), ([segment(0, 9)], {"first": later})):
            with self.assertRaisesRegex(ValueError, "no data of that channel and time"):
                plot.availability(given, **asked)


@unittest.skipUnless(HAS_MATPLOTLIB, "matplotlib is not there")
class Savings(unittest.TestCase):
    def day(self, kind, station, year, day, *counts):
        name = f"XX.{station}.00.LHZ.D.{year}.{day:03}"
        return kind(f"{year}/XX/{station}/LHZ.D/{name}", *counts)

    def test_bars_are_the_sums(self):
        given = [
            self.day(lines.Done, "A", 2022, 365, 10, 7, 5120, 3584),
            self.day(lines.Done, "A", 2023, 1, 20, 9, 10240, 4608),
            self.day(lines.Same, "A", 2023, 2, 30, 10, 15360, 5120),
            self.day(lines.Done, "B", 2023, 1, 8, 9, 4096, 4608),
            self.day(lines.Larger, "B", 2023, 2, 8, 9, 4096, 4608),
            lines.Skipped("notes.txt", "not an SDS path"),
            lines.Channel("XX.A.00.LHZ", 3, 60, 26, 30720, 13312),
        ]
        figure = plot.savings(given)
        sizes, records = figure.axes
        widths = [[bar.get_width() for bar in axes.patches] for axes in figure.axes]
        self.assertEqual([round(width * 1000) for width in widths[0]], [5120, 25600, 4096, 3584, 9728, 4608])
        self.assertEqual(widths[1], [10, 50, 8, 7, 19, 9])
        names = [label.get_text() for label in sizes.get_yticklabels()]
        self.assertEqual(names, ["XX.A.00.LHZ 2022", "XX.A.00.LHZ 2023", "XX.B.00.LHZ 2023"])
        self.assertEqual((sizes.get_xlabel(), records.get_xlabel()), ("bytes (kB)", "records"))
        self.assertEqual(texts(sizes), ["-30.0 %", "-62.0 %", "+12.5 %"])
        title = "A repack of 4 files: 34.8 to 17.9 kB (-48.5 %), 68 to 35 records (-48.5 %)"
        self.assertEqual(sizes.get_title(loc="left"), title)

    def test_no_change_has_no_sign(self):
        figure = plot.savings([self.day(lines.Done, "A", 2022, 1, 10_000, 9_999, 5_120_000, 5_120_000)])
        self.assertEqual([texts(axes) for axes in figure.axes], [["0.0 %"], ["0.0 %"]])

    def test_plain_numbers_of_every_size(self):
        """No exponents, and no labels over one another."""
        for count in (0, 1, 7, 999, 12_345, 99_999, 1_400_000, 23_000_000, 4_500_000_000):
            figure = plot.savings([self.day(lines.Done, "A", 2022, 1, count, count // 2, 512 * count, 256 * count)])
            figure.draw_without_rendering()
            for axes in figure.axes:
                labels = [text for text in axes.get_xticklabels() if text.get_text()]
                for one in labels:
                    self.assertRegex(one.get_text(), r"^[0-9,.]{1,9}$")
                for one, other in itertools.combinations(labels, 2):
                    self.assertFalse(one.get_window_extent().overlaps(other.get_window_extent()), (count, one, other))

    def test_pages_have_one_scale_and_the_grand_total(self):
        given = [self.day(lines.Done, f"S{at:02}", 2022, 1, 10 + 40_000 * at, 9, 5120 + 2_048_000 * at, 4608) for at in range(90)]
        figures = list(plot.savings_pages(given))
        self.assertEqual(len(figures), 3)
        told = {(tuple(axes.get_xlabel() for axes in it.axes), it.axes[0].get_title(loc="left")) for it in figures}
        self.assertEqual(len(told), 1)
        self.assertEqual(len({axes.get_xlim() for it in figures for axes in it.axes[:1]}), 1)
        self.assertEqual(len({axes.get_xlim() for it in figures for axes in it.axes[1:]}), 1)
        [(_, title)] = told
        self.assertTrue(title.startswith("A repack of 90 files: "), title)

    def test_lines_without_bytes(self):
        with self.assertRaisesRegex(ValueError, "archive --bytes"):
            plot.savings([self.day(lines.Done, "A", 2022, 365, 10, 7)])


@unittest.skipUnless(HAS_MATPLOTLIB, "matplotlib is not there")
class Commands(Tidy):
    def run_main(self, *words):
        out, err = io.StringIO(), io.StringIO()
        with contextlib.redirect_stdout(out), contextlib.redirect_stderr(err):
            status = main(list(words))
        return status, out.getvalue(), err.getvalue()

    def setUp(self):
        super().setUp()
        self.reports = self.path("reports")

    def tearDown(self):
        # Matplotlib keeps its fonts open.
        self.opened = sorted(os.listdir("/proc/self/fd"))
        super().tearDown()

    def report(self, *segments):
        """A report of one channel and day, at its place."""
        one = segments[0]
        told = "".join(f"{segment}\nseparators 0\n" for segment in segments)
        text = f"{HEAD}{told}end {len(segments)} segments {len(segments)} records\n"
        self.assertEqual(str(Report.parse(text)), text)
        name = f"{one.id}.D.{one.start_time:%Y.%j}"
        return self.path(f"reports/{one.start_time.year}/XX/{one.station}/LHZ.D/{name}.txt", text.encode())

    def test_of_a_walk(self):
        log = self.path("log.txt")
        with open(log, "w", encoding="utf-8") as file:
            for line in archive(os.path.join(EXAMPLES, "sds"), self.path("packed"), self.reports, bytes=True):
                print(line, file=file)
        for suffix, begins in (("png", b"\x89PNG"), ("svg", b"<?xml"), ("pdf", b"%PDF")):
            for command, given in (("availability", self.reports), ("savings", log)):
                name = self.path(f"{command}.{suffix}")
                self.assertEqual(self.run_main(command, given, "-o", name), (0, f"{name}\n", ""))
                with open(name, "rb") as file:
                    self.assertEqual(file.read(len(begins)), begins)

    def test_pages(self):
        for number in range(45):
            self.report(segment(0, 10, f"S{number}"))
        name = self.path("year.png")
        self.assertEqual(self.run_main("availability", self.reports, "-o", name)[1], f"{name[:-4]}-1.png\n{name[:-4]}-2.png\n")
        self.assertEqual(sorted(os.listdir(self.folder)), ["reports", "tmp", "year-1.png", "year-2.png"])
        self.assertEqual(self.run_main("availability", self.reports, "-o", self.path("a.pdf"))[0], 0)
        with open(self.path("a.pdf"), "rb") as file:
            self.assertIn(b"/Count 2", file.read())

    def test_a_name_without_a_suffix_and_one_of_no_file(self):
        self.report(segment(0, 10))
        self.assertEqual(self.run_main("availability", self.reports, "-o", self.path("year")), (0, f"{self.path('year')}.png\n", ""))
        os.mkdir(self.path("there.png"))
        status, _, told = self.run_main("availability", self.reports, "-o", self.path("there.png"))
        self.assertEqual((status, told), (1, f"msrepack: no regular file: {self.path('there.png')}\n"))
        self.assertEqual(sorted(os.listdir(self.folder)), ["reports", "there.png", "tmp", "year.png"])

    def test_only_what_is_asked_for_is_read(self):
        for day in range(9):
            for station in "AB":
                self.report(segment(day * DAY, DAY, station))
        for path in (self.report(segment(8 * DAY, 9, "A")), self.report(segment(3 * DAY, 9, "B"))):
            with open(path, "w", encoding="utf-8") as file:
                file.write("not one\n")
        words = ("--from", "2023-01-03", "--to", "2023-005", "--channel", "XX.A.*", "-o", self.path("a.png"))
        self.assertEqual(self.run_main("availability", self.reports, *words)[0], 0)
        status, _, told = self.run_main("availability", self.reports, "-o", self.path("a.png"))
        self.assertEqual((status, told.count("\n"), told.count("not read: "), told.count("no report")), (1, 2, 2, 2))

    def test_what_cannot_be_done(self):
        self.report(segment(0, 10))
        for words, told in (
            (("availability", self.path("nowhere")), "No such file or directory"),
            (("availability", self.path("tmp")), "no reports below"),
            (("availability", os.path.join(EXAMPLES, "one-record.mseed")), "miniSEED, no report"),
            (("availability", self.path("bad.txt", b"not one")), "bad.txt: no report\n"),
            (("availability", self.path("bad.txt")), "no report could be read"),
            (("availability", self.path("XX.TEST.00.LHZ.D.2023.001.txt", b"not one")), "no report could be read"),
            (("gaps", self.path("bad.txt")), "not read: "),
            (("availability", self.reports, "--channel", "YY*"), "no data of that channel and time"),
            (("availability", self.reports, "--from", "2023-02-01"), "no data of that channel and time"),
            (("availability", self.reports, "--from", "2023-02-01", "--to", "2023-01-31"), "the time ends before it begins"),
            (("savings", self.report(segment(0, 9))), "archive --bytes"),
            (("savings", self.path("nowhere")), "No such file"),
        ):
            status, _, complaint = self.run_main(*words, "-o", self.path("a.png"))
            self.assertEqual(status, 1)
            self.assertIn(told, complaint)

    def test_numbers_of_pages_have_one_width(self):
        from matplotlib.figure import Figure

        for number in range(401):
            self.report(segment(0, 10, f"S{number}"))
        with unittest.mock.patch.object(plot, "draw_rows", return_value=Figure(figsize=(1, 1))):
            printed = self.run_main("availability", self.reports, "-o", self.path("a.png"))[1]
        self.assertEqual([os.path.basename(name) for name in printed.split()], [f"a-{number:02}.png" for number in range(1, 12)])

    def test_a_full_disk_leaves_no_picture(self):
        """Nothing under the name, and nothing beside it."""
        self.report(segment(0, 10))
        self.path("old.png", b"as before")
        script = "import resource, signal, sys; signal.signal(signal.SIGXFSZ, signal.SIG_IGN)\n"
        script += "from msrepack.__main__ import main; import matplotlib.figure\n"
        script += "matplotlib.figure.Figure().savefig('/dev/null', format='png')\n"
        script += "resource.setrlimit(resource.RLIMIT_FSIZE, (1000, 1000)); sys.exit(main(sys.argv[1:]))"
        for name in ("new.png", "old.png", "new.pdf", "new.svg"):
            words = [sys.executable, "-B", "-c", script, "availability", self.reports, "-o", self.path(name)]
            ran = subprocess.run(words, cwd=os.path.join(ROOT, "python"), capture_output=True, text=True, check=False)
            self.assertEqual((ran.returncode, "File too large" in ran.stderr), (1, True), ran.stderr)
            self.assertEqual(sorted(os.listdir(self.folder)), ["old.png", "reports", "tmp"])
        self.assertEqual(read(self.path("old.png")), b"as before")

    def test_ctrl_c(self):
        """No traceback, and nothing left."""
        os.mkfifo(self.path("waits.txt"))
        words = [sys.executable, "-B", "-m", "msrepack", "availability", self.path("waits.txt"), "-o", self.path("a.png")]
        with subprocess.Popen(words, cwd=os.path.join(ROOT, "python"), stdout=subprocess.PIPE, stderr=subprocess.PIPE) as ran:
            with open(self.path("waits.txt"), "wb"):
                ran.send_signal(signal.SIGINT)
                printed = ran.communicate()
        self.assertEqual((*printed, ran.returncode), (b"", b"", 130))
        self.assertEqual(sorted(os.listdir(self.folder)), ["tmp", "waits.txt"])

    def test_the_bar_covers_the_drawing(self):
        """What a terminal is told: how many reports are read, then each page; at the end nothing is left of it."""
        for number in range(45):
            self.report(segment(0, 10, f"S{number}"))
        terminal = unittest.mock.Mock(wraps=io.StringIO(), isatty=lambda: True)
        with contextlib.redirect_stderr(terminal), contextlib.redirect_stdout(io.StringIO()):
            main(["availability", self.reports, "-o", self.path("a.pdf")])
        shown = "".join(call.args[0] for call in terminal.write.call_args_list).split("\r")
        self.assertIn("[######################   ] 88 % of 45 reports ", shown)
        self.assertIn("[#########################] 100 % of 45 reports, page 2 ", shown)
        self.assertEqual(shown[-1], "\033[K")

    def test_below(self):
        for station, samples in (("FULL", DAY), ("HALF", DAY // 2), ("FEW", 60)):
            self.report(segment(0, samples, station))
        expect = self.path("expect.txt", b"# ours\nXX.GONE.00.LHZ # was there\n\nXX.FULL.00.LHZ\n")
        words = (self.reports, "--expect", expect, "-o", self.path("a.png"))
        for command in ("availability", "daily"):
            for percent, names in (("0", []), ("50", ["FEW", "GONE"]), ("50.01", ["FEW", "GONE", "HALF"]), ("100", ["FEW", "GONE", "HALF"])):
                status, _, told = self.run_main(command, *words, "--below", percent)
                self.assertEqual([line.split(": ")[1].split(".")[1] for line in told.splitlines()], names)
                self.assertEqual(status, 1 if names else 0)
        status, _, told = self.run_main("availability", self.reports, "--expect", self.path("other", b"XX.A.00.LHZ\nXX.*.00.LHZ\n"))
        self.assertEqual((status, "line 2: not a channel" in told), (1, True))


if __name__ == "__main__":
    unittest.main()
