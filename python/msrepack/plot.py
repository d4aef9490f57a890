"""Pictures of reports and of the lines of `archive`, by matplotlib, which is asked for only here.

A function that draws gives a matplotlib `Figure`, and draws into yours if you give one, or into your axes (`ax`).
"""
from __future__ import annotations

import datetime
import importlib
import os
from typing import TYPE_CHECKING, Any, Dict, Iterable, Iterator, List, NamedTuple, Optional, Sequence, Tuple

from msrepack.channels import Row, part_of, row_of, rows as rows_within
from msrepack.lines import Done, Line, Same
from msrepack.report import DAY, Segment
from msrepack.sources import NAME, Day, Given, Source, Span, day_of, read_reports, report_files

if TYPE_CHECKING:
    from msrepack.bands import Axes, Figure, PdfPages

__all__ = [
    "Row", "Saving", "availability", "availability_pages", "pdf_pages", "read_reports", "report_files", "rows_of", "savings",
    "savings_of", "savings_pages",
]
ROWS = 40
WIDTH, DPI = 11.0, 110
# A row has ticks for its short gaps, if they are not more.
MOST_TICKS = 200
# Colours that the colour-blind tell apart (Okabe and Ito), and one for nothing.
DATA, PART, NOTHING, GAP, OVERLAP, RATE = "#0072b2", "#9dbccb", "#f1e3d8", "#d55e00", "#000000", "#009e73"
BEFORE = "#b3b3b3"
SIZES = ((1e12, "TB"), (1e9, "GB"), (1e6, "MB"), (1e3, "kB"), (1, "B"))
NUMBERS = ((1e9, "billions"), (1e6, "millions"), (1e3, "thousands"), (1, ""))


def _matplotlib(name: str) -> Any:
    try:
        return importlib.import_module(f"matplotlib.{name}")
    except ImportError as why:
        raise ImportError("pictures are drawn by matplotlib: apt-get install python3-matplotlib") from why


def _new_figure(height: float, **layout: Any) -> Figure:
    figure: Figure = _matplotlib("figure").Figure(figsize=(WIDTH, height), dpi=DPI, **layout)
    return figure


def pdf_pages(name: str) -> PdfPages:
    """A PDF of pages, as matplotlib makes it."""
    pages: PdfPages = _matplotlib("backends.backend_pdf").PdfPages(name)
    return pages


def rows_of(segments: Iterable[Segment]) -> List[Row]:
    """The channels of segments, by name.

    >>> rows_of([])
    []
    """
    found: Dict[str, List[Segment]] = {}
    for segment in segments:
        found.setdefault(segment.id, []).append(segment)
    return [row_of(name, found[name]) for name in sorted(found)]


# Availability.


def availability(
    reports: Given,
    *,
    first: Optional[Day] = None,
    last: Optional[Day] = None,
    channel: str = "*",
    expect: Sequence[str] = (),
    figure: Optional[Figure] = None,
    ax: Optional[Axes] = None,
) -> Figure:
    """The data of each channel over time, in one figure: bars of data, gaps and overlaps, per cent present at the right.

    `reports` is a folder, a report, several of these, or segments. `first` and `last` are days; without them the days are
    those that the reports are named after. A channel of `expect` is drawn even if it has no data.

    >>> import msrepack
    >>> figure = availability(msrepack.segments("examples/two-segments.mseed"))
    >>> figure.axes[0].get_yticklabels()[0].get_text()
    'XX.TEST.00.BHZ'
    """
    source = Source(reports, channel)
    window = source.window(first, last)
    [found] = _batches(rows_within(source, window, expect), None)
    return draw_rows(found, window, figure, ax)


def availability_pages(
    reports: Given,
    *,
    first: Optional[Day] = None,
    last: Optional[Day] = None,
    channel: str = "*",
    expect: Sequence[str] = (),
    rows_of_page: int = ROWS,
) -> Iterator[Figure]:
    """The same on as many figures as it takes, all of the same time. A page is drawn once its channels are read.

    >>> import msrepack
    >>> len(list(availability_pages(msrepack.segments("examples/two-segments.mseed"))))
    1
    """
    source = Source(reports, channel)
    window = source.window(first, last)
    return pages_of(rows_within(source, window, expect), window, rows_of_page)


def pages_of(rows: Iterable[Row], window: Span, rows_of_page: int = ROWS) -> Iterator[Figure]:
    """The pages of rows, which are taken as they come."""
    return (draw_rows(some, window) for some in _batches(rows, rows_of_page))


def _batches(rows: Iterable[Row], most: Optional[int]) -> Iterator[List[Row]]:
    batch: List[Row] = []
    count = 0
    for count, row in enumerate(rows, 1):
        batch.append(row)
        if len(batch) == most:
            yield batch
            batch = []
    if batch:
        yield batch
    if not count:
        raise ValueError("no data of that channel and time")


def draw_rows(rows: Sequence[Row], window: Span, figure: Optional[Figure] = None, ax: Optional[Axes] = None) -> Figure:
    """Draws rows over a time, each as one image. A gap or an overlap that is narrower than a pixel gets a tick, a gap above
    its bar and an overlap below it, unless the row has too many."""
    start, end = window
    page: Any = figure if ax is None else ax.figure
    pixel = (end - start) / (0.7 * (page.get_figwidth() * page.dpi if page is not None else WIDTH * DPI))
    told = [_told(row, window, pixel) for row in rows]
    if ax is None and figure is None:
        ax = _axes_of(rows, told)
    axes: Any = ax if ax is not None or figure is None else figure.subplots()
    axes.add_artist(_bands(rows, window, (NOTHING, DATA, OVERLAP)))
    drawn = {"data"} if any(row.stretches for row in rows) else set()
    drawn |= {"part"} if any(_narrow(row.stretches, pixel) or "*" in text for row, text in zip(rows, told)) else set()
    for place, row in enumerate(rows):
        drawn |= {"nothing"} if row.present < end - start else set()
        drawn |= {"overlap"} if row.overlaps else set()
        for spans, low, high, colour, name in (
            (_narrow(row.gaps, pixel), place - 0.48, place - 0.18, GAP, "gap ticks"),
            (_narrow(row.overlaps, pixel), place + 0.18, place + 0.48, OVERLAP, "overlap ticks"),
            ([(it, it) for it in row.changes], place - 0.4, place + 0.4, RATE, "rates"),
        ):
            if 0 < len(spans) <= MOST_TICKS:
                middles = [_day(sum(span) / 2) for span in spans]
                axes.vlines(middles, low, high, color=colour, linewidth=1.6 if name == "rates" else 1, gid=name)
                drawn.add(name)
    _label_rows(axes, [row.id for row in rows], told)
    _label_time(axes, window)
    if any("*" in text for text in told):
        axes.set_xlabel(f"* more than {MOST_TICKS} that are too short to be drawn: they have no ticks", fontsize=8, loc="right")
    _legend(axes, drawn)
    found: Figure = axes.figure
    return found


def _bands(rows: Sequence[Row], window: Span, colours: Tuple[str, str, str]) -> Any:
    _matplotlib("artist")
    return importlib.import_module("msrepack.bands").Bands(rows, window, colours)


def _narrow(spans: Sequence[Span], pixel: float) -> List[Span]:
    return [span for span in spans if span[1] - span[0] < 1.5 * pixel]


def _axes_of(rows: Sequence[Row], told: Sequence[str]) -> Axes:
    """New axes with room for the names at their left and what is told at their right, both in letters of one width."""
    below = 0.6 if any("*" in text for text in told) else 0.4
    height = 0.36 + 0.4 * len(rows) + below
    figure = _new_figure(height)
    left = 0.2 + 9 * 0.61 / 72 * max(len(row.id) for row in rows)
    right = 0.2 + 8 * 0.61 / 72 * max(map(len, told)) + 0.01 * WIDTH
    sides = {"left": left / WIDTH, "right": 1 - right / WIDTH, "top": 1 - 0.36 / height, "bottom": below / height}
    axes: Axes = figure.subplots(gridspec_kw=sides)
    return axes


def _time_told(window: Span) -> str:
    """The days from the first to the last."""
    first, last = day_of(window[0]), day_of(window[1] - 1)
    return f"of {first}" if first == last else f"from {first} to {last}"


def _day(micros: float) -> float:
    """Matplotlib counts days from 1970 on."""
    return micros / DAY


def _told(row: Row, window: Span, pixel: float) -> str:
    """Per cent present, and how many gaps and overlaps; a star if they have no ticks."""
    counts = []
    for spans, name in ((row.gaps, "gap"), (row.overlaps, "overlap")):
        star = "*" if len(_narrow(spans, pixel)) > MOST_TICKS else ""
        counts += [f"  {_counted(len(spans), name)}{star}"] * (name == "gap" or bool(spans))
    return f"{part_of(row.present, window[1] - window[0], 2):6.2f} %{''.join(counts)}"


def _counted(count: int, name: str) -> str:
    return f"{count:,} {name}{'' if count == 1 else 's'}"


def _label_rows(axes: Any, names: Sequence[str], told: Sequence[str]) -> None:
    """Names at the left, and what is told of them at the right. A `$` in a name begins no formula."""
    axes.set_yticks(range(len(names)), names, family="monospace", fontsize=9, parse_math=False)
    axes.set_ylim(len(names) - 0.45, -0.55)
    for place, text in enumerate(told):
        axes.text(1.01, place, text, transform=axes.get_yaxis_transform(), va="center", fontsize=8, family="monospace")
    for side in ("top", "right", "left"):
        axes.spines[side].set_visible(False)
    axes.tick_params(axis="y", left=False)


def _label_time(axes: Any, window: Span) -> None:
    dates = _matplotlib("dates")
    axes.set_xlim(_day(window[0]), _day(window[1]))
    axes.xaxis_date(tz=datetime.timezone.utc)
    where = dates.AutoDateLocator(tz=datetime.timezone.utc)
    axes.xaxis.set_major_locator(where)
    axes.xaxis.set_major_formatter(dates.ConciseDateFormatter(where, tz=datetime.timezone.utc, show_offset=False))
    axes.set_title(f"Data {_time_told(window)} (UTC)", fontsize=10, loc="left")


def _legend(axes: Any, drawn: Iterable[str]) -> None:
    """What the colours are that were drawn."""
    patch, line = _matplotlib("patches").Patch, _matplotlib("lines").Line2D
    marks = {
        "data": patch(color=DATA, label="data"),
        "part": patch(color=PART, label="in part"),
        "nothing": patch(color=NOTHING, label="none"),
        "gap ticks": line([], [], color=GAP, marker="|", linestyle="", label="short gap"),
        "overlap": patch(color=OVERLAP, label="overlap"),
        "rates": line([], [], color=RATE, marker="|", markeredgewidth=1.6, linestyle="", label="other rate"),
    }
    handles = [mark for name, mark in marks.items() if name in drawn]
    place = {"loc": "lower right", "bbox_to_anchor": (1.0, 1.0), "ncol": len(handles)}
    small = {"fontsize": 8, "borderpad": 0, "handlelength": 1.5, "handletextpad": 0.5, "columnspacing": 1.2}
    axes.legend(handles=handles, **place, **small, frameon=False)


# Savings.


class Saving(NamedTuple):
    """What a walk made of a channel in a year: files, and records and bytes before and after.

    >>> from msrepack import lines, plot
    >>> line = "done 2020/XX/TEST/BHN.D/XX.TEST.00.BHN.D.2020.001 read 5 written 3 bytes 2560 1536"
    >>> plot.savings_of([lines.parse(line)])
    [Saving(id='XX.TEST.00.BHN', year=2020, files=1, read=5, written=3, bytes_read=2560, bytes_written=1536)]
    """

    id: str
    year: int
    files: int
    read: int
    written: int
    bytes_read: int
    bytes_written: int


def savings_of(lines: Iterable[Line]) -> List[Saving]:
    """The sums of the lines of `archive` that have bytes and tell a day that is done or the same, by channel and year.

    >>> savings_of([])
    []
    """
    sums: Dict[Tuple[str, int], List[int]] = {}
    for line in lines:
        if not isinstance(line, (Done, Same)) or line.bytes_read is None or line.bytes_written is None:
            continue
        found = NAME.match(os.path.basename(line.path))
        if found:
            counts = (1, line.read, line.written, line.bytes_read, line.bytes_written)
            before = sums.get((found[1], int(found[2])), [0] * 5)
            sums[found[1], int(found[2])] = [one + other for one, other in zip(before, counts)]
    return [Saving(*key, *sums[key]) for key in sorted(sums)]


class _Scales(NamedTuple):
    """What all pages have in common: of bytes and of records the unit, its name, the most that a bar has, and the sums."""

    title: str
    sizes: Tuple[float, str, int]
    records: Tuple[float, str, int]


def savings(lines: Iterable[Line], *, figure: Optional[Figure] = None, ax: Optional[Sequence[Axes]] = None) -> Figure:
    """Bytes and records before and after a walk, by channel and year, from its lines, which have to tell bytes. `ax` is
    the axes for bytes and those for records.

    >>> from msrepack.lines import parse
    >>> line = "done 2020/XX/TEST/BHN.D/XX.TEST.00.BHN.D.2020.001 read 5 written 3 bytes 2560 1536"
    >>> [axes.get_xlabel() for axes in savings([parse(line)]).axes]
    ['bytes (kB)', 'records']
    """
    rows = _some(savings_of(lines))
    return _draw_savings(rows, _scales_of(rows), figure, ax)


def savings_pages(lines: Iterable[Line], *, rows_of_page: int = ROWS) -> Iterator[Figure]:
    """The same on as many figures as it takes, all with the same scales.

    >>> from msrepack.lines import parse
    >>> line = "done 2020/XX/TEST/BHN.D/XX.TEST.00.BHN.D.2020.001 read 5 written 3 bytes 2560 1536"
    >>> len(list(savings_pages([parse(line)])))
    1
    """
    rows = _some(savings_of(lines))
    scales = _scales_of(rows)
    for place in range(0, len(rows), rows_of_page):
        yield _draw_savings(rows[place : place + rows_of_page], scales)


def _some(rows: List[Saving]) -> List[Saving]:
    if not rows:
        raise ValueError("no line tells the bytes of a day: they are those of archive --bytes")
    return rows


def _scales_of(rows: Sequence[Saving]) -> _Scales:
    read, written = sum(row.read for row in rows), sum(row.written for row in rows)
    size, packed = sum(row.bytes_read for row in rows), sum(row.bytes_written for row in rows)
    most_bytes = max(max(row.bytes_read, row.bytes_written) for row in rows)
    most_records = max(max(row.read, row.written) for row in rows)
    unit, name = _unit_of(SIZES, max(size, packed))
    files = _counted(sum(row.files for row in rows), "file")
    sizes = f"{size / unit:,.1f} to {packed / unit:,.1f} {name} ({_change(size, packed)})"
    records = f"{read:,} to {written:,} records ({_change(read, written)})"
    return _Scales(
        f"A repack of {files}: {sizes}, {records}",
        (*_unit_of(SIZES, most_bytes), most_bytes),
        (*_unit_of(NUMBERS, most_records if most_records >= 100_000 else 1), most_records),
    )


def _unit_of(units: Sequence[Tuple[float, str]], most: int) -> Tuple[float, str]:
    return next((unit for unit in units if most >= unit[0]), units[-1])


def _change(before: int, after: int) -> str:
    """How many per cent more or fewer."""
    if not before:
        return ""
    text = f"{100 * (after - before) / before:+.1f} %"
    return text[1:] if text[1:] == "0.0 %" else text


def _draw_savings(
    rows: Sequence[Saving], scales: _Scales, figure: Optional[Figure] = None, ax: Optional[Sequence[Axes]] = None
) -> Figure:
    """Draws two bars for each channel and year, before and after, of bytes and of records."""
    if ax is None:
        figure = figure or _new_figure(1.6 + 0.42 * len(rows), layout="constrained")
        panels: Any = figure.subplots(1, 2, sharey=True)
    else:
        panels = ax
    _draw_pairs(panels[0], [(row.bytes_read, row.bytes_written) for row in rows], scales.sizes, "bytes")
    _draw_pairs(panels[1], [(row.read, row.written) for row in rows], scales.records, "records")
    names = [f"{row.id} {row.year}" for row in rows]
    panels[0].set_yticks(range(len(rows)), names, family="monospace", fontsize=9, parse_math=False)
    for panel in panels:
        panel.set_ylim(len(rows) - 0.45, -0.55)
    panels[0].set_title(scales.title, fontsize=10, loc="left")
    panels[1].legend(loc="lower right", bbox_to_anchor=(1.0, 1.0), ncol=2, frameon=False, fontsize=8, borderpad=0)
    found: Figure = panels[0].figure
    return found


def _draw_pairs(axes: Any, pairs: Sequence[Tuple[int, int]], scale: Tuple[float, str, int], label: str) -> None:
    size, unit, most = scale
    places = range(len(pairs))
    axes.barh([place - 0.18 for place in places], [one / size for one, _ in pairs], 0.34, color=BEFORE, label="before")
    axes.barh([place + 0.18 for place in places], [other / size for _, other in pairs], 0.34, color=DATA, label="after")
    for place, (one, other) in enumerate(pairs):
        axes.annotate(
            _change(one, other), (max(one, other) / size, place), xytext=(4, 0), textcoords="offset points", va="center",
            fontsize=8,
        )
    axes.set_xlabel(f"{label} ({unit})" if unit else label, fontsize=9)
    axes.set_xlim(0, 1.18 * most / size or 1)
    axes.xaxis.set_major_locator(_matplotlib("ticker").MaxNLocator(6, integer=size == 1))
    axes.xaxis.set_major_formatter(_matplotlib("ticker").FuncFormatter(lambda value, _: f"{value:,.10g}"))
    axes.tick_params(axis="y", left=False)
    for side in ("top", "right"):
        axes.spines[side].set_visible(False)
