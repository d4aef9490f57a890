"""Pictures and tables of what msrepack tells, from the command line.

    python3 -m msrepack availability REPORTS.. [-o FILE] [--from DAY] [--to DAY] [--channel PATTERN] [--expect FILE]
                                               [--below PERCENT]
    python3 -m msrepack extents|gaps|daily REPORTS.. [-o FILE] [--format FORMAT] [the same]
    python3 -m msrepack savings LINES.. [-o FILE]
"""
import argparse
import contextlib
import datetime
import os
import sys
from typing import Any, Callable, Dict, Iterable, Iterator, List, Optional, Tuple

from msrepack import channels, plot
from msrepack.channels import Daily, Extent, Gap, Row, Whole
from msrepack.files import is_file, written
from msrepack.lines import Line, parse
from msrepack.report import DAY
from msrepack.sources import Source
from msrepack.tables import FORMATS

HELP = """
Each command has help of its own: python3 -m msrepack COMMAND --help

examples:
  python3 -m msrepack availability REPORTS -o year.png --from 2023-01-01 --to 2023-12-31 --channel 'XX.*.BH?'
  python3 -m msrepack extents REPORTS --format fdsn
  python3 -m msrepack gaps REPORTS --from 2023-06-01 --to 2023-06-30 --format csv -o june.csv
  python3 -m msrepack daily REPORTS --expect channels.txt --below 95
  python3 -m msrepack savings lines.txt -o savings.svg        (msrepack archive --bytes ROOT OUT REPORTS > lines.txt)

status: 0; 1 if something could not be read or a channel is below PERCENT; 2 if the call is wrong
"""


def day(text: str) -> datetime.date:
    """A day, as 2020-01-31 or 2020-031."""
    for form in ("%Y-%m-%d", "%Y-%j", "%Y,%j"):
        try:
            return datetime.datetime.strptime(text, form).date()
        except ValueError:
            pass
    raise argparse.ArgumentTypeError(f"no day: {text} (2020-01-31 or 2020-031)")


def percent(text: str) -> float:
    """Per cent, from 0 to 100."""
    try:
        found = float(text)
    except ValueError:
        found = -1.0
    if not 0 <= found <= 100:
        raise argparse.ArgumentTypeError(f"no per cent: {text}")
    return found


def expected(name: Optional[str]) -> List[str]:
    """The channels of a file, one in each line; `#` begins a comment.

    >>> expected(None)
    []
    """
    if name is None:
        return []
    found = []
    with open(0 if name == "-" else name, encoding="utf-8") as file:
        for number, line in enumerate(file, 1):
            channel = line.partition("#")[0].strip()
            if channel and (channel.count(".") != 3 or set(channel) & set("*?[] \t")):
                raise ValueError(f"{name}: line {number}: not a channel as NET.STA.LOC.CHAN: {channel}")
            found += [channel] * bool(channel)
    return list(dict.fromkeys(found))


class Bar:
    """Tells at a terminal how many reports are read, and which page is drawn."""

    def __init__(self) -> None:
        self.is_shown, self.whole, self.read, self.page, self.shown = sys.stderr.isatty(), 0, 0, "", ""

    def heard(self, count: int) -> None:
        self.read = count
        self.show()

    def pages(self, figures: Iterable[Any]) -> Iterator[Any]:
        """The figures, each told while it is drawn and written."""
        for number, figure in enumerate(figures, 1):
            self.page = f", page {number}"
            self.show()
            yield figure

    def show(self) -> None:
        if not self.is_shown:
            return
        part = min(25, 25 * self.read // max(1, self.whole))
        text = f"[{'#' * part:25}] {100 * self.read // max(1, self.whole)} % of {self.whole} reports{self.page}"
        if text != self.shown:
            print(f"\r{text} ", end="", file=sys.stderr, flush=True)
            self.shown = text

    def end(self) -> None:
        if self.shown:
            print("\r\033[K", end="", file=sys.stderr, flush=True)


def write(figures: Iterator[Any], name: str) -> List[str]:
    """Writes the pages: of a PDF into one file, else each into one of its own, with numbers of one width. All get their
    names once all are whole."""
    if name.endswith(".pdf"):
        with written(name) as [part], plot.pdf_pages(part) as pages:
            for figure in figures:
                pages.savefig(figure)
        return [name]
    stem, suffix = os.path.splitext(name)
    suffix = suffix or ".png"
    with contextlib.ExitStack() as stack:
        found: List[Callable[[str], None]] = []
        for figure in figures:
            part, rename = stack.enter_context(renamed(stem, suffix))
            figure.savefig(part)
            found.append(rename)
        width = len(str(len(found)))
        names = [f"{stem}-{number:0{width}}{suffix}" for number in range(1, len(found) + 1)] if len(found) > 1 else [stem + suffix]
        for place, rename in zip(names, found):
            rename(place)
    return names


@contextlib.contextmanager
def renamed(stem: str, suffix: str) -> Iterator[Tuple[str, Callable[[str], None]]]:
    """A file to be written, and what gives it its name; without that nothing is left of it."""
    part = f"{stem}.part-{os.getpid()}-{os.urandom(4).hex()}{suffix}"

    def rename(place: str) -> None:
        if not is_file(place):
            raise ValueError(f"no regular file: {place}")
        os.replace(part, place)

    try:
        yield part, rename
    finally:
        with contextlib.suppress(FileNotFoundError):
            os.remove(part)


def source_of(asked: argparse.Namespace, bar: Bar) -> Source:
    """The reports that are asked for."""
    asked.unread = []
    source = Source(asked.reports, asked.channel, asked.unread, bar.heard)
    bar.whole = source.whole
    return source


def availability(asked: argparse.Namespace, bar: Bar) -> int:
    source, expect = source_of(asked, bar), expected(asked.expect)
    window = source.window(asked.first, asked.last)
    parts: Dict[str, float] = {}

    def told(rows: Iterable[Row]) -> Iterator[Row]:
        for row in rows:
            parts[row.id] = 100 * row.present / (window[1] - window[0])
            yield row

    figures = plot.pages_of(told(channels.rows(source, window, expect)), window)
    try:
        names = write(bar.pages(figures), asked.output or "availability.png")
    except ValueError:
        if asked.unread and not source.read:
            raise ValueError("no report could be read") from None
        raise
    bar.end()
    print("\n".join(names))
    return held(asked, parts)


def held(asked: argparse.Namespace, parts: Dict[str, float]) -> int:
    """Tells the channels that have too little."""
    low = sorted(name for name, part in parts.items() if part < (asked.below or 0))
    for name in low:
        print(f"below {asked.below:g} %: {name} {parts[name]:.2f} %", file=sys.stderr)
    return 1 if low else 0


def table(asked: argparse.Namespace, bar: Bar) -> int:
    source, expect = source_of(asked, bar), expected(asked.expect)
    parts: Dict[str, float] = {}
    # Before anything is printed.
    source.window(asked.first, asked.last)
    chosen = source, asked.first, asked.last, expect
    kind, rows = asked.rows(asked, chosen, parts)
    lines = FORMATS[asked.format](kind, rows)
    if asked.output in (None, "-"):
        for line in lines:
            sys.stdout.write(line)
        sys.stdout.flush()
    else:
        with written(asked.output) as [part], open(part, "w", encoding="utf-8", newline="\n") as file:
            file.writelines(lines)
    bar.end()
    return held(asked, parts)


def rows_of_extents(asked: argparse.Namespace, chosen: Any, parts: Dict[str, float]) -> Tuple[Any, Iterable[Any]]:
    if asked.whole:
        return Whole, channels.wholes(*chosen)
    return Extent, (extent for some in channels.extents_of(*chosen) for extent in some)


def rows_of_gaps(asked: argparse.Namespace, chosen: Any, parts: Dict[str, float]) -> Tuple[Any, Iterable[Any]]:
    return Gap, channels.gaps_of(*chosen)


def rows_of_days(asked: argparse.Namespace, chosen: Any, parts: Dict[str, float]) -> Tuple[Any, Iterable[Any]]:
    start, end = chosen[0].window(asked.first, asked.last)
    days = (end - start) // DAY

    def told() -> Iterator[Daily]:
        for one in channels.daily_of(*chosen):
            parts[one.id] = parts.get(one.id, 0) + one.percent / days
            yield one

    return Daily, told()


def lines_of(name: str) -> Iterator[Line]:
    """The lines of a walk in a text that may have others."""
    with open(0 if name == "-" else name, encoding="utf-8", errors="surrogateescape") as file:
        for text in file:
            try:
                yield parse(text.rstrip("\n"))
            except ValueError:
                pass


def savings(asked: argparse.Namespace, bar: Bar) -> int:
    figures = plot.savings_pages(line for name in asked.lines for line in lines_of(name))
    print("\n".join(write(figures, asked.output or "savings.png")))
    return 0


def add_command(commands: Any, name: str, does: Callable[..., int], told: str, example: str) -> argparse.ArgumentParser:
    words = {"help": told, "description": f"Tells {told}.", "epilog": f"example: python3 -m msrepack {name} {example}"}
    one: argparse.ArgumentParser = commands.add_parser(name, **words)
    one.set_defaults(does=does)
    return one


def add_reports(one: argparse.ArgumentParser) -> None:
    one.add_argument("reports", nargs="+", metavar="REPORTS", help="folders of reports, or reports")
    one.add_argument("--from", dest="first", type=day, metavar="DAY", help="the first day, as 2020-01-31 or 2020-031")
    one.add_argument("--to", dest="last", type=day, metavar="DAY", help="the last day")
    one.add_argument("--channel", default="*", metavar="PATTERN", help="only channels like this one, as 'XX.*.BH?'")
    one.add_argument("--expect", metavar="FILE", help="tell these channels even if they have no data, NET.STA.LOC.CHAN a line")


def arguments() -> argparse.ArgumentParser:
    parser = argparse.ArgumentParser(
        prog="python3 -m msrepack",
        description="Pictures and tables of what msrepack tells of an archive.",
        epilog=HELP,
        formatter_class=argparse.RawDescriptionHelpFormatter,
    )
    parser.set_defaults(unread=[], below=None)
    commands = parser.add_subparsers(metavar="COMMAND", required=True)
    example = "REPORTS -o year.png --from 2023-01-01 --to 2023-12-31"
    one = add_command(commands, "availability", availability, "in a picture when each channel has data", example)
    add_reports(one)
    one.add_argument("-o", "--output", metavar="FILE", help=".png, .svg or .pdf (availability.png)")
    one.add_argument("--below", type=percent, metavar="PERCENT", help="status 1 if a channel has less: its name is told")
    for name, rows, told, example in (
        ("extents", rows_of_extents, "stretches of data without a gap, over the borders of days", "REPORTS --format fdsn"),
        ("gaps", rows_of_gaps, "gaps and overlaps", "REPORTS --from 2023-06-01 --to 2023-06-30 --format csv"),
        ("daily", rows_of_days, "per cent, segments, gaps and samples of each channel and day", "REPORTS --below 95"),
    ):
        one = add_command(commands, name, table, told, example)
        add_reports(one)
        formats = list(FORMATS) if name == "extents" else [it for it in FORMATS if not it.startswith("fdsn")]
        one.add_argument("--format", choices=formats, default="text", help="text if not given")
        one.add_argument("-o", "--output", metavar="FILE", help="instead of standard output")
        one.set_defaults(rows=rows)
        if name == "extents":
            one.add_argument("--whole", action="store_true", help="each channel, quality and rate as one: with fdsn, /extent")
        if name == "daily":
            one.add_argument("--below", type=percent, metavar="PERCENT", help="status 1 if a channel has less of all days")
    other = add_command(
        commands, "savings", savings, "bytes and records before and after, from the lines of archive --bytes", "lines.txt"
    )
    other.add_argument("lines", nargs="+", metavar="LINES", help="files that have the lines; - is standard input")
    other.add_argument("-o", "--output", metavar="FILE", help=".png, .svg or .pdf (savings.png)")
    return parser


def main(words: Optional[List[str]] = None) -> int:
    asked, bar = arguments().parse_args(words), Bar()
    status = 1
    try:
        status = asked.does(asked, bar)
    except BrokenPipeError:
        # Nobody reads on, and nothing more is printed at the end.
        os.dup2(os.open(os.devnull, os.O_WRONLY), sys.stdout.fileno())
    except (ValueError, OSError, ImportError) as why:
        bar.end()
        print(f"msrepack: {why}", file=sys.stderr)
    except KeyboardInterrupt:
        bar.end()
        return 130
    for told in asked.unread:
        print(f"not read: {told}", file=sys.stderr)
    return 1 if asked.unread else status


if __name__ == "__main__":
    sys.exit(main())
