"""Extents, gaps and days as text: words, CSV, JSON Lines, GeoCSV 2.0, and the answers of the FDSN availability service,
version 1."""
import csv
import datetime
import io
import itertools
import json
import operator
from typing import Any, Callable, Dict, Iterable, Iterator, List, Tuple

from msrepack.channels import Daily, Extent, Gap, Whole

Rows = Iterable[Any]
Writer = Callable[[Any, Rows], Iterator[str]]
# The columns in GeoCSV after those of the name, with their units and types. Of extents they are those of the availability
# service.
CODES = [(code, "unitless", "string") for code in ("Network", "Station", "Location", "Channel")]
QUERY = [("Quality", "unitless", "string"), ("SampleRate", "hertz", "float")]
QUERY += [(name, "ISO_8601", "datetime") for name in ("Earliest", "Latest")]
MORE = [("Updated", "ISO_8601", "datetime"), ("TimeSpans", "unitless", "integer"), ("Restriction", "unitless", "string")]
TIMES = [(name, "ISO_8601", "datetime") for name in ("Start", "End")]
COUNTS = [(name, "unitless", "integer") for name in ("Segments", "Gaps", "Overlaps", "Samples")]
COLUMNS: Dict[Any, List[Tuple[str, str, str]]] = {
    Extent: CODES + QUERY,
    Whole: CODES + QUERY + MORE,
    Gap: [*CODES, ("Kind", "unitless", "string"), *TIMES, ("Seconds", "second", "float")],
    Daily: [*CODES, ("Day", "ISO_8601", "datetime"), ("Percent", "percent", "float"), *COUNTS],
}


def time_told(time: datetime.datetime) -> str:
    """A time in ISO 8601, with microseconds.

    >>> time_told(datetime.datetime(2020, 1, 31, 1, 2, 3, 4))
    '2020-01-31T01:02:03.000004Z'
    """
    return f"{time:%Y-%m-%dT%H:%M:%S}.{time.microsecond:06}Z" if time.year > 999 else f"{time.isoformat()}Z"


def value_told(value: Any) -> Any:
    """A value as it stands in JSON."""
    if isinstance(value, datetime.datetime):
        return time_told(value)
    return value if not isinstance(value, datetime.date) else value.isoformat()


def word_told(value: Any) -> str:
    """A value as it stands in a line; a number is never written with an exponent."""
    told = value_told(value)
    if isinstance(told, float):
        return f"{told:.10f}".rstrip("0").rstrip(".")
    return "" if told is None else str(told)


def as_text(kind: Any, rows: Rows) -> Iterator[str]:
    """Words with spaces between, after a line that names them; `-` is nothing."""
    yield f"# {' '.join(kind._fields)}\n"
    for row in rows:
        yield f"{' '.join(word_told(value) or '-' for value in row)}\n"


def as_csv(kind: Any, rows: Rows) -> Iterator[str]:
    """CSV, after a line with the names of the columns."""
    yield f"{','.join(kind._fields)}\n"
    for row in rows:
        line = io.StringIO()
        csv.writer(line, lineterminator="\n").writerow([word_told(value) for value in row])
        yield line.getvalue()


def as_json(kind: Any, rows: Rows) -> Iterator[str]:
    """An object in each line."""
    for row in rows:
        yield f"{json.dumps(dict(zip(kind._fields, map(value_told, row))))}\n"


def as_geocsv(kind: Any, rows: Rows) -> Iterator[str]:
    """GeoCSV 2.0. Of extents it is the answer of the availability service."""
    names, units, types = zip(*COLUMNS[kind])
    yield "#dataset: GeoCSV 2.0\n#delimiter: |\n"
    yield f"#field_unit: {'|'.join(units)}\n#field_type: {'|'.join(types)}\n{'|'.join(names)}\n"
    for row in rows:
        if kind not in (Extent, Whole) or row.samples:
            yield f"{'|'.join(_fields(kind, row))}\n"


def as_fdsn(kind: Any, rows: Rows) -> Iterator[str]:
    """The text of the availability service: of its /query, or of its /extent if each channel is told as a whole."""
    yield f"#{' '.join(name for name, _, _ in COLUMNS[kind])}\n"
    for row in rows:
        if row.samples:
            yield f"{' '.join(field or '--' for field in _fields(kind, row))}\n"


def as_fdsn_json(kind: Any, rows: Rows) -> Iterator[str]:
    """The same in JSON."""
    created = datetime.datetime.now(datetime.timezone.utc)
    yield f'{{"created": "{created:%Y-%m-%dT%H:%M:%SZ}", "version": 1.0, "datasources": ['
    comma = ""
    for source in _datasources(kind, (row for row in rows if row.samples)):
        yield f"{comma}\n{json.dumps(source)}"
        comma = ","
    yield "\n]}\n"


def _datasources(kind: Any, rows: Rows) -> Iterator[Dict[str, Any]]:
    for _, of_channel in itertools.groupby(rows, operator.attrgetter("id")):
        found: Dict[Tuple[str, str], Dict[str, Any]] = {}
        for row in of_channel:
            codes = dict(zip(("network", "station", "location", "channel"), row.id.split(".")))
            source = {**codes, "quality": row.quality, "samplerate": row.rate}
            span = [time_told(row.start), time_told(row.end)]
            if kind is Extent:
                found.setdefault((row.quality, row.rate), {**source, "timespans": []})["timespans"].append(span)
                continue
            told = {"earliest": span[0], "latest": span[1], "updated": f"{row.updated:%Y-%m-%dT%H:%M:%SZ}"}
            found[row.quality, row.rate] = {**source, **told, "timespanCount": row.extents, "restriction": "OPEN"}
        yield from found.values()


def _fields(kind: Any, row: Any) -> List[str]:
    """The fields of a row in the columns of GeoCSV."""
    codes = row.id.split(".")
    if kind not in (Extent, Whole):
        return [*codes, *map(word_told, row[1:])]
    rate = word_told(row.rate)
    told = [*codes, row.quality, rate if "." in rate else f"{rate}.0", time_told(row.start), time_told(row.end)]
    return told if kind is Extent else [*told, f"{row.updated:%Y-%m-%dT%H:%M:%SZ}", str(row.extents), "OPEN"]


FORMATS: Dict[str, Writer] = {
    "text": as_text, "csv": as_csv, "json": as_json, "geocsv": as_geocsv, "fdsn": as_fdsn, "fdsn-json": as_fdsn_json
}
