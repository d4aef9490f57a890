"""What the files of a day may be at each moment of `archive`, `replace` and its undo, and what is wrong with others.

After each call of `replace` and its undo a day of ROOT has to have its name on one whole file, the original or its
records; each of the two is in ROOT or under its own name, whole; a stamp is whole, and one of records comes only where ROOT
has these; and what was told as `replaced` or `restored` stays so.
After each call of `archive` ROOT has to be as it was; what has the name of a day's records, report or stamp is whole;
records have their own report, or after a loss of power none; a stamp has its own records and report; and what --resume
takes for done is.
"""
from __future__ import annotations

from dataclasses import dataclass
from typing import Iterator, Union

from crash import State

# Which of the two files of a day: as it was before it changed, and after.
OLD, NEW = 0, 1


@dataclass(frozen=True)
class Made:
    """A day's file, and what a walk makes of it."""

    original: bytes
    records: bytes
    report: bytes
    stamp: bytes


@dataclass(frozen=True)
class Day:
    path: str
    made: tuple[Made, Made]


def stamp_of_records(made: Made) -> bytes:
    """That of a day whose records are in ROOT, with the time of the original."""
    return made.stamp.replace(b"input %d bytes" % len(made.original), b"records %d bytes" % len(made.records))


def wrong_with_replace(day: Day, state: State, told: set[str], undoes: bool) -> Iterator[str]:
    """What is wrong with a day of which ROOT, ASIDE, OUT and REPORTS (stamp) have this. After an undo the stamp of records may
    still be there."""
    root, aside, out, stamp = state
    original, records = day.made[OLD].original, day.made[OLD].records
    of_records = stamp_of_records(day.made[OLD])
    if stamp not in (None, day.made[OLD].stamp, of_records):
        yield "half a file has the name of a stamp"
    if stamp == of_records and root != records and not undoes:
        yield "a stamp of records is beside another file"
    if root is None:
        yield "nothing has a day's name in ROOT"
    for folder, found, whole in (("ROOT", root, {original, records}), ("ASIDE", aside, {original}), ("OUT", out, {records})):
        if found not in whole | {None}:
            yield f"half a file has a day's name in {folder}"
    if original not in (root, aside):
        yield "an original is lost"
    if records not in (root, out):
        yield "records are lost"
    if f"replaced {day.path}" in told and (root, aside) != (records, original):
        yield "`replaced` was told, and is not so"
    if f"restored {day.path}" in told and (root, out) != (original, records):
        yield "`restored` was told, and is not so"


def is_taken(day: Day, version: int, state: State) -> bool:
    """Whether --resume takes the day for done: its file has the stamp, and the records the size that the report tells."""
    _, records, report, stamp = state
    told = next((it for it in day.made if it.report == report), None)
    return stamp == day.made[version].stamp and told is not None and len(records or b"") == len(told.records)


def wrong_with_archive(day: Day, version: int, state: State, kills: bool) -> Iterator[str]:
    """What is wrong with a day of which ROOT, OUT and REPORTS (report, stamp) have this."""
    root, *found = state
    if root != day.made[version].original:
        yield "ROOT is not as it was"
    whose: list[Union[int, None]] = []
    for kind, data in zip(("records", "report", "stamp"), found):
        whose.append(next((at for at, it in enumerate(day.made) if getattr(it, kind) == data), None))
        if data is not None and whose[-1] is None:
            yield f"half a file has the name of {kind}"
    records, report, stamp = whose
    if records is not None and report is not None and report != records:
        yield f"{('old', 'new')[records]} records are beside the {('old', 'new')[report]} report"
    if records is not None and found[1] is None and kills:
        yield "records are beside no report"
    if stamp is not None and {records, report} - {stamp, None}:
        yield "a stamp is beside another run's records or report"
    if stamp is not None and None in found:
        yield "a stamp is without its records or report"
    if is_taken(day, version, state) and (records, report) != (version, version):
        yield "--resume takes a day for done that is not"
