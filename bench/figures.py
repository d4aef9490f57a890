"""The figures of kept.txt: how they are read, held against those of a run, and replaced.

A line that is not empty and does not begin with # is one of

    NAME INSTRUCTIONS FAULTS KIB            what a tenth of that workload's day takes
    archive INSTRUCTIONS FAULTS KIB CALLS   what the archive takes, with its calls of the system
    NAME rises: REASON                      lets `--write` put higher figures of it, once
    NAME rose FIGURES to FIGURES: REASON    what that line is afterwards
"""
import collections
import re

import workloads

Figures = collections.namedtuple("Figures", "instructions faults kib")
WithCalls = collections.namedtuple("WithCalls", [*Figures._fields, "calls"])
TITLES = WithCalls("instructions", "page faults", "peak KiB", "calls")
# How many per cent of what is kept a run may take. The system tells a peak of 2 MB to some 200 KB. One call more for each
# day of the archive, in one of its three jobs, is 1.4 per cent.
LIMITS = {Figures: Figures(102, 110, 150), WithCalls: WithCalls(101, 110, 150, 101)}

NUMBER = r"[1-9][0-9]{0,2}(?:,?[0-9]{3})*"
NUMBERS = rf"{NUMBER}(?: {NUMBER})*"
ROW = re.compile(rf"(\S+) ({NUMBERS})")
RISES = re.compile(r"(\S+) rises: (.+)")
ROSE = re.compile(rf"(\S+) rose ({NUMBERS}) to ({NUMBERS}): .+")


class Malformed(Exception):
    """A line that cannot be read, or that speaks of a workload for the second time."""


def kind_of(name):
    """Which figures a workload has. The calls of a day of station.DAYS say little: they grow with its bytes alone."""
    return WithCalls if name == workloads.ARCHIVE else Figures


def read(name, numbers):
    """The figures of a workload in these words, or None if they are not as many as it has."""
    kind, every = kind_of(name), numbers.replace(",", "").split()
    return kind(*map(int, every)) if len(every) == len(kind._fields) else None


class Kept:
    """What a text keeps: by a workload's name, its figures and its unused reason, each with the place of its line."""

    def __init__(self, text):
        self.lines = text.split("\n")
        self.rows, self.reasons, self.told = {}, {}, []
        for place, line in enumerate(self.lines):
            words = " ".join(line.split())
            if words and not words.startswith("#"):
                self._take(place, words)

    def _take(self, place, words):
        row, rises, rose = (it.fullmatch(words) for it in (ROW, RISES, ROSE))
        row = row and read(*row.groups()) and row
        if row and row[1] not in self.rows:
            self.rows[row[1]] = place, read(*row.groups())
        elif rises and rises[1] not in self.reasons:
            self.reasons[rises[1]] = place, rises[2]
        elif not (rose and read(rose[1], rose[2]) and read(rose[1], rose[3])):
            why = "the second such line" if row or rises else "neither figures nor a reason"
            raise Malformed(f"line {place + 1}: {why}: {words}")
        if not row:
            self.told.append(words)

    def without_workload(self, names):
        """The lines that speak of no workload of these names, or of one without figures."""
        for name, (place, _) in self.rows.items():
            if name not in names:
                yield f"line {place + 1}: {name} is no workload: remove the line"
        for name, (place, _) in self.reasons.items():
            if name not in self.rows:
                yield f"line {place + 1}: {name} has no figures that could rise: remove the line"

    def lacking(self, names):
        """The workloads of these names that have no figures."""
        return [f"{name} has no figures: bench/kept --write adds them" for name in names if name not in self.rows]

    def unused(self):
        """The lines of reason that `--write` has not used."""
        for name, (place, _) in self.reasons.items():
            yield f"line {place + 1}: unused reason: run bench/kept --write, or remove it if nothing of {name} rises"

    def beside(self, measured):
        """The text with the figures of a run that are lower, and with all those of a workload that has a reason."""
        lines, added = list(self.lines), []
        for name, now in measured.items():
            place, old = self.rows.get(name, (None, now))
            new = kind_of(name)(*map(min, old, now))
            if name in self.reasons and new != now:
                at, reason = self.reasons[name]
                new, lines[at] = now, f"{name} rose {text_of(old)} to {text_of(now)}: {reason}"
            if place is None:
                added.append(f"{name} {text_of(new)}")
            elif new != old:
                lines[place] = f"{name} {text_of(new)}"
        end = max((place + 1 for place, _ in self.rows.values()), default=len(lines) - 1)
        return "\n".join(lines[:end] + added + lines[end:])


def text_of(figures):
    return " ".join(f"{it:,}" for it in figures)


def beyond(old, now):
    """Each figure of a run that is beyond its limit, with how many times what is kept it is."""
    every = zip(TITLES, LIMITS[type(now)], old, now)
    return [f"{title} {new / kept:.4f}" for title, limit, kept, new in every if 100 * new > limit * kept]


def table(kept, measured):
    """The table of a run beside what is kept, with the reasons, and how many workloads are beyond a limit."""
    lines = [f"| workload | {' | '.join(f'{it} | kept' for it in TITLES)} | beyond the limit |", "|---" * 10 + "|"]
    worse = 0
    for name, now in measured.items():
        _, old = kept.rows[name]
        cells = [f"{new:,} | {was:,}" for new, was in zip(now, old)]
        cells += [" | "] * (len(TITLES) - len(cells))
        lines.append(f"| {name} | {' | '.join(cells)} | {', '.join(beyond(old, now))} |")
        worse += bool(beyond(old, now))
    return lines + kept.told, worse
