#!/usr/bin/env python3
"""Holds `list --json` against readers of JSON, against `list` and against model.py.

usage: interop/lists.py [PROGRAM] [FILE ..]

FILES are those of examples/ and 300 files of compare.py, if none is given. Each line has to be an object that json of
python3 and jq read, with the members of the manual in their order; written out as words it has to be the line that
`list` prints, and as it stands the line of model.py. Without jq that part is skipped, which the last line says.
"""
import datetime
import json
import os
import shutil
import subprocess
import sys
import tempfile

ROOT = os.path.dirname(os.path.dirname(os.path.realpath(__file__)))
sys.path.insert(0, os.path.join(ROOT, "tools"))
import compare
import model
from built import program_of

SEGMENT = "network station location channel quality start end samples rate_factor rate_multiplier".split()
SEGMENT += "activity clock data_quality correction timing began".split()
COUNTS = "read empty mismatched".split()
WIDTHS = {"network": 2, "station": 5, "location": 2, "channel": 3}
JQ = 'if has("read") then [.read, .empty, .mismatched] else [.network, .station, .location, .channel, .quality, .start, .end,'
JQ += " .samples, .rate_factor, .rate_multiplier, .activity, .clock, .data_quality, .correction, .timing, .began, .gap_us] end"


def micros_of(text):
    """The microseconds from 1970 on of a time in ISO 8601."""
    if len(text) != 27 or not text.endswith("Z"):
        raise ValueError(f"no time with microseconds and Z: {text}")
    epoch = datetime.datetime(1970, 1, 1, tzinfo=datetime.timezone.utc)
    return (datetime.datetime.fromisoformat(f"{text[:-1]}+00:00") - epoch) // datetime.timedelta(microseconds=1)


def key_of(it):
    names = [it[name].encode("latin-1").ljust(width) for name, width in WIDTHS.items()]
    numbers = [it[name] for name in SEGMENT[8:14]]
    return model.Key(*names, it["quality"], *numbers, it["timing"] or 0)


def words_of(it):
    """The line of `list` for an object."""
    if list(it) == COUNTS:
        return model.counts_line(list(it.values()))
    return model.segment_line(model.Segment(key_of(it), micros_of(it["start"]), range(it["samples"])))


def faults_of(it, before):
    """What is wrong with the object of a segment, as it stands after another or after none."""
    gap = ["gap_us"] * (before is not None and all(it[name] == before[name] for name in WIDTHS))
    if list(it) != SEGMENT + gap:
        yield f"members {list(it)}"
        return
    period = model.period(key_of(it))
    if micros_of(it["end"]) != model.rounded(micros_of(it["start"]) + (it["samples"] - 1) * period):
        yield f"end {it['end']}"
    if before is None or not gap:
        if it["began"] != ("channel" if before else "first"):
            yield f"began {it['began']}"
        return
    after = model.rounded(micros_of(before["start"]) + before["samples"] * model.period(key_of(before)))
    if it["gap_us"] != micros_of(it["start"]) - after:
        yield f"gap_us {it['gap_us']}"
    by_time = "gap" if it["gap_us"] > 0 else "overlap"
    if it["began"] != (by_time if key_of(it) == key_of(before) else "settings"):
        yield f"began {it['began']}"


def printed(program, *words):
    return subprocess.run([program, "list", *words], stdout=subprocess.PIPE, stderr=subprocess.DEVNULL, check=False).stdout


def wrong_with(program, path):
    """What is wrong with the list of a file, line by line."""
    text = printed(program, "--json", path)
    with open(path, "rb") as file:
        expected, fault = model.listed(file.read(), 1000, json=True)
    if text != expected.encode() if fault is None else not expected.encode().startswith(text):
        yield "not the model's text"
    lines = text.splitlines()
    objects = [json.loads(line) for line in lines]
    if [words_of(it).encode() for it in objects] != printed(program, path).splitlines()[: len(objects)]:
        yield "not what list prints"
    for before, it in zip([None, *objects], objects):
        if list(it) != COUNTS:
            yield from faults_of(it, before)
    if fault is None and (not objects or list(objects[-1]) != COUNTS):
        yield "no counts at the end"
    if shutil.which("jq"):
        asked = subprocess.run(["jq", "-c", JQ], input=text, stdout=subprocess.PIPE, check=False)
        rows = [json.loads(line) for line in asked.stdout.splitlines()]
        if asked.returncode or rows != [list(it.values()) + [None] * (len(it) == len(SEGMENT)) for it in objects]:
            yield "jq reads other members"


def files(folder):
    for top, _, names in os.walk(os.path.join(ROOT, "examples")):
        yield from (os.path.join(top, name) for name in sorted(names) if not name.endswith((".py", ".md")))
    for number in range(300):
        path = os.path.join(folder, str(number))
        with open(path, "wb") as file:
            file.write(compare.make(number).content)
        yield path


def main():
    program, paths = program_of(sys.argv[1] if sys.argv[1:] else None), sys.argv[2:]
    passed, failed = 0, 0
    with tempfile.TemporaryDirectory() as folder:
        for path in paths or files(folder):
            wrong = list(wrong_with(program, path))
            passed, failed = passed + (not wrong), failed + bool(wrong)
            for why in wrong:
                print(f"{path}: {why}")
    print(f"{passed} passed, {failed} failed" + ("" if shutil.which("jq") else ", jq is not installed"))
    return 1 if failed else 0


if __name__ == "__main__":
    sys.exit(main())
