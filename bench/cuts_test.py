"""Tests of bench/cuts: small lists of calls with what a disk may hold after them, counted by hand, orders of calls that lose
something, and lines of strace."""
from __future__ import annotations

import re
import unittest
from typing import Union

from crash import Call, Disk, state_now, states_of
from promises import NEW, Day, Made, is_taken, wrong_with_archive, wrong_with_replace
from tree_calls import calls_in

A, B, C = "here/a", "here/b", "here/f/c"
WRITTEN = [Call("make", B), Call("write", B, data=b"news")]
STORED = [*WRITTEN, Call("store", B)]
RENAMED = Call("rename", B, A)
STORE = Call("store", "here")
HALVES = {(b"news",), (b"ne",), (b"",)}

# Title, calls over a disk that has A stored, with the bytes `old`; paths, what they may lead to, and after a kill.
HELD = [
    ("a name and bytes that are not stored", WRITTEN, [B], HALVES | {(None,)}, (b"news",)),
    ("bytes that are stored", STORED, [B], {(b"news",), (None,)}, (b"news",)),
    ("a name that is stored, and not the bytes", [*WRITTEN, STORE], [B], HALVES, (b"news",)),
    ("both", [*STORED, STORE], [B], {(b"news",)}, (b"news",)),
    (
        "two names of a file that has no bytes yet, each by itself",
        [*WRITTEN, RENAMED],
        [A, B],
        {(b"old", None), (b"old", b"news"), (b"old", b"ne"), (b"old", b"")}
        | {(it, None) for (it,) in HALVES}
        | {(it, it) for (it,) in HALVES},
        (b"news", None),
    ),
    (
        "renamed over another one: the old, the new, both, or neither",
        [*STORED, RENAMED],
        [A, B],
        {(b"old", None), (b"news", None), (b"old", b"news"), (b"news", b"news")},
        (b"news", None),
    ),
    ("renamed and stored", [*STORED, RENAMED, STORE], [A, B], {(b"news", None)}, (b"news", None)),
    ("a link", [Call("link", A, B)], [A, B], {(b"old", None), (b"old", b"old")}, (b"old", b"old")),
    (
        "both names of one file",
        [Call("link", A, B), Call("rename", A, B), STORE],
        [A, B],
        {(b"old", b"old")},
        (b"old", b"old"),
    ),
    ("removed", [Call("remove", A)], [A], {(b"old",), (None,)}, (None,)),
    ("removed and stored", [Call("remove", A), STORE], [A], {(None,)}, (None,)),
    ("made again", [Call("remove", A), *STORED, RENAMED], [A], {(b"old",), (None,), (b"news",)}, (b"news",)),
    (
        "moved to a folder, of which neither was stored: both, or neither",
        [Call("folder", "here/f"), STORE, Call("rename", A, C)],
        [A, C],
        {(b"old", None), (None, b"old"), (b"old", b"old"), (None, None)},
        (None, b"old"),
    ),
    (
        "a folder whose name is not stored",
        [Call("folder", "here/f"), Call("link", A, C), Call("store", "here/f")],
        [C],
        {(b"old",), (None,)},
        (b"old",),
    ),
    (
        "a folder whose name is stored",
        [Call("folder", "here/f"), Call("link", A, C), Call("store", "here/f"), STORE],
        [C],
        {(b"old",)},
        (b"old",),
    ),
    ("written again", [Call("write", A, data=b"news")], [A], {(b"oldnews",), (b"old",), (b"",)}, (b"oldnews",)),
    ("cut", [Call("cut", A, size=1)], [A], {(b"o",), (b"",), (b"old",)}, (b"o",)),
    (
        "copied in two pieces, of which the first is stored",
        [Call("make", B), Call("copy", B, A, size=2), Call("store", B), Call("copy", B, A, size=9), STORE],
        [B],
        {(b"old",), (b"o",), (b"",), (b"ol",)},
        (b"old",),
    ),
    ("made where a file is", [Call("make", A)], [A], {(b"old",)}, (b"old",)),
    ("all stored", [*WRITTEN, RENAMED, Call("store_all")], [A, B], {(b"news", None)}, (b"news", None)),
    ("another disk stored", [*STORED, Call("store_all", "there")], [B], {(b"news",), (None,)}, (b"news",)),
    (
        "an open file stored whose name is gone",
        [*WRITTEN, Call("link", B, "here/d"), Call("remove", B), Call("store", f"{B}(deleted)"), STORE],
        ["here/d"],
        {(b"news",)},
        (b"news",),
    ),
]


class WhatADiskMayHold(unittest.TestCase):
    def test_held(self) -> None:
        for title, calls, paths, states, now in HELD:
            with self.subTest(title):
                disk = Disk("here", "there")
                disk.put(A, b"old", 0)
                for call in calls:
                    disk.apply(call)
                self.assertEqual(states_of(disk, paths), states)
                self.assertEqual(state_now(disk, paths), now)


WAS = Made(b"ORIGINAL", b"records", b"report 1", b"input 8 bytes, 1")
IS = Made(b"original", b"RECORDS", b"report 2", b"input 8 bytes, 2")
DAY = Day("day", (WAS, IS))
ROOT, ASIDE, OUT, PART = "here/root/day", "here/aside/day", "here/out/day", "here/root/part"
REPORT, STAMP = "here/reports/day.txt", "here/reports/day.from"
STORES = {name: Call("store", f"here/{name}") for name in ("root", "aside", "out", "reports")}
GOES_ASIDE, STANDS_BESIDE = Call("link", ROOT, ASIDE), Call("link", OUT, PART)
TAKES_PLACE, GOES = Call("rename", PART, ROOT), Call("remove", OUT)
STAMPS = [
    *(Call("make", "here/reports/r"), Call("write", "here/reports/r", data=b"records 7 bytes, 1"), Call("store", "here/reports/r")),
    Call("rename", "here/reports/r", STAMP),
]
REPLACED, RESTORED = Call("told", data=b"replaced day bytes 8 7\n"), Call("told", data=b"restored day\n")
UNTOLD, UNRESTORED = "`replaced` was told, and is not so", "`restored` was told, and is not so"
REPLACES = [GOES_ASIDE, STORES["aside"], STANDS_BESIDE, TAKES_PLACE, STORES["root"], GOES, REPLACED]
STAMPED_BESIDE, HALF_A_STAMP = "a stamp of records is beside another file", "half a file has the name of a stamp"
COPIES = [Call("make", PART), Call("copy", PART, OUT, size=7), Call("store", PART)]
RESTORES = [
    *(Call("link", ROOT, OUT), STORES["out"], Call("link", ASIDE, PART), TAKES_PLACE, STORES["root"]),
    *(Call("remove", ASIDE), RESTORED),
]
LOST, HALF, RECORDS_LOST = "an original is lost", "half a file has a day's name in ", "records are lost"
ROOT_LOST = "nothing has a day's name in ROOT"


def but(calls: list[Call], *without: Call) -> list[Call]:
    return [call for call in calls if call not in without]


# Title, what stands there first, calls, and what is wrong after one of them.
REPLACE_ORDERS: list[tuple[str, bool, list[Call], set[str]]] = [
    ("the order of replace", False, REPLACES, set()),
    ("by a copy", False, [*REPLACES[:2], *COPIES, *REPLACES[3:]], set()),
    ("ASIDE is not stored", False, but(REPLACES, STORES["aside"]), {LOST, UNTOLD}),
    ("nothing goes aside", False, but(REPLACES, GOES_ASIDE, STORES["aside"]), {LOST, UNTOLD}),
    ("ROOT is not stored", False, but(REPLACES, STORES["root"]), {RECORDS_LOST, UNTOLD}),
    ("OUT goes first", False, [GOES, *but(REPLACES, STANDS_BESIDE, TAKES_PLACE, GOES, REPLACED)], {RECORDS_LOST}),
    ("and stamps", False, [*REPLACES[:5], *STAMPS, *REPLACES[5:]], set()),
    ("stamps before ROOT is stored", False, [*REPLACES[:4], *STAMPS, *REPLACES[4:]], {STAMPED_BESIDE}),
    ("a stamp that is not stored", False, [*REPLACES[:5], *but(STAMPS, STAMPS[2]), *REPLACES[5:]], {HALF_A_STAMP}),
    ("told first", False, [REPLACED, *but(REPLACES, REPLACED)], {UNTOLD}),
    ("told before ROOT is stored", False, [*REPLACES[:4], REPLACED, *REPLACES[4:6]], {UNTOLD}),
    ("the original goes first", False, [*REPLACES[:3], Call("remove", ROOT), *REPLACES[3:]], {ROOT_LOST}),
    (
        "a copy that is not stored",
        False,
        [*REPLACES[:2], *COPIES[:2], *REPLACES[3:]],
        {HALF + "ROOT", RECORDS_LOST, UNTOLD},
    ),
    (
        "a copy in ASIDE that is not stored",
        False,
        [Call("make", ASIDE), Call("copy", ASIDE, ROOT, size=8), *REPLACES[1:]],
        {HALF + "ASIDE", LOST, UNTOLD},
    ),
    ("the order of undo", True, RESTORES, set()),
    ("OUT is not stored", True, but(RESTORES, STORES["out"]), {RECORDS_LOST, UNRESTORED}),
    ("undo without ROOT stored", True, but(RESTORES, STORES["root"]), {LOST, UNRESTORED}),
    ("ASIDE goes first", True, [*RESTORES[:3], RESTORES[5], *RESTORES[3:5], RESTORED], {LOST}),
    ("no records in OUT", True, RESTORES[2:], {RECORDS_LOST, UNRESTORED}),
]
KEEPS = [
    *(Call("remove", STAMP), STORES["reports"], Call("remove", OUT), STORES["out"]),
    *(Call("rename", "here/reports/p", REPORT), STORES["reports"], Call("rename", "here/out/p", OUT), STORES["out"]),
    Call("rename", "here/reports/s", STAMP),
]
OTHERS_STAMP, NO_RECORDS = "a stamp is beside another run's records or report", "a stamp is without its records or report"
OLD_RECORDS, NEW_RECORDS = "old records are beside the new report", "new records are beside the old report"
TAKEN = "--resume takes a day for done that is not"
STAMPED = {OTHERS_STAMP, TAKEN, NO_RECORDS}
# Title, calls, what is wrong after a loss of power, and after kills alone.
UNSTORED_REPORT = [Call("make", "here/reports/q"), Call("write", "here/reports/q", data=b"report 2")]
ARCHIVE_ORDERS: list[tuple[str, list[Call], set[str], set[str]]] = [
    ("an order that holds", KEEPS, set(), set()),
    ("the stamp's going is not stored", KEEPS[:1] + KEEPS[2:], {NO_RECORDS, OTHERS_STAMP}, set()),
    ("that of the old records is not", KEEPS[:3] + KEEPS[4:], {OLD_RECORDS}, set()),
    ("the report's name is not", KEEPS[:5] + KEEPS[6:], {NEW_RECORDS, OTHERS_STAMP, TAKEN}, set()),
    ("the records' name is not", KEEPS[:7] + KEEPS[8:], {NO_RECORDS}, set()),
    ("nothing is", but(KEEPS, *STORES.values()), {NO_RECORDS, OTHERS_STAMP, OLD_RECORDS, NEW_RECORDS, TAKEN}, set()),
    (
        "the report last",
        [*KEEPS[:4], Call("remove", REPORT), *KEEPS[6:8], *KEEPS[4:6]],
        {NEW_RECORDS},
        {"records are beside no report"},
    ),
    ("the stamp first", [*KEEPS[:2], KEEPS[8], *KEEPS[2:8]], STAMPED, STAMPED),
    ("ROOT is written to", [Call("write", ROOT, data=b"!")], {"ROOT is not as it was"}, {"ROOT is not as it was"}),
    (
        "a report that is not stored",
        [*KEEPS[:4], *UNSTORED_REPORT, Call("rename", "here/reports/q", REPORT), *KEEPS[5:]],
        {"half a file has the name of report"},
        set(),
    ),
]


class WrongOrders(unittest.TestCase):
    def begun(self, files: dict[str, bytes]) -> Disk:
        disk = Disk("here")
        for path, data in {**{f"here/{it}/.": b"" for it in STORES}, **files}.items():
            disk.put(path, data, 0)
        return disk

    def test_replace(self) -> None:
        for title, undoes, calls, wrong in REPLACE_ORDERS:
            with self.subTest(title):
                first = {ROOT: WAS.records, ASIDE: WAS.original} if undoes else {ROOT: WAS.original, OUT: WAS.records}
                disk = self.begun({**first, STAMP: WAS.stamp})
                found: set[str] = set()
                for call in calls:
                    disk.apply(call)
                    for state in states_of(disk, [ROOT, ASIDE, OUT, STAMP]):
                        found.update(wrong_with_replace(DAY, state, disk.told, undoes))
                self.assertEqual(found, wrong)

    def test_archive(self) -> None:
        made = {OUT: WAS.records, REPORT: WAS.report, STAMP: WAS.stamp}
        written = {"here/out/p": IS.records, "here/reports/p": IS.report, "here/reports/s": IS.stamp}
        for title, calls, wrong, killed in ARCHIVE_ORDERS:
            with self.subTest(title):
                disk = self.begun({ROOT: IS.original, **made, **written})
                found: tuple[set[str], set[str]] = set(), set()
                for call in calls:
                    disk.apply(call)
                    for state in states_of(disk, [ROOT, OUT, REPORT, STAMP]):
                        found[0].update(wrong_with_archive(DAY, NEW, state, False))
                    found[1].update(wrong_with_archive(DAY, NEW, state_now(disk, [ROOT, OUT, REPORT, STAMP]), True))
                self.assertEqual(found, (wrong, killed))

    def test_taken(self) -> None:
        for records, report, stamp, taken in (
            (b"RECORDS", b"report 2", IS.stamp, True),
            (b"records", b"report 1", IS.stamp, True),
            (b"RECORD", b"report 2", IS.stamp, False),
            (None, b"report 2", IS.stamp, False),
            (b"RECORDS", b"report", IS.stamp, False),
            (b"RECORDS", None, IS.stamp, False),
            (b"RECORDS", b"report 2", WAS.stamp, False),
            (b"RECORDS", b"report 2", None, False),
        ):
            with self.subTest((records, report, stamp)):
                self.assertEqual(is_taken(DAY, NEW, (b"original", records, report, stamp)), taken)


def hexed(line: str) -> str:
    """A line as strace -xx has it."""

    def of(found: re.Match[str]) -> str:
        text = found[1] if found[1] is not None else found[2]
        hex_of = "".join(f"\\x{byte:02x}" for byte in text.encode())
        return f'"{hex_of}"' if found[1] is not None else f"<{hex_of}>"

    return re.sub(r'"([^"]*)"|<(/[^>]*)>', of, line)


# Lines of strace, and what they do.
TRACES: list[tuple[list[str], Union[list[Call], None]]] = [
    (['7 openat(AT_FDCWD</t/here>, "b", O_RDWR|O_CREAT|O_EXCL, 0666) = 3</t/here/b>'], [Call("make", B)]),
    (['7 openat(AT_FDCWD</>, "/t/here/b", O_CREAT|O_TRUNC, 0666) = 3</t/here/b>'], [Call("make", B), Call("cut", B)]),
    (['7 openat(AT_FDCWD</t/here>, "b", O_RDONLY|O_CLOEXEC) = 3</t/here/b>'], []),
    (['7 write(3</t/here/b>, "news", 4) = 2'], [Call("write", B, data=b"ne")]),
    (['7 write(3</elsewhere/b>, "news", 4) = 4', '7 fsync(3</t>) = 0', '7 fsync(3</t/herefore>) = 0'], []),
    (['7 write(1</t/said>, "replaced day bytes", 18) = 12'], [Call("told", data=b"replaced day")]),
    (['7 write(3</t/here/b>(deleted), "news", 4) = 4'], [Call("write", f"{B}(deleted)", data=b"news")]),
    (["7 fdatasync(3</t/here/b>) = 0", "7 fsync(3</t/here>) = 0"], [Call("store", B), STORE]),
    (["7 fsync(3</t/here>) = -1 EIO (Input/output error)"], []),
    (["7 sync() = 0", "7 syncfs(3</t/there/b>) = 0"], [Call("store_all"), Call("store_all", "there")]),
    (['7 rename("/t/here/b", "/t/here/a") = 0'], [RENAMED]),
    (['7 renameat2(AT_FDCWD</t/here>, "./b", AT_FDCWD</t/here>, "../here/a", RENAME_NOREPLACE) = 0'], [RENAMED]),
    (['7 renameat2(AT_FDCWD</t/here>, "b", AT_FDCWD</t/here>, "a", RENAME_EXCHANGE) = 0'], None),
    (['7 linkat(3</t/here>, "a", AT_FDCWD</>, "/t/here/b", 0) = 0'], [Call("link", A, B)]),
    (['7 unlinkat(5</t/here>, "a", 0) = 0', '7 unlink("/t/here/b") = -1 ENOENT (No such file)'], [Call("remove", A)]),
    (['8 chdir("/t") = 0', '8 chdir("here") = 0', '8 mkdir("f", 0777) = 0'], [Call("folder", "here/f")]),
    (['8 fchdir(3</t/here/f>) = 0', '8 rmdir("../b") = 0'], [Call("remove", B)]),
    (['8 chdir("/t/here") = 0', '7 unlink("a") = 0'], None),
    (['8 openat(AT_FDCWD</t/here>, "x", O_RDONLY) = 3</t/here/x>', '8 unlink("a") = 0'], [Call("remove", A)]),
    (
        ["9 fsync(3</t/here> <unfinished ...>", '7 unlink("/t/here/a") = 0', "9 <... fsync resumed>) = 0"],
        [Call("remove", A), STORE],
    ),
    (["7 ftruncate(3</t/here/a>, 2) = 0"], [Call("cut", A, size=2)]),
    (
        ['7 utimensat(AT_FDCWD</t/here>, "a", [UTIME_NOW, {tv_sec=7, tv_nsec=8} /* 1970 */], 0) = 0'],
        [Call("time", A, size=7_000_000_008)],
    ),
    (["7 utimensat(3</t/here/a>, NULL, [{tv_sec=7, tv_nsec=8}, UTIME_OMIT], 0) = 0"], []),
    (["7 copy_file_range(3</t/here/a>, NULL, 4</t/there/b>, NULL, 99, 0) = 3"], [Call("copy", "there/b", A, size=3)]),
    (["7 sendfile(4</t/there/b>, 3</t/here/a>, NULL, 99) = 3"], [Call("copy", "there/b", A, size=3)]),
    (['7 renameat(5</t/here/f>, "c", 6</t/here>, "a") = 0'], [Call("rename", C, A)]),
    (['7 linkat(5</t/here/a>, "", 6</t/here/f>, "c", AT_EMPTY_PATH) = 0'], [Call("link", A, C)]),
    (['7 mkdirat(5</t/here>, "f", 0777) = 0'], [Call("folder", "here/f")]),
    (['7 mmap(NULL, 99, PROT_READ, MAP_SHARED, 3</t/here/a>, 0) = 0x7f00'], []),
    (['7 mmap(NULL, 99, PROT_READ|PROT_WRITE, MAP_PRIVATE, 3</t/here/a>, 0) = 0x7f00'], []),
    (['7 mmap(NULL, 99, PROT_READ|PROT_WRITE, MAP_SHARED, 3</t/here/a>, 0) = 0x7f00'], None),
    (['7 openat(AT_FDCWD</t/here>, ".", O_RDWR|O_TMPFILE, 0600) = 3</t/here/#7>(deleted)'], None),
    (['7 linkat(AT_FDCWD</>, "/proc/self/fd/3", AT_FDCWD</>, "/t/here/b", AT_SYMLINK_FOLLOW) = 0'], None),
    (["7 sync_file_range(3</t/here/a>, 0, 9, SYNC_FILE_RANGE_WRITE) = 0"], None),
    (["7 sync_file_range(3</t/a>, 0, 9, SYNC_FILE_RANGE_WRITE) = 0"], []),
    (["7 io_uring_setup(8, {flags=0}) = 3<anon_inode:[io_uring]>"], None),
    (['7 symlinkat("/t/here/a", AT_FDCWD</t/here>, "b") = 0'], None),
    (['7 write(3</t/here/b>, "news"..., 99) = 99'], None),
]


class Lines(unittest.TestCase):
    def test_traces(self) -> None:
        for lines, calls in TRACES:
            with self.subTest(lines):
                trace = "\n".join(map(hexed, lines))
                tops = {"here": "/t/here", "there": "/t/there"}
                if calls is None:
                    self.assertRaises(ValueError, calls_in, trace, tops, "/t/said")
                else:
                    self.assertEqual(calls_in(trace, tops, "/t/said"), calls)


if __name__ == "__main__":
    unittest.main()
