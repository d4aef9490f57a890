"""The calls of the system by which a run and its processes change a tree, as strace shows them.

A process is where its last chdir, or the last AT_FDCWD that strace told of it, was. An open file is known by its path. A call
that is not known here, and has to do with the tree, is refused.
"""
from __future__ import annotations

import os
import re
import subprocess
from typing import Iterator, Union

from crash import DELETED, Call, Disk

# Calls that change no name and no byte of a file. All others are traced.
HARMLESS = (
    "read pread64 readv preadv lseek close dup dup2 dup3 fcntl flock poll ppoll select pselect6 pipe pipe2 getdents64 getcwd "
    "stat lstat fstat newfstatat statx statfs fstatfs access faccessat faccessat2 readlink readlinkat fadvise64 umask execve "
    "chmod fchmod fchmodat chown lchown fchown fchownat getxattr lgetxattr fgetxattr listxattr llistxattr flistxattr "
    "brk mprotect munmap mremap rt_sigaction rt_sigprocmask rt_sigreturn wait4 futex getrandom arch_prctl prlimit64 "
    "set_tid_address set_robust_list rseq getuid geteuid getgid getegid getpid getppid gettid sched_getaffinity"
)
HEX = r"(?:\\x[0-9a-f]{2})*"
WORD = re.compile(rf'(AT_FDCWD|\d+)<({HEX})>(\(deleted\))?|"({HEX})"(\.\.\.)?')
# What a call of one path is, and of two.
ONE = {"unlink": "remove", "unlinkat": "remove", "rmdir": "remove", "mkdir": "folder", "mkdirat": "folder"}
TWO = {"rename": "rename", "renameat": "rename", "renameat2": "rename", "link": "link", "linkat": "link"}
OPENS = ("open", "openat", "creat")
WRITES = ("write", "writev", "pwrite64", "pwritev", "pwritev2")


def plain(text: str) -> bytes:
    return bytes.fromhex(text.replace("\\x", ""))


def whole_lines(trace: str) -> Iterator[tuple[str, str]]:
    """The calls with their processes, each where it ended."""
    begun: dict[str, str] = {}
    for line in trace.splitlines():
        process, _, text = line.partition(" ")
        text = text.lstrip()
        if text.endswith(" <unfinished ...>"):
            begun[process] = text.removesuffix(" <unfinished ...>")
        elif text.startswith("<... "):
            yield process, begun.pop(process) + text.partition(" resumed>")[2]
        else:
            yield process, text


class Reader:
    """Reads calls; `tops` are the folders whose trees count, by their names in the model."""

    def __init__(self, tops: dict[str, str], printed: str) -> None:
        self.tops, self.printed = tops, printed
        self.places: dict[str, str] = {}

    def inside(self, path: str) -> Union[str, None]:
        for name, top in self.tops.items():
            if path == top or path.startswith(f"{top}/"):
                return name + path[len(top) :]
        return None

    def words(self, process: str, text: str) -> tuple[list[str], list[str], bytes]:
        """The paths of its open files, those that it names, and all the bytes that it has."""
        opened: list[str] = []
        named: list[str] = []
        data, base = b"", None
        for found in WORD.finditer(text):
            number, path, deleted, string, is_cut = found.groups()
            if number:
                base = plain(path).decode()
                if number == "AT_FDCWD":
                    self.places[process] = base
                else:
                    opened.append(base.removesuffix(f" {DELETED}") + (DELETED if deleted else ""))
                continue
            data += plain(string)
            if is_cut:
                raise ValueError(f"strace cut {text[:200]}")
            place = self.places.get(process, "") if base is None else base
            named.append(os.path.normpath(os.path.join(place, plain(string).decode(errors="replace"))))
        return opened, named, data

    def read(self, process: str, text: str) -> Iterator[Call]:
        found = re.match(r"(\w+)\((.*)\) += (0x[0-9a-f]+|\d+)", text)
        if not found:
            return
        name, words, result = found[1], found[2], int(found[3], 0)
        if name.startswith("io_uring"):
            raise ValueError("calls by a ring are not read")
        opened, named, data = self.words(process, words)
        if name in ("chdir", "fchdir"):
            self.places[process] = (named or opened)[0]
        elif name in WRITES and opened[0] == self.printed:
            yield Call("told", data=data[:result])
        elif name == "sync":
            yield Call("store_all")
        else:
            paths = opened if name in WRITES or not named else named
            if any(not it.startswith("/") for it in named) and name not in WRITES:
                raise ValueError(f"where a process stands is not known: {text[:200]}")
            ours = [it for it in map(self.inside, paths) if it]
            if ours:
                yield from self.change(name, words, ours, data[:result], result)

    def change(self, name: str, words: str, paths: list[str], data: bytes, result: int) -> Iterator[Call]:
        """What a call does to paths of the tree."""
        if name in OPENS and "O_TMPFILE" not in words:
            if "O_CREAT" in words or name == "creat":
                yield Call("make", paths[0])
            if "O_TRUNC" in words or name == "creat":
                yield Call("cut", paths[0])
        elif name in ONE:
            yield Call(ONE[name], paths[0])
        elif name in TWO and len(paths) == 2 and not re.search("RENAME_(EXCHANGE|WHITEOUT)", words):
            yield Call(TWO[name], paths[0], paths[1])
        elif name in WRITES:
            yield Call("write", paths[0], data=data)
        elif name in ("fsync", "fdatasync"):
            yield Call("store", paths[0])
        elif name == "syncfs":
            yield Call("store_all", paths[0].partition("/")[0])
        elif name in ("truncate", "ftruncate"):
            yield Call("cut", paths[0], size=int(words.rpartition(", ")[2]))
        elif name == "utimensat":
            times = re.findall(r"UTIME_\w+|tv_sec=(\d+), tv_nsec=(\d+)", words)
            if times and times[-1][0]:
                yield Call("time", paths[0], size=int(times[-1][0]) * 10**9 + int(times[-1][1]))
        elif name == "copy_file_range" and len(paths) == 2:
            yield Call("copy", paths[1], paths[0], size=result)
        elif name == "sendfile" and len(paths) == 2:
            yield Call("copy", paths[0], paths[1], size=result)
        elif name == "ioctl" and "CLONE" in words and len(paths) == 2:
            yield Call("copy", paths[0], paths[1], size=1 << 62)
        elif name != "ioctl" and not (name == "mmap" and re.search("PROT_WRITE.*MAP_SHARED", words) is None):
            raise ValueError(f"a call that is not read: {name}({words[:200]})")


def calls_in(trace: str, tops: dict[str, str], printed: str) -> list[Call]:
    """The calls of a trace that change the trees, and what was printed to the file of that path."""
    reader = Reader(tops, printed)
    return [call for process, text in whole_lines(trace) for call in reader.read(process, text)]


def recorded(words: list[str], disk: Disk, tops: dict[str, str], folder: str, environment: dict[str, str]) -> list[Call]:
    """Runs a command over the trees, which are as the disk has them now, and gives its calls. They have to make of the disk
    what the run made of the trees."""
    trace, printed = f"{folder}/trace", f"{folder}/printed"
    more = ("-f", "--seccomp-bpf", "-qq", "-y", "-xx", "-s", str(1 << 20), "-e", "signal=none", "-o", trace)
    traced = ["strace", *more, "-e", f"trace=!{','.join(HARMLESS.split())}", *words]
    with open(printed, "wb") as to, open(f"{folder}/errors", "wb") as errors:
        subprocess.run(traced, stdin=subprocess.DEVNULL, stdout=to, stderr=errors, env=environment, timeout=600, check=False)
    with open(trace, encoding="ascii") as it:
        calls = calls_in(it.read(), tops, printed)
    for call in calls:
        disk.apply(call)
    if disk.bytes() != bytes_below(tops):
        raise ValueError(f"the calls do not make what the run made: {' '.join(words)}")
    return calls


def bytes_below(tops: dict[str, str]) -> dict[str, Union[bytes, None]]:
    found: dict[str, Union[bytes, None]] = {}
    for name, top in tops.items():
        for folder, _, files in os.walk(top):
            found[name + folder[len(top) :]] = None
            for file in files:
                with open(f"{folder}/{file}", "rb") as it:
                    found[f"{name}{folder[len(top):]}/{file}"] = it.read()
    return found
