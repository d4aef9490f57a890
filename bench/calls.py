"""The calls of the system that a run makes, as strace shows them, and what is done to them."""
import collections
import re
import sys

IN_A_ROW = 64
# What a call is for, by its name.
KINDS = {
    "reading": ("read", "pread64", "readv"),
    "writing": ("write", "pwrite64", "writev"),
    "opening": ("open", "openat", "creat"),
    "looking": ("statx", "stat", "lstat", "fstat", "newfstatat"),
    "locking": ("flock",),
    "cutting": ("ftruncate",),
    "syncing": ("fsync", "fdatasync"),
    "closing": ("close",),
    "memory": ("mmap", "mremap", "brk"),
    "freeing": ("munmap",),
    "listing": ("getdents64",),
    "making": ("mkdir", "mkdirat"),
    "naming": ("rename", "renameat", "renameat2"),
    "removing": ("unlink", "unlinkat"),
}
KIND_OF = {name: kind for kind, names in KINDS.items() for name in names}
# What strace does to a call of each kind; brk tells by its answer that it failed.
INJECTED = {
    "reading": ("error=EIO",),
    "writing": ("error=EIO", "error=ENOSPC", "retval=0"),
    "opening": ("error=EIO", "error=EMFILE"),
    "looking": ("error=EIO",),
    "locking": ("error=EAGAIN", "error=ENOLCK", "error=EOPNOTSUPP"),
    "cutting": ("error=EIO",),
    "syncing": ("error=EIO", "error=ENOSPC", "error=EINVAL"),
    "closing": ("error=EIO",),
    "memory": ("error=ENOMEM",),
    "freeing": ("error=ENOMEM",),
    "listing": ("error=EIO",),
    "making": ("error=EIO", "error=ENOSPC"),
    "naming": ("error=EIO", "error=ENOSPC"),
    "removing": ("error=EIO", "error=EACCES"),
}

Call = collections.namedtuple("Call", "name kind number fd target result hit")
# What is done to a call: strace's words for it, how many calls in a row (0: all that follow), the bytes that a short
# write takes.
Fault = collections.namedtuple("Fault", "what row short", defaults=(None,))


def calls_in(trace):
    """The calls of a trace, and the place of the first one that is not the loader's."""
    calls, numbers, begin = [], collections.Counter(), None
    for line in trace.splitlines():
        found = re.match(r"(\w+)\((.*)\) += (-?\w+)", line)
        if not found:
            continue
        if found[1] not in KIND_OF:
            begin = len(calls) if begin is None and "SIGPIPE" in found[2] else begin
            continue
        numbers[found[1]] += 1
        named = re.match(r'(?:AT_FDCWD<[^>]*>, )?"([^"]+)"', found[2])
        opened = re.match(r"(\d+)<([^>]*)>", found[2])
        fd, target = (None, named[1]) if named else (int(opened[1]), opened[2]) if opened else (None, "")
        hit = line.endswith("(INJECTED)")
        calls.append(Call(found[1], KIND_OF[found[1]], numbers[found[1]], fd, target, found[3], hit))
    if begin is None:
        sys.exit("the program's start was not found among its calls")
    return calls, begin


def injected(call, fault):
    """strace's words for a fault."""
    when = f"{call.number}+" if fault.row == 0 else f"{call.number}..{call.number + fault.row - 1}"
    return f"inject={call.name}:{fault.what}:when={when}"


def words_of_trace(file, more=()):
    """The words before a program's, for a trace of its calls in that file."""
    names = ",".join(("rt_sigaction", *KIND_OF))
    return ("strace", "-qq", "-y", "-s", "0", "-o", file, "-e", f"trace={names}", *more)


def faults_of(call):
    """What is done to a call: each fault once and for good, and interruptions."""
    asked = int(call.result) if call.kind == "writing" else 0
    for what in INJECTED[call.kind]:
        if what == "retval=0" and not asked:
            continue
        what = "retval=0" if call.name == "brk" else what
        yield Fault(what, 1)
        yield Fault(what, 0)
    if call.kind in ("reading", "writing"):
        yield Fault("error=EINTR", IN_A_ROW - 1)
        yield Fault("error=EINTR", IN_A_ROW)
    if call.kind not in ("memory", "freeing"):
        yield Fault("error=EINTR", 1)
    for short in {1, asked // 2, asked - 1} if asked > 1 else ():
        yield Fault(f"retval={short}", 1, short)
