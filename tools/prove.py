#!/usr/bin/env python3
"""Proves a program and the crates below it, and builds it.

usage: prove.py PROGRAM LOG CRATE..

CRATE.. are the program and the crates below it. If checks kept their work in the folders of all of them, what changed
since is proved over that. Else all is proved as the gate does it, from nothing, in a copy without the must-fail edits:
a crate then loads what the crates below it state, and not their proofs. What was proved so, `rt` keeps for all
checkouts of this machine, and for the gate, if it may write beside itself. Standard error tells each crate that is
done. What `rt` prints goes to LOG.
"""

import os
import shutil
import subprocess
import sys
import tempfile

ROOT = os.path.dirname(os.path.dirname(os.path.abspath(__file__)))
# What a check takes at the most.
MEMORY_OF_A_CHECK = 3 << 30


def side_by_side():
    with open("/proc/meminfo", encoding="utf-8") as lines:
        free = next(int(it.split()[1]) << 10 for it in lines if it.startswith("MemAvailable"))
    return max(1, min(len(os.sched_getaffinity(0)), free // MEMORY_OF_A_CHECK))


class Told:
    """Tells what `rt` prints: `== NAME` above what it says of a crate that is done, and which are not proved."""

    def __init__(self, crates):
        self.crates, self.done, self.failed = crates, 0, []

    def take(self, line):
        name, _, word = line.removeprefix("== ").partition(": ")
        if line.startswith("== ") and name in self.crates:
            self.done += 1
            print(f"msrepack: {name} ({self.done} of {len(self.crates)})", file=sys.stderr, flush=True)
        elif name in self.crates and word.startswith("failed"):
            self.failed.append(name)
        elif line.startswith("rt: FAILED: "):
            self.failed += line.removeprefix("rt: FAILED: ").split()


def run(words, folder, log, take):
    """Whether the command succeeds. Its lines go to the log and to `take`."""
    pipes = {"stdin": subprocess.DEVNULL, "stdout": subprocess.PIPE, "stderr": subprocess.STDOUT}
    with subprocess.Popen(words, cwd=folder, encoding="utf-8", errors="replace", **pipes) as command:
        try:
            for line in command.stdout:
                log.write(line)
                log.flush()
                take(line.rstrip("\n"))
        except KeyboardInterrupt:
            # `rt ci` would wait for the checks that run, some minutes; if it ends, they do.
            command.kill()
            raise
    return command.returncode == 0


def left_out(folder, names):
    """What the copy of a crate does without: what was made of it, and its edits."""
    return {"out", "must-fail", "wrong", "by-hand"}.intersection(names) if os.path.dirname(folder) == f"{ROOT}/crates" else ()


def copy_crates(crates, room):
    """Copies these crates, with their lines of crates.txt."""
    with open(f"{ROOT}/crates.txt", encoding="utf-8") as lines:
        kept = [line for line in lines if line.strip() and line.replace(":", " ").split()[0] in crates]
    with open(f"{room}/crates.txt", "w", encoding="utf-8") as out:
        out.writelines(kept)
    shutil.copyfile(f"{ROOT}/HANDLES", f"{room}/HANDLES")
    for name in crates:
        shutil.copytree(f"{ROOT}/crates/{name}", f"{room}/crates/{name}", ignore=left_out)


def prove_anew(program, crates, log, take):
    """Whether all is proved, and the program built, as the gate does it. It then stands where `rt run` leaves it."""
    made = f"{ROOT}/crates/{program}/out/{program}"
    with tempfile.TemporaryDirectory(prefix="msrepack-") as room:
        copy_crates(crates, room)
        if not run(["rt", "ci"], room, log, take):
            return False
        shutil.copy2(f"{room}/crates/{program}/out/{program}", f"{made}.new")
    # `rt run` would take the program for the one that it left.
    if os.path.exists(f"{made}.stamp"):
        os.remove(f"{made}.stamp")
    os.replace(f"{made}.new", made)
    return True


def prove_again(program, log, take):
    """Whether what changed is proved over kept work, and the program built."""
    folder = f"{ROOT}/crates/{program}"
    checked = run(["rt", "all", "check", "--jobs", str(side_by_side())], folder, log, take)
    return checked and run(["rt", "run", "--", "--version"], folder, log, lambda line: None)


def main(program, log, *crates):
    told = Told(crates)
    kept = all(os.path.isdir(f"{ROOT}/crates/{name}/out/incremental") for name in crates)
    with open(log, "w", encoding="utf-8") as out:
        proved = prove_again(program, out, told.take) if kept else prove_anew(program, crates, out, told.take)
    if not proved:
        what = f"not proved: {' '.join(told.failed)}" if told.failed else f"{program} is not built"
        sys.exit(f"msrepack: {what}: {log} says why")


main(*sys.argv[1:])
