"""Jobs of a test, side by side on all processors, below a folder of their own, which goes with them whatever happens."""
import contextlib
import multiprocessing
import multiprocessing.connection
import os
import signal
import sys
import tempfile
import time
import traceback
from collections import Counter, namedtuple


class Result:
    """What came of jobs: how many comparisons passed and failed, and how many were skipped for which reasons; what to tell of
    those that failed, and a note."""

    def __init__(self, passed=0, failed=0, skipped=(), told="", note=""):
        self.passed, self.failed, self.skipped, self.told, self.note = passed, failed, Counter(skipped), told, note

    def __add__(self, other):
        counts = self.passed + other.passed, self.failed + other.failed, self.skipped + other.skipped
        return Result(*counts, self.told + other.told, self.note + other.note)

    def __str__(self):
        return f"{self.passed} passed, {self.failed} failed, {sum(self.skipped.values())} skipped"


# What is done, and the part of the test that it is of.
Job = namedtuple("Job", "part does given")


def end_by(number, _):
    sys.exit(128 + number)


def end_children():
    """Ends the processes of the jobs, with all that these started."""
    for child in multiprocessing.active_children():
        with contextlib.suppress(ProcessLookupError):
            os.killpg(child.pid, signal.SIGKILL)
        child.kill()
        child.join()


@contextlib.contextmanager
def own_folder():
    """A new folder in which all is written; it is removed also after a fault, Ctrl-C, or a signal that ends the test."""
    for number in (signal.SIGTERM, signal.SIGHUP):
        signal.signal(number, end_by)
    folder = tempfile.TemporaryDirectory(prefix="msrepack-test.")
    try:
        tempfile.tempdir = os.environ["TMPDIR"] = folder.name
        yield folder.name
    finally:
        end_children()
        remove(folder)


def remove(folder):
    """Removes a folder, in which a program may still write that lost who started it."""
    for _ in range(20):
        with contextlib.suppress(OSError):
            folder.cleanup()
        if not os.path.exists(folder.name):
            return
        time.sleep(0.1)
    print(f"{folder.name} could not be removed", file=sys.stderr)


def do(job, answers):
    """Does a job in a process of its own, and of its own group: so Ctrl-C goes to the one that started it alone, and that one
    can end it with all its programs."""
    os.setpgid(0, 0)
    for number in (signal.SIGTERM, signal.SIGHUP):
        signal.signal(number, signal.SIG_DFL)
    try:
        answers.send(job.does(*job.given))
    except Exception:
        answers.send(Result(failed=1, told=traceback.format_exc()))


def results(jobs):
    """The part and the result of each job, as they come. Semaphores are not needed, and so no shared memory."""
    context, cores = multiprocessing.get_context("fork"), len(os.sched_getaffinity(0))
    waiting, at_work = list(jobs), {}
    while waiting or at_work:
        while waiting and len(at_work) < cores:
            job = waiting.pop(0)
            answers, other = context.Pipe(duplex=False)
            process = context.Process(target=do, args=(job, other))
            process.start()
            other.close()
            at_work[answers] = job, process
        for answers in multiprocessing.connection.wait(at_work):
            job, process = at_work.pop(answers)
            try:
                result = answers.recv()
            except EOFError:
                result = Result(failed=1, told=f"a process was killed: {job.part}\n")
            process.join()
            yield job.part, result
