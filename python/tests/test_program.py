"""How the program is found and run: which one, programs that are none or too old, a killed one, and what is left behind."""
import errno
import io
import os
import pickle
import shlex
import shutil
import signal
import subprocess
import sys
import tempfile
import textwrap
import unittest
import unittest.mock

from support import ROOT, Tidy, example, other_program, read

import msrepack
from msrepack import Failed, NotFound, find_program, repack, segments
from msrepack import program as found


class Breaks(io.BytesIO):
    """A file that gives some of its bytes, and then fails."""

    def __init__(self, content, error):
        super().__init__(content)
        self.error = error

    def read(self, *_):
        piece = super().read(700)
        if not piece:
            raise self.error
        return piece


def told_after_ctrl_c(folder, before="pass"):
    """What a script tells that uses the package of a folder, and gets a Ctrl-C when the first process that it starts after
    this line is one already, and `Popen` has not come back."""
    script = textwrap.dedent(f"""
        import os, signal, msrepack
        {before}
        read = os.read
        def interrupted(*words):
            os.read = read
            signal.raise_signal(signal.SIGINT)
            return read(*words)
        os.read = interrupted
        try:
            msrepack.repack(b"")
        except KeyboardInterrupt:
            try:
                os.waitpid(-1, os.WNOHANG)
            except ChildProcessError:
                print("no child left")
    """)
    return subprocess.run([sys.executable, "-B", "-c", script], cwd=folder, stdout=subprocess.PIPE, text=True, check=False).stdout


class Finding(Tidy):
    def setUp(self):
        super().setUp()
        self.enter(unittest.mock.patch.dict(os.environ))
        os.environ.pop("MSREPACK", None)
        self.addCleanup(found._of_wheel.cache_clear)

    def program(self, name, told="msrepack 1.1.0"):
        path = self.path(name, f"#!/bin/sh\necho '{told}'\n".encode())
        os.chmod(path, 0o755)
        return path

    def copied(self, *places):
        """What a copy of the package, at one of the places, finds."""
        package = self.path(os.path.join(*places, "msrepack"))
        shutil.copytree(os.path.join(ROOT, "python", "msrepack"), package)
        script = "import msrepack; print(msrepack.find_program())"
        ran = subprocess.run(
            [sys.executable, "-B", "-c", script], cwd=os.path.dirname(package), capture_output=True, text=True, check=True
        )
        return ran.stdout.strip()

    def test_the_one_that_is_named(self):
        path = self.program("named")
        os.environ["MSREPACK"] = path
        self.assertEqual(find_program(), path)

    def test_one_that_is_named_and_is_none(self):
        os.environ["MSREPACK"] = self.path("nowhere")
        told = "MSREPACK names .*nowhere, which is no program: let it name one, or unset it"
        with self.assertRaisesRegex(NotFound, told) as caught:
            find_program()
        self.assertIsInstance(caught.exception, FileNotFoundError)
        self.assertEqual((caught.exception.filename, caught.exception.errno), (self.path("nowhere"), errno.ENOENT))

    def test_that_of_the_wheel(self):
        path, other = self.program("site/bin/msrepack"), self.program("path/msrepack")
        os.environ["PATH"] = os.path.dirname(other) + os.pathsep + os.environ["PATH"]
        self.wheel("bin/msrepack")
        self.assertEqual(self.copied("site"), path)

    def test_that_of_a_wheel_at_a_place_that_was_named(self):
        """As `pip install --target` notes it."""
        path = self.program("site/bin/msrepack")
        self.wheel("../../bin/msrepack")
        self.assertEqual(self.copied("site"), path)

    def test_a_wheel_that_is_not_this_package(self):
        """A clone does not take the program of another installation."""
        self.program("site/bin/msrepack")
        self.wheel("bin/msrepack")
        path = self.program("clone/out/msrepack")
        self.clone(f"printf '%s\\n' {shlex.quote(path)}")
        with unittest.mock.patch.dict(os.environ, PYTHONPATH=self.path("site")):
            self.assertEqual(self.copied("clone", "python"), path)

    def wheel(self, place):
        """What pip notes of a wheel that it installed."""
        record = f"{place},,\nmsrepack/__init__.py,,\nmsrepack-1.1.0.dist-info/RECORD,,\n"
        self.path("site/msrepack-1.1.0.dist-info/RECORD", record.encode())
        self.path("site/msrepack-1.1.0.dist-info/METADATA", b"Metadata-Version: 2.1\nName: msrepack\nVersion: 1.1.0\n")

    def test_that_of_the_clone(self):
        path, other = self.program("clone/out/msrepack"), self.program("path/msrepack")
        self.clone(f"[ $1 = --ready ] && printf '%s\\n' {shlex.quote(path)}")
        os.environ["PATH"] = os.path.dirname(other) + os.pathsep + os.environ["PATH"]
        self.assertEqual(self.copied("clone", "python"), path)

    def test_a_clone_that_has_none(self):
        """Nothing is built."""
        self.clone("echo 'msrepack: no program is built' >&2; exit 1")
        with self.assertRaises(subprocess.CalledProcessError) as caught:
            self.copied("clone", "python")
        self.assertIn("msrepack.errors.NotFound: no program is built\n", caught.exception.stderr)

    def test_ctrl_c_while_the_clone_is_asked(self):
        self.clone("exec sleep 60")
        package = self.path("clone/python/msrepack")
        shutil.copytree(os.path.join(ROOT, "python", "msrepack"), package)
        self.assertEqual(told_after_ctrl_c(os.path.dirname(package)), "no child left\n")

    def clone(self, script):
        """What a clone has beside the package, as far as it is looked at."""
        self.path("clone/crates.txt", b"")
        os.chmod(self.path("clone/tools/program", f"#!/bin/sh\n{script}\n".encode()), 0o755)

    def test_the_one_on_the_path(self):
        path = self.program("path/msrepack")
        os.environ["PATH"] = os.path.dirname(path) + os.pathsep + os.environ["PATH"]
        self.assertEqual(self.copied("elsewhere"), path)

    def test_none(self):
        with unittest.mock.patch.object(found, "_of_clone", return_value=None):
            with unittest.mock.patch.dict(os.environ, PATH=self.folder):
                with self.assertRaisesRegex(NotFound, "there is no program msrepack: install one"):
                    find_program()

    def test_one_that_is_too_old(self):
        os.environ["MSREPACK"] = self.program("old", "msrepack 0.9.7")
        with self.assertRaisesRegex(NotFound, "is msrepack 0.9.7, and this package wants 1.1 or newer: install one"):
            segments(example("one-record.mseed"))

    def test_newer_ones(self):
        for number, version in enumerate(("1.1.0", "1.12.3", "2.0.0-rc1")):
            os.environ["MSREPACK"] = self.program(f"new{number}", f"msrepack {version}")
            self.assertEqual(find_program(), os.environ["MSREPACK"])

    def test_another_of_that_name(self):
        os.environ["MSREPACK"] = self.program("other", "Usage: msrepack [options] mseedfile")
        with self.assertRaisesRegex(NotFound, "is not msrepack, or does not run"):
            find_program()

    def test_one_that_does_not_run(self):
        os.environ["MSREPACK"] = self.path("text", b"no program")
        os.chmod(os.environ["MSREPACK"], 0o755)
        with self.assertRaisesRegex(NotFound, r"text does not run \(Exec format error\): install one"):
            find_program()


class Version(unittest.TestCase):
    @unittest.skipUnless(os.path.exists(os.path.join(ROOT, "release/built")), "this is no clone")
    def test_that_of_the_shipped_program(self):
        shipped = os.path.join(ROOT, "release/built/x86_64-linux/msrepack")
        told = subprocess.run([shipped, "--version"], capture_output=True, text=True, check=True).stdout
        self.assertEqual(told, f"msrepack {msrepack.__version__}\n")


class Running(Tidy):
    def test_a_killed_program(self):
        with other_program("kill -9 $$"):
            with self.assertRaises(Failed) as caught:
                repack(b"\0" * 1_000_000)
            self.assertEqual((caught.exception.line, caught.exception.status), ("the program was ended by SIGKILL", -9))

    def test_faults_of_the_system(self):
        for line in ("read fault", "write fault", "out of memory", "cannot open /dev/fd/7"):
            with other_program(f"echo something before >&2; echo 'msrepack: {line}' >&2; exit 1"):
                with self.assertRaises(Failed) as caught:
                    repack(b"")
                self.assertEqual((str(caught.exception), caught.exception.status), (line, 1))

    def test_signals_without_a_name(self):
        with other_program("kill -40 $$"), self.assertRaisesRegex(Failed, "^the program was ended by signal 40$") as caught:
            repack(b"")
        self.assertEqual(caught.exception.status, -40)

    def test_a_program_that_says_nothing(self):
        for status in (1, 2, 77):
            for call in (lambda: repack(b""), lambda: list(msrepack.archive("a", "b", "c"))):
                with other_program(f"exit {status}"), self.assertRaisesRegex(Failed, f"^the program ended with status {status} and"):
                    call()

    def test_time_out(self):
        """Of each call; the process is gone, which the end of the test looks at."""
        calls = [
            lambda: repack(b"", timeout=0.2), lambda: repack(b"", timeout=0.2, output=self.path("out")),
            lambda: segments(b"", timeout=0.2), lambda: msrepack.listing(b"", timeout=0.2),
            lambda: msrepack.check(b"", b"", timeout=0.2), lambda: msrepack.compare(b"", b"", timeout=0.2),
            lambda: list(msrepack.archive("a", "b", "c", timeout=0.2)), lambda: list(msrepack.verify("a", "b", "c", timeout=0.2)),
        ]
        for call in calls:
            with other_program("exec sleep 60"), self.assertRaisesRegex(TimeoutError, "^longer than 0.2 s$") as caught:
                call()
            self.assertIsInstance(caught.exception, msrepack.Error)
        self.assertEqual(os.listdir(self.folder), ["tmp"])
        repack(read(example("one-record.mseed")), timeout=60)

    def test_a_program_that_hangs_before_it_tells_its_version(self):
        path = self.path("hangs", b"#!/bin/sh\nexec sleep 60\n")
        os.chmod(path, 0o755)
        with unittest.mock.patch.dict(os.environ, MSREPACK=path), self.assertRaises(TimeoutError):
            repack(b"", timeout=0.2)

    def test_an_answer_that_is_none(self):
        for call in (lambda: msrepack.check(b"", b""), lambda: msrepack.compare(b"", b"")):
            with other_program("echo perhaps"):
                with self.assertRaisesRegex(Failed, "an answer that this package does not know: perhaps"):
                    call()

    def test_a_file_that_fails(self):
        content = read(example("two-segments.mseed"))
        for error in (OSError("the tape tore"), KeyboardInterrupt(), MemoryError()):
            for call in (repack, segments, lambda file: msrepack.compare(content, file)):
                with self.assertRaises(type(error)) as caught:
                    call(Breaks(content, error))
                self.assertIs(caught.exception, error)

    def test_a_program_that_reads_nothing(self):
        with other_program("exec sleep 0"):
            with self.assertRaises(msrepack.NotAReport):
                repack(b"\0" * 10_000_000)

    def test_closed_standard_streams(self):
        """A pipe may then get the number of one; nothing of what is given is lost."""
        script = "import sys, msrepack; sys.exit(len(msrepack.segments(open(sys.argv[1], 'rb').read())))"
        words = ["sh", "-c", 'exec "$@" <&- >&- 2>&-', "sh", sys.executable, "-B", "-c", script, example("two-segments.mseed")]
        ran = subprocess.run(words, cwd=os.path.join(ROOT, "python"), check=False)
        self.assertEqual(ran.returncode, 2)

    def test_errors_go_to_other_processes(self):
        """As they do from a pool's."""
        for error in (
            msrepack.Refused(512, 5, "OtherBlockette", 500, "one"), Failed("read fault", -9), msrepack.NotAReport(7),
            msrepack.BadCall("the folders overlap"), NotFound("none"), Failed("cannot open a", 1, "a", 2),
            NotFound("none", "/a", 13), msrepack.Refused(0, 1, "Truncated", path="a.mseed"), msrepack.TimedOut("longer than 1 s"),
        ):
            other = pickle.loads(pickle.dumps(error))
            self.assertEqual((type(other), str(other), vars(other)), (type(error), str(error), vars(error)))
            if isinstance(error, OSError):
                self.assertEqual((other.filename, other.errno), (error.filename, error.errno))

    def test_ctrl_c_while_the_program_works(self):
        script = textwrap.dedent("""
            import os, subprocess, sys, msrepack
            print("begun", flush=True)
            try:
                msrepack.repack(b"")
            except KeyboardInterrupt:
                try:
                    os.waitpid(-1, os.WNOHANG)
                except ChildProcessError:
                    print("no child left")
        """)
        mark = self.path("mark")
        quoted = shlex.quote(mark)
        with other_program(f"echo $$ > {quoted}.new; mv {quoted}.new {quoted}; exec sleep 60"):
            ran = subprocess.Popen(
                [sys.executable, "-B", "-c", script], cwd=os.path.join(ROOT, "python"), stdout=subprocess.PIPE, text=True
            )
            with ran:
                while not os.path.exists(mark) and ran.poll() is None:
                    os.sched_yield()
                ran.send_signal(signal.SIGINT)
                self.assertEqual(ran.communicate()[0], "begun\nno child left\n")
            with self.assertRaises(ProcessLookupError):
                os.kill(int(read(mark)), 0)

    def test_ctrl_c_while_the_program_starts(self):
        """When it is a process already, and `Popen` has not come back; also while it is asked for its version."""
        for before in ("msrepack.find_program()", "pass"):
            with self.subTest(before=before), other_program("exec sleep 60"):
                self.assertEqual(told_after_ctrl_c(os.path.join(ROOT, "python"), before), "no child left\n")

    def test_records_are_not_held_twice(self):
        script = textwrap.dedent("""
            import resource, sys, msrepack
            def peak(): return resource.getrusage(resource.RUSAGE_SELF).ru_maxrss * 1024
            msrepack.find_program()
            before = peak()
            records = msrepack.repack(sys.argv[1]).records
            print(len(records), peak() - before)
        """)
        size = 100_000_000
        printed = msrepack.repack(b"").report
        writes = f'for out; do :; done; head -c {size} /dev/zero > "$out"'
        with other_program(f'printf "{printed}"; {writes}'):
            ran = subprocess.run(
                [sys.executable, "-B", "-c", script, "in"],
                cwd=os.path.join(ROOT, "python"),
                capture_output=True,
                text=True,
                check=True,
            )
        length, more = map(int, ran.stdout.split())
        self.assertEqual(length, size)
        self.assertLess(more, 1.3 * size)


if __name__ == "__main__":
    unittest.main()
