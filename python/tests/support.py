"""What the tests have in common: the package, the independent model of interop/, and programs that are no msrepack."""
import contextlib
import os
import sys
import tempfile
import unittest.mock

ROOT = os.path.dirname(os.path.dirname(os.path.dirname(os.path.realpath(__file__))))
EXAMPLES = os.path.join(ROOT, "examples")
sys.dont_write_bytecode = True
for folder in ("interop", "python"):
    sys.path.insert(0, os.path.join(ROOT, folder))


def example(name):
    return os.path.join(EXAMPLES, name)


def read(path):
    with open(path, "rb") as file:
        return file.read()


@contextlib.contextmanager
def other_program(script):
    """Another program in the place of msrepack, which says that it is one, and then does as the shell's script says."""
    with tempfile.TemporaryDirectory() as folder:
        path = os.path.join(folder, "msrepack")
        with open(path, "w", encoding="utf-8") as file:
            file.write(f'#!/bin/sh\nif [ "$1" = --version ]; then echo "msrepack 1.1.0"; exit; fi\n{script}\n')
        os.chmod(path, 0o755)
        with unittest.mock.patch.dict(os.environ, MSREPACK=path):
            yield path


class Tidy(unittest.TestCase):
    """Each test leaves no child, no open file and no file behind."""

    def setUp(self):
        self.folder = self.enter(tempfile.TemporaryDirectory())
        self.temporary = os.path.join(self.folder, "tmp")
        os.mkdir(self.temporary)
        patched = unittest.mock.patch.object(tempfile, "tempdir", self.temporary)
        self.enter(patched)
        self.opened = sorted(os.listdir("/proc/self/fd"))

    def enter(self, context):
        """Enters a context for the time of the test; Python 3.9 has no `enterContext`."""
        entered = context.__enter__()
        self.addCleanup(context.__exit__, None, None, None)
        return entered

    def tearDown(self):
        with self.assertRaises(ChildProcessError):
            os.waitpid(-1, os.WNOHANG)
        self.assertEqual(os.listdir(self.temporary), [])
        self.assertEqual(sorted(os.listdir("/proc/self/fd")), self.opened)

    def path(self, name, content=None):
        path = os.path.join(self.folder, name)
        if content is not None:
            os.makedirs(os.path.dirname(path), exist_ok=True)
            with open(path, "wb") as file:
                file.write(content)
        return path
