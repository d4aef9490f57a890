"""What the pages say: the examples of README.md and of the docstrings, that each public name has one, and the types."""
import doctest
import importlib
import importlib.util
import inspect
import os
import shutil
import subprocess
import unittest

from support import ROOT

import msrepack

PAGE = os.path.join(ROOT, "python", "README.md")
MODULES = ["msrepack", *(f"msrepack.{name}" for name in ("channels", "errors", "files", "lines", "program", "report", "sources", "tables", "walks"))]
MODULES += ["msrepack.bands", "msrepack.plot", "msrepack.__main__"] * (importlib.util.find_spec("matplotlib") is not None)
OBSPY = "**Read by ObsPy**"
# Debian's mypy is that of its own python3.
MYPY = shutil.which("mypy", path=f"/usr/bin{os.pathsep}{os.environ['PATH']}")


class Examples(unittest.TestCase):
    def setUp(self):
        self.addCleanup(os.chdir, os.getcwd())
        os.chdir(ROOT)

    def run_examples(self, test):
        failed = []
        runner = doctest.DocTestRunner(verbose=False)
        runner.run(test, out=failed.append)
        self.assertEqual(runner.failures, 0, "".join(failed))
        return runner.tries

    def page(self):
        """The part of the page that runs without ObsPy, and the rest, which goes on from it."""
        with open(PAGE, encoding="utf-8") as file:
            return file.read().partition(OBSPY)

    def test_page(self):
        text = self.page()[0]
        self.assertGreater(self.run_examples(doctest.DocTestParser().get_doctest(text, {}, "README.md", PAGE, 0)), 10)

    @unittest.skipUnless(importlib.util.find_spec("obspy"), "ObsPy is not there")
    def test_page_with_obspy(self):
        text = "".join(self.page())
        self.run_examples(doctest.DocTestParser().get_doctest(text, {}, "README.md", PAGE, 0))

    def test_docstrings(self):
        for name in MODULES:
            for test in doctest.DocTestFinder().find(importlib.import_module(name)):
                with self.subTest(test.name):
                    self.run_examples(test)

    def test_each_public_name_has_an_example(self):
        names = [(msrepack, name) for name in msrepack.__all__]
        public = [name for name, what in vars(msrepack.lines).items() if inspect.isclass(what) and not name.startswith("_")]
        names += [(msrepack.lines, name) for name in public if getattr(msrepack.lines, name).__module__ == "msrepack.lines"]
        self.assertGreater(len(names), 30)
        for module, name in names:
            what = getattr(module, name)
            if not inspect.ismodule(what):
                self.assertIn(">>> ", inspect.getdoc(what) or "", name)


class Types(unittest.TestCase):
    @unittest.skipUnless(MYPY, "mypy is not there")
    def test_mypy(self):
        words = [MYPY, "--strict", "--python-version", "3.9", "--cache-dir", os.devnull, "--no-error-summary"]
        ran = subprocess.run([*words, os.path.join(ROOT, "python", "msrepack")], capture_output=True, text=True, check=False)
        self.assertEqual((ran.stdout, ran.returncode), ("", 0))


if __name__ == "__main__":
    unittest.main()
