"""The types of the Python package and of its examples, as mypy checks them for the oldest Python that the package is for."""
import glob
import os
import re
import shutil
import subprocess
import sys
import tempfile
import unittest
import zipfile

import runs

PACKAGE = f"{runs.TOP}/python"


def oldest_python():
    """The version that pyproject.toml names."""
    with open(f"{PACKAGE}/pyproject.toml", encoding="utf-8") as file:
        return re.search(r'requires-python = ">=(.*)"', file.read())[1]


def sources():
    """The modules of the package by their paths."""
    return sorted(glob.glob(f"{PACKAGE}/jatshegi/**/*.py", recursive=True))


@unittest.skipUnless(shutil.which("mypy"), "mypy is not on the path")
class Types(unittest.TestCase):
    def checked(self, *words):
        """The number of files in which mypy finds nothing; it fails if mypy reports anything."""
        with tempfile.TemporaryDirectory() as cache:
            words = ["mypy", "--config-file=", "--cache-dir", cache, "--python-version", oldest_python(), *words]
            ran = subprocess.run(words, cwd=PACKAGE, env={**os.environ, "MYPYPATH": PACKAGE}, capture_output=True, text=True)
        said = re.fullmatch(r"Success: no issues found in (\d+) source files\n", ran.stdout)
        self.assertTrue(said and not ran.returncode, ran.stdout + ran.stderr)
        return int(said[1])

    def test_package(self):
        self.assertEqual(self.checked("--strict", "jatshegi"), len(sources()))

    def test_examples(self):
        examples = sorted(glob.glob(f"{PACKAGE}/examples/*.py"))
        self.assertEqual(self.checked("--check-untyped-defs", *examples), len(examples))


class Marks(unittest.TestCase):
    def test_the_wheel_says_that_it_has_types(self):
        """Without the file py.typed, type checkers pass over an installed package."""
        with tempfile.TemporaryDirectory() as folder:
            words = [sys.executable, "-B", "-c", f"import packing; print(packing.build_wheel({folder!r}))"]
            made = subprocess.run(words, cwd=PACKAGE, check=True, capture_output=True, text=True)
            with zipfile.ZipFile(f"{folder}/{made.stdout.strip()}") as wheel:
                self.assertIn("jatshegi/py.typed", wheel.namelist())

    def test_each_error_that_mypy_is_to_ignore_has_a_reason(self):
        """The line names the error, and a second comment says why, as `# type: ignore[assignment]  # (it can be changed)`."""
        for path in sources():
            with open(path, encoding="utf-8") as file:
                for line in file:
                    if "type: ignore" in line:
                        with self.subTest(path=path, line=line):
                            self.assertRegex(line, r"# type: ignore\[[a-z-]+\]  # \(.+\)$")


if __name__ == "__main__":
    unittest.main()
