"""The commands that the pages show: in each block `console`, a line `$ ..` is run, with the lines `> ..` after it, and what follows is its output. A block `python`
of the README, of the tutorial and of the page for data is run as it stands, and its comments are its output."""
import os
import re
import shutil
import subprocess
import sys
import tempfile
import unittest

import runs
from test_examples import node_version
from test_pages import PAGES, text_of


def commands(page):
    """The commands of a page, each with the output that it shows."""
    for block in re.findall(r"^```console\n(.*?)^```$", text_of(page), flags=re.M | re.S):
        for command, more, output in re.findall(r"^\$ (.*\n)((?:> .*\n)*)((?:(?!\$ ).*\n)*)", block, flags=re.M):
            yield command + re.sub(r"^> ", "", more, flags=re.M), output


class Commands(unittest.TestCase):
    def test_each_command_writes_what_its_page_shows(self):
        has_node = node_version() >= [20, 19]
        found = [(page, *it) for page in PAGES for it in commands(page) if has_node or not it[0].startswith("node ")]
        found = [it for it in found if shutil.which("sqlite3") or "sqlite3 $TMPDIR" not in it[1]]
        with tempfile.TemporaryDirectory() as folder:
            for page, command, output in found:
                with self.subTest(page=page, command=command):
                    ran = subprocess.run(
                        ["bash", "-c", command],
                        cwd=runs.TOP,
                        env={**os.environ, "TMPDIR": folder},
                        stdin=subprocess.DEVNULL,
                        stdout=subprocess.PIPE,
                        stderr=subprocess.STDOUT,
                        text=True,
                    )
                    self.assertEqual(ran.stdout.rstrip(), output.rstrip())
        self.assertTrue({"README.md", "docs/TUTORIAL.md"} <= {page for page, *_ in found})

    def test_the_blocks_of_python_run_as_they_stand(self):
        runs.make("libraries", "--gate")
        for page in ("README.md", "docs/TUTORIAL.md", "docs/DATA.md"):
            blocks = re.findall(r"^```python\n(.*?)^```$", text_of(page), flags=re.M | re.S)
            self.assertTrue(blocks)
            for block in blocks:
                ran = subprocess.run(
                    [sys.executable, "-"],
                    input=block,
                    cwd=runs.TOP,
                    env={**os.environ, "PYTHONPATH": f"{runs.TOP}/python"},
                    stdout=subprocess.PIPE,
                    stderr=subprocess.STDOUT,
                    text=True,
                )
                with self.subTest(page=page, block=block):
                    self.assertEqual(ran.returncode, 0, ran.stdout)
                    self.assertEqual(re.findall(r"(?:^|  )# (.*)$", block, flags=re.M), ran.stdout.splitlines())
