"""The programs of examples/, as a user runs them in a clone, on the released library and the released module of the page."""
import os
import re
import shutil
import subprocess
import tempfile
import unittest

import runs

GAME = "e4 e5 Bc4 Nc6 Qh5 Nf6 Qxf7 Kxf7".split()
FEN = "r1bqkb1r/pppp1Qpp/2n2n2/4p3/2B1P3/8/PPPP1PPP/RNB1K1NR b KQkq - 0 4"


def called(*words):
    return subprocess.run(words, cwd=runs.TOP, stdin=subprocess.DEVNULL, stdout=subprocess.PIPE, stderr=subprocess.STDOUT, text=True)


def first_line_of(name):
    """The command in the head of an example, without the moves."""
    with open(f"{runs.TOP}/examples/{name}", encoding="utf-8") as file:
        return re.search(r"((?:cc|node) examples/[^&\n]*?)(?: &&| e4)", file.read())[1].split()


def node_version():
    said = called("node", "--version").stdout if shutil.which("node") else "v0.0.0"
    return [int(it) for it in re.findall(r"\d+", said)[:2]]


class Examples(unittest.TestCase):
    def test_c(self):
        with tempfile.TemporaryDirectory() as folder:
            words = [f"{folder}/board" if it == "board" else it for it in first_line_of("board.c")]
            self.assertEqual(called(*words, "-std=c11", "-Wall", "-Wextra", "-Werror", "-pedantic").stdout, "")
            self.assertEqual(called(f"{folder}/board", *GAME).stdout.splitlines(), ["Kxf7: the move isn't legal", FEN, "0 legal moves", "mate"])

    @unittest.skipIf(node_version() < [20, 19], "node is not installed, or older than 20.19")
    def test_javascript(self):
        self.assertEqual(called(*first_line_of("board.mjs"), *GAME).stdout.splitlines(), ["Kxf7: Illegal", FEN, "none", "mate"])

    def test_the_index_names_each_program(self):
        with open(f"{runs.TOP}/examples/README.md", encoding="utf-8") as page:
            shown = {os.path.normpath(f"examples/{it}") for it in re.findall(r"\]\(([^)#]+)\)", page.read())}
        for folder in ("examples", "python/examples", "rust/examples"):
            for name in os.listdir(f"{runs.TOP}/{folder}"):
                if re.search(r"\.(c|mjs|py|rs|ipynb)$", name):
                    with self.subTest(name=name):
                        self.assertIn(f"{folder}/{name}", shown)


if __name__ == "__main__":
    unittest.main()
