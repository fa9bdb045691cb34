"""The tools that need more than one run of a program, and the parts of the gate."""
import glob
import importlib.machinery
import importlib.util
import os
import pathlib
import platform
import re
import subprocess
import sys
import textwrap
import unittest

import runs


class Tools(unittest.TestCase):
    def ends_well(self, *words):
        ran = subprocess.run(words, cwd=runs.TOP, stdin=subprocess.DEVNULL, capture_output=True, text=True)
        self.assertEqual(ran.returncode, 0, ran.stdout[-3000:] + ran.stderr[-3000:])
        return ran.stdout

    def test_each_growth_of_memory_refused_in_turn(self):
        self.assertIn("board: ", self.ends_well("tools/growths"))

    def test_each_part_of_a_definition_has_its_example(self):
        self.assertIn(", 0 missed", self.ends_well("tools/parts"))

    def test_tests_run_over_the_release_without_the_kit(self):
        """With JATSHEGI_RELEASED=1 a file of tests runs by itself, no tool is started, and what release/ lacks is skipped."""
        folders = [it for it in os.get_exec_path() if not os.path.exists(f"{it}/rt")]
        environment = {name: value for name, value in os.environ.items() if not name.startswith("JATSHEGI_")}
        environment.update(JATSHEGI_RELEASED="1", PATH=os.pathsep.join(folders))
        ran = subprocess.run([sys.executable, "tests/test_python.py", "Moves"], cwd=runs.TOP, env=environment, capture_output=True, text=True)
        self.assertRegex(ran.stderr, r"Ran [1-9]\d* tests? in .*\n\nOK", ran.stderr)
        asked = """
            import unittest, runs
            runs.make("libraries")
            print(runs.BUILT)
            for call in (lambda: runs.make("prove", "chess"), lambda: runs.program("corpus")):
                try:
                    call()
                except unittest.SkipTest as why:
                    print(why)
            """
        ran = subprocess.run([sys.executable, "-c", textwrap.dedent(asked)], cwd=f"{runs.TOP}/tests", env=environment, capture_output=True, text=True)
        built = f"{runs.TOP}/release/{platform.machine()}-linux/bin/chess"
        self.assertEqual((ran.stdout, ran.stderr), (f"{built}\nrelease/ has nothing in the place of tools/prove chess\nrelease/ has no program corpus\n", ""))

    def test_no_text_of_the_sources_has_a_line_that_looks_like_a_comment(self):
        """tools/prove leaves lines of comments out of what a crate is made from, and knows no texts."""
        tokens = re.compile(r"//[^\n]*|b?'(?:\\.|[^'\\\n])'|\"(?:\\.|[^\"\\])*\"", re.DOTALL)
        for path in glob.glob(f"{runs.TOP}/crates/*/src/**/*.rt", recursive=True) + glob.glob(f"{runs.TOP}/platforms/**/*.rt*", recursive=True):
            for token in tokens.findall(pathlib.Path(path).read_text(encoding="utf-8")):
                if token.startswith('"'):
                    self.assertNotRegex(token, r"\n[ \t]*//", path)

    def test_the_parts_of_the_gate_are_the_whole(self):
        """Each file of tests/ is in one part; the first of several is `rt ci` alone, and a part that there isn't is refused."""
        loader = importlib.machinery.SourceFileLoader("gate", f"{runs.TOP}/test")
        gate = importlib.util.module_from_spec(importlib.util.spec_from_loader("gate", loader))
        loader.exec_module(gate)
        names = sorted(glob.glob("test_*.py", root_dir=f"{runs.TOP}/tests"))
        self.assertEqual(gate.part_of([]), (1, 1))
        self.assertEqual(gate.files_of(1, 1), names)
        for parts in range(2, 10):
            dealt = [gate.files_of(part, parts) for part in range(1, parts + 1)]
            self.assertEqual(dealt[0], [])
            self.assertTrue(all(dealt[1:]))
            self.assertEqual(sorted(name for part in dealt for name in part), names)
            self.assertEqual(gate.part_of(["--part", f"{parts}/{parts}"]), (parts, parts))
        for words in (["--part"], ["--part", "4/3"], ["--part", "0/3"], ["--part", "1/0"], ["1/3"], ["--part", "1/3", "more"]):
            ran = subprocess.run([f"{runs.TOP}/test", *words], stdin=subprocess.DEVNULL, capture_output=True, text=True)
            self.assertEqual((ran.returncode, ran.stdout[:6]), (2, "usage:"), words)


if __name__ == "__main__":
    unittest.main()
