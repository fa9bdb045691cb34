"""What contracts leave loose: each thing that tools/loose finds has its line in tests/loose.txt, and nothing else has one."""
import subprocess
import unittest

import runs


class Loose(unittest.TestCase):
    @classmethod
    def setUpClass(cls):
        cls.found = subprocess.run([f"{runs.TOP}/tools/loose"], capture_output=True, text=True, check=True).stdout.splitlines()
        with open(f"{runs.TOP}/tests/loose.txt", encoding="utf-8") as kept:
            lines = [line for line in kept.read().splitlines() if line and not line.startswith("#")]
        cls.listed = [line.partition("  ")[::2] for line in lines]

    def test_what_is_found_is_listed(self):
        self.assertEqual([], sorted(set(self.found) - {name for name, _ in self.listed}), "say in tests/loose.txt what ties it, or why nothing does")

    def test_what_is_listed_is_found(self):
        self.assertEqual([], sorted({name for name, _ in self.listed} - set(self.found)), "gone: take the line out of tests/loose.txt")

    def test_each_has_one_line_and_a_sentence(self):
        self.assertEqual([name for name, _ in self.listed], sorted({name for name, _ in self.listed}))
        for name, sentence in self.listed:
            with self.subTest(name=name):
                self.assertRegex(sentence, r"^[A-Z`].+\.$")

    def test_something_is_found_of_each_kind(self):
        # (a text that the script no longer reads would leave it nothing to say)
        for kind, least in (("result", 15), ("after", 5), ("witness", 100)):
            with self.subTest(kind=kind):
                self.assertGreater(sum(line.startswith(f"{kind} ") for line in self.found), least)


if __name__ == "__main__":
    unittest.main()
