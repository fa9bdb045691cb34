"""The program `perft`: each answer as soon as it is counted, and how a run ends early."""
import os
import select
import subprocess
import unittest

import runs

PERFT = f"{runs.TOP}/crates/perft/out/perft"
START = "rnbqkbnr/pppppppp/8/8/8/8/PPPPPPPP/RNBQKBNR w KQkq - 0 1"


class Perft(unittest.TestCase):
    def ended(self, **streams):
        return subprocess.run([PERFT], capture_output="stdout" not in streams, stderr=subprocess.PIPE if "stdout" in streams else None, timeout=runs.MOST_SECONDS, **streams)

    def test_counts(self):
        ended = self.ended(input=f"3 {START}\n\nfull 2 {START}\r\n17 {START}\n{'9' * 70_000}\n0 {START}".encode())
        self.assertEqual((ended.returncode, ended.stdout, ended.stderr), (0, b"8902\n400\nfault Depth\nfault LongLine\n1\n", b""))

    def test_a_line_has_at_most_1024_bytes(self):
        """With a line feed and without one, and whitespace alone as well."""
        small = "8/2p5/3p4/KP5r/1R3p1k/8/4P1P1/8 w - -"
        rows = [("0" * 1024, "fault Depth\n"), ("0" * 1025, "fault LongLine\n"), (f"\n \t\r\n02 {small} 0 1\n", "fault Depth\n"),
                (" " * 1025 + "\n1 " + small, "fault LongLine\n14\n"), (f" 2\t{small}\r\n", "191\n")]
        for text, answers in rows:
            for end in ("", "\n"):
                with self.subTest(text=text[:40], end=end):
                    ended = self.ended(input=(text + end).encode())
                    self.assertEqual((ended.returncode, ended.stdout.decode()), (0, answers))

    def test_words(self):
        for words, output, error in ((["--version"], f"perft {runs.VERSION}\n", ""), (["--help"], runs.help_of("perft"), ""), (["4"], "", "error: ")):
            with self.subTest(words=words):
                ended = subprocess.run([PERFT, *words], stdin=subprocess.DEVNULL, capture_output=True, text=True, timeout=runs.MOST_SECONDS)
                self.assertEqual(ended.returncode, 1)
                self.assertEqual(ended.stdout, output)
                self.assertTrue(ended.stderr.startswith(error), ended)

    def test_an_answer_comes_before_the_next_line_is_given(self):
        with subprocess.Popen([PERFT], stdin=subprocess.PIPE, stdout=subprocess.PIPE) as program:
            for depth, leaves in ((1, b"20\n"), (2, b"400\n")):
                program.stdin.write(f"{depth} {START}\n".encode())
                program.stdin.flush()
                self.assertEqual(program.stdout.readline(), leaves)

    def test_an_answer_comes_before_the_next_is_counted(self):
        """Both lines come in one piece; the second would take years."""
        with subprocess.Popen([PERFT], stdin=subprocess.PIPE, stdout=subprocess.PIPE) as program:
            try:
                program.stdin.write(f"1 {START}\n16 {START}\n".encode())
                program.stdin.flush()
                self.assertTrue(select.select([program.stdout], [], [], runs.MOST_SECONDS)[0], "no answer comes")
                self.assertEqual(program.stdout.readline(), b"20\n")
            finally:
                program.kill()

    def test_a_folder_as_input(self):
        folder = os.open("/", os.O_RDONLY)
        self.addCleanup(os.close, folder)
        ended = self.ended(stdin=folder)
        self.assertEqual((ended.returncode, ended.stdout, ended.stderr), (3, b"", b"read fault\n"))

    def test_a_full_device_as_output(self):
        with open("/dev/full", "wb") as full:
            ended = self.ended(input=f"1 {START}\n".encode(), stdout=full)
        self.assertEqual((ended.returncode, ended.stderr), (3, b"write fault\n"))
