"""The built program over the table of runs, and a search that the clock ends."""
import os
import subprocess
import time
import unittest

import runs


class TheRuns(unittest.TestCase):
    def setUp(self):
        self.assertTrue(os.path.isfile(runs.BUILT), "the program is not built")


def test_of(it):
    def test(self):
        ended = runs.run(runs.BUILT, it)
        if it.error is not None:
            self.assertEqual(ended.error.decode("latin-1"), it.error)
        if it.output is not None:
            self.assertEqual(ended.output.decode("latin-1"), it.output)
        for part in it.of_error:
            self.assertIn(part, ended.error.decode("latin-1"))
        self.assertEqual(ended.status, it.status)

    test.__doc__ = it.name
    return test


for number, each in enumerate(runs.RUNS):
    setattr(TheRuns, f"test_{number:03}_{''.join(c if c.isalnum() else '_' for c in each.name)}", test_of(each))


class AClockedSearch(unittest.TestCase):
    """A search that only the clock can end (depth 16 takes years) ends, and not before its time. A clock that doesn't go, or counts seconds, is
    found by the limit of the wait; one that runs ahead by the time that went by here."""

    def test_a_timed_search_ends_in_its_time(self):
        session = subprocess.Popen([runs.BUILT, "uci"], stdin=subprocess.PIPE, stdout=subprocess.PIPE, text=True)
        try:
            session.stdin.write("isready\n")
            session.stdin.flush()
            self.assertEqual(session.stdout.readline(), "readyok\n")
            begun = time.monotonic()
            output, _ = session.communicate("go movetime 700\nquit\n", timeout=runs.MOST_SECONDS)
            took = time.monotonic() - begun
        finally:
            session.kill()
        self.assertRegex(output, r"(info depth \d+ score (cp|mate) -?\d+ pv \w+\n)+bestmove \w+\n$")
        self.assertGreaterEqual(took, 0.699)
        self.assertEqual(session.returncode, 0)

    def test_an_infinite_search_ends_at_stop(self):
        session = subprocess.Popen([runs.BUILT, "uci"], stdin=subprocess.PIPE, stdout=subprocess.PIPE, text=True)
        try:
            output, _ = session.communicate("go infinite\nisready\nstop\nquit\n", timeout=runs.MOST_SECONDS)
        finally:
            session.kill()
        lines = output.splitlines()
        self.assertEqual([line.split()[:3] for line in lines[:5]], [["info", "depth", str(depth)] for depth in range(1, 6)])
        self.assertEqual(lines[5], "readyok")
        self.assertRegex(lines[6], r"^bestmove \w+$")
        self.assertEqual(len(lines), 7)
