"""The move that changes the most attack counts of all that were found changes as many as docs/LAWS.md says."""
import re
import subprocess
import unittest

import runs
from test_pages import text_of


class Changes(unittest.TestCase):
    def test_the_most_changes_that_were_found(self):
        said = re.search(r"(\d+) changes[^`]*`([^`]+)`[^`]*`(\w+)`", text_of("docs/LAWS.md").replace("\n", " "))
        most, fen, move = int(said[1]), said[2], said[3]
        lines = [f"set {fen}", "counts w", "counts b", f"play {move}", "counts w", "counts b"]
        ran = subprocess.run([runs.BUILT, "board"], input="\n".join(lines), capture_output=True, text=True)
        answers = ran.stdout.splitlines()
        self.assertEqual((answers[0], answers[3]), ("ok", "ok"))
        counts = [[int(n) for n in re.findall(r"\d+", answers[i])] for i in (1, 2, 4, 5)]
        changed = sum(abs(after - before) for one, other in (counts[0::2], counts[1::2]) for before, after in zip(one, other))
        self.assertEqual(changed, most)
        self.assertLessEqual(changed, 216)
