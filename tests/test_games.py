"""Games with very many variations, which the program reads and writes in the time that their bytes take."""
import subprocess
import unittest

import runs

HEAD = "1. e4"
# A knight's moves there and back, each with a move instead of it, and one instead of that.
PLIES = [("Nf3", "Nc3", "Na3"), ("Nf6", "Nc6", "Na6"), ("Ng1", "e3", "d3"), ("Ng8", "e6", "d6")]


def written(text):
    """What the program writes of a game: the words of its movetext, one space between two."""
    ended = subprocess.run([runs.BUILT, "pgn"], input=text.encode(), capture_output=True, timeout=runs.MOST_SECONDS)
    assert ended.returncode == 0, ended.stderr
    return ended.stdout.decode(), " ".join(ended.stdout.decode().split("\n\n", 1)[1].split())


class ManyVariations(unittest.TestCase):
    def test_side_by_side(self):
        self.assertEqual(written(HEAD + "(d4)" * 65_536 + "*")[1], HEAD + " (1. d4)" * 65_536 + " *")

    def test_each_with_one_in_it(self):
        """A variation of a variation's first move is one of the same place, and is written so."""
        self.assertEqual(written(HEAD + "(d4(c4))" * 65_536 + "*")[1], HEAD + " (1. d4) (1. c4)" * 65_536 + " *")

    def test_many_in_the_last_of_many(self):
        text = HEAD + "(d4)" * 65_536 + "(d4" + "(c4)" * 65_536 + ")*"
        self.assertEqual(written(text)[1], HEAD + " (1. d4)" * 65_537 + " (1. c4)" * 65_536 + " *")

    def test_at_each_ply_of_a_long_game(self):
        plies = [PLIES[ply % 4] for ply in range(20_000)]
        output, words = written(" ".join(f"{move} ({other} ({third}))" for move, other, third in plies) + " *")
        self.assertEqual(words.count("("), 40_000)
        self.assertTrue(words.startswith("1. Nf3 (1. Nc3) (1. Na3) 1... Nf6 (1... Nc6) (1... Na6) 2. Ng1 (2. e3) (2. d3)"), words[:99])
        self.assertEqual(written(output)[0], output)
