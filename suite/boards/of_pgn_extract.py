"""pgn-extract as a reader of games for run_class.py: suite/run_class.py of_pgn_extract:Games suite/texts.jsonl (Debian's package pgn-extract)

What it writes of a text is read by the proved reader. A text of which it reports more than a warning counts as refused, whatever it writes.
"""
import subprocess

import ours


class Games:
    @staticmethod
    def game(text):
        ran = subprocess.run(["pgn-extract", "--quiet", "-w", "100000"], input=text.encode(), capture_output=True)
        said, written = ran.stderr.decode("utf-8", "replace"), ran.stdout.decode("utf-8", "replace")
        if said and not said.startswith("Warning:"):
            raise ValueError(said)
        try:
            return ours.Board.game(written)
        except ours.Refused:
            return {"tags": {}, "written": written}
