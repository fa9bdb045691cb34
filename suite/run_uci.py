#!/usr/bin/env python3
"""Asks a UCI engine what the suite has on positions: run_uci.py [--target WHEN] ENGINE [ROWS ..]

The engine answers `go perft 1` (a line `MOVE: 1` for each legal move, at last `Nodes searched: ..`) and `d`, as Stockfish and its descendants do. Of `d` each
of these lines is compared where it is there: `Fen: ..`; `Checkers: ..` with squares; `Status: ..`, `Claims: ..`, `Repetitions: ..` with the words of README.md,
and `Attacks: ..` with the JSON. Where it has no `Status:` and the engine finds no legal move, `go depth 1` is to say `score mate 0` in mate and `score cp 0` in
stalemate. WHEN and the lines that are written are those of run_class.py. ROWS are laws.jsonl if none are named; games and FENs that are refused are nothing
that UCI has.
"""
import json
import re
import subprocess
import sys

import run_class


class Engine:
    def __init__(self, command):
        self.command = command
        self.process = subprocess.Popen([command], stdin=subprocess.PIPE, stdout=subprocess.PIPE, text=True)

    def written(self, *lines, to):
        """What the engine writes after these lines, to the line with that beginning. Where it ends itself it is started again, for the next position."""
        text = []
        try:
            self.process.stdin.write("\n".join((*lines, "")))
            self.process.stdin.flush()
            for line in self.process.stdout:
                text.append(line)
                if line.startswith(to):
                    return "".join(text)
        except BrokenPipeError:
            pass
        self.__init__(self.command)
        raise ChildProcessError("the engine ends itself")


class Board:
    """A position of the engine, which is asked for it once."""

    engine = None

    def __init__(self, fen):
        self.line, self.written, self.has_ended = f"position fen {fen} moves", {}, False

    def push(self, move):
        self.line += f" {move}"

    def said(self, *lines, to):
        """What the engine writes of the position after these lines, which it is given once; nothing more where it has ended itself."""
        if self.has_ended:
            raise ChildProcessError("the engine has ended itself here")
        if lines not in self.written:
            self.has_ended = True
            self.written[lines] = self.engine.written(self.line, *lines, to=to)
            self.has_ended = False
        return self.written[lines]

    def words(self, name):
        """What comes after that name in a line of `d`; None without such a line."""
        found = re.search(rf"^{name}:(.*)$", self.said("d", "isready", to="readyok"), re.M)
        return found and found[1].strip()

    def several(self, name):
        words = self.words(name)
        return None if words is None else words.split()

    def fen(self):
        return self.words("Fen")

    def legal(self):
        return re.findall(r"^([a-h][1-8][a-h][1-8][qrbn]?): 1$", self.said("go perft 1", to="Nodes searched"), re.M)

    def checkers(self):
        return self.several("Checkers")

    def check(self):
        squares = self.several("Checkers")
        return None if squares is None else bool(squares)

    def status(self):
        said = self.words("Status")
        if said is None and not self.legal():
            score = re.search(r" score (mate 0|cp 0)\b", self.said("go depth 1", to="bestmove"))
            return score and {"mate 0": "mate", "cp 0": "stalemate"}[score[1]]
        return said

    def claims(self):
        return self.several("Claims")

    def repetitions(self):
        times = self.words("Repetitions")
        return times and int(times)

    def attacks(self):
        counts = self.words("Attacks")
        return counts and json.loads(counts)


def main():
    words = run_class.arguments("ENGINE", "an engine of UCI")
    Board.engine = Engine(words.board)
    return run_class.report(Board, words, ("laws.jsonl",))


if __name__ == "__main__":
    sys.exit(main())
