#!/usr/bin/env python3
"""Asks a class in Python all that the suite has: run_class.py [--target WHEN] MODULE:CLASS [ROWS ..]

CLASS(fen) is a board, and push(move) makes a legal move as `e2e4` or `a7a8q`. Each of these is asked where the class has it:

    fen()          the position's FEN
    legal()        the legal moves, as `e2e4`
    san(move)      a legal move's text in standard algebraic notation
    check()        whether the side to move is in check
    checkers()     the squares of the men that give check, as `e4`
    status()       `mate`, `stalemate`, `dead`, `fivefold`, `seventyfive` or `play`
    claims()       the draws that may be claimed: `threefold`, `fifty`
    repetitions()  how many positions of the line are the same as the last, itself counted
    attacks()      {"white": [64 numbers], "black": [64 numbers]}: how many men attack a1, b1 and so on to h8
    game(text)     of the class itself: the first game of a text in PGN, as README.md describes it

An answer None is for what the board can't say there. CLASS(fen) and game(text) raise an exception where they refuse; its `fault`, if that is a text, is the
kind of fault, and its `at`, if that is a number, the place in bytes. WHEN is `always` where the board writes an en passant target after each advance of two
squares, `attacked` where a pawn attacks it, `legal` where a legal move captures on it. ROWS are laws.jsonl, texts.jsonl and fens.jsonl if none are named.
There is a line for each difference, then what wasn't asked, then the counts. The exit status is 0 where there is no difference.
"""
import argparse
import collections
import importlib
import json
import os
import sys

HERE = os.path.dirname(os.path.realpath(__file__))
TARGETS = ("legal", "attacked", "always")
# What each method has to answer, but for `fen`.
WANTED = {
    "legal": lambda row: sorted(row["legal"]),
    "san": lambda row: row["legal"],
    "check": lambda row: row["check"],
    "checkers": lambda row: sorted(row["checkers"]),
    "status": lambda row: row["status"],
    "claims": lambda row: sorted(row["claims"]),
    "repetitions": lambda row: row["repetitions"],
    "attacks": lambda row: row["attacks"],
}


def wanted_fen(row, when):
    """The row's FEN as a board writes it that has a target only then."""
    fields = row["at"].split()
    if TARGETS.index(row.get("target", "legal")) > TARGETS.index(when):
        fields[3] = "-"
    return " ".join(fields)


def known(game):
    """A game without the tags that say nothing of their own."""
    tags = {name: value for name, value in game["tags"].items() if name not in ("Result", "FEN", "SetUp") and value not in ("?", "????.??.??")}
    return {**game, "tags": tags}


class Asked:
    """What a class was asked, and how often it answered."""

    def __init__(self, kind, when):
        self.kind, self.when = kind, when
        self.rows, self.answers = collections.Counter(), collections.Counter()

    def compared(self, question, wanted, got):
        """The difference, if there is one; None is no answer."""
        self.rows[question] += 1
        self.answers[question] += got is not None
        return [] if got in (None, wanted) else [f"{question}: {got} for {wanted}"]

    def answer(self, board, name, row):
        """What the board answers, or the error that it raises."""
        try:
            if not hasattr(board, name):
                return None
            if name == "san":
                return {move: board.san(move) for move in row["legal"]}
            got = getattr(board, name)()
            return sorted(got) if name in ("legal", "checkers", "claims") and got is not None else got
        except Exception as error:
            return repr(error)

    def position(self, row):
        try:
            board = self.kind(row["fen"])
            for move in row["moves"]:
                board.push(move)
        except Exception as error:
            yield f"refused: {error!r}"
            return
        for name, wanted in {"fen": lambda row: wanted_fen(row, self.when), **WANTED}.items():
            yield from self.compared(name, wanted(row), self.answer(board, name, row))

    def text(self, row):
        """A game that is read or refused, or a FEN that is refused."""
        is_game = "text" in row
        if is_game and not hasattr(self.kind, "game"):
            self.rows["game"] += 1
            return
        try:
            got = self.kind.game(row["text"]) if is_game else self.kind(row["fen"])
        except Exception as error:
            yield from self.refusal(row, error) if "faults" in row else [f"refused: {error!r}"]
            return
        if "faults" in row:
            yield f"accepted: {got if is_game else row['fen']}, which is to be refused: {' or '.join(row['faults'])}"
        else:
            yield from self.compared("game", row["game"], got and known(got))

    def refusal(self, row, error):
        # (an exception of a board's own may have another thing of that name)
        fault, place = (it if isinstance(it, kind) else None for it, kind in ((getattr(error, "fault", None), str), (getattr(error, "at", None), int)))
        # (any of the kinds is right)
        yield from self.compared("fault", fault if fault in row["faults"] else " or ".join(row["faults"]), fault)
        if "at" in row:
            yield from self.compared("place", row["at"], place)

    def differences(self, row):
        return self.position(row) if "legal" in row else self.text(row)

    def not_asked(self):
        """The questions that weren't answered, with the number of rows where some were."""
        for name, count in self.rows.items():
            if self.answers[name] < count:
                yield name if not self.answers[name] else f"{name} in {count - self.answers[name]} rows"


def arguments(board, what):
    words = argparse.ArgumentParser()
    words.add_argument("--target", choices=TARGETS, default="always", help="when the board writes an en passant target")
    words.add_argument("board", metavar=board, help=what)
    words.add_argument("rows", metavar="ROWS", nargs="*", help="files of rows")
    return words.parse_args()


def report(kind, words, default):
    """Asks the rows that are named, else those of these files here, and prints what differs."""
    rows = []
    for path in words.rows or [f"{HERE}/{name}" for name in default]:
        with open(path, encoding="utf-8") as file:
            rows += map(json.loads, file)
    asked = Asked(kind, words.target)
    found = [f"{row['name']}: {it}" for row in rows for it in asked.differences(row)]
    left = "; ".join(asked.not_asked())
    print(*found, *([f"not asked: {left}"] if left else []), f"{len(rows)} rows, {len(found)} differences", sep="\n")
    return 1 if found else 0


def main():
    words = arguments("MODULE:CLASS", "a class that is a board")
    sys.path[:0] = [os.getcwd(), f"{HERE}/boards"]
    module, name = words.board.split(":")
    return report(getattr(importlib.import_module(module), name), words, ("laws.jsonl", "texts.jsonl", "fens.jsonl"))


if __name__ == "__main__":
    sys.exit(main())
