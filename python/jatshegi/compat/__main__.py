"""Runs a program that was written for python-chess, unchanged: its imports of `chess` find `jatshegi.compat`.

    python3 -m jatshegi.compat PROGRAM.py [WORD ..]
"""
import importlib
import os
import runpy
import sys

PARTS = ("engine", "gaviota", "pgn", "polyglot", "svg", "syzygy", "variant")


def stand_in() -> None:
    """Has `import chess`, and imports of its modules, find `jatshegi.compat` from now on."""
    sys.modules["chess"] = importlib.import_module("jatshegi.compat")
    for name in PARTS:
        sys.modules[f"chess.{name}"] = importlib.import_module(f"jatshegi.compat.{name}")


def main() -> None:
    """Runs the program whose path is the first word; the program has the words after it."""
    if len(sys.argv) < 2 or sys.argv[1].startswith("-"):
        raise SystemExit("python3 -m jatshegi.compat PROGRAM.py [WORD ..] runs a program that was written for python-chess")
    sys.argv.pop(0)
    sys.path[0] = os.path.dirname(os.path.realpath(sys.argv[0]))
    stand_in()
    runpy.run_path(sys.argv[0], run_name="__main__")


if __name__ == "__main__":
    main()
