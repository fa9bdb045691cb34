"""The table of a tournament's games, and what an arbiter would look at: games that can't be read, results that the board contradicts, games that were played on
when over, and claims. Games are numbered as the program `arbiter` numbers them, which also compares a game's result with its tags.

    python3 tournament.py games.pgn
"""
import sys
from collections import Counter, defaultdict
from itertools import count

import jatshegi

POINTS = {"1-0": (1, 0), "0-1": (0, 1), "1/2-1/2": (0.5, 0.5), "*": (0, 0)}


def findings(game):
    """What is wrong with a game, and the claims that its players could have made."""
    report = game.report()
    men = report.fen.split()[0]
    if not report.agrees:
        yield f"{game.result}, but the board says {report.status.name}"
    if report.is_played_on:
        yield f"over at ply {report.over} by {report.why.name}, played on to ply {report.plies}"
    if report.status != jatshegi.Status.PLAY and game.result == "*":
        yield f"no result, and the board says {report.status.name}"
    if (game.result == "1-0" and men.count("K") == sum(map(str.isupper, men))) or (game.result == "0-1" and men.count("k") == sum(map(str.islower, men))):
        yield f"{game.result}, and the winner has only the king"
    if report.threefold is not None:
        yield f"a draw could be claimed by repetition from ply {report.threefold} on"
    if report.fifty is not None:
        yield f"a draw could be claimed by fifty moves from ply {report.fifty} on"


def main(path):
    points: dict[str, float] = defaultdict(float)
    played: Counter[str] = Counter()
    repairs: list[jatshegi.pgn.Repair] = []
    numbers = count(1)
    # A game that can't be read has its number, too; its points count if it is saved by repairs.
    for game in jatshegi.pgn.games(path, lambda fault: print(f"game {next(numbers)}: {fault}"), repairs.extend):
        number = next(numbers)
        if repairs:
            print(f"game {number}: can't be read as it is: {', '.join(f'{it.name} at byte {it.place}' for it in repairs)}")
            repairs.clear()
        for what in findings(game):
            print(f"game {number}: {what}")
        for colour, score in zip(("White", "Black"), POINTS[game.result]):
            points[game.headers[colour]] += score
            played[game.headers[colour]] += 1
    for name, score in sorted(points.items(), key=lambda row: (-row[1], row[0])):
        print(f"{name:30}{score:6g} / {played[name]}")


if __name__ == "__main__":
    main(sys.argv[1])
