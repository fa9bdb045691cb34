"""A report for an arbiter, from the rows of the program `arbiter`: each game with a finding, a fault or a missed claim, in words with the article of the FIDE Laws
and a diagram of its last position, and a table of the collection. The page is one file, for any browser and for paper; with `--text` it is plain text.

    arbiter --format jsonl <games.pgn | python3 arbiter_report.py >report.html
    arbiter --format jsonl <games.pgn | python3 arbiter_report.py --text

It decides nothing about chess: each fact is a column of its row, and docs/FORMATS.md describes the columns. "PGN" marks a rule of PGN's standard.
"""
import html
import json
import re
import sys
from collections import Counter

import jatshegi

ENDS = {"mate": ("checkmate", "5.1.1"), "stalemate": ("stalemate", "5.2.1"), "dead": ("a dead position", "5.2.2")}
ENDS |= {"fivefold": ("the same position for the fifth time", "9.6.1"), "seventyfive": ("75 moves in a row without a capture or a pawn's move", "9.6.2")}
FAULTS = {"Token": "a character that PGN doesn't have there", "Tag": "a tag that isn't well formed", "Move": "no legal move, or more than one, has this text"}
FAULTS |= {"Variation": "a bracket of a variation in the wrong place", "Deep": "too many variations inside one another", "Fen": "the tag FEN gives no position"}
FAULTS |= {"Truncated": "the file ends inside the game", "TooLarge": "the game is too long"}
CLAIMS = {"threefold": "by threefold repetition (9.2.2)", "fifty": "by fifty moves without a capture or a pawn's move (9.3.2)"}
KINDS = ["the result contradicts the board", "played on after the end", "over, but without a result", "a win with only the king", "not the usual chess"]
KINDS += ["the result contradicts the tag", "no result at the end", "another start than the file gives", "can't be read", "a draw could be claimed"]
WRONG, PLAYED_ON, OPEN, BARE, VARIANT, TAG, NO_MARKER, START, UNREAD, CLAIM = KINDS

HEAD = """<!DOCTYPE html><html lang="en"><meta charset="utf-8"><title>Report of games</title><meta name="viewport" content="width=device-width"><style>
:root { color-scheme: light dark; --ink: #1d2321; --paper: #fff; --line: #ccd3d0; --bar: #3d7a68; --soft: #59625f }
@media (prefers-color-scheme: dark) { :root { --ink: #e4e9e7; --paper: #161a19; --line: #3a4340; --bar: #6fb39e; --soft: #a3adaa } }
body { font: 1rem/1.5 system-ui, sans-serif; color: var(--ink); background: var(--paper); max-width: 50rem; margin: 2rem auto; padding: 0 1rem }
article { display: grid; grid-template-columns: 15rem 1fr; gap: 0 1.5rem; border-top: 1px solid var(--line); padding: 1rem 0 }
article, table { break-inside: avoid } h2 { font-size: 1.1rem; margin: 0 } ul { padding-left: 1.2rem }
.small { color: var(--soft); font-size: .85rem } article > * { min-width: 0; overflow-wrap: anywhere }
svg { width: 100%; height: auto; display: block } p { margin: .3rem 0 } table { border-collapse: collapse; width: 100% }
th, td { text-align: left; font-weight: normal; padding: .2rem .6rem .2rem 0; border-top: 1px solid var(--line) }
td:nth-child(2) { text-align: right } td:last-child { width: 40% }
.bar { height: .8rem; background: var(--bar) } .bar, svg { print-color-adjust: exact; -webkit-print-color-adjust: exact }
@media (max-width: 36rem) { article { grid-template-columns: 1fr } svg { max-width: 18rem; margin-bottom: .6rem } }
@media print { body { margin: 0; max-width: none; font-size: 10pt } }
</style><h1>Report of games</h1>"""


def plain(text):
    """The text without the characters that steer a terminal or turn the line around."""
    return "".join(it if it.isprintable() else "\N{REPLACEMENT CHARACTER}" for it in text)


def after(row, ply, number):
    """The move that led to a ply. The column gives its number; White's moves are the odd plies, unless Black began."""
    if not ply:
        return "in the starting position"
    began = (row["start_fen"] or "w w").split()[1]
    return f"after {'White' if (began == 'w') == (ply % 2 == 1) else 'Black'}'s move {number}"


def findings(row):
    """Each finding of a game: its kind and a sentence."""
    side, number = row["fen"].split()[1::4] if row["fen"] else ("w", "1")
    last = after(row, row["plies"], int(number) - (side == "w"))
    end, article = ENDS.get(row["status"], ("", ""))
    right = {"white": "1-0", "black": "0-1"}.get(row["winner"], "1/2-1/2")
    if row["fault"]:
        shown = f"; the diagram shows the position {last}" if row["fen"] else ""
        yield UNREAD, f"the text can't be read from byte {row['fault_place']} of the file on: {FAULTS.get(row['fault'], row['fault'])} ({row['fault']}){shown}"
    if row["over_ply"] is not None:
        over, rule = ENDS[row["over_why"]]
        result = f"; the result {row['result']} should be 1/2-1/2" if row["result"] != "1/2-1/2" else ""
        yield PLAYED_ON, f"{over} {after(row, row['over_ply'], row['over_move'])}: the game was over there, but moves follow{result} ({rule})"
    is_last = row["over_ply"] is None
    if row["agrees"] is False:
        yield WRONG, f"{end} {last}; the result {row['result']} should be {right} ({article})" if is_last else ""
    elif row["left_open"]:
        yield OPEN, f"{end} {last}; the game has no result, and it should be {right} ({article})" if is_last else ""
    elif row["fault"] and end and is_last:
        yield UNREAD, f"the moves that can be read end with {end} {last} ({article})"
    if row["bare_king_wins"]:
        yield BARE, f"the result {row['result']} is a win for a side that has only its king; if time ran out, it should be 1/2-1/2 (6.9)"
    if row["other_variant"]:
        yield VARIANT, f"the tag Variant names another game ({row['variant']}); this report is about the rules of chess"
    if row["other_result"]:
        yield TAG, f"the moves end with {row['result']}, but the tag Result says {row['result_tag']} (PGN 8.1.1.7)"
    if row["no_marker"]:
        yield NO_MARKER, "no result follows the moves; the text may have been cut off (PGN 8.2.6)"
    if row["fen_changed"]:
        yield START, "the tag FEN has castling rights or an en passant square that its position can't have; they were left out"


def claims(row):
    """Each claim that was missed: moves follow it, or the game wasn't drawn."""
    for name, words in CLAIMS.items():
        ply = row[f"{name}_ply"]
        if ply is not None and (ply < row["plies"] or row["result"] != "1/2-1/2"):
            yield CLAIM, f"a draw could first be claimed {after(row, ply, row[f'{name}_move'])} {words}"


def heading(row):
    """The game's number, round and players, and the other tags that are there."""
    of_round = f", round {row['round']}" if row["round"] and row["round"] not in "?-" else ""
    players = (f"{row[side]} ({row[f'{side}_elo']})" if row[f"{side}_elo"] else str(row[side]) for side in ("white", "black"))
    about = (row[it] for it in ("event", "site", "date") if row[it] and row[it][0] not in "?-")
    return plain(f"Game {row['number']}{of_round}, {' - '.join(players)}"), plain(", ".join(about))


def as_text(row, sentences):
    title, about = heading(row)
    yield from (title, *([f"  {about}"] if about else []), *(f"  * {it}" for it in sentences), "")
    if row["fen"]:
        ranks = (re.sub(r"\d", lambda empty: "." * int(empty[0]), it) for it in row["fen"].split()[0].split("/"))
        yield from (*(f"      {' '.join(it)}" for it in ranks), f"      {row['fen']}", "")


def as_html(row, sentences):
    title, about = (html.escape(it) for it in heading(row))
    yield "<article><div>"
    if row["fen"]:
        board, fen = jatshegi.Board(row["fen"]), html.escape(row["fen"])
        picture = jatshegi.svg.board(board, check=board.king(board.turn) if row["status"] == "mate" else None)
        yield f'<div role="img" aria-label="Last position: {fen}">{picture}</div><p class="small">{fen}</p>'
    points = "".join(f"<li>{html.escape(it)}</li>" for it in sentences).replace("1/2-1/2", "<nobr>1/2-1/2</nobr>")
    yield f'</div><div><h2>{title}</h2><p class="small">{about}</p><ul>{points}</ul></div></article>'


def report(rows, is_text):
    """The lines of the whole report."""
    results: Counter[str] = Counter()
    found: Counter[str] = Counter()
    yield "Report of games\n" if is_text else HEAD
    for row in rows:
        told = [*findings(row), *claims(row)]
        results[f"result {row['result']}" if row["result"] else "result not known"] += 1
        found.update({kind for kind, _ in told})
        if told:
            yield from (as_text if is_text else as_html)(row, [plain(f"{it[0].upper()}{it[1:]}.") for _, it in told if it])
    count = sum(results.values())
    yield "All games" if is_text else "<h2>All games</h2><table>"
    for name, number in (("games", count), *sorted(results.items()), *((it, found[it]) for it in KINDS if found[it])):
        share = number / max(count, 1)
        bar = f'<td>{number}</td><td><div class="bar" style="width: {100 * share:.1f}%"></div></td>'
        yield f"  {name:34}{number:7}  {'#' * round(30 * share)}".rstrip() if is_text else f'<tr><th scope="row">{html.escape(name)}</th>{bar}</tr>'
    yield "" if is_text else "</table></html>"


if __name__ == "__main__":
    for line in report(map(json.loads, sys.stdin.buffer), sys.argv[1:] == ["--text"]):
        sys.stdout.buffer.write(f"{line}\n".encode())
