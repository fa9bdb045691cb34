"""The operations of an EPD."""
from __future__ import annotations

import math
import re
from typing import TYPE_CHECKING, Dict, Iterable, Iterator, List, Mapping, Union

from .. import _moves
from ._names import Move

if TYPE_CHECKING:
    from ._boards import Board

# The operands that a caller may give, and those that are read, as python-chess has them.
Given = Union[None, str, int, float, Move, Iterable[Move]]
Operand = Union[None, str, int, float, Move, List[Move]]

_ESCAPES = {"\\": "\\\\", "\t": "\\t", "\r": "\\r", "\n": "\\n", '"': '\\"'}
# An opcode, and its operand: a text in quotation marks or words, up to the semicolon.
_OPERATION = re.compile(r'\s*([A-Za-z][A-Za-z0-9_]*)\s*(?:"((?:\\.|[^"\\])*)"|([^;"]*))\s*(?:;|$)')


def written(board: Board, operations: Mapping[str, Given]) -> Iterator[str]:
    """Each operation as text. Raises `ValueError` for a name that is none."""
    for name, operand in operations.items():
        if not re.fullmatch("[A-Za-z][A-Za-z0-9_]{0,14}", name):
            raise ValueError(f"an operation of an EPD has a name of 1 to 15 letters, digits and _: {name!r}")
        text = _text(board, name, operand)
        yield f"{name} {text};" if text else f"{name};"


def _text(board: Board, name: str, operand: Given) -> str:
    if operand is None:
        return ""
    if isinstance(operand, _moves.Move):
        return board.san(operand)
    if isinstance(operand, (int, float)):
        if not math.isfinite(operand):
            raise ValueError(f"a number of an EPD is finite: {operand}")
        return str(int(operand) if isinstance(operand, bool) else operand)
    if not isinstance(operand, str) and name in ("am", "bm"):
        return " ".join(sorted(board.san(move) for move in operand))
    if not isinstance(operand, str) and name == "pv":
        after = board.copy(stack=False)
        return " ".join(after.san_and_push(move) for move in operand)
    return '"' + "".join(_ESCAPES.get(letter, letter) for letter in str(operand)) + '"'


def read(text: str, board: Board) -> Dict[str, Operand]:
    """The operations of a text by their names. Raises `ValueError`."""
    found: Dict[str, Operand] = {}
    place, end = 0, len(text.rstrip())
    while place < end:
        match = _OPERATION.match(text, place)
        if match is None:
            raise ValueError(f"no operation of an EPD: {text[place:]!r}")
        name, quoted, words = match.groups()
        found[name] = _plain(quoted) if quoted is not None else _operand(board, name, words.split())
        place = match.end()
    return found


def _plain(quoted: str) -> str:
    letters = {"t": "\t", "r": "\r", "n": "\n"}
    return re.sub(r"\\(.)", lambda it: letters.get(it[1], it[1]), quoted)


def _operand(board: Board, name: str, words: List[str]) -> Operand:
    """What the words of an operation are: nothing, a number, a move, or moves."""
    if not words:
        return None
    if name == "pv":
        after = board.copy(stack=False)
        return [after.push_san(word) for word in words]
    if name in ("am", "bm"):
        return [board.parse_san(word) for word in words]
    for kind in (int, float):
        try:
            number: Union[int, float] = kind(" ".join(words))
        except ValueError:
            continue
        if math.isfinite(number):
            return number
    return board.parse_san(" ".join(words))
