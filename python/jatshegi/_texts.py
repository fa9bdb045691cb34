"""Parses games in export form (PGN 3.2): by `_fast.c` where it has been built, else here. All work on bytes, as the library does."""
from __future__ import annotations

import re
from typing import Callable, Dict, List, Union

from ._core import FAST

_TAG = re.compile(rb'\[(\w+) "((?:[^"\\]|\\.)*)"\]\n')
_ESCAPED = re.compile(rb"\\(.)")
_WORD = re.compile(rb"\{[^}]*\}|[()]|[^\s(){}]+")


def movetext(data: bytes) -> int:
    """Where the moves begin: after the empty line that follows the tags."""
    return data.index(b"]\n\n") + 3


def plain_words(data: bytes, at: int, is_main: bool) -> List[Union[str, bytes]]:
    """The words of the movetext from there on: brackets, moves and annotations as texts, comments as bytes, the marker at the end; the moves' numbers are left
    out. Or those of the main line alone, which are its moves and the marker."""
    found: List[Union[str, bytes]] = []
    depth = 0
    for word in _WORD.findall(data, at):
        first = word[:1]
        depth += (first == b"(") - (first == b")")
        if first == b"{":
            if not is_main:
                found.append(word[1:-1])
        elif word[-1:] != b"." and not (is_main and (depth or first in (b"$", b"(", b")"))):
            found.append(word.decode())
    return found


def plain_tags(data: bytes, encoding: str) -> Dict[str, str]:
    """The tags by their names."""
    found: Dict[str, str] = {}
    for tag in _TAG.finditer(data, 0, movetext(data)):
        found[tag[1].decode()] = _ESCAPED.sub(rb"\1", tag[2]).decode(encoding, "surrogateescape")
    return found


words: Callable[[bytes, int, bool], List[Union[str, bytes]]] = plain_words if FAST is None else FAST.words
tags: Callable[[bytes, str], Dict[str, str]] = plain_tags if FAST is None else FAST.tags
