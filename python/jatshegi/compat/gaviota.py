"""Tablebases, which this package doesn't read: each name of python-chess's module `gaviota` raises `NotImplementedError`."""
from __future__ import annotations

from typing import Any

from ._names import refuse


def __getattr__(name: str) -> Any:
    if name.startswith("__"):
        raise AttributeError(name)
    refuse(f"there are no tablebases, so no gaviota.{name}")
