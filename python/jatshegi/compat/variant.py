"""Variants of chess, which this package doesn't play: each name of python-chess's module `variant` raises `NotImplementedError`."""
from __future__ import annotations

from typing import Any

from ._names import refuse


def __getattr__(name: str) -> Any:
    if name.startswith("__"):
        raise AttributeError(name)
    refuse(f"there are no variants, so no variant.{name}")
