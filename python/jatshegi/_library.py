"""The library for C: where it is, with the functions, types and numbers of include/jatshegi.h."""
from __future__ import annotations

import ctypes
import os
import platform

from ._made import *


def _found() -> str:
    """The library beside this file, else in a clone of the repository the one that tools/libraries made, or the released one."""
    here = os.path.dirname(os.path.realpath(__file__))
    top = os.path.dirname(os.path.dirname(here))
    paths = [f"{here}/libjatshegi.so", f"{top}/out/libjatshegi.so.1", f"{top}/release/{platform.machine()}-linux/lib/libjatshegi.so.1"]
    for path in paths:
        if os.path.exists(path):
            return path
    raise ImportError(f"there is none of {', '.join(paths)}: install the package, or run tools/libraries in a clone of the repository")


PATH = _found()
lib = ctypes.CDLL(PATH)

for _name, (_result, _types) in FUNCTIONS.items():
    _function = getattr(lib, f"jatshegi_{_name}")
    _function.argtypes, _function.restype = _types, _result

# All boards share the keys, which stay as long as this module.
KEYS = Keys()
lib.jatshegi_keys_fill(KEYS)
