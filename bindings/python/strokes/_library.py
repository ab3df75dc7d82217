"""Loads the engine's shared objects, and says in one place what is passed to them."""
import ctypes as c
import os
import pathlib
from typing import Any

from ._raw import FUNCTIONS

NAMES = ("libstrokes.so.1", "libstrokes_crew.so.1")


def folder() -> pathlib.Path:
    """The folder that STROKES_LIB_DIR names, else this package's where it has them, else none: the loader knows it."""
    if "STROKES_LIB_DIR" in os.environ:
        return pathlib.Path(os.environ["STROKES_LIB_DIR"])
    here = pathlib.Path(__file__).parent
    return here if (here / NAMES[0]).exists() else pathlib.Path()


def load() -> dict[str, Any]:
    """Each function of the headers, by its name. (The crew's object finds the engine's, which is loaded before.)"""
    try:
        libraries = [c.CDLL(str(folder() / name)) for name in NAMES]
    except OSError as error:
        raise ImportError(f"libstrokes can't be loaded: {error}; STROKES_LIB_DIR may name its folder") from None
    found = {}
    for name, (result, passed) in FUNCTIONS.items():
        function = getattr(libraries[name.startswith("strokes_crew_")], name)
        function.restype, function.argtypes = result, passed
        found[name] = function
    return found


FOUND = load()


def __getattr__(name: str) -> Any:
    try:
        return FOUND[name]
    except KeyError:
        raise AttributeError(name) from None
