"""The functions of include/brothanchor.h, as the shared object `_brothanchor.so` has them.

All memory is lent: an area is an array of one dimension, C-contiguous, aligned, of the type that the header names, and its length goes
with it. Every call tests that. The Python lock is let go while the library works, so an area may be lent only by who alone has it.
"""

from __future__ import annotations

import ctypes
import platform
from pathlib import Path
from typing import Any

import numpy as np

from .errors import Refused

#: A node of the arena, `struct brothanchor_node`.
NODE = np.dtype(
    [
        ("centre", np.float64, 3),
        ("half", np.float64, 3),
        ("mass", np.float64, 3),
        ("count", np.uint32),
        ("first", np.uint32),
        ("leaf", np.uint32),
        ("padding", np.uint32),
    ],
    align=True,
)

#: Words of the settings, of a record, of a work call's answer, and of the sizes.
SETTINGS_WORDS, RECORD_WORDS, ANSWER_WORDS, SIZES_WORDS = 9, 14, 5, 7

#: Where the words of settings and record stand.
N, F, C, METHOD, PERPLEXITY, RATE, ITERATIONS, ANGLE, MINIMUM = range(9)
STATE, ITERATIONS_DONE, PHASE, UNITS_DONE, NODES_USED = range(9, 14)

#: What an area holds, by the letter that stands for it below; as a capital the library writes to it.
_AREAS = {"w": np.uint64, "v": np.float64, "i": np.uint32, "b": np.uint8, "n": NODE}
#: What is no area: a size, and numbers of 32 and of 64 bits.
_NUMBERS = {"#": ctypes.c_size_t, "4": ctypes.c_uint32, "8": ctypes.c_uint64}

# Positions, increments and gains, affinities, indices, offsets, forces and nodes: as a call reads them, and as one fills them, which
# is told the number of nodes alone.
_READ = "vvv" "v" "i" "i" "v" "n"
_FILLED = "VVV" "V" "I" "I" "V"

#: The parameters of each function in their order.
SIGNATURES = {
    "sizes": "wW",
    "prepare": "wvv" + _FILLED + "VI" + "#" + "W",
    "prepare_strip": "wvv" + _FILLED + "VI" + "#" + "W",
    "blind": "wv" + "VVVI" + "W",
    "work": "W" + "VVV" + "vii" + "VN" + "4" + "W",
    "divergence": "w" + _READ + "v" + "W",
    "park": "w" + _READ + "B" + "W",
    "unpark": "b" + "W" + _FILLED + "#" + "W",
    "take_out": "W" + _FILLED + "n" + "ViI" + "W",
    "import": "wvb" + "W" + _FILLED + "#" + "W",
    "lists": "w" + _READ + "B" + "W",
    "strip": "w" + _READ + "IV" + "W",
    "monitor_write": "#" + "ibbv" + "B" + "W",
    "monitor_read": "b" + "IBBV" + "W",
    "salvage": "b" + "BWB" + "W",
    "state": "w",
    "iterations": "w",
    "units": "w",
    "scatter": "V448",
    "frames": "bW",
    "frame": "b#W",
}
#: Those that answer what a record says; all others answer the number of a refusal, or 0.
_SAYING = ("state", "iterations", "units")


def _parameters(signature: str) -> list:
    """The types of a function's parameters: of an area its pointer and its length."""
    types: list = []
    for letter in signature:
        types += [_NUMBERS[letter]] if letter in _NUMBERS else [ctypes.c_void_p, ctypes.c_size_t]
    return types


def _load() -> dict:
    """The functions of the shared object beside this module."""
    path = Path(__file__).resolve().parent / "_brothanchor.so"
    if platform.machine().lower() not in ("x86_64", "amd64"):
        raise ImportError(f"brothanchor: the library is x86-64 code, and this machine is {platform.machine()}")
    try:
        library = ctypes.CDLL(str(path))
    except OSError as error:
        raise ImportError(f"brothanchor: no library, `make` in the folder python builds it: {error}") from error
    functions = {}
    for name, signature in SIGNATURES.items():
        try:
            function = library["brothanchor_" + name]
        except AttributeError as error:
            raise ImportError(f"brothanchor: an old library, `make` in the folder python builds it anew: {error}") from error
        function.argtypes = _parameters(signature)
        function.restype = ctypes.c_uint64 if name in _SAYING else ctypes.c_uint32
        functions[name] = function
    return functions


_FUNCTIONS = _load()


def _is_aligned(area: np.ndarray, letter: str) -> bool:
    """By its address: an array of nodes may have a type of its own that asks for less."""
    return area.ctypes.data % np.dtype(_AREAS[letter.lower()]).alignment == 0


def _lent(letter: str, area: np.ndarray) -> list:
    """Pointer and length of an area, once it is tested: nothing else may be lent."""
    fits = isinstance(area, np.ndarray) and area.dtype == _AREAS[letter.lower()] and area.ndim == 1
    if not (fits and area.flags.c_contiguous and _is_aligned(area, letter) and (letter.islower() or area.flags.writeable)):
        raise TypeError(f"this cannot be lent as {letter!r}: {area!r}"[:120])
    return [area.ctypes.data, area.size]


def call(name: str, *lent: Any) -> int:
    """Calls a function with its areas and numbers in the header's order, and answers what it answers.

    The areas are tested before and not by ctypes, which would turn a Ctrl-C that falls into its tests into an error of its own."""
    signature = SIGNATURES[name]
    if len(lent) != len(signature):
        raise TypeError(f"brothanchor_{name} is lent {len(signature)} parts, not {len(lent)}")
    words: list = []
    for letter, part in zip(signature, lent):
        words += [part] if letter in _NUMBERS else _lent(letter, part)
    return _FUNCTIONS[name](*words)


def unless_0(number: int, place: int = 0, detail: str | None = None) -> None:
    """Raises the refusal, unless the number is 0."""
    if number != 0:
        raise Refused(number, int(place), detail)


def counted(name: str, *lent: Any) -> int:
    """Calls a function that has an answer of one word, which is lent last; answers what it counted there, or raises the refusal."""
    answer = np.zeros(1, np.uint64)
    number = call(name, *lent, answer)
    unless_0(number, answer[0])
    return int(answer[0])
