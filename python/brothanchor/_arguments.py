"""Arguments as the library takes them. What cannot be taken is a ValueError that names the argument."""

from __future__ import annotations

import numbers
import operator
import os
import reprlib
import secrets
from typing import Any

import numpy as np

#: The largest word.
_MOST = 2**64 - 1
#: A range with more numbers than this, and an array that tells of more bytes than this and does not hold them, is not copied.
_MOST_NUMBERS, _MOST_BYTES = 2**24, 2**31


def bad(name: str, why: str) -> ValueError:
    """The error for an argument."""
    return ValueError(f"{name}: {why}")


def shown(value: Any) -> str:
    """A value in a few words, whatever it is: of a whole number with more digits than Python writes how long it is."""
    try:
        return reprlib.repr(value)
    except Exception:
        long = isinstance(value, int)
        return f"a whole number of {value.bit_length()} bits" if long else f"a {type(value).__name__} that cannot be shown"


def number(value: Any, name: str) -> float:
    """A real number as a double; what is too large for one is none."""
    value = _unwrapped(value)
    if not isinstance(value, numbers.Real):
        raise bad(name, f"a number is asked for, not {_kind(value)}")
    try:
        return float(value)
    except Exception as error:
        raise bad(name, f"no number: {error}") from error


def whole(value: Any, name: str) -> int:
    """A whole number, of any size."""
    value = _unwrapped(value)
    try:
        return operator.index(value)
    except Exception as error:
        raise bad(name, f"a whole number is asked for, not {_kind(value)}") from error


def word(value: int) -> int:
    """A whole number as a word. One that no word holds becomes the largest, which is refused as it would be."""
    return value if 0 <= value <= _MOST else _MOST


def numbers_of(given: Any, name: str) -> np.ndarray:
    """An array of real numbers as numpy has it, of any shape and size, not copied yet: a shape may be far larger than what it holds."""
    rows = given if isinstance(given, (list, tuple)) else (given,)
    if any(isinstance(row, range) and row[_MOST_NUMBERS:] for row in rows):
        raise bad(name, f"these are too many numbers: {shown(given)}")
    try:
        sparse = hasattr(given, "toarray")
        array = None if sparse else np.asanyarray(given)
    except Exception as error:
        raise bad(name, f"no array: {error}") from error
    if array is None:
        raise bad(name, "it is sparse, and a dense array is asked for")
    if array.dtype.kind == "c":
        raise bad(name, "Complex data not supported: real numbers are asked for")
    if array.dtype.kind not in "biufO":
        raise bad(name, f"real numbers are asked for, not {array.dtype}")
    return array if isinstance(array, np.ma.MaskedArray) else np.asarray(array)


def plain(array: np.ndarray, name: str) -> np.ndarray:
    """The array itself, of one with a mask that masks nothing what it holds. Its shape is judged before."""
    if np.ma.is_masked(array):
        raise bad(name, "it has masked values")
    return np.asarray(array)


def table_of(given: Any, name: str) -> np.ndarray:
    """An array of two dimensions, a row for each frame; not copied yet."""
    array = numbers_of(given, name)
    if array.ndim != 2:
        raise bad(name, f"two dimensions are asked for, a row for each frame, not the shape {array.shape}. Reshape your data")
    return array


def owned(array: np.ndarray, name: str) -> np.ndarray:
    """A copy in doubles that nobody else has, in one dimension, row by row. Its shape is judged before."""
    array = plain(array, name)
    if array.dtype.kind == "O":
        return np.fromiter((_double(each, name) for each in array.flat), np.float64, array.size)
    with np.errstate(all="ignore"):
        return np.array(array, dtype=np.float64, order="C", copy=True, subok=False).reshape(-1)


def _double(value: Any, name: str) -> float:
    """An element of an array of objects as a double. None is NaN, as numpy has it; text is no number, whatever it says."""
    if value is None:
        return float("nan")
    if isinstance(value, (np.generic, np.ndarray)):
        real = value.dtype.kind in "biuf"
    else:
        real = hasattr(type(value), "__float__") or hasattr(type(value), "__index__")
    if not real:
        raise bad(name, f"real numbers are asked for, not {_kind(value)}")
    try:
        return float(value)
    except Exception as error:
        raise bad(name, f"no number: {error}") from error


def seed_of(random_state: Any) -> int:
    """The seed of a scatter: a whole number from 0 to 2^64 - 1 itself, one drawn from a numpy generator, a fresh one for None."""
    if random_state is None:
        return secrets.randbits(64)
    if isinstance(random_state, np.random.Generator):
        return int(random_state.integers(0, 2**64, dtype=np.uint64))
    if isinstance(random_state, np.random.RandomState):
        return int(random_state.randint(0, 2**64, dtype=np.uint64))
    seed = whole(random_state, "random_state")
    if not 0 <= seed <= _MOST:
        raise bad("random_state", f"a seed is from 0 to 2^64 - 1, not {shown(seed)}")
    return seed


def samples_of(given: Any, n: int, name: str) -> np.ndarray:
    """Numbers of samples out of n, in an array of their own. One that no sample can have becomes the largest, which is refused as it
    would be; so is a list of more than n by the first of them that are, since so many cannot rise and all be below n."""
    array = numbers_of(given[: n + 1] if isinstance(given, range) else given, name)
    if array.ndim != 1:
        raise bad(name, f"one dimension is asked for, not the shape {array.shape}")
    if array.size > 0 and array.dtype.kind not in "iuO":
        raise bad(name, f"whole numbers are asked for, not {array.dtype}")
    return clipped(array[: n + 1], np.uint32, name)


def clipped(array: np.ndarray, kind: Any, name: str) -> np.ndarray:
    """Whole numbers as unsigned ones of this kind, in an array of their own; those that it cannot hold become its largest."""
    array, most = plain(array, name), np.iinfo(kind).max
    if array.dtype.kind == "O":
        return np.array([value if 0 <= value <= most else most for value in (whole(each, name) for each in array)], kind)
    inside = (array >= 0) & (array <= most)
    return np.where(inside, array, np.array(most, kind)).astype(kind)


def path_of(given: Any, name: str) -> str:
    """A path as text. What the system would say of it is left to it, but that no path has a NUL byte."""
    try:
        path = os.fsdecode(given)
    except Exception as error:
        raise bad(name, f"a path is asked for, not {_kind(given)}") from error
    if "\0" in path:
        raise bad(name, f"no path has a NUL byte: {shown(path)}")
    return path


def contents(source: Any, name: str) -> np.ndarray:
    """The bytes of a file, as an area: of bytes or of an array of them a copy, of a path what is there."""
    if isinstance(source, (str, os.PathLike)):
        with open(path_of(source, name), "rb") as file:
            return np.frombuffer(file.read(), np.uint8)
    if isinstance(source, np.ndarray) and source.dtype != np.uint8:
        raise bad(name, f"bytes are asked for, not {source.dtype}")
    if not isinstance(source, (bytes, bytearray, memoryview, np.ndarray)):
        raise bad(name, f"bytes or a path are asked for, not {_kind(source)}")
    try:
        view = memoryview(source)
        if view.nbytes > _MOST_BYTES and not view.contiguous:
            raise ValueError("these are too many bytes")
        return np.frombuffer(view.tobytes(), np.uint8)
    except ValueError as error:
        raise bad(name, str(error)) from error


def _unwrapped(value: Any) -> Any:
    """What an array without dimensions holds."""
    return value[()] if isinstance(value, np.ndarray) and value.ndim == 0 else value


def _kind(value: Any) -> str:
    return f"{type(value).__name__} {shown(value)}"[:80]
