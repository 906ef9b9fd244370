"""The desk's files as numpy arrays: frame files, scuffed ones too, and maps for the picture monitor."""

from __future__ import annotations

import errno
import os
import secrets
import stat
from typing import Any, NamedTuple, Optional

import numpy as np

from . import _arguments as arguments
from . import _native as native

#: A record of a frame file, 72 bytes: picture (1 to 79,999), side (1 or 2), field (0 a whole frame, 1 or 2 a field of a still), six
#: features and two starts.
FRAME = np.dtype(
    {
        "names": ["picture", "side", "field", "features", "starts"],
        "formats": ["<u4", "u1", "u1", ("<f8", 6), ("<f8", 2)],
        "offsets": [0, 4, 5, 8, 56],
        "itemsize": 72,
    }
)

#: A frame with its place on a map.
PLACED = np.dtype([("picture", np.uint32), ("side", np.uint8), ("field", np.uint8), ("position", np.float64, 2)])

#: The rules of a frame file by the numbers that `salvage` tells.
RULES = {
    1: "its picture is not from 1 to 79999",
    2: "its side is not 1 or 2",
    3: "its field is not 0, 1 or 2",
    4: "its spare bytes are not zero",
    5: "a value of it is not finite or above 2^20 in magnitude",
    6: "it is out of order after the last record kept",
    7: "it is not whole",
}

_MONITOR_RECORD = 16
#: Of more frames than this a fault is among the first so many: there are 79,999 pictures of three fields at most, and they rise.
_MOST_FRAMES = 3 * 79_999 + 1
_MOST_LINKS = 40


class Salvaged(NamedTuple):
    """What is salvaged of a scuffed frame file."""

    #: The good records, a frame file.
    file: bytes
    #: The places of the records that are dropped, counted from 0, and the first rule that each of them broke (RULES).
    places: np.ndarray
    rules: np.ndarray

    @property
    def frames(self) -> np.ndarray:
        """The good records as frames."""
        return read_frames(self.file)


def read_frames(source: Any) -> np.ndarray:
    """The records of a frame file, its bytes or a path, as an array of FRAME. Refused is 16 with the first bad record."""
    file = arguments.contents(source, "source")
    records = native.counted("frames", file)
    return file.view(FRAME)[:records].copy()


def salvage(source: Any) -> Salvaged:
    """The good records of a scuffed frame file, its bytes or a path, in their order; and of each other its place and what is wrong."""
    file = arguments.contents(source, "source")
    records = -(-file.size // FRAME.itemsize)
    target, places, rules = np.zeros(file.size, np.uint8), np.zeros(records, np.uint64), np.zeros(records, np.uint8)
    answer = np.zeros(2, np.uint64)
    native.unless_0(native.call("salvage", file, target, places, rules, answer), answer[0])
    kept, told = int(answer[0]), int(answer[1])
    return Salvaged(target[: FRAME.itemsize * kept].tobytes(), places[:told].astype(np.intp), rules[:told])


def read_monitor(source: Any) -> np.ndarray:
    """A map for the picture monitor, its bytes or a path, as an array of PLACED. Refused is 16 with the first bad record."""
    file = arguments.contents(source, "source")
    n = file.size // _MONITOR_RECORD
    pictures, sides, fields = np.zeros(n, np.uint32), np.zeros(n, np.uint8), np.zeros(n, np.uint8)
    positions = np.zeros(2 * n, np.float64)
    native.counted("monitor_read", file, pictures, sides, fields, positions)
    placed = np.zeros(n, PLACED)
    placed["picture"], placed["side"], placed["field"] = pictures, sides, fields
    placed["position"] = positions.reshape(n, 2)
    return placed


def write_monitor(frames: Any, positions: Any = None, path: Any = None) -> bytes:
    """A map for the picture monitor, in single precision, as the bytes of a file, which is also written where there is a path.

    `frames` has picture, side and field, as FRAME and PLACED have them; `positions` has a row of two for each, and may be left out
    where `frames` has them. Refused with the frame's place: 16 for a picture, side, field or order, 26 for a coordinate."""
    pictures, sides, fields = (_column(frames, *column) for column in (("picture", np.uint32), ("side", np.uint8), ("field", np.uint8)))
    if positions is None and "position" in frames.dtype.names:
        positions = frames["position"]
    places = arguments.table_of(positions, "positions")
    if places.shape != (frames.size, 2):
        raise arguments.bad("positions", f"the shape {(frames.size, 2)} is asked for, not {places.shape}")
    n = pictures.size
    target = np.zeros(_MONITOR_RECORD * n, np.uint8)
    native.counted("monitor_write", n, pictures, sides, fields, arguments.owned(places[:n], "positions"), target)
    return write_file(target.tobytes(), path)


def _column(frames: Any, name: str, kind: Any) -> np.ndarray:
    """The numbers of frames by a field's name, in an array of their own; one that no frame has is refused as it would be.

    Of more frames than can be without a fault only those that have one are taken."""
    if not isinstance(frames, np.ndarray) or frames.ndim != 1 or name not in (frames.dtype.names or ()):
        raise arguments.bad("frames", f"an array of one dimension with the field {name!r} is asked for")
    column = arguments.numbers_of(frames[name], "frames")
    if column.ndim != 1 or column.dtype.kind not in "iu":
        raise arguments.bad("frames", f"whole numbers are asked for in the field {name!r}, not {frames.dtype[name]}")
    return arguments.clipped(column[:_MOST_FRAMES], kind, "frames")


def write_file(data: bytes, path: Any) -> bytes:
    """Writes a file where there is a path, and answers its bytes. They go to a file beside it, which then takes its name.

    So a reader, another thread or a power cut meets the old file or the whole new one. Of a link what it leads to is written. What is
    there and no regular file is left alone: an OSError names it."""
    if path is None:
        return data
    target = _followed(arguments.path_of(path, "path"))
    mode = _mode(target)
    folder = os.path.dirname(target) or "."
    beside = os.path.join(folder, f".{secrets.token_hex(8)}.new")
    try:
        with open(beside, "xb") as file:
            if mode is not None:
                os.fchmod(file.fileno(), mode)
            file.write(data)
            file.flush()
            os.fsync(file.fileno())
        os.replace(beside, target)
    except BaseException:
        if os.path.exists(beside):
            os.remove(beside)
        raise
    # The name is kept in the folder, which has to be on the disc too.
    handle = os.open(folder, os.O_RDONLY | os.O_DIRECTORY)
    try:
        os.fsync(handle)
    finally:
        os.close(handle)
    return data


def _followed(target: str) -> str:
    """What a path leads to, if it is a link; an OSError where it names no file or the links lead nowhere."""
    for _ in range(_MOST_LINKS):
        if os.path.basename(target) in ("", ".", ".."):
            raise OSError(errno.EISDIR, "this names no file", target)
        if not os.path.islink(target):
            return target
        target = os.path.join(os.path.dirname(target), os.readlink(target))
    raise OSError(errno.ELOOP, os.strerror(errno.ELOOP), target)


def _mode(target: str) -> Optional[int]:
    """The permissions of the file that is there, which the new one takes over; None where there is none. An OSError for what is no file."""
    try:
        mode = os.stat(target).st_mode
    except FileNotFoundError:
        return None
    if not stat.S_ISREG(mode):
        raise OSError(errno.EISDIR if stat.S_ISDIR(mode) else errno.EINVAL, "this is no regular file, and is left alone", target)
    return stat.S_IMODE(mode) & 0o777
