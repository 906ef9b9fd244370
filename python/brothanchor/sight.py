"""Frames that the sigma search leaves blind, counted."""

from __future__ import annotations

from typing import Any, NamedTuple

import numpy as np

from . import _arguments as arguments
from . import _native as native
from . import _settings
from ._settings import Settings
from .errors import Refused


class Sight(NamedTuple):
    """What is counted among the frames of a table."""

    #: Frames that are blind: the weights of their neighbours add up to less than 1e-8 in the last round of the search, so that all their
    #: neighbours count alike.
    blind: int
    #: Those of them whose distances all come out as 0. Where the frames are the same no factor helps them.
    alone: int


def blind(X: Any, *, perplexity: Any = 30.0, method: Any = "barnes_hut") -> Sight:
    """How many rows of X a run by these settings leaves blind, and how many of them are alone.

    Neighbours that lie more than about 6 apart are too far off: X times a factor below 1, as 0.25, helps, and a power of two rounds no
    distance. A frame whose nearest neighbours are about equally near stays blind by powers of two where sigma is halved too far:
    a factor that is no power of two may help, as 0.85 or 0.65, or a higher perplexity. One below 0.99999 is never met. It is one call,
    which takes about as long as a preparation. Refused: 2, 7, 8, 9 and 10 as of a run."""
    taken = Settings.taken(perplexity=perplexity, method=method)
    table = arguments.table_of(X, "X")
    n, f = table.shape
    _settings.sizes_told(taken, n, f)
    values = arguments.owned(table, "X")
    try:
        return seen(taken.words(n, f), values)
    except Refused as refused:
        number = refused.number
        detail = _settings.first_bad(values, f, "X") if number == 8 else taken.detail(number, n, f)
        raise Refused(number, None, detail) from None


def seen(words: np.ndarray, values: np.ndarray) -> Sight:
    """The counts of a table by its settings' words, which name no more frames than there may be."""
    n = int(words[native.N])
    rows = [np.zeros(n, np.float64) for _ in range(3)]
    answer = np.zeros(2, np.uint64)
    native.unless_0(native.call("blind", words, values, *rows, np.zeros(n, np.uint32), answer))
    return Sight(int(answer[0]), int(answer[1]))
