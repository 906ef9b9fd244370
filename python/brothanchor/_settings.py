"""What a run goes by: the arguments of a run as the library's words, and the areas that they ask for."""

from __future__ import annotations

from dataclasses import dataclass
from typing import Any, Optional, Union

import numpy as np

from . import _arguments as arguments
from . import _native as native
from .errors import Refused

#: The methods by their words.
METHODS = {"exact": 0, "barnes_hut": 1}
#: Positions, affinities, indices, offsets, forces, rows and nodes: how long they must be.
Sizes = list


@dataclass(frozen=True)
class Settings:
    """What a run goes by, as far as it is known before the frames are."""

    n_components: int
    perplexity: float
    learning_rate: Union[float, str]
    n_iter: int
    method: str
    angle: float
    min_grad_norm: float

    @staticmethod
    def taken(
        n_components: Any = 2,
        perplexity: Any = 30.0,
        learning_rate: Any = "auto",
        n_iter: Any = 1000,
        method: Any = "barnes_hut",
        angle: Any = 0.5,
        min_grad_norm: Any = 1e-7,
    ) -> Settings:
        """Of any arguments; a ValueError names the one that cannot be taken. Whether they are good is for the library to say."""
        if not isinstance(method, str) or method not in METHODS:
            raise arguments.bad("method", f"'barnes_hut' or 'exact' is asked for, not {arguments.shown(method)}")
        if isinstance(learning_rate, str):
            if learning_rate != "auto":
                raise arguments.bad("learning_rate", f"a number or 'auto' is asked for, not {arguments.shown(learning_rate)}")
        else:
            learning_rate = arguments.number(learning_rate, "learning_rate")
        return Settings(
            n_components=arguments.whole(n_components, "n_components"),
            perplexity=arguments.number(perplexity, "perplexity"),
            learning_rate=learning_rate,
            n_iter=arguments.whole(n_iter, "n_iter"),
            method=method,
            angle=arguments.number(angle, "angle"),
            min_grad_norm=arguments.number(min_grad_norm, "min_grad_norm"),
        )

    def rate(self, n: int) -> float:
        """The learning rate of a run of n frames. By itself it grows with them, and is at least 50, as scikit-learn has it."""
        return max(arguments.word(n) / 12 / 4, 50.0) if isinstance(self.learning_rate, str) else self.learning_rate

    def words(self, n: int, f: int) -> np.ndarray:
        """The nine words, for n frames with f features."""
        words = np.zeros(native.SETTINGS_WORDS, np.uint64)
        words[native.N] = arguments.word(n)
        words[native.F] = arguments.word(f)
        words[native.C] = arguments.word(self.n_components)
        words[native.METHOD] = METHODS[self.method]
        words[native.ITERATIONS] = arguments.word(self.n_iter)
        values = words.view(np.float64)
        values[native.PERPLEXITY] = self.perplexity
        values[native.RATE] = self.rate(n)
        values[native.ANGLE] = self.angle
        values[native.MINIMUM] = self.min_grad_norm
        return words

    def detail(self, number: int, n: int, f: int) -> Optional[str]:
        """The arguments that a refusal is about, with their values."""
        shown = arguments.shown
        n_components, n_iter, n_samples, n_features = (shown(value) for value in (self.n_components, self.n_iter, n, f))
        told = {
            1: f"n_components={n_components}",
            2: f"perplexity={self.perplexity}",
            3: f"learning_rate={self.learning_rate}",
            4: f"n_iter={n_iter}",
            5: f"angle={self.angle}",
            6: f"n_components={n_components}",
            7: f"X has n_samples={n_samples}, n_features={n_features}",
            9: f"X has n_samples={n_samples}",
            10: f"perplexity={self.perplexity}, n_samples={n_samples}",
            20: f"n_components={n_components}, method={self.method!r}, angle={self.angle}, n_samples={n_samples}",
        }
        return told.get(number)


def sizes_of(words: np.ndarray) -> Sizes:
    """How long the areas of a run must be, by its settings' words."""
    sizes = np.zeros(native.SIZES_WORDS, np.uint64)
    native.unless_0(native.call("sizes", words, sizes))
    return [int(size) for size in sizes]


def sizes_told(settings: Settings, n: int, f: int) -> Sizes:
    """The same, but none where the frames are too few (9, 10): a table value may be bad too (8), which is told first."""
    try:
        return sizes_of(settings.words(n, f))
    except Refused as refused:
        if refused.number in (9, 10):
            return [0] * native.SIZES_WORDS
        raise Refused(refused.number, None, settings.detail(refused.number, n, f)) from None


def start_of(init: Any, seed: Optional[int], n: int, c: int) -> np.ndarray:
    """Where n frames start on c components: an array's values, or the library's scatter by a seed."""
    if seed is not None:
        start = np.zeros(n * c, np.float64)
        native.unless_0(native.call("scatter", start, n, c, seed))
        return start
    array = arguments.table_of(init, "init")
    if array.shape != (n, c):
        raise arguments.bad("init", f"the shape {(n, c)} is asked for, not {array.shape}")
    return arguments.owned(array, "init")


def is_scatter(init: Any) -> bool:
    """Whether a run starts from a scatter; a ValueError for a word that is not known."""
    if not isinstance(init, str):
        return False
    if init != "random":
        raise arguments.bad("init", f"'random' or an array (n_samples, n_components) is asked for, not {arguments.shown(init)}")
    return True


def first_bad(values: np.ndarray, columns: int, name: str) -> Optional[str]:
    """The first value that is not finite or above 2^20 in magnitude, by its place in the argument."""
    with np.errstate(invalid="ignore"):
        places = np.flatnonzero(~(np.abs(values) <= 2.0**20))
    if places.size == 0:
        return None
    row, column = divmod(int(places[0]), columns)
    value = float(values[places[0]])
    return f"{name}[{row}, {column}]={'NaN' if value != value else value}"
