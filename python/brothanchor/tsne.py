"""t-SNE with the names and habits of scikit-learn."""

from __future__ import annotations

import inspect
import sys
import warnings
from typing import Any, Optional

import numpy as np

from .errors import Refused
from .run import Progress, Run


class TSNE:
    """t-SNE, worked by the proved library. scikit-learn is not needed.

    n_components   components of the map, 1 to 8; Barnes-Hut 1 to 3
    perplexity     above 0 and below the number of frames
    learning_rate  a number above 0, or 'auto': max(n / 12 / 4, 50), as scikit-learn has it
    n_iter         iterations at most, 1 to 65,535; the first 250 pull 12 times as hard
    method         'barnes_hut' or 'exact'
    angle          of Barnes-Hut, from 0 to below 1
    min_grad_norm  the run stops where every gradient is below it; NaN, zero or negative never stops one
    random_state   the seed of the scatter, 0 to 2^64 - 1, or a numpy generator to draw it from; None takes a fresh one
    init           'random', the library's scatter by that seed, or an array (n_samples, n_components)

    After a fit: embedding_, kl_divergence_ (of the last iteration, None where there is none), n_iter_ (iterations done),
    learning_rate_, n_features_in_, random_state_ (the seed, with which the same map comes again; None where init was an array) and
    run_, the run itself, which can be parked or thinned. What is refused is a Refused, a kind of ValueError, with its number.

    Where more than one frame in a hundred is blind (brothanchor.blind), frames that are alone not counted, a fit warns by a UserWarning
    before it begins to work: all their neighbours count alike, most often because they lie too far apart.

    There are up to 4,096 frames of up to 256 features, finite and at most 2^20 in magnitude.
    """

    def __init__(
        self,
        n_components: Any = 2,
        *,
        perplexity: Any = 30.0,
        learning_rate: Any = "auto",
        n_iter: Any = 1000,
        method: Any = "barnes_hut",
        angle: Any = 0.5,
        min_grad_norm: Any = 1e-7,
        random_state: Any = None,
        init: Any = "random",
    ) -> None:
        self.n_components = n_components
        self.perplexity = perplexity
        self.learning_rate = learning_rate
        self.n_iter = n_iter
        self.method = method
        self.angle = angle
        self.min_grad_norm = min_grad_norm
        self.random_state = random_state
        self.init = init

    def fit(self, X: Any, y: Any = None, *, progress: Optional[Progress] = None) -> TSNE:
        """Maps the rows of X. `y` is not looked at. `progress(run)` is called after each call to the library, at least once an iteration.

        Ctrl-C is heard between two calls, and `resume` then goes on."""
        self._forget()
        self.run_ = Run(X, **self.get_params())
        _warn(self.run_)
        self.resume(progress=progress)
        return self

    def fit_transform(self, X: Any, y: Any = None, *, progress: Optional[Progress] = None) -> np.ndarray:
        """Maps the rows of X, and answers the map: a row for each."""
        return self.fit(X, y, progress=progress).embedding_

    def resume(self, *, progress: Optional[Progress] = None) -> np.ndarray:
        """Goes on with a fit that was interrupted, and answers the map: the same as if it had not been, to the last bit."""
        run = getattr(self, "run_", None)
        if run is None:
            raise ValueError("nothing was begun: fit comes first")
        run.work(progress=progress)
        self.n_features_in_ = run.n_features
        self.learning_rate_ = run.learning_rate
        self.random_state_ = run.seed
        self.n_iter_ = run.iterations
        self.kl_divergence_ = _divergence(run)
        self.embedding_ = run.positions
        return self.embedding_

    def get_params(self, deep: bool = True) -> dict:
        """The arguments by their names."""
        return {name: getattr(self, name) for name in self._names()}

    def set_params(self, **params: Any) -> TSNE:
        """Sets arguments by their names."""
        for name in params:
            if name not in self._names():
                raise ValueError(f"{name}: there is no such parameter; there are {', '.join(self._names())}")
        for name, value in params.items():
            setattr(self, name, value)
        return self

    @classmethod
    def _names(cls) -> list:
        return [name for name in inspect.signature(cls.__init__).parameters if name != "self"]

    def _forget(self) -> None:
        """What an earlier fit left goes."""
        for name in [name for name in vars(self) if name.endswith("_") and not name.startswith("_")]:
            delattr(self, name)

    def __repr__(self) -> str:
        usual = inspect.signature(type(self).__init__).parameters
        told = (f"{name}={value!r}" for name, value in self.get_params().items() if value is not usual[name].default)
        return f"{type(self).__name__}({', '.join(told)})"


def _warn(run: Run) -> None:
    """Warns where more than one frame in a hundred is blind. Those that are alone do not count, as repeats, which no factor parts. Two
    frames by Barnes-Hut have one neighbour each, which counts whether they see it or not."""
    n, (blind, alone) = run.n_samples, run.blind()
    if 100 * (blind - alone) <= n or (n == 2 and run.method == "barnes_hut"):
        return
    one = f"1 of {n} frames is blind: all its neighbours count alike"
    told = one if blind == 1 else f"{blind} of {n} frames are blind: all their neighbours count alike"
    if alone:
        told += f" ({alone} of them only {'has' if alone == 1 else 'have'} neighbours at distance 0)"
    if run.perplexity < 0.99999:
        told += "; no perplexity below 0.99999 is ever met"
    else:
        told += "; where neighbours lie too far apart X times a factor below 1 helps; where they are about equally near a factor that is no"
        told += " power of two may, or a higher perplexity: brothanchor.blind counts how many are left"
    warnings.warn(told, UserWarning, stacklevel=_outside())


def _outside() -> int:
    """The level of the first caller outside this module, as a warning counts them from where it is given."""
    frame, level = sys._getframe(1), 1
    while frame.f_back is not None and frame.f_globals.get("__name__") == __name__:
        frame, level = frame.f_back, level + 1
    return level


def _divergence(run: Run) -> Optional[float]:
    """The figure of the last iteration; None where there is none, as of frames that were thinned."""
    try:
        return run.divergence()
    except Refused as refused:
        if refused.number != 17:
            raise
        return None
