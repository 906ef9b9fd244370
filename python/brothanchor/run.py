"""A run: a t-SNE map that is worked in counted units, and may be halted between any two."""

from __future__ import annotations

import threading
import time
from dataclasses import dataclass, fields
from typing import Any, Callable, NamedTuple, Optional

import numpy as np

from . import _arguments as arguments
from . import _native as native
from . import _settings
from ._settings import Settings, Sizes
from .errors import Refused
from .files import write_file
from .sight import Sight, seen

#: A call to the library takes about so many seconds; between two calls Ctrl-C is heard.
CALL_SECONDS = 0.05
#: The first call of a run has at most so many units, the next at most so many times as many, and no call more than so many.
_FIRST_UNITS, _GROWTH, _MOST_UNITS = 64, 4, 2**20

_STATES = ("running", "stopped", "finished")
_PARKED_RECORD, _LINK_RECORD = 32, 16

#: What is told after each call to the library.
Progress = Callable[["Run"], Any]


class Strip(NamedTuple):
    """Frames along one line."""

    #: The samples by rising position, equal positions by rising sample.
    order: np.ndarray
    #: For each of them how far it stands from the one before it; 0 for the first.
    gaps: np.ndarray
    #: Where each sample stands, in the samples' own order.
    positions: np.ndarray


#: What each area of a run holds, in the header's order.
_KINDS = {
    "record": np.uint64,
    "positions": np.float64,
    "increments": np.float64,
    "gains": np.float64,
    "affinities": np.float64,
    "indices": np.uint32,
    "offsets": np.uint32,
    "forces": np.float64,
    "nodes": native.NODE,
}


def _copied(part: Any, kind: Any, length: int, name: str) -> np.ndarray:
    """A copy of an array that was kept, if it is one of this kind and length."""
    if not isinstance(part, np.ndarray) or part.dtype != kind or part.shape != (length,):
        raise arguments.bad("state", f"{name}: {length} of {np.dtype(kind).name} are asked for")
    return np.array(part, dtype=kind, order="C", copy=True, subok=False)


@dataclass
class _Areas:
    """What is lent to every call of a run. Nobody else has these arrays, and none is ever resized."""

    record: np.ndarray
    positions: np.ndarray
    increments: np.ndarray
    gains: np.ndarray
    affinities: np.ndarray
    indices: np.ndarray
    offsets: np.ndarray
    forces: np.ndarray
    nodes: np.ndarray

    @staticmethod
    def lengths(sizes: Sizes) -> dict:
        """How long each is by the sizes, with an arena in which 14 never comes."""
        cells, affinities, indices, offsets, forces, _, nodes = sizes
        rows = cells, cells, cells, affinities, indices, offsets, forces, nodes
        return dict(zip(_KINDS, (native.RECORD_WORDS, *rows)))

    @staticmethod
    def new(sizes: Sizes) -> _Areas:
        """As long as the sizes ask for."""
        return _Areas(**{name: np.zeros(length, _KINDS[name]) for name, length in _Areas.lengths(sizes).items()})

    @staticmethod
    def kept(parts: dict, used: np.ndarray) -> _Areas:
        """Copies of parts that were kept, once they are tested: as long as the record's settings ask for, of the nodes those in use."""
        record = _copied(parts["record"], np.uint64, native.RECORD_WORDS, "record")
        lengths = _Areas.lengths(_settings.sizes_of(record[: native.SETTINGS_WORDS].copy()))
        most = lengths.pop("nodes")
        copies = {name: _copied(parts[name], _KINDS[name], length, name) for name, length in lengths.items()}
        first = _copied(used, native.NODE, min(np.size(used), most), "used")
        nodes = np.zeros(most, native.NODE)
        nodes[: first.size] = first
        return _Areas(**copies, nodes=nodes)

    def filled(self) -> list:
        """Those that a preparation fills, in the header's order; the record and the nodes stand apart."""
        return [getattr(self, field.name) for field in fields(self)[1:-1]]

    def all(self) -> list:
        """All of them in the header's order."""
        return [self.record, *self.filled(), self.nodes]


class Run:
    """A run of t-SNE over the rows of X, worked in budgets of units.

    The arguments are those of TSNE. A run is prepared by one call to the library, and is then worked by as many as one likes: any
    sharing out of the units gives the same bits. Between two calls Ctrl-C is heard; the run then stands after the last unit done, and
    goes on with the next `work`. So it does after an error of a progress callback.

    A run may be handed from thread to thread. One call is made at a time: another thread waits until it has ended, also to read what
    the run says of itself. A signal's handler must not work the run that it may have interrupted.
    """

    _areas: _Areas
    _table: Optional[np.ndarray]

    def __init__(self, X: Any, *, init: Any = "random", random_state: Any = None, strip: bool = False, **settings: Any) -> None:
        """Prepared from a table, a row for each frame. With `strip` it is for frames along one line, by prepare_strip."""
        if strip:
            settings.setdefault("n_components", 1)
        taken = Settings.taken(**settings)
        table = arguments.table_of(X, "X")
        seed = arguments.seed_of(random_state) if _settings.is_scatter(init) else None
        n, f = table.shape
        sizes = _settings.sizes_told(taken, n, f)
        start = _settings.start_of(init, seed, n, taken.n_components)
        values = arguments.owned(table, "X")
        areas = _Areas.new(sizes)
        rows = np.zeros(sizes[5], np.float64), np.zeros(sizes[5], np.uint32)
        number = native.call(
            "prepare_strip" if strip else "prepare",
            taken.words(n, f), values, start, *areas.filled(), *rows, areas.nodes.size, areas.record,
        )  # fmt: skip
        if number:
            bad = {8: (values, f, "X"), 11: (start, taken.n_components, "init")}.get(number)
            raise Refused(number, None, _settings.first_bad(*bad) if bad else taken.detail(number, n, f))
        self._stand(areas, values, seed)

    def _stand(self, areas: _Areas, table: Optional[np.ndarray], seed: Optional[int]) -> None:
        self._areas = areas
        self._table = table
        self._seed = seed
        # The positions before the step of an iteration, by whether its number is even; the other may be overwritten meanwhile.
        self._copies = [np.zeros_like(areas.positions) for _ in range(2)]
        self._units = _FIRST_UNITS
        self._turn = threading.RLock()

    @classmethod
    def unpark(cls, parked: Any, X: Any = None) -> Run:
        """A parked run read back, from its bytes or a path; it goes on as if it had not been parked. Refused is 16 with the record.

        A parked run has no table: one that is given is only kept, for `take_out` to thin with the run."""
        file = arguments.contents(parked, "parked")
        areas = _Areas.new([0] * native.SIZES_WORDS)
        answer = np.zeros(1, np.uint64)
        # Judged first, into no areas at all: those that a bad file asks for may be large.
        number = native.call("unpark", file, areas.record, *areas.filled(), 0, answer)
        if number != 12:
            native.unless_0(number, answer[0])
        head = file[: 8 * native.SETTINGS_WORDS].view("<u8").astype(np.uint64)
        areas = _Areas.new(_settings.sizes_of(head[[1, 2, 3, 0, 4, 5, 6, 7, 8]]))
        native.counted("unpark", file, areas.record, *areas.filled(), areas.nodes.size)
        run = cls.__new__(cls)
        run._stand(areas, None, None)
        if X is not None:
            table = arguments.table_of(X, "X")
            if table.shape != (run.n_samples, run.n_features):
                raise arguments.bad("X", f"the shape {(run.n_samples, run.n_features)} is asked for, not {table.shape}")
            run._table = arguments.owned(table, "X")
        return run

    @classmethod
    def from_lists(
        cls, lists: Any, n_samples: Any, *, n_features: Any = 1, init: Any = "random", random_state: Any = None, **settings: Any
    ) -> Run:
        """Begun from a neighbour list that another tool made, its bytes or a path: Barnes-Hut over so many frames, by no table.

        Refused is 19 with the record at which a rule of the list fails."""
        taken = Settings.taken(**settings)
        if taken.method != "barnes_hut":
            raise arguments.bad("method", f"'barnes_hut' is asked for, since only such a run has lists, not {taken.method!r}")
        file = arguments.contents(lists, "lists")
        n, f = arguments.whole(n_samples, "n_samples"), arguments.whole(n_features, "n_features")
        seed = arguments.seed_of(random_state) if _settings.is_scatter(init) else None
        areas = _Areas.new(_settings.sizes_told(taken, n, f))
        start = _settings.start_of(init, seed, n, taken.n_components)
        answer = np.zeros(1, np.uint64)
        number = native.call("import", taken.words(n, f), start, file, areas.record, *areas.filled(), areas.nodes.size, answer)
        if number:
            detail = _settings.first_bad(start, taken.n_components, "init") if number == 11 else taken.detail(number, n, f)
            raise Refused(number, int(answer[0]), detail)
        run = cls.__new__(cls)
        run._stand(areas, None, seed)
        return run

    # What the record says.

    def _word(self, place: int) -> int:
        with self._turn:
            return int(self._areas.record[place])

    def _said(self, name: str) -> int:
        with self._turn:
            return native.call(name, self._areas.record)

    @property
    def n_samples(self) -> int:
        """Frames on the map; fewer once some are taken out."""
        return self._word(native.N)

    @property
    def n_features(self) -> int:
        """Features of a frame."""
        return self._word(native.F)

    @property
    def n_components(self) -> int:
        """Components of the map."""
        return self._word(native.C)

    @property
    def method(self) -> str:
        """'exact' or 'barnes_hut'."""
        return "barnes_hut" if self._word(native.METHOD) else "exact"

    @property
    def n_iter(self) -> int:
        """How many iterations it has at most."""
        return self._word(native.ITERATIONS)

    @property
    def perplexity(self) -> float:
        """The perplexity that it goes by."""
        with self._turn:
            return float(self._areas.record.view(np.float64)[native.PERPLEXITY])

    @property
    def learning_rate(self) -> float:
        """The learning rate that it goes by."""
        with self._turn:
            return float(self._areas.record.view(np.float64)[native.RATE])

    @property
    def seed(self) -> Optional[int]:
        """The seed of the scatter that it started from; None where it started from an array, or was read back."""
        return self._seed

    @property
    def state(self) -> str:
        """'running', 'stopped' (every gradient was below min_grad_norm) or 'finished' (all iterations are done)."""
        return _STATES[self._said("state")]

    @property
    def ended(self) -> bool:
        """Whether it has stopped or finished."""
        return self.state != "running"

    @property
    def iterations(self) -> int:
        """Iterations done."""
        return self._said("iterations")

    @property
    def units(self) -> int:
        """Units done in all."""
        return self._said("units")

    @property
    def units_left(self) -> int:
        """Units to the end of the iteration under way; those of a whole one between two iterations."""
        with self._turn:
            whole = 2 * self.n_samples + (2 if self._word(native.METHOD) else 1)
            return whole - self._word(native.PHASE)

    @property
    def positions(self) -> np.ndarray:
        """Where the frames stand, a row for each, as a copy."""
        with self._turn:
            n, c = self.n_samples, self.n_components
            return self._areas.positions[: n * c].reshape(n, c).copy()

    @property
    def table(self) -> Optional[np.ndarray]:
        """The rows of the frames on the map, as a copy; None where the run was begun without."""
        with self._turn:
            n, f = self.n_samples, self.n_features
            return None if self._table is None else self._table[: n * f].reshape(n, f).copy()

    # What works it.

    def work(self, units: Any = None, *, progress: Optional[Progress] = None) -> int:
        """Does so many units, or without a number all that are left, unless the run ends before; answers how many were done.

        After each call to the library, at least once an iteration, `progress(run)` is called, and Ctrl-C is heard. Refused is 15,
        where a value would leave the range of numbers that a map may have: the run stands before that unit."""
        asked = None if units is None else arguments.whole(units, "units")
        if asked is not None and asked < 0:
            raise arguments.bad("units", f"at least 0 is asked for, not {arguments.shown(asked)}")
        done = 0
        while (asked is None or done < asked) and not self.ended:
            done += self._step(None if asked is None else asked - done)
            if progress is not None:
                progress(self)
        return done

    def iterate(self, count: Any = 1, *, progress: Optional[Progress] = None) -> int:
        """Works to the end of the iteration under way, and of so many less one more; answers how many units were done.

        The run then stands between two iterations, where it can be parked and thinned and has a divergence."""
        done = 0
        for _ in range(arguments.whole(count, "count")):
            if self.ended:
                break
            done += self.work(self.units_left, progress=progress)
        return done

    def _step(self, most: Optional[int]) -> int:
        """One call to the library: about as many units as its time allows, but none past the end of the iteration under way."""
        with self._turn:
            areas = self._areas
            np.copyto(self._copies[(self.iterations + 1) % 2], areas.positions)
            budget = min(self._units, self.units_left, self.units_left if most is None else most)
            answer = np.zeros(native.ANSWER_WORDS, np.uint64)
            begun = time.perf_counter()
            number = native.call("work", *areas.all(), budget, answer)
            self._paced(int(answer[2]), time.perf_counter() - begun)
        native.unless_0(number, answer[4])
        return int(answer[2])

    def _paced(self, units: int, seconds: float) -> None:
        """Sets the units of the next call by how long the last took."""
        within = units * CALL_SECONDS / max(seconds, 1e-9)
        self._units = max(1, int(min(within, self._units * _GROWTH, _MOST_UNITS)))

    # What is asked of it.

    def divergence(self) -> float:
        """The Kullback-Leibler figure of the iteration just finished; refused is 17 where none has just ended."""
        with self._turn:
            areas = self._areas
            answer = np.zeros(1, np.uint64)
            copy = self._copies[self.iterations % 2]
            native.unless_0(native.call("divergence", *areas.all(), copy, answer), answer[0])
        return float(answer.view(np.float64)[0])

    def blind(self) -> Sight:
        """How many of its frames are blind, and how many of them are alone, by its table; a ValueError where it was begun without one.

        The table is searched anew. After `take_out` that is what is left of it, and after `unpark(file, X)` it is X: the run keeps the
        affinities that were found when it was begun, so the counts are not about these then."""
        with self._turn:
            if self._table is None:
                raise ValueError("the run has no table: it was read back, or begun from lists")
            words = self._areas.record[: native.SETTINGS_WORDS].copy()
            return seen(words, self._table[: self.n_samples * self.n_features])

    def park(self, path: Any = None) -> bytes:
        """The run as the bytes of a file, which is also written where there is a path: the old file stays, or the new one is whole.

        A run is parked between two iterations, before the first or at its end (17 elsewhere; `iterate` goes to the next border)."""
        with self._turn:
            areas = self._areas
            n, c = self.n_samples, self.n_components
            up = lambda values: (values + 3) // 4  # noqa: E731
            held = up(n + 1) + 2 * up(areas.affinities.size) if self._word(native.METHOD) else up(n * n)
            target = np.zeros(_PARKED_RECORD * (3 + 3 * up(n * c) + held), np.uint8)
            records = native.counted("park", *areas.all(), target)
        return write_file(target[: _PARKED_RECORD * records].tobytes(), path)

    def take_out(self, samples: Any) -> np.ndarray:
        """Takes samples out, named by a rising list; answers where each that is left stood before. The positions are centred anew.

        Refused: 17 inside an iteration, 18 where the list does not rise strictly or names a sample that there is not or where too many
        links would be left, 9 and 10 where too few frames would be, 15 where a centred position would be out of range.

        It is one call, for which Ctrl-C waits. Where one comes meanwhile, nothing is answered, though the samples may be out:
        `n_samples` then tells. Whoever needs to know which frame is which keeps their names beside `samples`."""
        with self._turn:
            areas = self._areas
            n, f = self.n_samples, self.n_features
            gone = arguments.samples_of(samples, n, "samples")
            table = np.zeros(n * f, np.float64) if self._table is None else self._table
            old = np.zeros(n, np.uint32)
            left = native.counted("take_out", *areas.all(), table, gone, old)
        return old[:left].astype(np.intp)

    def lists(self, path: Any = None) -> bytes:
        """The neighbour lists of a Barnes-Hut run for other tools, 16 bytes a link; an exact run has none (17)."""
        with self._turn:
            target = np.zeros(_LINK_RECORD * self._areas.indices.size, np.uint8)
            links = native.counted("lists", *self._areas.all(), target)
        return write_file(target[: _LINK_RECORD * links].tobytes(), path)

    def strip(self) -> Strip:
        """The frames of an ended run along one line. Refused: 20 for settings outside the profile, 17 before the run has ended."""
        with self._turn:
            n = self.n_samples
            order, gaps = np.zeros(n, np.uint32), np.zeros(n, np.float64)
            native.counted("strip", *self._areas.all(), order, gaps)
            return Strip(order.astype(np.intp), gaps, self._areas.positions[:n].copy())

    # Kept and copied as its parts, as long as its settings ask for; of the arena only the nodes in use.

    def __getstate__(self) -> dict:
        with self._turn:
            areas, copies, table = self._areas, self._copies, self._table
            lengths = _Areas.lengths(_settings.sizes_of(areas.record[: native.SETTINGS_WORDS].copy()))
            most = lengths.pop("nodes")
            return {
                "parts": {name: getattr(areas, name)[:length].copy() for name, length in lengths.items()},
                "used": areas.nodes[: min(self._word(native.NODES_USED), most)].copy(),
                "copies": [copy[: lengths["positions"]].copy() for copy in copies],
                "table": None if table is None else table[: self.n_samples * self.n_features].copy(),
                "seed": self._seed,
            }

    def __setstate__(self, state: dict) -> None:
        """Of a state that was altered: a ValueError, or what the library refuses of such areas, or a run that can be worked."""
        try:
            areas = _Areas.kept(state["parts"], state["used"])
            one, other = (_copied(copy, np.float64, areas.positions.size, "copies") for copy in state["copies"])
            table, seed = state["table"], state["seed"]
        except (KeyError, TypeError, IndexError) as error:
            raise arguments.bad("state", f"this is no run: {error!r}") from error
        values = int(areas.record[native.N]) * int(areas.record[native.F])
        table = None if table is None else _copied(table, np.float64, values, "table")
        answer = np.zeros(native.ANSWER_WORDS, np.uint64)
        native.unless_0(native.call("work", *areas.all(), 0, answer), answer[4])
        self._stand(areas, table, None if seed is None else arguments.seed_of(arguments.whole(seed, "state: seed")))
        self._copies = [one, other]

    def __repr__(self) -> str:
        return f"<Run of {self.n_samples} frames, {self.state}: {self.iterations} of {self.n_iter} iterations>"
