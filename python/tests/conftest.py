"""The module beside these tests, with what they share."""

import os
import sys
from pathlib import Path

import numpy as np
import pytest

HERE = Path(__file__).resolve().parent
sys.path.insert(0, str(HERE.parent))

import brothanchor  # noqa: E402


@pytest.fixture
def root() -> Path:
    """The repository."""
    return HERE.parents[1]


@pytest.fixture
def sample(root) -> Path:
    """The sample's frame file."""
    return root / "sample.frames"


@pytest.fixture
def twin() -> Path:
    """The program that makes runs by the Rust wrapper; tests/run builds it."""
    path = os.environ.get("BROTHANCHOR_TWIN")
    if not path:
        pytest.skip("BROTHANCHOR_TWIN names no program: tests/run builds it and goes by it")
    return Path(path)


def frames(n: int, f: int = 3, seed: int = 0) -> np.ndarray:
    """A table of frames in a few clusters."""
    rng = np.random.default_rng(seed)
    return rng.normal(size=(n, f)) + 5.0 * rng.integers(0, 3, size=(n, 1))


def refused(number: int, act, *words, **named) -> brothanchor.Refused:
    """What is refused, and that it is by this number."""
    with pytest.raises(brothanchor.Refused) as told:
        act(*words, **named)
    assert told.value.number == number, str(told.value)
    assert str(told.value).startswith(f"refused {number}: {told.value.meaning}")
    return told.value


def bits(array: np.ndarray) -> bytes:
    """An array by its bits."""
    return np.ascontiguousarray(array).tobytes()


def same_run(one: brothanchor.Run, other: brothanchor.Run) -> None:
    """Two runs stand alike: record and areas to the last bit, of the arena the nodes in use."""
    used = int(one._areas.record[13])
    for name in ("record", "positions", "increments", "gains", "affinities", "indices", "offsets", "forces"):
        assert bits(getattr(one._areas, name)) == bits(getattr(other._areas, name)), name
    assert bits(one._areas.nodes[:used]) == bits(other._areas.nodes[:used])
