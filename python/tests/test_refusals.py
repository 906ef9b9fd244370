"""Every refusal that can be met through the module, by its number, with its place and what it is about."""

import pickle

import numpy as np
import pytest
from conftest import frames, refused

from brothanchor import PLACED, TSNE, Refused, Run, read_frames, read_monitor, write_monitor


@pytest.mark.parametrize(
    "number, settings, words",
    [
        (1, {"n_components": 0}, "n_components=0"),
        (1, {"n_components": 9, "method": "exact"}, "n_components=9"),
        (1, {"n_components": -1}, "n_components=-1"),
        (1, {"n_components": 10**30}, "n_components=1000"),
        (2, {"perplexity": 0}, "perplexity=0.0"),
        (2, {"perplexity": float("nan")}, "perplexity=nan"),
        (2, {"perplexity": float("inf")}, "perplexity=inf"),
        (3, {"learning_rate": -1}, "learning_rate=-1.0"),
        (3, {"learning_rate": float("nan")}, "learning_rate=nan"),
        (4, {"n_iter": 0}, "n_iter=0"),
        (4, {"n_iter": 65_536}, "n_iter=65536"),
        (4, {"n_iter": -(10**40)}, "n_iter=-1000"),
        (5, {"angle": 1.0}, "angle=1.0"),
        (5, {"angle": -0.1}, "angle=-0.1"),
        (5, {"angle": np.float32("nan")}, "angle=nan"),
        (6, {"n_components": 4}, "n_components=4"),
        (10, {"perplexity": 20}, "perplexity=20.0, n_samples=20"),
    ],
)
def test_settings(number, settings, words):
    for make in (lambda: Run(frames(20), **settings), lambda: TSNE(**settings).fit(frames(20))):
        assert words in str(refused(number, make))


@pytest.mark.parametrize("shape", [(0, 3), (3, 0), (0, 0), (4097, 2), (2, 257), (2**40, 3), (3, 2**40), (2**30, 2**30)])
def test_7(shape):
    big = np.broadcast_to(np.uint8(1), shape)
    assert f"n_samples={shape[0]}, n_features={shape[1]}" in str(refused(7, Run, big, perplexity=1))


@pytest.mark.parametrize("value", [float("nan"), float("inf"), -float("inf"), 2.0**20 + 1, -1e300])
def test_8_and_11_tell_the_value(value):
    table = frames(20)
    table[3, 1] = value
    assert "X[3, 1]=" in str(refused(8, Run, table, perplexity=3))
    start = np.zeros((20, 2))
    start[7, 0] = value
    assert "init[7, 0]=" in str(refused(11, Run, frames(20), perplexity=3, init=start))


def test_8_comes_before_9_and_10():
    assert refused(8, Run, [[float("nan")]], perplexity=0.5)
    assert refused(8, Run, [[float("nan")], [1]], perplexity=5)
    assert refused(9, Run, [[1.0]], perplexity=0.5)
    assert refused(10, Run, [[2.0], [1]], perplexity=2)


@pytest.mark.parametrize("method", ["exact", "barnes_hut"])
def test_15_leaves_the_run_standing(method):
    run = Run(frames(20), perplexity=3, learning_rate=1e300, random_state=1, method=method)
    refused(15, run.work)
    units = run.units
    refused(15, run.work)
    assert run.units == units and run.state == "running"
    model = TSNE(perplexity=3, learning_rate=1e300, random_state=1, method=method)
    refused(15, model.fit, frames(20))
    assert not hasattr(model, "embedding_") and model.run_.state == "running"


def test_16(sample, tmp_path):
    file = bytearray(sample.read_bytes())
    file[5 * 72 + 4] = 3
    assert refused(16, read_frames, file).place == 5
    assert refused(16, read_frames, sample.read_bytes()[:-1]).place == 243
    assert refused(16, read_monitor, bytes(16)).place == 0
    assert refused(16, Run.unpark, b"").place == 0
    parked = bytearray(Run(frames(20), perplexity=3).park())
    parked[32 * 2 + 16] = 3
    assert refused(16, Run.unpark, parked).place == 2
    assert "record 2, counted from 0" in str(refused(16, Run.unpark, parked))


def test_17():
    run = Run(frames(20), perplexity=3, random_state=1)
    refused(17, run.divergence)
    run.work(1)
    for act in (run.divergence, run.park, lambda: run.take_out([1])):
        refused(17, act)
    run.iterate()
    assert run.divergence() > 0
    run.take_out([1])
    refused(17, run.divergence)
    refused(17, Run(frames(20), perplexity=3, method="exact").lists)
    refused(17, Run(frames(20), perplexity=3, strip=True).strip)


def test_18_9_10_of_a_removal():
    run = Run(frames(20), perplexity=3, random_state=1)
    for gone in ([1, 1], [2, 1], [20], [-1], [2**32], [2**70], np.array([1, 255], np.uint8), np.array([-1], np.int8)):
        refused(18, run.take_out, gone)
    for size in (21, 2**40, 2**59):
        for gone in (np.broadcast_to(np.uint8(1), size), np.broadcast_to(np.array(1, object), size), range(size), range(size)[::-1]):
            refused(18, run.take_out, gone)
    refused(18, run.take_out, range(10**30))
    refused(9, run.take_out, range(20))
    refused(9, run.take_out, range(19))
    refused(10, run.take_out, range(17))
    assert run.n_samples == 20


def test_19():
    lists = Run(frames(20), perplexity=3, random_state=1).lists()
    one = bytearray(lists)
    one[16 * 4 + 8] ^= 1
    assert refused(19, Run.from_lists, one, 20, perplexity=3).place is not None
    assert refused(19, Run.from_lists, lists + b"x", 20, perplexity=3).place == len(lists) // 16
    for number, n, f in [(7, 4097, 1), (7, -1, 1), (7, 20, 0), (9, 1, 1)]:
        refused(number, Run.from_lists, lists, n, n_features=f, perplexity=0.5)
    refused(10, Run.from_lists, lists, 20, perplexity=20)
    refused(11, Run.from_lists, lists, 20, perplexity=3, init=np.full((20, 2), np.inf))


@pytest.mark.parametrize("method", ["exact", "Barnes", None, 1, np.zeros(2)])
def test_no_other_method_has_lists(method):
    with pytest.raises(ValueError, match="^method: "):
        Run.from_lists(Run(frames(20), perplexity=3).lists(), 20, perplexity=3, method=method)


def test_20():
    for settings in ({"n_components": 2}, {"method": "exact"}, {"angle": 0.6}):
        refused(20, Run, frames(20), perplexity=3, strip=True, **settings)
    refused(20, Run, frames(1025), strip=True)
    run = Run(frames(20), perplexity=3, n_iter=1)
    run.work()
    refused(20, run.strip)


def test_26_and_16_of_the_monitor(sample):
    placed = read_frames(sample)[:5]
    positions = np.zeros((5, 2))
    for value in (np.nan, np.inf, 1e39):
        positions[3, 1] = value
        assert refused(26, write_monitor, placed, positions).place == 3
    for name, value in [("picture", 0), ("picture", 80_000), ("side", 3), ("field", 9)]:
        bad = placed.copy()
        bad[name][2] = value
        assert refused(16, write_monitor, bad, np.zeros((5, 2))).place == 2
    wide = np.zeros(1, [("picture", "i8"), ("side", "i8"), ("field", "i8")])
    for picture, side, field in [(2**32 + 1, 1, 0), (-1, 1, 0), (1, 257, 0), (1, 1, 256), (1, 1, -256)]:
        wide["picture"], wide["side"], wide["field"] = picture, side, field
        assert refused(16, write_monitor, wide, np.zeros((1, 2))).place == 0


def test_16_and_26_of_more_frames_than_there_are():
    """The first fault is told, whatever the shape holds; nothing of that shape is copied."""
    placed = np.zeros(1, PLACED)
    placed["picture"], placed["side"] = 7, 1
    many, places = np.broadcast_to(placed, 2**40), np.broadcast_to(0.0, (2**40, 2))
    assert refused(16, write_monitor, many).place == refused(16, write_monitor, many, places).place == 1
    assert refused(26, write_monitor, many, np.broadcast_to(np.nan, (2**40, 2))).place == 0
    with pytest.raises(ValueError, match="^positions: "):
        write_monitor(many, places[1:])
    with pytest.raises(ValueError, match="^positions: "):
        write_monitor(placed, places)
    rising = np.zeros(3 * 79_999 + 9, PLACED)
    rising["picture"], rising["side"], rising["field"] = 1 + np.arange(rising.size) // 2, 1, 1 + np.arange(rising.size) % 2
    assert len(write_monitor(rising[: 2 * 79_999])) == 16 * 2 * 79_999
    assert refused(16, write_monitor, rising).place == 2 * 79_999


def test_a_refusal_is_a_value_error_that_can_be_kept():
    told = refused(10, Run, frames(5), perplexity=30)
    assert isinstance(told, ValueError)
    again = pickle.loads(pickle.dumps(told))
    assert (again.number, again.place, again.detail, str(again)) == (told.number, told.place, told.detail, str(told))
    assert Refused(16, 3).place == 3 and Refused(17, 3).place is None
    assert Refused(99).meaning == "no known number"
