"""Blind frames: the counts of the library, what it refuses, and the warning of a fit."""

import warnings

import numpy as np
import pytest
from conftest import bits, frames, refused

import brothanchor
from brothanchor import TSNE, Run, Sight, blind, read_frames
from brothanchor import _native as native
from brothanchor._settings import Settings

METHODS = ["exact", "barnes_hut"]


def test_the_sample_sees_and_multiplied_it_does_not(sample):
    features = read_frames(sample)["features"]
    assert blind(features) == blind(features * 16) == Sight(0, 0)
    assert blind(features * 4096) == blind(features * 4096, method="exact") == Sight(244, 0)
    assert (blind(features * 64).blind, blind(features * 64).alone) == (108, 0)


@pytest.mark.parametrize("method", METHODS)
def test_frames_at_one_place_are_alone(method):
    assert blind(np.full((9, 3), 7.5), perplexity=2, method=method) == (9, 9)
    assert blind([[0.0], [-0.0], [0.0]], perplexity=1, method=method) == (3, 3)


def test_by_both_methods():
    table = np.array([[1.0]] * 6 + [[1e4]])
    assert blind(table, perplexity=1, method="exact") == (7, 0)
    assert blind(table, perplexity=1) == (7, 6)


@pytest.mark.parametrize("method", METHODS)
def test_the_bound_of_a_single_neighbour(method):
    for apart, count in ((6.0, 0), (6.069, 0), (6.072, 2), (7.0, 2)):
        assert blind([[0.0], [apart]], perplexity=1, method=method) == (count, 0)


@pytest.mark.parametrize("method", METHODS)
def test_a_count_does_not_change_the_table(method):
    table = frames(24) * 8
    kept = bits(table)
    counted = blind(table, perplexity=4, method=method)
    assert bits(table) == kept and 0 < counted.blind <= 24
    assert blind(np.asfortranarray(table), perplexity=4, method=method) == counted
    assert blind(table.tolist(), perplexity=4, method=method) == counted
    assert blind(table.astype(np.float32).astype(object), perplexity=4, method=method).blind > 0


def test_a_runs_own_count():
    table = frames(24) * 8
    run = Run(table, perplexity=4, random_state=1)
    assert run.blind() == blind(table, perplexity=4)
    run.iterate(2)
    kept = run.park()
    assert run.blind() == blind(table, perplexity=4) and run.park() == kept
    left = run.take_out([0, 3, 4])
    assert run.blind() == blind(table[left], perplexity=4) and run.perplexity == 4
    again = brothanchor.unpark(run.park())
    with pytest.raises(ValueError, match="has no table"):
        again.blind()
    assert brothanchor.unpark(run.park(), table[left]).blind() == run.blind()
    lists = Run.from_lists(run.lists(), run.n_samples, n_features=3, perplexity=4)
    with pytest.raises(ValueError, match="has no table"):
        lists.blind()


def test_what_is_refused():
    table = frames(24)
    assert refused(2, blind, table, perplexity=0).detail == "perplexity=0.0"
    assert refused(2, blind, table, perplexity=float("nan")).place is None
    assert refused(7, blind, np.zeros((4097, 1))).detail == "X has n_samples=4097, n_features=1"
    refused(7, blind, np.zeros((0, 3)))
    refused(7, blind, np.zeros((3, 0)))
    refused(7, blind, np.zeros((40, 257)))
    refused(7, blind, np.broadcast_to(0.0, (2**40, 3)))
    bad = table.copy()
    bad[5, 1] = np.inf
    assert refused(8, blind, bad, perplexity=4).detail == "X[5, 1]=inf"
    assert refused(8, blind, bad, perplexity=30).detail == "X[5, 1]=inf", "8 comes before 10"
    assert refused(9, blind, table[:1], perplexity=4).detail == "X has n_samples=1"
    assert refused(10, blind, table).detail == "perplexity=30.0, n_samples=24"


@pytest.mark.parametrize("given", [frames(24)[0], "frames", [["1", "2"]], np.zeros((2, 2, 2)), 1j * np.ones((3, 3)), None])
def test_what_is_no_table(given):
    with pytest.raises(ValueError, match="^X: "):
        blind(given)


def test_what_is_no_argument():
    with pytest.raises(ValueError, match="^perplexity: "):
        blind(frames(24), perplexity="30")
    with pytest.raises(ValueError, match="^method: "):
        blind(frames(24), method="tree")
    with pytest.raises(TypeError):
        blind(frames(24), angle=0.5)
    with pytest.raises(TypeError):
        blind(frames(24), 5)


def test_as_only_the_layer_below_can_ask():
    """Too few words of settings, rows that are too short and longer, a short answer: nothing is changed; else zeros, and tails stay."""
    words, table = Settings.taken(perplexity=4).words(24, 3), frames(24).reshape(-1)

    def call(given, values, lengths, answer):
        rows = [np.full(length, 1.5) for length in lengths[:3]] + [np.full(lengths[3], 9, np.uint32)]
        told = np.full(answer, 77, np.uint64)
        return native.call("blind", given, values, *rows, told), rows, told

    for given, values, lengths, answer, number in (
        (words[:8].copy(), table, [24] * 4, 2, 21),
        (words, table[:-1].copy(), [24] * 4, 2, 7),
        (words, table, [23, 24, 24, 24], 2, 12),
        (words, table, [24, 23, 24, 24], 2, 12),
        (words, table, [24, 24, 23, 24], 2, 12),
        (words, table, [24, 24, 24, 23], 2, 12),
        (words, table, [24] * 4, 1, 12),
    ):
        told, rows, left = call(given, values, lengths, answer)
        assert told == number
        assert all((row == first).all() for row, first in zip(rows, (1.5, 1.5, 1.5, 9))) and (left == 77).all()
    told, rows, left = call(words, table, [24, 25, 26, 27], 3)
    assert told == 0 and left.tolist() == [*blind(frames(24), perplexity=4), 77]
    for row, first in zip(rows, (1.5, 1.5, 1.5, 9)):
        assert not row[:24].any() and (row[24:] == first).all()


def model(**named) -> TSNE:
    return TSNE(**{"perplexity": 4, "n_iter": 3, "random_state": 2, **named})


def warned(act, *words) -> list:
    """What is warned of, and where."""
    with warnings.catch_warnings(record=True) as told:
        warnings.simplefilter("always")
        act(*words)
    assert all(each.category is UserWarning for each in told)
    return [(str(each.message), each.filename) for each in told]


@pytest.mark.parametrize("method", METHODS)
def test_a_fit_warns(method):
    table = frames(24)
    assert warned(model(method=method).fit, table) == []
    for act in (model(method=method).fit, model(method=method).fit_transform):
        ((told, where),) = warned(act, table * 4096)
        assert told.startswith("24 of 24 frames are blind: all their neighbours count alike; ") and "brothanchor.blind" in told
        assert where == __file__, "where it is called"


def test_of_a_fit_that_is_warned_of():
    far = frames(24) * 4096
    with pytest.warns(UserWarning, match="blind"):
        one = model().fit(far)
    with warnings.catch_warnings():
        warnings.simplefilter("ignore")
        assert bits(one.embedding_) == bits(model().fit_transform(far))
    with warnings.catch_warnings():
        warnings.simplefilter("error")
        warnings.filterwarnings("ignore", message=".* blind: ", category=UserWarning)
        model().fit(far)
    with warnings.catch_warnings():
        warnings.simplefilter("error")
        other = model()
        with pytest.raises(UserWarning):
            other.fit(far)
        assert bits(other.resume()) == bits(one.embedding_)


def test_frames_that_are_alone_do_not_count():
    assert warned(model().fit, np.zeros((24, 3))) == []
    far = np.concatenate([np.zeros((24, 1)), 1e4 + 100.0 * np.arange(8)[:, None] ** 1.1])
    ((told, _),) = warned(model().fit, far)
    assert told.startswith("32 of 32 frames are blind: all their neighbours count alike (24 of them only have neighbours at distance 0); ")


def test_one_in_a_hundred_is_not_many():
    line = (np.arange(120.0) ** 1.01)[:, None]
    for near, many in ((99, False), (98, True)):
        told = warned(model().fit, np.concatenate([line[:near], [[1e5]]]))
        assert bool(told) == many
    assert told[0][0].startswith("1 of 99 frames is blind: all its neighbours count alike; ")


def test_a_perplexity_that_is_never_met():
    ((told, _),) = warned(model(perplexity=0.5).fit, frames(24))
    assert told == "24 of 24 frames are blind: all their neighbours count alike; no perplexity below 0.99999 is ever met"
    assert blind([[0.0], [1.0]], perplexity=0.999995) == (0, 0), "1 is within 1e-5"
    assert blind([[0.0], [1e-16]], perplexity=0.5) == (0, 0), "50 rounds are too few"


def test_sigma_halved_too_far():
    """Squared distances of 30 and 34: a sigma of 0.95 would do, which halving steps over, by every power of two."""
    table = np.sqrt([[0.0], [30.0], [34.0]]) * [[1], [1], [-1]]
    for factor, count in ((1, 1), (0.5, 1), (0.0625, 1), (2.0**-20, 1), (0.53, 0)):
        assert blind(table * factor, perplexity=1.38).blind == count
    ((told, _),) = warned(model(perplexity=1.38).fit, table)
    assert told.startswith("1 of 3 frames is blind: ") and "a factor that is no power of two" in told


def test_two_frames_have_one_neighbour_each():
    far = [[0.0], [1e5]]
    assert warned(model(perplexity=1).fit, far) == []
    assert len(warned(model(perplexity=1, method="exact").fit, far)) == 1


def test_runs_do_not_warn():
    assert warned(lambda: Run(frames(24) * 4096, perplexity=4, n_iter=1).work()) == []
    assert warned(lambda: brothanchor.strip(frames(24) * 4096, perplexity=4, n_iter=1)) == []
