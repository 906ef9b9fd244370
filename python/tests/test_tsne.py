"""TSNE: the names and habits of scikit-learn."""

import copy
import pickle

import numpy as np
import pytest
from conftest import bits, frames, refused

from brothanchor import TSNE, Run

NAMES = ["n_components", "perplexity", "learning_rate", "n_iter", "method", "angle", "min_grad_norm", "random_state", "init"]


def model(**named) -> TSNE:
    return TSNE(**{"perplexity": 4, "n_iter": 40, "random_state": 2, **named})


@pytest.mark.parametrize("method", ["exact", "barnes_hut"])
@pytest.mark.parametrize("c", [1, 2, 3])
def test_a_fit_is_its_run(method, c):
    table = frames(24)
    one = model(method=method, n_components=c)
    map_ = one.fit_transform(table, None)
    run = Run(table, perplexity=4, n_iter=40, random_state=2, method=method, n_components=c)
    run.work()
    assert map_ is one.embedding_ and map_.shape == (24, c) and map_.dtype == np.float64
    assert bits(map_) == bits(run.positions) and one.kl_divergence_ == run.divergence()
    assert (one.n_iter_, one.n_features_in_, one.learning_rate_, one.random_state_) == (40, 3, 50.0, 2)
    assert bits(model(method=method, n_components=c).fit(table, np.zeros(24)).embedding_) == bits(map_)
    map_[:] = 0
    assert bits(one.run_.positions) == bits(run.positions)


def test_the_learning_rate_by_itself():
    for n, rate in ((24, 50.0), (2400, 50.0), (4096, 4096 / 12 / 4)):
        run = Run(np.zeros((n, 1)), n_iter=1, perplexity=1)
        assert run.learning_rate == rate
    with pytest.raises(ValueError, match="^learning_rate: "):
        model(learning_rate="Auto").fit(frames(24))


def test_seeds():
    table = frames(24)
    fresh = model(random_state=None)
    assert bits(fresh.fit_transform(table)) == bits(model(random_state=fresh.random_state_).fit_transform(table))
    assert bits(fresh.embedding_) != bits(fresh.fit_transform(table))
    for make in (np.random.RandomState, np.random.default_rng):
        once, again = (model(random_state=make(3)).fit(table) for _ in range(2))
        assert bits(once.embedding_) == bits(again.embedding_) and 0 <= once.random_state_ < 2**64
        drawn = make(3)
        first = model(random_state=drawn).fit(table)
        assert first.random_state_ == once.random_state_ != model(random_state=drawn).fit(table).random_state_
    given = model(init=frames(24, 2), random_state=5).fit(table)
    assert given.random_state_ is None


def test_parameters():
    one = TSNE(3, angle=0.25)
    assert list(one.get_params()) == NAMES and one.get_params(deep=False)["angle"] == 0.25
    start = np.zeros((24, 2))
    assert one.set_params(init=start, perplexity=7) is one and one.init is start and one.perplexity == 7
    with pytest.raises(ValueError, match="^verbose: "):
        one.set_params(perplexity=9, verbose=1)
    assert one.perplexity == 7
    with pytest.raises(TypeError):
        TSNE(verbose=1)
    assert repr(TSNE(3, perplexity=5)) == "TSNE(n_components=3, perplexity=5)" and repr(TSNE()) == "TSNE()"
    assert type(one)(**one.get_params()).get_params() == one.get_params()


def test_refused_it_has_no_map_and_an_old_one_goes():
    one = model().fit(frames(24))
    refused(10, one.set_params(perplexity=24).fit, frames(24))
    assert not [name for name in vars(one) if name.endswith("_")]
    with pytest.raises(ValueError, match="fit comes first"):
        one.resume()
    with pytest.raises(ValueError, match="fit comes first"):
        TSNE().resume()


@pytest.mark.parametrize("method", ["exact", "barnes_hut"])
def test_interrupted_and_gone_on(method):
    table, one = frames(24), model(method=method)

    def stop(run):
        if run.units >= 500:
            raise KeyboardInterrupt

    with pytest.raises(KeyboardInterrupt):
        one.fit_transform(table, progress=stop)
    assert not hasattr(one, "embedding_") and 0 < one.run_.iterations < 40
    kept = pickle.loads(pickle.dumps(one))
    told = []
    map_ = one.resume(progress=lambda run: told.append(run.units))
    assert told and map_ is one.embedding_ and bits(kept.resume()) == bits(map_)
    whole = model(method=method).fit(table)
    assert bits(map_) == bits(whole.embedding_) and one.kl_divergence_ == whole.kl_divergence_
    assert bits(one.resume()) == bits(map_)


def test_copied_and_pickled():
    one = model().fit(frames(24))
    for other in (copy.deepcopy(one), pickle.loads(pickle.dumps(one))):
        assert bits(other.embedding_) == bits(one.embedding_) and other.get_params() == one.get_params()
        assert other.run_.park() == one.run_.park()


def test_no_figure_of_frames_that_were_thinned():
    one = model().fit(frames(24))
    one.run_.take_out([0, 1])
    assert one.resume().shape == (22, 2) and one.kl_divergence_ is None
