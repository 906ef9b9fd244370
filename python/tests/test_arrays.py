"""Any array: what can be taken gives the same bits as its doubles, the rest a refusal or a ValueError that names the argument."""

import array
import decimal
import fractions

import numpy as np
import pytest
from conftest import bits, frames, refused

from brothanchor import TSNE, Refused, Run

pytestmark = pytest.mark.filterwarnings("ignore")


def mapped(X, **named) -> bytes:
    """The first two iterations' map."""
    run = Run(X, **{"perplexity": 2, "n_iter": 2, "random_state": 1, **named})
    run.work()
    return bits(run.positions)


class Subclass(np.ndarray):
    """As some libraries have them."""

    def __array_finalize__(self, other):
        self.note = getattr(other, "note", None)


class Offered:
    """What offers itself as an array."""

    def __init__(self, values):
        self.values = values

    def __array__(self, dtype=None, copy=None):
        return np.asarray(self.values, dtype)


class NoArray:
    """What raises an error of its own where it is asked for an array."""

    def __array__(self, *_, **__):
        raise RuntimeError("not now")


class Raising:
    """What raises an error of its own where it is asked for a number, or for its words."""

    def __float__(self):
        raise ZeroDivisionError("no number today")

    __index__ = __float__

    def __repr__(self):
        raise LookupError("no words")


class Half:
    """A number of another kind."""

    def __float__(self):
        return 0.5


class Three:
    """A whole number of another kind."""

    def __index__(self):
        return 3


WHOLE = np.arange(24).reshape(8, 3) % 7


@pytest.mark.parametrize("kind", "? i1 i2 i4 i8 u1 u2 u4 u8 f2 f4 f8 g >f8 >f4 >i8 >u2 O".split())
@pytest.mark.parametrize("way", ["C", "F", "fixed", "strided", "reversed", "unaligned", "subclass", "matrix", "masked", "offered", "list"])
def test_every_kind_in_every_way(kind, way):
    table = np.array(WHOLE, dtype=kind)
    expected = mapped(np.array(table, np.float64))
    if way == "F":
        table = np.asfortranarray(table)
    elif way == "fixed":
        table.flags.writeable = False
    elif way == "strided":
        table = np.repeat(np.repeat(table, 3, axis=0), 2, axis=1)[::3, ::2]
    elif way == "reversed":
        table = table[::-1, ::-1].copy()[::-1, ::-1]
    elif way == "unaligned" and kind != "O":
        table = np.frombuffer(b"x" + table.tobytes(), np.uint8)[1:].view(table.dtype).reshape(8, 3)
    elif way == "subclass":
        table = table.view(Subclass)
    elif way == "matrix":
        table = np.matrix(table)
    elif way == "masked":
        table = np.ma.array(table, mask=False)
    elif way == "offered":
        table = Offered(table)
    elif way == "list":
        table = table.tolist()
    before = table.copy() if isinstance(table, np.ndarray) else None
    assert mapped(table) == expected
    assert before is None or (np.asarray(table) == np.asarray(before)).all()


def test_zero_strides_and_overlaps():
    row = np.array([1.0, 2.0, 4.0])
    assert mapped(np.broadcast_to(row, (8, 3))) == mapped(np.tile(row, (8, 1)))
    window = np.lib.stride_tricks.sliding_window_view(np.arange(10.0), 3)
    assert mapped(window) == mapped(np.array(window))


def test_other_holders():
    values = WHOLE.astype(float)
    expected = mapped(values)
    assert mapped([array.array("d", row) for row in values]) == expected
    assert mapped(memoryview(values)) == expected
    assert mapped([[fractions.Fraction(int(v)) for v in row] for row in WHOLE]) == expected
    assert mapped(tuple(map(tuple, WHOLE))) == expected
    assert mapped([[decimal.Decimal(int(v)) for v in row] for row in WHOLE]) == expected
    assert mapped(np.array([[Half(), Three(), np.float32(2)]] * 8, object)) == mapped([[0.5, 3.0, 2.0]] * 8)


BAD = [
    None,
    3,
    3.0,
    "frames",
    b"frames",
    [],
    [1, 2, 3],
    [[[1.0]]],
    [[1], [2, 3]],
    [["a", "b"], ["c", "d"]],
    [["1", "2"], ["3", "4"]],
    [[b"1"], [b"2"]],
    [[1j], [2]],
    [[object()], [1]],
    [[{}], [1]],
    [[10**400], [1]],
    {"a": 1},
    {1, 2},
    iter([[1.0], [2.0]]),
    np.float64(3),
    np.zeros(()),
    np.zeros(5),
    np.zeros((2, 2, 2)),
    np.zeros((1,) * 32),
    np.zeros((8, 3), complex),
    np.zeros((8, 3), "M8[s]"),
    np.zeros((8, 3), "m8[s]"),
    np.zeros((8, 3), "U4"),
    np.zeros((8, 3), "S4"),
    np.zeros((8, 3), "V8"),
    np.zeros((8, 3), [("a", "f8")]),
    np.zeros(8, [("a", "f8"), ("b", "f8")]),
    np.ma.array(np.zeros((8, 3)), mask=np.eye(8, 3)),
    np.array([[1, "a"], [2, "b"]], object),
    np.array([["1", "2"], ["3", "4"]], object),
    np.array([[1, np.str_("2")], [3, 4]], object),
    np.array([[1, b"2"], [3, 4]], object),
    np.array([[1, np.datetime64(1, "s")], [3, 4]], object),
    np.array([[1, np.timedelta64(1, "s")], [3, 4]], object),
    np.array([[1, np.complex64(2)], [3, 4]], object),
    np.array([[1, 2j], [3, 4]], object),
    [[10**5000], [1]],
    range(2**40),
    range(10**5000),
    [range(2**60), range(2**60)],
    (range(2**25), range(2**25)),
    NoArray(),
    [[NoArray()], [1.0]],
    [[Raising()], [1.0]],
    np.array([[Raising()], [1.0]], object),
    np.broadcast_to(np.uint8(1), (2**20, 2**20, 2**20)),
    range(5),
    type,
    np,
    Offered([1.0, 2.0]),
]


@pytest.mark.parametrize("given", range(len(BAD)))
def test_what_is_no_table(given):
    for make in (lambda X: Run(X, perplexity=2), TSNE(perplexity=2).fit_transform):
        with pytest.raises(ValueError, match="^X: ") as told:
            make(BAD[given])
        assert not isinstance(told.value, Refused)


@pytest.mark.parametrize("given", [given for given in range(len(BAD)) if not isinstance(BAD[given], str)])
def test_what_is_no_start(given):
    with pytest.raises(ValueError, match="^init: "):
        Run(frames(8), perplexity=2, init=BAD[given])


def test_starts():
    table, start = frames(8), frames(8, 2, seed=5)
    expected = mapped(table, init=start)
    for each in (np.asfortranarray(start), start.tolist(), np.matrix(start), start.astype(">f8"), start.astype("g")):
        assert mapped(table, init=each) == expected
    scattered = Run(table, perplexity=2, random_state=9)
    assert mapped(table, random_state=9) == mapped(table, init=scattered.positions)
    for shape in ((2, 8), (8, 1), (8, 3), (16,), (8, 2, 1), (0, 2), (7, 2)):
        with pytest.raises(ValueError, match="^init: "):
            mapped(table, init=np.zeros(shape))
    for word in ("pca", "RANDOM", ""):
        with pytest.raises(ValueError, match="^init: "):
            mapped(table, init=word)


def test_nothing_is_no_number():
    """numpy has NaN for None."""
    refused(8, Run, [[None], [1.0], [2.0]], perplexity=2)
    refused(8, Run, np.broadcast_to(np.array(None), (8, 3)), perplexity=2)


def test_whole_numbers_beyond_a_double():
    for value in (2**53 + 1, -(2**63), 2**64 - 1):
        refused(8, Run, np.full((8, 3), value), perplexity=2)
    refused(8, Run, np.full((8, 3), np.longdouble("1e4000")), perplexity=2)
    refused(8, Run, np.full((8, 3), 1e300), perplexity=2)
    assert mapped(np.full((8, 3), 2**20)) == mapped(np.full((8, 3), 2.0**20))


def str_of(value) -> str:
    return type(value).__name__


class Unreal(float):
    """A number that will not be one."""

    __float__ = __index__ = Raising.__float__
    __repr__ = Raising.__repr__


BAD_NUMBERS = [None, "30", b"1", [1], np.zeros(2), 1j, object(), {}, "nan", np.datetime64(1, "s"), np.array(["a"]), Raising(), Unreal()]
TOO_LARGE = [10**400, 10**5000, -(10**5000), fractions.Fraction(10**5000)]


@pytest.mark.parametrize("name", ["perplexity", "learning_rate", "angle", "min_grad_norm"])
@pytest.mark.parametrize("value", [*BAD_NUMBERS, *TOO_LARGE], ids=str_of)
def test_what_is_no_number(name, value):
    for make in (lambda: Run(frames(8), **{name: value}), lambda: TSNE(**{name: value}).fit(frames(8))):
        with pytest.raises(ValueError, match=f"^{name}: "):
            make()


@pytest.mark.parametrize("name", ["n_components", "n_iter"])
@pytest.mark.parametrize("value", [*BAD_NUMBERS, 2.0, np.float64(2), float("nan")], ids=str_of)
def test_what_is_no_whole_number(name, value):
    with pytest.raises(ValueError, match=f"^{name}: "):
        Run(frames(8), **{name: value})


@pytest.mark.parametrize("value", ["Exact", "", None, 1, b"exact", ["exact"], np.array("exact")])
def test_what_is_no_method(value):
    with pytest.raises(ValueError, match="^method: "):
        Run(frames(8), method=value)


@pytest.mark.parametrize("value", [-1, 2**64, 10**5000, 1.5, "1", [1], np.zeros(2, int), Raising()], ids=str_of)
def test_what_is_no_seed(value):
    with pytest.raises(ValueError, match="^random_state: "):
        Run(frames(8), perplexity=2, random_state=value)


def test_whole_numbers_past_what_python_writes():
    """Refused by their numbers or told by name, with how long they are."""
    for number, name in ((1, "n_components"), (4, "n_iter")):
        for value in (10**5000, -(10**5000)):
            assert f"{name}=a whole number of 16610 bits" in str(refused(number, Run, frames(8), perplexity=2, **{name: value}))
    lists = Run(frames(8), perplexity=2).lists()
    assert "n_samples=a whole number of" in str(refused(7, Run.from_lists, lists, 10**5000, perplexity=2))
    assert "n_features=a whole number of" in str(refused(7, Run.from_lists, lists, 8, n_features=10**5000, perplexity=2))
    run = Run(frames(8), perplexity=2)
    refused(18, run.take_out, [10**5000])
    for act in (run.work, run.iterate):
        with pytest.raises(ValueError, match="^(units|count): "):
            act(Raising())
    with pytest.raises(ValueError, match="^units: .* a whole number of"):
        run.work(-(10**5000))


def test_an_error_of_an_element_is_kept():
    for X in (NoArray(), np.array([[Raising()], [1.0]], object)):
        with pytest.raises(ValueError, match="^X: ") as told:
            Run(X, perplexity=0.5)
        assert isinstance(told.value.__cause__, (RuntimeError, ZeroDivisionError))
    with pytest.raises(ValueError, match="^perplexity: ") as told:
        Run(frames(8), perplexity=Unreal())
    assert isinstance(told.value.__cause__, ZeroDivisionError)


def test_masks_are_looked_at_once_the_shape_is_judged():
    shape = (2**28, 2**28)
    table = np.ma.array(np.broadcast_to(1.0, shape), mask=np.broadcast_to(False, shape), copy=False)
    refused(7, Run, table, perplexity=2)


def test_keywords_that_there_are_not():
    for make in (lambda: Run(frames(8), verbose=1), lambda: TSNE(verbose=1), lambda: Run.from_lists(b"", 8, verbose=1)):
        with pytest.raises(TypeError, match="verbose"):
            make()


def test_numbers_of_other_kinds():
    expected = mapped(WHOLE, perplexity=2, learning_rate=50, n_components=2, random_state=5)
    for kind in (np.int8, np.uint64, np.float16, np.longdouble, fractions.Fraction, np.array):
        assert mapped(WHOLE, perplexity=kind(2), learning_rate=kind(50), random_state=5) == expected
    for kind in (np.int8, np.uint64, np.array):
        assert mapped(WHOLE, n_components=kind(2), n_iter=kind(2), random_state=kind(5)) == expected


def test_arrays_at_random():
    """Shapes, kinds, orders and strides at random: each is mapped as its doubles are, or told by number or by name."""
    rng = np.random.default_rng(31)
    kinds = ["?", "i1", "i8", "u2", "f2", "f4", "f8", "g", ">f8", "c16", "U2", "S1", "M8[s]", "O", "V4"]
    met = set()
    for _ in range(1500):
        shape = tuple(rng.integers(0, 9, size=rng.choice([0, 1, 2, 2, 2, 2, 3])))
        with np.errstate(all="ignore"):
            whole = rng.integers(-3, 4, size=shape)
            X = np.asarray(whole).astype(kinds[rng.integers(len(kinds))]) if rng.random() < 0.9 else whole / 0.0
        if X.ndim == 2 and rng.random() < 0.5:
            X = X.T[:: rng.choice([-1, 1, 2])]
        perplexity = float(rng.choice([0.5, 2.0]))
        try:
            seen = mapped(X, perplexity=perplexity)
            assert seen == mapped(np.array(X, np.float64), perplexity=perplexity) and X.ndim == 2
            met.add("mapped")
        except Refused as told:
            met.add(told.number)
        except ValueError as told:
            assert str(told).startswith("X: ")
            met.add("named")
    assert met == {"mapped", "named", 7, 8, 9, 10}
