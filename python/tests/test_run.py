"""Runs: any sharing out of the units, interruptions, threads; parked, thinned, copied; lists and strips."""

import copy
import os
import pickle
import random
import signal
import subprocess
import sys
import threading
from pathlib import Path

import numpy as np
import pytest
from conftest import bits, frames, refused, same_run

import brothanchor
from brothanchor import Run
from brothanchor import _native as native
from brothanchor._settings import sizes_of

BOTH = pytest.mark.parametrize("method", ["exact", "barnes_hut"])


def begin(method: str, n: int = 24, n_iter: int = 60) -> Run:
    return Run(frames(n), perplexity=min(4, n / 3), n_iter=n_iter, random_state=7, method=method)


@BOTH
def test_any_sharing_out_gives_the_same_bits(method):
    whole = begin(method)
    assert whole.work() == whole.units
    draw = random.Random(3)
    for most in (1, 7, 60, 1000, 10**30):
        run, done = begin(method, n_iter=60), 0
        while not run.ended:
            budget = draw.randint(0, most)
            did = run.work(budget)
            assert did == min(budget, did) and run.units == done + did
            done += did
        same_run(whole, run)
        assert bits(run.divergence()) == bits(whole.divergence())
        assert run.work() == run.work(5) == 0


@BOTH
def test_what_a_run_says(method):
    run = begin(method, n_iter=3)
    units = 2 * 24 + (2 if method == "barnes_hut" else 1)
    assert (run.n_samples, run.n_features, run.n_components, run.method, run.n_iter) == (24, 3, 2, method, 3)
    assert (run.state, run.ended, run.iterations, run.units, run.units_left) == ("running", False, 0, 0, units)
    assert (run.learning_rate, run.seed) == (50.0, 7)
    assert run.work(5) == 5 and (run.iterations, run.units, run.units_left) == (0, 5, units - 5)
    assert run.iterate() == units - 5 and (run.iterations, run.units, run.units_left) == (1, units, units)
    assert run.iterate(50) == 2 * units and run.state == "finished" and run.iterate() == 0
    assert repr(run) == "<Run of 24 frames, finished: 3 of 3 iterations>"
    assert bits(run.table) == bits(frames(24)) and run.positions.shape == (24, 2)
    stopped = Run(frames(24), perplexity=4, min_grad_norm=1e9, random_state=7, method=method)
    stopped.work()
    assert (stopped.state, stopped.ended) == ("stopped", True) and stopped.iterations < 1000


def test_what_is_handed_out_is_a_copy():
    run, other = begin("barnes_hut"), begin("barnes_hut")
    run.positions[:] = np.nan
    run.table[:] = np.nan
    table = frames(24)
    third = Run(table, perplexity=4, n_iter=60, random_state=7)
    table[:] = np.nan
    for each in (run, other, third):
        each.work()
    same_run(run, other)
    same_run(third, other)


@pytest.mark.parametrize("units", [-1, 1.5, "3", 2.0, [1], float("nan")])
def test_units_that_are_no_number(units):
    run = begin("exact")
    with pytest.raises(ValueError, match="^units: "):
        run.work(units)
    assert run.units == 0


@BOTH
def test_without_a_number_all_units_are_done(method):
    run, other = begin(method), begin(method)
    units = 60 * (2 * 24 + (2 if method == "barnes_hut" else 1))
    assert run.work(None) == other.work() == run.units == units and run.state == "finished"
    same_run(run, other)


@BOTH
def test_progress_is_told_between_calls(method):
    run, told = begin(method), []
    run.work(progress=lambda each: told.append((each is run, each.iterations, each.units)))
    assert all(mine for mine, _, _ in told)
    assert sorted({iterations for _, iterations, _ in told} - {0}) == list(range(1, 61))
    assert [units for _, _, units in told] == sorted({units for _, _, units in told})


@BOTH
@pytest.mark.parametrize("error", [KeyboardInterrupt, RuntimeError])
def test_stopped_by_its_callback_and_gone_on(method, error):
    whole, run, draw = begin(method), begin(method), random.Random(5)
    whole.work()

    def stop(_):
        if draw.random() < 0.3:
            raise error

    stops = 0
    while not run.ended:
        try:
            run.work(progress=stop)
        except error:
            stops += 1
    assert stops > 5
    same_run(whole, run)
    assert run.divergence() == whole.divergence()


def figures_of(run: Run) -> dict:
    """The divergence after each iteration of a run that is left alone, by their number."""
    figures = {}
    while not run.ended:
        run.iterate()
        figures[run.iterations] = run.divergence()
    return figures


def figure_fits(run: Run, figures: dict) -> bool:
    """Whether a run that was interrupted stands between two iterations; the figure is then that of the run that was not."""
    between = run.iterations > 0 and int(run._areas.record[11]) == 0
    assert not between or run.divergence() == figures[run.iterations]
    return between


@BOTH
def test_interrupted_at_any_moment_and_gone_on(method):
    """A signal every few hundred microseconds, wherever it falls."""
    whole, run = begin(method, n_iter=2000), begin(method, n_iter=2000)
    figures, draw, stops, between = figures_of(whole), random.Random(9), 0, 0

    def interrupt(*_):
        raise KeyboardInterrupt

    before = signal.signal(signal.SIGALRM, interrupt)
    try:
        while not run.ended:
            try:
                signal.setitimer(signal.ITIMER_REAL, draw.uniform(1e-5, 1e-3))
                run.work()
                signal.setitimer(signal.ITIMER_REAL, 0)
            except KeyboardInterrupt:
                stops += 1
                between += figure_fits(run, figures)
    finally:
        signal.setitimer(signal.ITIMER_REAL, 0)
        signal.signal(signal.SIGALRM, before)
    assert stops > 20 and between > 10
    same_run(whole, run)
    figure_fits(run, figures)


@BOTH
@pytest.mark.parametrize("units", [None, 5])
def test_interrupted_at_every_instruction_and_gone_on(method, units):
    """At one instruction of the module after the other, until a run comes through."""
    whole, place = begin(method, 4, 3), 0
    figures, folder = figures_of(whole), str(Path(brothanchor.__file__).parent)

    class Stop(BaseException):
        pass

    def trace(frame, event, _):
        nonlocal left
        frame.f_trace_opcodes = frame.f_code.co_filename.startswith(folder)
        if event == "opcode":
            left -= 1
            if left == 0:
                raise Stop
        return trace

    while True:
        place += 7
        run, left = begin(method, 4, 3), place
        before = sys.gettrace()
        sys.settrace(trace)
        try:
            while not run.ended:
                run.work(units)
            break
        except Stop:
            sys.settrace(before)
            figure_fits(run, figures)
            run.work()
            same_run(whole, run)
            figure_fits(run, figures)
        finally:
            sys.settrace(before)
    assert place > 2000


CHILD = """
import signal, sys, time
# a job in the background of a script is born deaf to SIGINT, and so would its children be
signal.signal(signal.SIGINT, signal.default_int_handler)
sys.path[:0] = sys.argv[1:3]
from conftest import frames
from brothanchor import TSNE
model = TSNE(perplexity=20, n_iter=400, method="exact", random_state=3)
stops = 0
asked = 0
def told(run):
    global asked
    if asked == stops and run.iterations > 5 * stops:
        asked += 1
        print("going", flush=True)
    if run.iterations > 200:
        time.sleep(0.05)
try:
    model.fit(frames(800), progress=told)
except KeyboardInterrupt:
    stops += 1
while not hasattr(model, "embedding_"):
    try:
        model.resume(progress=told if stops < 3 else None)
    except KeyboardInterrupt:
        stops += 1
print(stops, model.embedding_.tobytes().hex(), model.kl_divergence_.hex())
"""


def test_ctrl_c_in_a_process_of_its_own():
    """SIGINT as a terminal sends it, three times while it works, and the map is that of a fit that was left alone."""
    here = Path(__file__).resolve().parent
    words = [sys.executable, "-c", CHILD, str(here), str(Path(brothanchor.__file__).parents[1])]
    child = subprocess.Popen(words, stdout=subprocess.PIPE, text=True)
    try:
        for _ in range(3):
            assert child.stdout.readline() == "going\n"
            os.kill(child.pid, signal.SIGINT)
        told, _ = child.communicate(timeout=60)
    finally:
        child.kill()
    stops, embedding, figure = told.split()[-3:]
    model = brothanchor.TSNE(perplexity=20, n_iter=400, method="exact", random_state=3)
    assert (embedding, figure) == (model.fit_transform(frames(800)).tobytes().hex(), model.kl_divergence_.hex())
    assert int(stops) == 3


def test_handed_from_thread_to_thread():
    whole, run, faults = begin("barnes_hut", 300, 8), begin("barnes_hut", 300, 8), []
    whole.work()

    def help_it():
        try:
            while not run.ended:
                run.work(170)
                run.positions, run.units
                assert run.state in ("running", "finished") and 0 <= run.iterations <= 8 and 0 < run.units_left <= 602
        except BaseException as fault:
            faults.append(fault)

    threads = [threading.Thread(target=help_it) for _ in range(4)]
    for thread in threads:
        thread.start()
    for thread in threads:
        thread.join()
    assert not faults
    same_run(whole, run)


@BOTH
@pytest.mark.parametrize("units", [0, 5, 30, 49 * 3, 50 * 3, 10**6])
def test_copied_and_pickled(method, units):
    run = begin(method)
    run.work(units)
    others = [copy.deepcopy(run), copy.copy(run), pickle.loads(pickle.dumps(run))]
    for other in others:
        same_run(run, other)
        other.work()
    run.work()
    for other in others:
        same_run(run, other)
        assert other.divergence() == run.divergence() and bits(other.table) == bits(run.table)


@BOTH
@pytest.mark.parametrize("units", [0, 30])
def test_a_thinned_run_copied_and_pickled(method, units):
    """Its areas are longer than what is kept; the copy's are as long as they must be."""
    run = begin(method)
    run.iterate(10)
    run.take_out(range(0, 24, 2))
    run.work(units)
    other = pickle.loads(pickle.dumps(run))
    sizes = sizes_of(other._areas.record[:9].copy())
    assert [other._areas.positions.size, other._areas.affinities.size, other._areas.nodes.size] == [sizes[0], sizes[1], sizes[6]]
    assert run._areas.positions.size == 48 and other._areas.positions.size == 24
    for each in (run, other):
        each.work()
    assert bits(run.positions) == bits(other.positions) and run.divergence() == other.divergence()
    assert bits(run.table) == bits(other.table) and run.park() == other.park()
    assert run.take_out([0]).tolist() == other.take_out([0]).tolist() and bits(run.table) == bits(other.table)


def altered(state: dict) -> list:
    """States that no run left: parts missing, of other kinds, shapes and lengths."""
    parts, states = state["parts"], [None, 3, {}, [], "state"]
    for name in state:
        states.append({key: value for key, value in state.items() if key != name})
        states += [{**state, name: value} for value in (3.5, "x", [], {}, [1, 2], np.zeros((2, 2)))]
    for name, part in parts.items():
        states.append({**state, "parts": {key: value for key, value in parts.items() if key != name}})
        swapped = part.byteswap().view(part.dtype.newbyteorder())
        for other in (None, part.tolist(), np.append(part, part[:1]), part.astype(np.float32), part.reshape(-1, 1), swapped):
            if not (isinstance(other, np.ndarray) and other.shape == part.shape and other.dtype == part.dtype):
                states.append({**state, "parts": {**parts, name: other}})
        if part.size:
            states.append({**state, "parts": {**parts, name: part[:-1]}})
    for name, value in [("seed", -1), ("seed", 2**64), ("seed", 1.5), ("copies", state["copies"][:1]), ("copies", [None, None])]:
        states.append({**state, name: value})
    states.append({**state, "used": np.zeros(10**6, native.NODE)})
    states.append({**state, "table": state["table"][:-1]})
    return states


@BOTH
def test_what_is_no_kept_run(method):
    run = begin(method)
    run.work(30)
    state = run.__getstate__()
    for each in altered(state):
        other = Run.__new__(Run)
        with pytest.raises(ValueError):
            other.__setstate__(each)
        assert not vars(other)
    other = Run.__new__(Run)
    other.__setstate__(state)
    same_run(run, other)


@BOTH
def test_a_kept_run_that_was_altered_is_refused_or_worked(method):
    """Bits of the parts turned at random: a ValueError, or a run with areas as long as they must be."""
    draw, read, told = random.Random(13), 0, set()
    run = begin(method, 9, 40)
    run.work(30)
    for _ in range(600):
        state = run.__getstate__()
        name = draw.choice(["record", "record", "indices", "offsets", "affinities", "positions", "used"])
        area = (state["used"] if name == "used" else state["parts"][name]).view(np.uint8)
        if area.size == 0:
            continue
        area[draw.randrange(area.size)] ^= 1 << draw.randrange(8)
        other = Run.__new__(Run)
        try:
            other.__setstate__(state)
            read += 1
            assert other._areas.nodes.size == sizes_of(other._areas.record[:9].copy())[6]
            other.work(200)
        except brothanchor.Refused as refused:
            told.add(refused.number)
        except ValueError as error:
            assert str(error).startswith("state: ")
            told.add("state")
    assert read > 50 and {"state", 22} <= told and (method == "exact" or {23, 24, 25} <= told)


@BOTH
def test_parked_and_read_back(method, tmp_path):
    whole = begin(method)
    for night in (0, 1, 30, 60):
        run = begin(method)
        run.iterate(night)
        path = tmp_path / "night.parked"
        file = run.park(path)
        assert path.read_bytes() == file and [each.name for each in tmp_path.iterdir()] == ["night.parked"]
        for source in (file, str(path), path, bytearray(file), memoryview(file), np.frombuffer(file, np.uint8)):
            again = brothanchor.unpark(source, frames(24))
            assert again.park() == file and again.seed is None
            again.work()
            whole.work()
            assert bits(again.positions) == bits(whole.positions) and again.units == whole.units
            assert bits(again.table) == bits(frames(24))
    assert brothanchor.park(whole) == whole.park() and Run.unpark(whole.park()).table is None
    with pytest.raises(ValueError, match="^X: "):
        Run.unpark(file, frames(23))


@BOTH
def test_damaged_files_are_refused_or_worked(method):
    """A parked run with bytes altered at random is refused by 16, or is a run that can be worked."""
    draw, read, told = random.Random(11), 0, 0
    run = begin(method, 9, 40)
    run.iterate(3)
    file = run.park()
    for _ in range(600):
        damaged = bytearray(file)
        for _ in range(draw.randint(1, 3)):
            damaged[draw.randrange(len(file)) if draw.random() < 0.7 else draw.randrange(96)] = draw.getrandbits(8)
        try:
            again = Run.unpark(damaged[: draw.choice([len(file), len(file), draw.randrange(len(file))])])
            read += 1
            again.work(200)
        except brothanchor.Refused as refused:
            assert refused.number in (15, 16)
            told += refused.number == 16
    assert read > 50 and told > 50


def test_threads_park_to_one_path(tmp_path):
    """Four threads and a reader: there is never half a file, and nothing is left beside it."""
    runs, path, faults = [begin("exact", n) for n in (9, 12, 16, 24)], tmp_path / "night.parked", []
    files = {run.park() for run in runs}
    runs[0].park(path)

    def park(run):
        try:
            for _ in range(60):
                run.park(path)
        except BaseException as fault:
            faults.append(fault)

    threads = [threading.Thread(target=park, args=(run,)) for run in runs]
    for thread in threads:
        thread.start()
    seen = set()
    while any(thread.is_alive() for thread in threads):
        seen.add(path.read_bytes())
    for thread in threads:
        thread.join()
    assert not faults and len(files) == 4 and seen <= files and path.read_bytes() in files
    assert [each.name for each in tmp_path.iterdir()] == ["night.parked"]


@BOTH
@pytest.mark.parametrize("gone", [[], [0], [23], [1, 5, 6, 20], range(0, 24, 2), np.arange(5, dtype=np.int8)])
def test_taken_out(method, gone):
    run = begin(method)
    run.iterate(10)
    before, table = run.positions, run.table
    left = [i for i in range(24) if i not in list(gone)]
    assert run.take_out(gone).tolist() == left
    assert bits(run.table) == bits(table[left]) and run.n_samples == len(left)
    assert np.allclose(run.positions, before[left] - before[left].mean(axis=0))
    run.work()
    assert run.state == "finished" and run.positions.shape == (len(left), 2) and run.divergence() > 0
    bare = Run.unpark(run.park())
    assert brothanchor.take_out(bare, [0]).tolist() == list(range(1, len(left)))


@pytest.mark.parametrize("gone", [3, [[1]], [1.0], ["1"], [None], "ab", [1, [2]], [1j], np.array([True]), {1, 2}])
def test_lists_of_samples_that_are_none(gone):
    with pytest.raises(ValueError, match="^samples: "):
        begin("exact").take_out(gone)


def test_lists_and_back():
    run = begin("barnes_hut")
    other = Run.from_lists(run.lists(), 24, n_features=3, perplexity=4, n_iter=60, random_state=7)
    run.work()
    other.work()
    same_run(run, other)
    assert other.table is None and other.lists() == run.lists() and other.seed == 7
    with pytest.raises(ValueError, match="^init: "):
        Run.from_lists(run.lists(), 24, perplexity=4, init=np.zeros((2, 24)))


def test_frames_along_one_line():
    order, gaps, positions = brothanchor.strip(frames(24), perplexity=4, random_state=1)
    assert order.tolist() == np.argsort(positions, kind="stable").tolist()
    assert bits(gaps) == bits(np.diff(positions[order], prepend=positions[order[0]]))
    run = Run(frames(24), perplexity=4, random_state=1, n_components=1)
    run.work()
    assert bits(run.strip().gaps) == bits(gaps)


def test_memory_that_there_is_not(monkeypatch):
    def none(*_, **__):
        raise MemoryError("no room")

    monkeypatch.setattr(brothanchor.run._Areas, "new", none)
    with pytest.raises(MemoryError):
        Run(frames(24), perplexity=4)


def test_whole_numbers_beyond_a_word_in_a_budget():
    run = begin("exact", n_iter=2)
    assert run.work(2**200) == run.units == 2 * 49
    refused(4, Run, frames(24), n_iter=2**200)
