"""The same bits as the Rust wrapper, over runs at random, by both methods."""

import random
import struct
import subprocess
from typing import Optional

import numpy as np
import pytest

from brothanchor import Refused, Run
from brothanchor._settings import Settings

AREAS = ("positions", "increments", "gains", "affinities", "indices", "offsets", "forces")


def drawn(draw: random.Random) -> dict:
    """A run: its table, start, settings and calls; some are refused, at preparation or at work."""
    rng = np.random.default_rng(draw.getrandbits(32))
    method = draw.choice(["exact", "barnes_hut"])
    n, f, c = draw.randint(2, 32), draw.randint(1, 8), draw.randint(1, 3 if method == "barnes_hut" else 8)
    spread = draw.choice([0.0, 1e-3, 1.0, 100.0])
    settings = {
        "n_components": c,
        "perplexity": draw.choice([0.3, 1.0, draw.uniform(0.1, n), n - 1, n]),
        "learning_rate": draw.choice(["auto", 1.0, 200.0, 1e290]),
        "n_iter": draw.choice([1, 5, 40, 300]),
        "method": method,
        "angle": draw.choice([0.0, 0.2, 0.5, 0.99]),
        "min_grad_norm": draw.choice([1e-7, 0.0, 1e-2, 1.0, float("nan")]),
    }
    table = spread * rng.normal(size=(n, f)) + rng.integers(0, 3, size=(n, 1))
    init = draw.choice([None, rng.normal(size=(n, c)) * draw.choice([1e-4, 1.0]), np.zeros((n, c))])
    calls = [draw.choice([0, 1, draw.randint(1, 40), draw.randint(1, 2000)]) for _ in range(draw.randint(0, 12))]
    if draw.random() < 0.15:
        # To its end, by its gradients where they are below: they are tested from iteration 250 on.
        settings.update(learning_rate=draw.choice(["auto", 1.0]), n_iter=300, min_grad_norm=draw.choice([1e-7, 1e-2, 1e9]))
        calls.append(10**5)
    is_strip = method == "barnes_hut" and draw.random() < 0.3
    return {"settings": settings, "table": table, "init": init, "seed": draw.getrandbits(64), "calls": calls, "strip": is_strip}


def asked(case: dict, start: Optional[np.ndarray]) -> bytes:
    """A run as the twin reads it; without a start it makes the scatter itself."""
    table, calls = case["table"], case["calls"]
    words = Settings.taken(**case["settings"]).words(*table.shape)
    values = np.zeros(0) if start is None else start
    lists = [struct.pack("<Q", part.size) + part.astype("<f8").tobytes() for part in (table, values)]
    rest = [start is None, case["seed"], case["strip"], len(calls), *calls]
    return words.tobytes() + b"".join(lists) + struct.pack(f"<{len(rest)}Q", *rest)


def told(case: dict) -> tuple:
    """What comes of a run through the module, as the twin writes it, and what kinds of ends and refusals it met."""
    init = "random" if case["init"] is None else case["init"]
    method, begun = case["settings"]["method"], "array" if case["init"] is not None else "scatter"
    try:
        run = Run(case["table"], init=init, random_state=case["seed"], strip=case["strip"], **case["settings"])
    except Refused as refused:
        return struct.pack("<Q", refused.number), {(method, "prepare", refused.number)}
    out, met = [struct.pack("<Q", 0)], {(method, begun), (method, "strip" if case["strip"] else "map")}
    for budget in case["calls"]:
        before, number = run.units, 0
        try:
            assert run.work(budget) == run.units - before
        except Refused as refused:
            number = refused.number
        met.add((method, "work", number or run.state))
        out.append(struct.pack("<2Q", number, run.units - before) + run._areas.record.tobytes())
    for name in AREAS:
        area = getattr(run._areas, name)
        out.append(struct.pack("<Q", area.size) + (area.tobytes() if area.dtype == np.float64 else area.astype("<u8").tobytes()))
    try:
        out.append(struct.pack("<Qd", 0, run.divergence()))
        met.add((method, "figure"))
    except Refused as refused:
        out.append(struct.pack("<2Q", refused.number, 0))
        met.add((method, "no figure"))
    try:
        file = run.park()
    except Refused:
        file = b""
    met.add((method, "parked" if file else "not parked"))
    return b"".join(out) + struct.pack("<Q", len(file) // 8) + file, met


def answered(twin, given: bytes) -> bytes:
    return subprocess.run([str(twin)], input=given, stdout=subprocess.PIPE, check=True, timeout=100).stdout


#: What the runs at random have to meet by each method.
KINDS = [
    ("prepare", 10), ("array",), ("scatter",), ("map",), ("work", "running"), ("work", "stopped"), ("work", "finished"), ("work", 15),
    ("figure",), ("no figure",), ("parked",), ("not parked",),
]  # fmt: skip


def test_the_same_bits_as_the_wrapper(twin):
    draw = random.Random(2026)
    cases = [drawn(draw) for _ in range(400)]
    answers = [told(case) for case in cases]
    seen = answered(twin, b"".join(asked(case, case["init"]) for case in cases))
    at, met = 0, set()
    for number, (case, (answer, kinds)) in enumerate(zip(cases, answers)):
        assert seen[at : at + len(answer)] == answer, (number, case)
        at += len(answer)
        met |= kinds
    assert at == len(seen)
    assert {(method, *kind) for method in ("exact", "barnes_hut") for kind in KINDS} | {("barnes_hut", "strip")} <= met


@pytest.mark.parametrize("method, c", [("exact", 2), ("exact", 8), ("barnes_hut", 1), ("barnes_hut", 3)])
def test_scatters_are_the_wrappers(twin, method, c):
    """By seeds of every length, of a run of which nothing is done yet."""
    settings = {"method": method, "n_components": c, "perplexity": 1.0}
    table = np.arange(30.0).reshape(15, 2)
    seeds = [0, 1, 2**32 - 1, 2**32, 2**63, 2**64 - 1]
    cases = [{"settings": settings, "table": table, "init": None, "seed": seed, "calls": [], "strip": False} for seed in seeds]
    answers = [told(case)[0] for case in cases]
    assert answered(twin, b"".join(asked(case, None) for case in cases)) == b"".join(answers) and len(set(answers)) == len(seeds)


def test_one_bit_is_told(twin):
    """The comparison itself: a start with its last bit turned, or another seed, gives other bits."""
    case = drawn(random.Random(1))
    case["settings"].update(perplexity=1.0, learning_rate=1.0)
    case["init"] = None
    assert answered(twin, asked(case, None)) == told(case)[0] != answered(twin, asked({**case, "seed": case["seed"] ^ 1}, None))
    case["init"] = np.full((case["table"].shape[0], case["settings"]["n_components"]), 0.25)
    turned = case["init"].copy()
    turned.reshape(-1).view(np.uint64)[0] ^= np.uint64(1)
    assert answered(twin, asked(case, case["init"])) == told(case)[0] != answered(twin, asked(case, turned))
