"""Maps of scikit-learn's digits by this library, scikit-learn and Rtsne, and a line of a table on how good each is.

quality.py FOLDER FRAMES SEED MORE TOOLS, called by `run` beside it, which tests the words and finds what is needed. FOLDER is for the
files that are exchanged with R. docs/QUALITY.md says what is compared."""

from __future__ import annotations

import subprocess
import sys
import time
from pathlib import Path
from typing import Callable, List, NamedTuple, Optional, Tuple

import numpy as np
import sklearn
from sklearn import manifold
from sklearn.datasets import load_digits
from sklearn.neighbors import NearestNeighbors

PERPLEXITY, ITERATIONS, ANGLE, NEAREST = 30.0, 1000, 0.5, 5
#: What every tool is asked for, and the library besides where more is asked.
SCALES, MORE_SCALES = (1.0, 0.1), (0.3, 0.0625)

HERE = Path(__file__).resolve().parent


class Made(NamedTuple):
    """A map, how long it took by the clock and of the processor's time, and which version made it."""

    places: np.ndarray
    seconds: float
    worked: float
    version: str


class Way(NamedTuple):
    """A tool with one of its methods: what a table and a seed are mapped by."""

    tool: str
    method: str
    make: Callable[[np.ndarray, int], Made]
    #: How many frames of a table are blind; None where there is nothing that tells.
    blind: Optional[Callable[[np.ndarray], int]] = None


def timed(work: Callable[[], np.ndarray], version: str) -> Made:
    """A map by a function of this process."""
    begun, idle = time.perf_counter(), time.process_time()
    places = work()
    return Made(places, time.perf_counter() - begun, time.process_time() - idle, version)


def library(tool: str, method: str) -> Way:
    """This library, through its Python module, which is there only where it is asked for."""
    import brothanchor

    settings = dict(perplexity=PERPLEXITY, method=method)

    def make(table: np.ndarray, seed: int) -> Made:
        tsne = brothanchor.TSNE(learning_rate="auto", n_iter=ITERATIONS, angle=ANGLE, init="random", random_state=seed, **settings)
        return timed(lambda: tsne.fit_transform(table), brothanchor.__version__)

    count = getattr(brothanchor, "blind", None)
    return Way(tool, method, make, count and (lambda table: count(table, **settings).blind))


def peer(tool: str, method: str) -> Way:
    """scikit-learn. Its 1,000 iterations are its default, under a name that is not the same in all its versions."""

    def make(table: np.ndarray, seed: int) -> Made:
        tsne = manifold.TSNE(
            perplexity=PERPLEXITY, early_exaggeration=12.0, learning_rate="auto", init="random", method=method, angle=ANGLE,
            random_state=seed, n_jobs=1,
        )  # fmt: skip
        return timed(lambda: tsne.fit_transform(table), sklearn.__version__)

    return Way(tool, method, make)


def rtsne(tool: str, method: str, folder: Path) -> Way:
    """Rtsne, in an R of its own: table and map are files."""
    theta = ANGLE if method == "barnes_hut" else 0.0

    def make(table: np.ndarray, seed: int) -> Made:
        given, written = folder / "table", folder / "map"
        np.savetxt(given, table, fmt="%.17g")
        words = [str(word) for word in (given, written, PERPLEXITY, ITERATIONS, theta, seed)]
        said = subprocess.run(["Rscript", str(HERE / "rtsne.R"), *words], check=True, stdout=subprocess.PIPE, text=True).stdout.split()
        return Made(np.loadtxt(written), float(said[0]), float(said[1]), f"{said[2]} (R {said[3]})")

    return Way(tool, method, make)


def ways(tools: List[str], folder: Path) -> List[Way]:
    """Those that were asked for, each by Barnes-Hut and by the exact method."""
    kinds = {
        "library": lambda method: library("this library", method),
        "sklearn": lambda method: peer("scikit-learn", method),
        "rtsne": lambda method: rtsne("Rtsne", method, folder),
    }
    return [kind(method) for tool, kind in kinds.items() if tool in tools for method in ("barnes_hut", "exact")]


def same_label(places: np.ndarray, labels: np.ndarray) -> float:
    """Of the nearest frames on the map, whichever frame one starts from: the share that has its label."""
    nearest = NearestNeighbors(n_neighbors=NEAREST).fit(places).kneighbors(return_distance=False)
    return float(np.mean(labels[nearest] == labels[:, None]))


def row(*cells: object) -> None:
    """A line of the table, at once."""
    print(f"| {' | '.join(str(cell) for cell in cells)} |", flush=True)


def tell(words: str) -> None:
    """How far it is."""
    print(words, file=sys.stderr, flush=True)


def asked_for(chosen: List[Way], more: bool) -> List[Tuple[float, Way]]:
    """Each scale with each way; at the scales that are asked for besides, the library alone."""
    others = [(scale, way) for scale in MORE_SCALES for way in chosen if more and way.tool == "this library"]
    return [(scale, way) for scale in SCALES for way in chosen] + others


def main(folder: Path, frames: int, seed: int, more: bool, tools: List[str]) -> None:
    """The table, row by row."""
    features, labels = (part[:frames] for part in load_digits(return_X_y=True))
    chosen = ways(tools, folder)
    blind = ["blind frames"] if any(way.blind for way in chosen) else []
    print(f"{len(features)} digits of {features.shape[1]} features, perplexity {PERPLEXITY:g}, {ITERATIONS} iterations, seed {seed}\n")
    head = ["tool", "method", "scale", "trustworthiness", f"same label among {NEAREST}", *blind, "seconds", "processor seconds"]
    row(*head)
    row(*["---"] * len(head))
    versions = {}
    work = asked_for(chosen, more)
    for done, (scale, way) in enumerate(work):
        tell(f"map {done + 1} of {len(work)}: {way.tool}, {way.method}, scale {scale:g}")
        table = features * scale
        made = way.make(table, seed)
        versions[way.tool] = made.version
        trust = manifold.trustworthiness(features, made.places, n_neighbors=NEAREST)
        seen = [way.blind(table) if way.blind else "" for _ in blind]
        same = f"{100 * same_label(made.places, labels):.1f} %"
        row(way.tool, way.method, f"{scale:g}", f"{trust:.4f}", same, *seen, f"{made.seconds:.1f}", f"{made.worked:.1f}")
    print("\n" + ", ".join(f"{tool} {version}" for tool, version in versions.items()))


if __name__ == "__main__":
    _, folder, frames, seed, more, tools = sys.argv
    try:
        main(Path(folder), int(frames), int(seed), more == "yes", tools.split(","))
    except KeyboardInterrupt:
        sys.exit(130)
    except (ImportError, subprocess.CalledProcessError) as error:
        sys.exit(f"tests/quality/run: {error}")
