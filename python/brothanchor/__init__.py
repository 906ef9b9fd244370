"""Brothanchor for Python: t-SNE maps by a proved library.

    from brothanchor import TSNE, read_frames
    frames = read_frames("sample.frames")
    places = TSNE(random_state=1).fit_transform(frames["features"])

TSNE has the names and habits of scikit-learn. Run is a run that is worked in budgets, parked, thinned and asked for its divergence.
blind counts the frames for which all neighbours count alike, most often because they lie too far apart. read_frames, salvage,
read_monitor and write_monitor are the desk's files as numpy arrays. What the library refuses is a Refused, with number, place and
meaning; an argument that it cannot be given at all is a ValueError that names it, a keyword that there is not a TypeError.
"""

from typing import Any

from .errors import Refused
from .files import FRAME, PLACED, RULES, Salvaged, read_frames, read_monitor, salvage, write_monitor
from .run import Run, Strip
from .sight import Sight, blind
from .tsne import TSNE

__version__ = "0.1.0"
__all__ = [
    "FRAME",
    "PLACED",
    "RULES",
    "Refused",
    "Run",
    "Salvaged",
    "Sight",
    "Strip",
    "TSNE",
    "blind",
    "park",
    "read_frames",
    "read_monitor",
    "salvage",
    "strip",
    "take_out",
    "unpark",
    "write_monitor",
]

unpark = Run.unpark
park = Run.park
take_out = Run.take_out


def strip(X: Any, **settings: Any) -> Strip:
    """The rows of X along one line, worked to the end: their order, the gaps between them, their positions. The arguments are Run's."""
    run = Run(X, strip=True, **settings)
    run.work()
    return run.strip()
