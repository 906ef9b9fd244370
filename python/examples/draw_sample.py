"""The sample on a map, drawn with matplotlib: draw_sample.py [PICTURE.png] [FILE.frames]. Its parts can be run one by one."""

# %% What is needed. The module is installed, or stands beside this folder.
import sys
from pathlib import Path

HERE = Path(__file__).resolve().parent
sys.path.append(str(HERE.parent))

import matplotlib  # noqa: E402

matplotlib.use("Agg")
import matplotlib.pyplot as plt  # noqa: E402
import numpy as np  # noqa: E402

from brothanchor import TSNE, read_frames  # noqa: E402

picture = Path(sys.argv[1] if len(sys.argv) > 1 else "sample.png")
file = Path(sys.argv[2] if len(sys.argv) > 2 else HERE.parents[1] / "sample.frames")

# %% The frames: six features each, and where they start.
frames = read_frames(file)
print(f"{file.name}: {len(frames)} frames, pictures {frames['picture'][0]} to {frames['picture'][-1]}")

# %% The map. Ctrl-C stops it between two calls to the library; model.resume() goes on.
model = TSNE(init=frames["starts"])
places = model.fit_transform(frames["features"])
print(f"{model.run_.state} after {model.n_iter_} iterations; its divergence: {model.kl_divergence_:.6f}")

# %% The cuts: the longest ways from one frame to the next, where there is a step up in length.
ways = np.hypot(*np.diff(places, axis=0).T)
cuts = np.flatnonzero(ways > 4 * np.median(ways[ways > 0]))
longest = cuts[np.argsort(ways[cuts])[::-1][:6]]

# %% The picture: a dot for each frame, coloured in capture order, and a line from each to the next.
figure, axes = plt.subplots(figsize=(8, 8))
axes.plot(*places.T, color="0.8", linewidth=0.7, zorder=1)
dots = axes.scatter(*places.T, c=np.arange(len(frames)), cmap="coolwarm", s=14, zorder=2)
for cut in longest:
    for frame in (cut, cut + 1):
        axes.annotate(str(frames["picture"][frame]), places[frame], textcoords="offset points", xytext=(4, 4), fontsize=8)
axes.set_aspect("equal")
axes.set_title(f"{file.name}, divergence {model.kl_divergence_:.6f}")
figure.colorbar(dots, label="capture order", shrink=0.7)
figure.savefig(picture, dpi=120, bbox_inches="tight")
print(f"its picture: {picture}")
