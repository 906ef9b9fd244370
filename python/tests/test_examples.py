"""The examples run, where matplotlib is there."""

import subprocess
import sys

import pytest


def test_the_sample_is_drawn(root, tmp_path):
    pytest.importorskip("matplotlib")
    picture = tmp_path / "sample.png"
    words = [sys.executable, "-B", str(root / "python/examples/draw_sample.py"), str(picture)]
    said = subprocess.run(words, stdout=subprocess.PIPE, text=True, check=True, timeout=100).stdout
    assert "244 frames, pictures 1201 to" in said and "its divergence: 0.046128" in said
    assert picture.read_bytes()[:4] == b"\x89PNG"
