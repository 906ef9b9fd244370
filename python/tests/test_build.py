"""What the build and the import say where there can be no module, and where there is no memory."""

import os
import shutil
import subprocess
import sys
from pathlib import Path

import pytest
from conftest import frames

import brothanchor
from brothanchor import Run, _native

FOLDER = Path(brothanchor.__file__).resolve().parents[1]


def said(words: list, status: int, **environment: str) -> str:
    """What a program says on its way to a status."""
    done = subprocess.run(words, env={**os.environ, **environment}, stdout=subprocess.PIPE, stderr=subprocess.STDOUT, text=True, timeout=60)
    assert done.returncode == status, done.stdout
    return done.stdout


@pytest.fixture
def other_machine(tmp_path) -> str:
    """A PATH on which the machine is another one."""
    stand_in = tmp_path / "uname"
    stand_in.write_text("#!/bin/sh\necho aarch64\n")
    stand_in.chmod(0o755)
    return f"{tmp_path}:{os.environ['PATH']}"


def test_no_module_is_linked(tmp_path, other_machine):
    out = str(tmp_path / "out.so")
    assert "link OUT.so" in said([str(FOLDER / "link")], 2)
    assert f"there is no {tmp_path}/libdesk.a" in said([str(FOLDER / "link"), out], 1, BROTHANCHOR_LIBRARY=str(tmp_path))
    assert "x86-64 code, and this machine is aarch64" in said([str(FOLDER / "link"), out], 1, PATH=other_machine)
    assert not os.path.exists(out)


def test_the_compiler_may_be_several_words(tmp_path):
    out, archive = tmp_path / "out.so", tmp_path / "libdesk.a"
    subprocess.run(["ar", "rc", str(archive)], check=True)
    assert said([str(FOLDER / "link"), str(out)], 0, BROTHANCHOR_LIBRARY=str(tmp_path), CC="env gcc") == ""
    assert out.read_bytes()[:4] == b"\x7fELF"


def test_the_gates_part_is_skipped_elsewhere(other_machine):
    told = said([str(FOLDER / "tests/run")], 0, PATH=other_machine)
    assert told == "python/tests/run: skipped: the library is x86-64 code, and this machine is aarch64\n"


@pytest.fixture
def gates_part(tmp_path):
    """What tests/run says, to a status, where Debian's Python is a stand-in and no other program is there but those that are given."""
    run, folder = tmp_path / "python/tests/run", tmp_path / "stand-ins"
    for each in (run.parent, tmp_path / "tests", folder):
        each.mkdir(parents=True)
    text = (FOLDER / "tests/run").read_text()
    assert text.count("debian=/usr/bin/python3\n") == 1
    run.write_text(text.replace("debian=/usr/bin/python3\n", f"debian={folder}/python3\n"))
    (tmp_path / "tests/linking").write_text((FOLDER.parent / "tests/linking").read_text())
    for name in "cat dirname mktemp rm".split():
        (folder / name).symlink_to(shutil.which(name))

    def told(status: int, python: str, **programs: str) -> str:
        for name, lines in {"python3": python, "uname": "echo x86_64", **programs}.items():
            (folder / name).write_text(f"#!/bin/sh\n{lines}\n")
            (folder / name).chmod(0o755)
        return said(["/bin/sh", str(run)], status, PATH=str(folder), PYTHON="no-such-python")

    return told


#: A Python without modules, and one of which a module is broken.
BARE, BROKEN = f'exec {sys.executable} -S -B "$@"', "echo 'ImportError: no libblas' >&2; exit 1"


def test_the_gates_part_is_skipped_only_where_it_cannot_be_tried(gates_part):
    assert "skipped: no Python here has numpy" in gates_part(0, BARE, id="echo 1000")
    assert "there is no apt-get" in gates_part(0, BARE, id="echo 0")
    assert "apt-get cannot install them" in gates_part(1, BARE, **{"id": "echo 0", "apt-get": "exit 100"})
    assert "though they are installed" in gates_part(1, BARE, **{"id": "echo 0", "apt-get": "exit 0"})
    told = gates_part(1, BROKEN, **{"id": "echo 0", "apt-get": "exit 0"})
    assert "no libblas" in told and "is broken, or a module of it is" in told


def test_no_module_is_loaded(monkeypatch, tmp_path):
    monkeypatch.setattr(_native, "__file__", str(tmp_path / "_native.py"))
    with pytest.raises(ImportError, match="`make` in the folder python builds it"):
        _native._load()
    monkeypatch.undo()
    monkeypatch.setitem(_native.SIGNATURES, "no_such_function", "w")
    with pytest.raises(ImportError, match="an old library, `make` .*no_such_function"):
        _native._load()
    monkeypatch.setattr(_native.platform, "machine", lambda: "aarch64")
    with pytest.raises(ImportError, match="x86-64 code, and this machine is aarch64"):
        _native._load()


CHILD = """
import resource, sys
sys.path[:0] = sys.argv[1:3]
from brothanchor import Run
from conftest import frames
table = frames(4096)
resource.setrlimit(resource.RLIMIT_AS, (2**26, 2**26))
try:
    Run(table, method="exact")
except MemoryError as error:
    print("MemoryError:", error)
"""


def test_no_memory_is_told():
    told = said([sys.executable, "-B", "-c", CHILD, str(FOLDER), str(FOLDER / "tests")], 0)
    assert told.startswith("MemoryError: ")


def test_lent_areas_are_the_runs_own():
    run = Run(frames(20), perplexity=3)
    for area in (*run._areas.all(), *run._copies, run._table):
        assert area.flags.writeable and area.flags.c_contiguous and area.ndim == 1
        assert area.flags.owndata or area.base.flags.owndata
