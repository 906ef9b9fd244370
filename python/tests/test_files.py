"""The desk's files as arrays, against the library's own words and against the files' layout."""

import os
import socket
import stat
import struct
from pathlib import Path

import numpy as np
import pytest
from conftest import bits, refused

from brothanchor import FRAME, PLACED, RULES, TSNE, read_frames, read_monitor, salvage, write_monitor
from brothanchor import _native as native
from brothanchor.files import write_file


def test_frames_are_the_librarys(sample):
    file = sample.read_bytes()
    table = read_frames(sample)
    assert table.shape == (244,) and table.dtype == FRAME and table.flags.writeable
    area = np.frombuffer(file, np.uint8)
    for i, frame in enumerate(table):
        words = np.zeros(11, np.uint64)
        assert native.call("frame", area, i, words) == 0
        assert words[:3].tolist() == [frame["picture"], frame["side"], frame["field"]]
        assert bits(words[3:]) == bits(frame["features"]) + bits(frame["starts"])
    for source in (str(sample), file, bytearray(file), memoryview(file), area, area.reshape(-1, 72)):
        assert bits(read_frames(source)["features"]) == bits(table["features"])
    assert read_frames(b"").shape == (0,)


@pytest.mark.parametrize("source", [None, 3, [1, 2], np.zeros(72), np.zeros(72, np.int8), 3.5, object(), {}])
@pytest.mark.parametrize("read", [read_frames, salvage, read_monitor])
def test_what_is_no_file(source, read):
    with pytest.raises(ValueError, match="^source: "):
        read(source)


@pytest.mark.parametrize("read", [read_frames, salvage, read_monitor])
def test_a_file_that_is_not_there(read, tmp_path):
    with pytest.raises(FileNotFoundError):
        read(tmp_path / "none")


def test_every_rule_of_a_scuffed_file(sample):
    file = sample.read_bytes()
    assert salvage(file).file == file and salvage(file).places.size == 0
    scuffed = bytearray(file)
    wrong = {3: (0, b"\0\0\0\0"), 7: (4, b"\3"), 9: (5, b"\3"), 20: (6, b"\1"), 31: (8, struct.pack("<d", np.nan)), 40: (0, b"\1\0\0\0")}
    for record, (at, what) in wrong.items():
        scuffed[72 * record + at : 72 * record + at + len(what)] = what
    scuffed += b"tail"
    told = salvage(scuffed)
    assert told.places.tolist() == [3, 7, 9, 20, 31, 40, 244] and told.rules.tolist() == [1, 2, 3, 4, 5, 6, 7]
    assert told.file == b"".join(file[72 * i : 72 * i + 72] for i in range(244) if i not in wrong)
    assert bits(told.frames["features"]) == bits(read_frames(told.file)["features"])
    assert sorted(RULES) == [1, 2, 3, 4, 5, 6, 7]
    empty = salvage(b"")
    assert (empty.file, empty.places.size, empty.rules.size) == (b"", 0, 0)


@pytest.mark.parametrize("read", [read_frames, salvage, read_monitor])
def test_what_is_no_path_and_what_is_too_large(read, tmp_path):
    many = np.broadcast_to(np.uint8(1), 2**40)
    gone = memoryview(bytes(72))
    gone.release()
    for source in ("a\0b", Path("a\0b"), many, memoryview(many), np.broadcast_to(np.uint8(1), (2**31, 72)), gone):
        with pytest.raises(ValueError, match="^source: "):
            read(source)
    with pytest.raises(IsADirectoryError):
        read(tmp_path)


def names(folder: Path) -> list:
    return sorted(each.name for each in folder.iterdir())


@pytest.mark.parametrize("umask, mode", [(0o022, 0o644), (0o077, 0o600), (0o002, 0o664), (0, 0o666)])
def test_a_file_has_the_permissions_of_any(umask, mode, tmp_path):
    before = os.umask(umask)
    try:
        write_file(b"new", tmp_path / "new")
        (tmp_path / "old").write_bytes(b"old")
        (tmp_path / "old").chmod(0o640)
        write_file(b"new", tmp_path / "old")
    finally:
        os.umask(before)
    assert stat.S_IMODE((tmp_path / "new").stat().st_mode) == mode
    assert stat.S_IMODE((tmp_path / "old").stat().st_mode) == 0o640
    assert names(tmp_path) == ["new", "old"] and (tmp_path / "old").read_bytes() == b"new"


def test_any_path_is_written(tmp_path, monkeypatch):
    monkeypatch.chdir(tmp_path)
    long = "n" * 255
    for path in ("here", Path("there"), b"bytes", tmp_path / long, "./here"):
        assert write_file(b"what", path) == b"what" == Path(os.fsdecode(path)).read_bytes()
    assert names(tmp_path) == sorted(["bytes", "here", "there", long]) and write_file(b"what", None) == b"what"


def test_what_a_link_leads_to_is_written(tmp_path):
    for folder in ("one", "other"):
        (tmp_path / folder).mkdir()
    (tmp_path / "other/file").write_bytes(b"old")
    (tmp_path / "one/link").symlink_to("../other/file")
    (tmp_path / "one/second").symlink_to("link")
    (tmp_path / "one/new").symlink_to(tmp_path / "other/new")
    for link, file in (("link", "file"), ("second", "file"), ("new", "new")):
        write_file(link.encode(), tmp_path / "one" / link)
        assert (tmp_path / "one" / link).is_symlink() and (tmp_path / "other" / file).read_bytes() == link.encode()
    assert names(tmp_path / "one") == ["link", "new", "second"] and names(tmp_path / "other") == ["file", "new"]
    (tmp_path / "round").symlink_to("round")
    with pytest.raises(OSError, match="round"):
        write_file(b"what", tmp_path / "round")


def test_what_is_no_file_is_left_alone(tmp_path, monkeypatch):
    monkeypatch.chdir(tmp_path)
    os.mkfifo("pipe")
    os.mkdir("folder")
    os.symlink("pipe", "to-pipe")
    os.symlink("folder", "to-folder")
    os.symlink("/dev/null", "to-null")
    with socket.socket(socket.AF_UNIX) as listening:
        listening.bind("socket")
    standing = lambda: {name: (os.lstat(name).st_ino, os.lstat(name).st_mode, os.lstat(name).st_mtime) for name in os.listdir(".")}  # noqa: E731
    before = standing()
    told = {"pipe": "pipe", "folder": "folder", "to-pipe": "pipe", "to-folder": "folder", "to-null": "/dev/null", "socket": "socket"}
    for path, named in {**told, "/dev/null": "/dev/null", "/": "/", ".": ".", "folder/..": "..", "new/": "new/"}.items():
        with pytest.raises(OSError, match="this is no regular file, and is left alone|this names no file") as error:
            write_file(b"what", path)
        assert named in str(error.value)
    for path in ("", "no/where", "no/../where", "pipe/where"):
        with pytest.raises(OSError):
            write_file(b"what", path)
    for path in (3, 3.5, [], "a\0b", b"a\0b", Path("a\0b"), object()):
        with pytest.raises(ValueError, match="^path: "):
            write_file(b"what", path)
    assert standing() == before
    assert stat.S_ISCHR(os.stat("/dev/null").st_mode)


def test_nothing_is_left_where_a_file_cannot_be_finished(tmp_path, monkeypatch):
    def full(*_):
        raise OSError(28, "no room")

    (tmp_path / "file").write_bytes(b"old")
    for name in ("fsync", "replace"):
        with monkeypatch.context() as patch:
            patch.setattr(os, name, full)
            with pytest.raises(OSError, match="no room"):
                write_file(b"new", tmp_path / "file")
        assert names(tmp_path) == ["file"] and (tmp_path / "file").read_bytes() == b"old"


def test_file_and_folder_are_on_the_disc(tmp_path, monkeypatch):
    kept, fsync = [], os.fsync
    monkeypatch.setattr(os, "fsync", lambda handle: kept.append(stat.S_IFMT(os.fstat(handle).st_mode)) or fsync(handle))
    write_file(b"new", tmp_path / "file")
    assert kept == [stat.S_IFREG, stat.S_IFDIR]


def test_maps_for_the_monitor(sample, tmp_path):
    table = read_frames(sample)[:30]
    positions = TSNE(perplexity=5, n_iter=20, random_state=1).fit_transform(table["features"])
    path = tmp_path / "sample.monitor"
    file = write_monitor(table, positions, path)
    assert path.read_bytes() == file and len(file) == 16 * 30
    for i in range(30):
        expected = struct.pack("<IBBH2f", table["picture"][i], table["side"][i], table["field"][i], 0, *positions[i].astype("f4"))
        assert file[16 * i : 16 * i + 16] == expected
    placed = read_monitor(path)
    assert placed.dtype == PLACED and bits(placed["position"]) == bits(positions.astype("f4").astype("f8"))
    assert all(placed[name].tolist() == table[name].tolist() for name in ("picture", "side", "field"))
    assert write_monitor(placed) == file == write_monitor(placed, placed["position"].tolist())
    assert write_monitor(placed[:0]) == b"" and read_monitor(b"").shape == (0,)
    assert refused(16, read_monitor, file[:-1]).place == 29


def test_frames_for_the_monitor_that_are_none(sample):
    table = read_frames(sample)[:3]
    for bad in (None, [1], np.zeros(3), np.zeros((3, 1), PLACED), np.zeros(3, [("picture", "f8"), ("side", "u1"), ("field", "u1")])):
        with pytest.raises(ValueError, match="^frames: "):
            write_monitor(bad, np.zeros((3, 2)))
    for bad in (None, np.zeros((2, 3)), np.zeros(6), np.zeros((3, 2), complex), [["a", "b"]] * 3):
        with pytest.raises(ValueError, match="^positions: "):
            write_monitor(table, bad)


def test_the_sample_is_mapped_as_the_command_maps_it(sample):
    """The settings of ./map, from the file's own starts: its divergence is the one that the reference tells."""
    table = read_frames(sample)
    model = TSNE(init=table["starts"]).fit(table["features"])
    assert f"{model.kl_divergence_:.6f}" == "0.046128"
    assert (model.run_.state, model.n_iter_, model.n_features_in_, model.embedding_.shape) == ("finished", 1000, 6, (244, 2))
