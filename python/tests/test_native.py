"""The ctypes layer: that it is the header's, and what the library refuses of areas and records that the module itself never lends."""

import ctypes
import re

import numpy as np
import pytest
from conftest import bits, frames

from brothanchor import Run
from brothanchor import _native as native
from brothanchor._settings import Settings, sizes_of
from brothanchor.errors import Refused, meaning_of

TYPES = {"uint64_t": "w", "double": "v", "uint32_t": "i", "uint8_t": "b", "struct brothanchor_node": "n"}
NUMBERS = {"size_t": "#", "uint32_t": "4", "uint64_t": "8"}


def letters(parameters: str) -> str:
    """The parameters of a function of the header, a letter for each area and number."""
    told = ""
    words = [word.strip() for word in parameters.split(",")]
    while words:
        area = re.fullmatch(r"(const )?(.*) \*(\w+)", words[0])
        if area is None:
            told += NUMBERS[words.pop(0).split()[0]]
            continue
        const, kind, name = area.groups()
        assert words[1] == f"size_t {name}_length"
        told += TYPES[kind] if const else TYPES[kind].upper()
        del words[:2]
    return told


def test_functions_are_the_headers(root):
    text = re.sub(r"/\*.*?\*/", "", (root / "include/brothanchor.h").read_text(), flags=re.S)
    found = re.findall(r"(uint\d+_t)\s+brothanchor_(\w+)\(([^;]*)\);", text)
    assert {name: letters(parameters) for _, name, parameters in found} == native.SIGNATURES
    for answer, name, _ in found:
        assert native._FUNCTIONS[name].restype is {"uint32_t": ctypes.c_uint32, "uint64_t": ctypes.c_uint64}[answer]


def test_words_are_the_headers(root):
    text = re.sub(r"/\*.*?\*/", "", (root / "include/brothanchor.h").read_text(), flags=re.S)
    lists = [re.findall(r"BROTHANCHOR_(\w+)", body) for body in re.findall(r"enum \{(.*?)\}", text, flags=re.S)]
    assert [len(names) - 1 for names in lists] == [9, 6, 5, 7]
    for at, name in enumerate(lists[0][:9]):
        assert getattr(native, name) == at
    for at, name in enumerate(("STATE", "ITERATIONS_DONE", "PHASE", "UNITS_DONE", "NODES_USED")):
        assert getattr(native, name) == 9 + at


def test_nodes_are_the_headers(root):
    """The fields of the struct and the padding that the compiler gives it, aligned as it has them."""
    text = re.sub(r"/\*.*?\*/", "", (root / "include/brothanchor.h").read_text(), flags=re.S)
    body = re.search(r"struct brothanchor_node \{(.*?)\}", text, flags=re.S).group(1)
    fields = [(name, kind, int(many or 1)) for kind, name, many in re.findall(r"(\w+) (\w+)(?:\[(\d+)\])?;", body)]
    kinds = {"double": np.float64, "uint32_t": np.uint32}
    held = [(name, each.base, int(np.prod(each.shape))) for name, (each, _) in native.NODE.fields.items()]
    assert [*((name, kinds[kind], many) for name, kind, many in fields), ("padding", np.uint32, 1)] == held
    assert (native.NODE.itemsize, native.NODE.alignment, native.NODE.isalignedstruct) == (88, 8, True)
    assert [offset for _, offset in native.NODE.fields.values()] == [0, 24, 48, 72, 76, 80, 84]


def test_nodes_elsewhere_than_aligned_are_not_lent():
    loose = np.dtype([(name, each) for name, (each, _) in native.NODE.fields.items()])
    areas = begun()
    assert loose == native.NODE and worked({**areas, "nodes": areas["nodes"].view(loose)}) == (0, 0)
    for kind in (native.NODE, loose):
        room = np.zeros(88 * areas["nodes"].size + 8, np.uint8)
        areas["nodes"] = room[4 - room.ctypes.data % 8 :][: room.size - 8].view(kind)
        with pytest.raises(TypeError, match="cannot be lent"):
            native.call("work", *areas.values(), 1, np.zeros(5, np.uint64))


@pytest.mark.parametrize(
    "area",
    [
        np.zeros(9, np.int64),
        np.zeros(9, np.float64),
        np.zeros((9, 1), np.uint64),
        np.zeros(18, np.uint64)[::2],
        np.zeros(9, ">u8"),
        np.frombuffer(bytes(80), np.uint8)[1:73].view(np.uint64),
        bytes(72),
        None,
        0,
    ],
)
def test_no_other_arrays_are_lent(area):
    with pytest.raises(TypeError, match="cannot be lent"):
        native.call("sizes", area, np.zeros(7, np.uint64))


def test_what_is_written_to_is_writeable():
    fixed = np.zeros(7, np.uint64)
    fixed.flags.writeable = False
    words = Settings.taken().words(40, 3)
    with pytest.raises(TypeError, match="cannot be lent"):
        native.call("sizes", words, fixed)
    words.flags.writeable = False
    assert native.call("sizes", words, np.zeros(7, np.uint64)) == 0


def test_all_parts_are_lent():
    words = Settings.taken().words(40, 3)
    for parts in ((), (words,), (words, np.zeros(7, np.uint64), words)):
        with pytest.raises(TypeError, match="is lent 2 parts"):
            native.call("sizes", *parts)


def lent(run: Run) -> dict:
    """Copies of a run's areas, by name, in the header's order."""
    names = ["record", "positions", "increments", "gains", "affinities", "indices", "offsets", "forces", "nodes"]
    return {name: getattr(run._areas, name).copy() for name in names}


def worked(areas: dict, budget: int = 1) -> tuple:
    answer = np.zeros(5, np.uint64)
    before = {name: bits(area) for name, area in areas.items()}
    number = native.call("work", *areas.values(), budget, answer)
    if number not in (0, 14, 15):
        assert before == {name: bits(area) for name, area in areas.items()}
    return number, int(answer[4])


def begun(method: str = "barnes_hut", units: int = 0) -> dict:
    run = Run(frames(12), perplexity=3, random_state=1, method=method)
    run.work(units)
    return lent(run)


@pytest.mark.parametrize("method", ["barnes_hut", "exact"])
@pytest.mark.parametrize("name", ["positions", "increments", "gains", "affinities", "indices", "offsets", "forces", "nodes"])
def test_12_for_a_short_area(method, name):
    areas = begun(method)
    if areas[name].size == 0:
        return
    areas[name] = areas[name][:0].copy() if name == "nodes" else areas[name][:-1].copy()
    assert worked(areas) == (12, 0)


def test_14_for_a_short_arena_and_on_with_a_longer_one():
    short, long = begun(), begun()
    short["nodes"] = short["nodes"][:9].copy()
    number, _ = worked(short, 26)
    assert number == 14
    nodes = np.zeros(long["nodes"].size, native.NODE)
    nodes[:9] = short["nodes"]
    short["nodes"] = nodes
    done = int(short["record"][native.UNITS_DONE])
    assert worked(short, 26 - done) == worked(long, 26) == (0, 0)
    assert bits(short["record"]) == bits(long["record"]) and bits(short["positions"]) == bits(long["positions"])


@pytest.mark.parametrize(
    "place, value, number, told",
    [
        (native.N, 1, 21, 9),
        (native.N, 5000, 21, 7),
        (native.C, 9, 21, 1),
        (native.METHOD, 2, 21, 21),
        (native.ITERATIONS, 0, 21, 4),
        (native.STATE, 3, 22, 0),
        (native.PHASE, 1000, 22, 0),
        (native.UNITS_DONE, 3, 22, 0),
    ],
)
def test_21_and_22_for_an_altered_record(place, value, number, told):
    areas = begun()
    areas["record"][place] = value
    assert worked(areas) == (number, told)


def test_22_for_too_few_words_and_what_a_record_says():
    areas = begun()
    areas["record"] = areas["record"][:13].copy()
    assert worked(areas) == (22, 0)
    assert [native.call(name, areas["record"]) for name in ("state", "iterations", "units")] == [3, 0, 0]


def test_23_and_24_for_altered_lists():
    areas = begun()
    areas["offsets"][4] = areas["offsets"][3] - 1
    assert worked(areas) == (23, 3)
    areas = begun()
    areas["indices"][7] = 12
    assert worked(areas) == (24, 7)


def test_25_for_an_altered_tree():
    areas = begun(units=8)
    areas["record"][native.NODES_USED] = 0
    assert worked(areas) == (25, 0)
    areas = begun(units=8)
    areas["nodes"]["first"][0] = 2**31
    assert worked(areas) == (25, 0)


def test_sizes_refuse_as_the_header_says():
    sizes = np.zeros(7, np.uint64)
    assert native.call("sizes", np.zeros(8, np.uint64), sizes) == 21
    assert native.call("sizes", Settings.taken().words(40, 3), sizes[:6]) == 12
    with pytest.raises(Refused):
        sizes_of(Settings.taken().words(0, 3))


def test_every_number_but_13_has_its_meaning():
    known = [number for number in range(30) if meaning_of(number) != "no known number"]
    assert known == [*range(1, 13), *range(14, 27)]


def test_meanings_are_the_wrappers(root):
    text = (root / "tests/desk/src/refusal.rs").read_text().split("pub fn brings")[0]
    told = dict(re.findall(r'^            (\d+) => "([^"]*)",$', text, flags=re.M))
    assert {int(number): words for number, words in told.items()} == {n: meaning_of(n) for n in (*range(1, 13), *range(14, 27))}
