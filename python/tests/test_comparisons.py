"""The comparisons of points that welding makes: worked by hand, against a plain count, and wherever they are told; and the times of --timing."""
import csv
import json
import re
import subprocess
from dataclasses import replace
from itertools import count
from pathlib import Path
from types import SimpleNamespace

import meshio
import numpy as np
import pytest
from conftest import CUBE, box
from hypothesis import given, settings
from hypothesis import strategies as st
from test_calls import kinds, normals, one_call, places
from test_files import OPEN_BRICK, PROGRAM, parts, run
from test_lost import raised
from test_page import parsed, words
from test_traces import gather_call, stitch_call

import cicelybeam
import sample
from cicelybeam import report, times
from cicelybeam.cells import Cutter
from cicelybeam.record import ComparedCell, comparisons_in_words

ROOT = Path(__file__).resolve().parents[2]
TETRA = np.array([[0.0, 0, 0], [1, 0, 0], [0, 1, 0], [0, 0, 1]])
FLAT = np.array([[-0.11, -0.08, 0.04], [0.02, -0.08, 0.11], [-0.08, 0, -0.09]])  # a face whose segment by z = 0 ends in one point within 0.1
MIDDLE = (0, 0, 0.5), (0, 0, 1)
ALONG = ["--origin", "0,0,0.5", "--normal", "z"]

# By the traces of the brick at z = 0.5 (docs/RULES.md, case 15), each end in its turn: how many points there are to be compared with, where
# none is near and the end becomes one, else the place of the first that is.
BRICK = 0 + 1 + 2 + 3 + 2 + 3 + 4 + 1
# Of a tetrahedron at z = 0.25 each trace begins where the one before it ends, and the last ends where the first begins.
TETRAHEDRON = 0 + 1 + 2 + 2 + 3 + 1


def brick_and_tetra() -> meshio.Mesh:
    return meshio.Mesh(np.concatenate([TETRA + [3, 0, 0.25], CUBE]), [("tetra", [[0, 1, 2, 3]]), ("hexahedron", [list(range(4, 12))])])


def by_definition(segments: np.ndarray, tol: float) -> int:
    """How many comparisons of points welding segments makes, four numbers each, in plain Python."""
    points: list[list[float]] = []
    made = 0
    for end in np.asarray(segments, dtype=float).reshape(-1, 2).tolist():
        for x, y in points:
            made += 1
            if 0.0 + (x - end[0]) * (x - end[0]) + (y - end[1]) * (y - end[1]) <= tol * tol:
                break
        else:
            points.append(end)
    return made


def check(cut) -> None:
    """Against the plain count of what is gathered of each cell, and wherever the cut tells the number."""
    expected = {}
    for block in cut.mesh.blocks:
        for k in range(len(block)):
            conn, _ = block.handed(np.array([k]))
            call = cut.mesh, block.kind.number, conn, cut.near.origin, cut.asked.normal, cut.asked.tol
            told, numbers = gather_call(*call)
            made = by_definition(numbers, cut.asked.tol)
            assert one_call(*call)[0].comparisons == stitch_call(numbers, cut.asked.tol)[0].comparisons == made
            assert made <= told.segments * max(2 * told.segments - 1, 0)
            if made:
                expected[block.first + k] = made
    assert cut.comparisons_by_cell == expected and len(cut.compared) == len(cut.compared_counts) == len(expected)
    every = np.arange(cut.mesh.total)
    assert cut.comparisons_of(every).tolist() == [expected.get(cell, 0) for cell in every.tolist()]
    assert {*cut.cells.tolist()} <= {*expected}
    assert cut.comparisons == cut.record.comparisons == sum(expected.values())
    most = cut.record.most_comparisons
    first = max(expected, key=expected.get, default=None)  # the first of several
    assert (most and (most.cell, most.comparisons)) == (expected and (first, expected[first]) or None)
    assert most is None or most.type == str(cut.mesh.type_of(np.array([first]))[0])


# ---- worked by hand


@pytest.mark.parametrize("tol", [None, 0, 1e-9])
def test_a_brick_in_its_middle(tol):
    cut = cicelybeam.cut_plane(box(1), *MIDDLE, tol)
    assert cut.comparisons == BRICK == 16 and cut.comparisons_by_cell == {0: 16}
    check(cut)


def test_a_tetrahedron():
    cut = cicelybeam.cut_plane(meshio.Mesh(TETRA, [("tetra", [[0, 1, 2, 3]])]), (0, 0, 0.25), (0, 0, 1))
    assert cut.comparisons == TETRAHEDRON == 9
    check(cut)


def test_two_cells_of_two_types():
    cut = cicelybeam.cut_plane(brick_and_tetra(), *MIDDLE)
    assert cut.comparisons_by_cell == {0: TETRAHEDRON, 1: BRICK} and cut.comparisons == 25
    assert cut.record.most_comparisons == ComparedCell(1, "hexahedron", 16)
    check(cut)


def test_the_first_of_several_cells_with_the_most():
    cut = cicelybeam.cut_plane(box(2), (0, 0, 0.25), (0, 0, 1))
    assert cut.comparisons == 4 * BRICK and cut.comparisons_by_cell == dict.fromkeys([0, 2, 4, 6], BRICK)
    assert cut.record.most_comparisons == ComparedCell(0, "hexahedron", BRICK)
    check(cut)


def test_a_cell_whose_ends_become_one_point():
    """It lists no edge, and its second end was compared with its first."""
    points = np.concatenate([FLAT, CUBE + [3, 3, -0.5]])
    mesh = meshio.Mesh(points, [("polyhedron3", [[np.arange(3)]]), ("hexahedron", [list(range(3, 11))])])
    cut = cicelybeam.cut_plane(mesh, (0, 0, 0), (0, 0, 1), 0.1)
    assert cut.cells.tolist() == [1] and cut.comparisons_by_cell == {0: 1, 1: BRICK}
    assert [row["comparisons"] for row in report.as_dict(cut)["by_cell"]] == [BRICK] and cut.record.comparisons == 1 + BRICK
    check(cut)


def test_a_plane_that_meets_no_cell():
    """Also one next to the cells, which are then left out or have no segment."""
    for z, tol in ((7, None), (0.5, 2.0)):
        cut = cicelybeam.cut_plane(box(2), (0, 0, z), (0, 0, 1), tol)
        assert cut.comparisons == 0 and cut.record.most_comparisons is None and not len(cut.compared)
        check(cut)


TRIANGLE = np.array([0, 0, 0, 1, 0, 1, 1, 0, 1, 0, 0, 0.0])
WIDE = np.arange(4 * 384.0) * 1e100


@pytest.mark.parametrize("segments,tol,number", [
    (TRIANGLE, 0.0, 0 + 1 + 2 + 2 + 3 + 1),
    (TRIANGLE, np.inf, 5), (WIDE, np.inf, 767),  # one each, but for the first end, which has no point before it
    (TRIANGLE, np.nan, 0 + 1 + 2 + 3 + 4 + 5), (WIDE, np.nan, 294_528),  # nothing is near: as many as there can be
    (WIDE, 0.0, 294_528), (WIDE[:0], 0.0, 0), (np.zeros(400), 0.0, 199),
], ids=["triangle", "infinite", "384 infinite", "NaN", "384 NaN", "384 apart", "none", "one point"])
def test_segments(segments, tol, number):
    """Of the library, by one call: tolerances that the package refuses among them."""
    segments = np.ascontiguousarray(segments)
    assert stitch_call(segments, tol)[0].comparisons == number == by_definition(segments, tol)


def test_a_refusal_has_none():
    assert stitch_call(np.zeros(7), 0.0)[0].comparisons == stitch_call(np.zeros(4 * 385), 0.0)[0].comparisons == 0
    told = one_call(cicelybeam.of_meshio(box(1)), 12, np.arange(8), *MIDDLE, 0.0)[0]
    assert told.refusal == 2 and told.comparisons == 0


# ---- against the plain count


@given(kinds, places, normals, st.sampled_from([None, 0.0, 1e-15, 1e-3, 0.3]), st.integers(0, 2**32 - 1), st.sampled_from([0.0, 1e-3, 0.1]), st.booleans())
def test_meshes(kind, origin, normal, tol, seed, moved, leave_out):
    """Planes through nodes, near them and between them, also where no cell is left out."""
    mesh = box(2, kind)
    mesh.points += np.random.default_rng(seed).uniform(-moved, moved, mesh.points.shape)
    check(cicelybeam.cut_plane(mesh, origin, normal, tol, leave_out=leave_out))


numbers = st.sampled_from([0.0, -0.0, 1.0, -1.0, 0.4, 1e-310, -3e-310, 1e-12, np.nan, np.inf, -np.inf, 1e308, -1e308])


@settings(max_examples=100)
@given(kinds, st.lists(numbers, min_size=24, max_size=24), normals, st.sampled_from([0.0, 1e-310, 0.5, 1e300]))
def test_cells_with_any_numbers(kind, given_numbers, normal, tol):
    mesh = box(1, kind)
    mesh.points = np.array(given_numbers).reshape(8, 3)
    check(cicelybeam.cut_plane(mesh, (0, 0, 0), normal, tol))


def test_the_sample_and_its_broken_part():
    for mesh in (sample.plate(), sample.broken()):
        check(cicelybeam.cut_plane(mesh, (0, 0, 0.4), (0.05, 0.1, 1)))


def drum(sides: int) -> meshio.Mesh:
    """A prism as a polyhedron, from z = 0 to 1."""
    angles = 2 * np.pi * np.arange(sides) / sides
    ring = np.stack([np.cos(angles), np.sin(angles), np.zeros(sides)], axis=1)
    after = np.r_[1:sides, 0]
    faces = [np.arange(sides)[::-1], np.arange(sides, 2 * sides), *(np.array([k, after[k], sides + after[k], sides + k]) for k in range(sides))]
    return meshio.Mesh(np.concatenate([ring, ring + [0, 0, 1]]), [(f"polyhedron{2 * sides}", [faces])])


@pytest.mark.parametrize("sides", [3, 4, 17, 36])
def test_they_grow_with_the_square_of_the_segments(sides):
    """Traces one after the other around a cell: their first ends 0 + 2 + 3 + .. + n, their second 1 + 2 + .. + (n - 1) and 1 for the last."""
    cut = cicelybeam.cut_plane(drum(sides), *MIDDLE)
    n = len(cut.traces())
    assert n == sides and cut.comparisons == sum(range(2, n + 1)) + sum(range(1, n)) + 1 == n * n
    check(cut)


# ---- what is told


def test_the_cut_that_is_told_alone_is_counted():
    """Not those by the planes that were tried, nor cells cut once more, nor faces asked for."""
    cut = cicelybeam.cut_plane(raised(), (0.2, 0.1, 0), (0, 0, 1), shift=True)
    assert cut.record.shift
    check(cut)
    found = cicelybeam.cut_plane(sample.broken(), (0, 0, 0.4), (0.05, 0.1, 1))
    before = found.comparisons
    assert found.record.lost_cells and found.look_for_shift() is not None or found.record.shift_most
    found.traces()
    assert found.comparisons == found.record.comparisons == before
    check(found)


MOST = 2**32 - 1


@pytest.fixture
def many(monkeypatch):
    """Every cell that has a comparison has as many as 32 bits can hold."""
    inner = Cutter._calls

    def calls(self, loop, *more):
        told = inner(self, loop, *more)
        if "comparisons" in told.dtype.names:
            told["comparisons"][told["comparisons"] > 0] = MOST
        return told

    monkeypatch.setattr(Cutter, "_calls", calls)


def test_a_sum_beyond_32_bits(many, tmp_path):
    cut = cicelybeam.cut_plane(box(2), (0, 0, 0.25), (0, 0, 1))
    assert cut.comparisons == cut.record.comparisons == 4 * MOST > 2**32 and type(cut.comparisons) is type(cut.record.comparisons) is int
    assert comparisons_line(cut.record.in_words(comparisons=True)) == f"{4 * MOST} comparisons of points; the most were {MOST} in cell 0 (hexahedron)"
    narrow = replace(cut, compared_counts=np.full(4, MOST, dtype=np.uint32))
    assert narrow.comparisons == 4 * MOST
    for name in ("a.json", "a.vtp"):
        cut.write(tmp_path / name)
    found = json.loads((tmp_path / "a.json").read_text())
    assert found["comparisons"] == 4 * MOST and [row["comparisons"] for row in found["by_cell"]] == 4 * [MOST]
    assert parts(tmp_path / "a.vtp")["CellData"]["comparisons"].tolist() == 4 * [MOST]


def comparisons_line(text: str) -> str:
    (line,) = [line[18:] for line in text.split("\n") if line.startswith("comparisons ")]
    return line


@pytest.mark.parametrize("mesh,tol,line", [
    (box(2), None, "64 comparisons of points; the most were 16 in cell 0 (hexahedron)"),
    (brick_and_tetra(), None, "25 comparisons of points; the most were 16 in cell 1 (hexahedron)"),
    (box(1), 2.0, "none"),
    (meshio.Mesh(FLAT + [0, 0, 0.5], [("polyhedron3", [[np.arange(3)]])]), 0.1, "1 comparison of points, in cell 0 (polyhedron3)"),
    (meshio.Mesh(np.concatenate([FLAT, FLAT]) + [0, 0, 0.5], [("polyhedron3", [[np.arange(3)], [np.arange(3, 6)]])]), 0.1,
     "2 comparisons of points; the most was 1 in cell 0 (polyhedron3)"),
], ids=["many", "two types", "none", "one", "one each"])
def test_the_record(mesh, tol, line):
    """The line stands after that of the guessed crossings, where it is asked for, and nothing else changes."""
    record = cicelybeam.cut_plane(mesh, (0, 0, 0.5 if len(mesh.points) != 27 else 0.25), (0, 0, 1), tol).record
    with_line = record.in_words(comparisons=True)
    assert comparisons_line(with_line) == line == comparisons_in_words(record.comparisons, record.most_comparisons)
    names = [row[:18].strip() for row in with_line.split("\n")]
    assert names[names.index("guessed") + 1] == "comparisons" and names[names.index("comparisons") + 1] == "drawn"
    assert with_line.replace(f"comparisons       {line}\n", "") == str(record) == record.in_words() and "comparison" not in str(record)
    assert "comparison" not in record.sentence()


CUBE_RECORD = """\
mesh              {path}
extent            (0, 0, 0) to (1, 1, 1)
cells             1: 1 hexahedron
not cut           none
plane             through (0, 0, 0.5), normal (0, 0, 1)
its axes          u along (1, 0, 0), v along (0, 1, 0)
tolerance         1.01421e-12 (the mesh's own: 1.01421e-12)
passed through    1 cell; 1 cell with an edge
edges             4 listed: 4 in loops, 0 flat, 0 open
guessed           0 crossings lie in the middle by default
drawn             1 polygon
area              1

The mesh's 1 cell was cut with Cicelybeam 0.1.0 by the plane through (0, 0, 0.5) with unit normal (0, 0, 1) and tolerance 1.01e-12: \
1 cell lists 4 edges, of which 4 bound the 1 polygon drawn, with a total area of 1, and no listed edge is left undrawn.
"""
CUBE_LINE = "comparisons       16 comparisons of points; the most were 16 in cell 0 (hexahedron)\n"


@pytest.fixture
def path(tmp_path) -> Path:
    box(1).write(tmp_path / "cube.vtu")
    return tmp_path / "cube.vtu"


@pytest.fixture
def clock(monkeypatch):
    """A quarter of a second passes from each look at the clock to the next."""
    monkeypatch.setattr(times, "time", SimpleNamespace(perf_counter=map(lambda k: k / 4, count()).__next__))


def test_nothing_more_is_printed_without_the_option(path, tmp_path, capsys):
    assert run("plane", path, *ALONG, "--picture", tmp_path / "a.svg", "--report", tmp_path / "a.html") == 0
    said = capsys.readouterr()
    assert (said.out, said.err) == (CUBE_RECORD.format(path=path), "")
    assert run("plane", path, *ALONG, "--quiet") == 0
    assert capsys.readouterr() == ("", "")


def test_the_option(path, capsys, clock):
    assert run("plane", path, *ALONG, "--timing") == 0
    said = capsys.readouterr()
    drawn = CUBE_RECORD.format(path=path).replace("drawn     ", CUBE_LINE + "drawn     ")
    assert said.out == drawn and said.err == "reading           0.250 s\ncutting           0.250 s\n"


def test_each_output_has_its_time(path, tmp_path, capsys, clock):
    outputs = {"report": "a.csv", "table": "t.csv", "traces": "r.csv", "vtk": "a.vtp", "picture": "a.svg"}
    options = [part for name, file in outputs.items() for part in (f"--{name}", tmp_path / file)]
    assert run("plane", path, *ALONG, "--timing", *options) == 0
    said = capsys.readouterr()
    seconds = {"reading": 0.25, "cutting": 0.25, "traces": 0.5, "report": 0.25, "table": 0.25, "vtk": 0.25, "figure": 0.25}  # traces: gathered, and written
    assert said.err == "".join(f"{part:<18}{time:.3f} s\n" for part, time in seconds.items())
    assert all((tmp_path / file).exists() for file in outputs.values()) and CUBE_LINE in said.out


def test_what_else_a_time_holds(tmp_path, capsys, clock):
    """The figure of a page, and the search for a shift, with the option that takes it and without."""
    raised().write(tmp_path / "a.vtu")
    command = ["plane", tmp_path / "a.vtu", "--origin", "0.2,0.1,0", "--normal", "z", "--quiet", "--timing"]
    assert run(*command, "--report", tmp_path / "a.html", "--show", "traces") == 3
    said = capsys.readouterr().err
    assert "\ncutting           0.250 s, with the search for a shift\ntraces            0.250 s\nreport            0.250 s, with its figure\n" in said
    assert run(*command, "--shift") == 0
    assert capsys.readouterr().err.endswith("\ncutting           0.250 s, with the search for a shift\n")
    assert run(*command, "--shift", "--tolerance", 1e-17) == 3  # below the mesh's own, where none is looked for
    assert "\ncutting           0.250 s\ncicelybeam: exit status 3: " in capsys.readouterr().err


@pytest.mark.parametrize("more", [["--quiet"], ["--report", "-"], ["--quiet", "--report", "-"]])
def test_without_a_record_all_stands_on_standard_error(path, capsys, clock, more):
    assert run("plane", path, *ALONG, "--timing", *more) == 0
    said = capsys.readouterr()
    told = "report            0.250 s\n" if "-" in more else ""
    assert said.err == CUBE_LINE + "reading           0.250 s\ncutting           0.250 s\n" + told
    if "-" in more:
        found = json.loads(said.out)
        assert found["comparisons"] == 16 and "timing" not in found and not any("seconds" in name for name in found)
    else:
        assert said.out == ""


def test_times_come_before_the_reasons(tmp_path, capsys, clock):
    """The exit status and what is said of it are as they are without."""
    faces = [[np.array(face) for face in OPEN_BRICK]]
    meshio.Mesh(CUBE, [("polyhedron8", faces)]).write(tmp_path / "a.vtu")
    assert run("plane", tmp_path / "a.vtu", *ALONG, "--quiet") == 3
    before = capsys.readouterr().err
    assert run("plane", tmp_path / "a.vtu", *ALONG, "--quiet", "--timing") == 3
    said = capsys.readouterr().err.split("\n")
    at = [k for k, line in enumerate(said) if line.startswith(("comparisons ", "reading ", "cutting "))]
    assert len(at) == 3 and at == list(range(at[0], at[0] + 3)) and said[at[-1] + 1].startswith("cicelybeam: exit status 3: ")
    assert "\n".join(line for k, line in enumerate(said) if k not in at) == before


def test_a_line_has_times_alone(path, tmp_path, capsys, clock):
    command = ["line", path, "--origin", "0,0.5,0.5", "--direction", "x"]
    assert run(*command) == 0
    before = capsys.readouterr()
    assert run(*command, "--timing", "--picture", tmp_path / "a.svg") == 0
    said = capsys.readouterr()
    assert said.out == before.out and before.err == "" and "comparison" not in said.out
    assert said.err == "reading           0.250 s\ncutting           0.250 s\nfigure            0.250 s\n"
    assert run(*command, "--timing", "--report", "-") == 0
    said = capsys.readouterr()
    found = json.loads(said.out)
    assert "comparisons" not in found and len(found["proved"]) == 4 and not any("comparison" in sentence for sentence in found["proved"])
    assert said.err == "reading           0.250 s\ncutting           0.250 s\nreport            0.250 s\n"


def test_no_times_where_there_is_no_cut(path, tmp_path, capsys):
    assert run("plane", tmp_path / "none.vtu", *ALONG, "--timing") == 1
    said = capsys.readouterr()
    assert said.out == "" and said.err.startswith("cicelybeam: ") and said.err.count("\n") == 1


def test_the_time_of_a_run(path, tmp_path):
    """By the machine's own clock, as a program."""
    done = subprocess.run([PROGRAM, "plane", path, *ALONG, "--timing", "--picture", tmp_path / "a.svg"], capture_output=True, text=True)
    assert done.returncode == 0 and CUBE_LINE in done.stdout
    seconds = [float(number) for number in re.fullmatch(r"reading +(\d+\.\d{3}) s\ncutting +(\d+\.\d{3}) s\nfigure +(\d+\.\d{3}) s\n", done.stderr).groups()]
    assert 0 <= sum(seconds) < 60 and seconds[2] > 0


def test_files_do_not_depend_on_the_option(path, tmp_path):
    """But for the command's own words, and in the page the line and what is proved of it."""
    for more, folder in (([], tmp_path / "a"), (["--timing"], tmp_path / "b")):
        folder.mkdir()
        run("plane", path, *ALONG, "--quiet", *more, "--report", folder / "a.json", "--vtk", folder / "a.vtp", "--traces", folder / "a.csv", "--picture", folder / "a.svg")
        run("plane", path, *ALONG, "--quiet", *more, "--report", folder / "b.csv", "--traces", folder / "b.vtp", "--picture", folder / "b.pdf")
    for name in ("a.vtp", "a.csv", "a.svg", "b.csv", "b.vtp", "b.pdf"):
        assert (tmp_path / "a" / name).read_bytes() == (tmp_path / "b" / name).read_bytes()
    one, two = (json.loads((tmp_path / folder / "a.json").read_text()) for folder in "ab")
    for found in (one, two):
        assert found.pop("made_by")["command"].startswith("cicelybeam plane ")
    assert one == two and one["comparisons"] == 16


def test_json():
    found = report.as_dict(cicelybeam.cut_plane(brick_and_tetra(), *MIDDLE))
    assert found["comparisons"] == 25 and found["most_comparisons"] == {"cell": 1, "type": "hexahedron", "comparisons": 16}
    assert [(row["cell"], row["listed"], row["comparisons"]) for row in found["by_cell"]] == [(0, 3, 9), (1, 4, 16)]
    assert list(found["by_cell"][0]) == ["cell", "type", "group", "listed", "in_loops", "pinched", "flat", "open", "defaulted", "comparisons", "area", "x", "y",
                                        "z"]
    assert sum("at most s(2s - 1) for s segments" in sentence for sentence in found["proved"]) == 1
    none = report.as_dict(cicelybeam.cut_plane(box(1), (0, 0, 7), (0, 0, 1)))
    assert (none["comparisons"], none["most_comparisons"], none["by_cell"]) == (0, None, [])


def test_fields_of_files(tmp_path):
    """A cell's number, with its counts; a field of the mesh that has the name is carried over."""
    mesh = brick_and_tetra()
    mesh.cell_data = {"comparisons": [np.array([7.0]), np.array([8.0])]}
    cut = cicelybeam.cut_plane(mesh, *MIDDLE)
    for name in ("a.vtp", "a.vtu"):
        cut.write(tmp_path / name)
    cut.traces().write(tmp_path / "t.vtp")
    for name in ("a.vtp", "t.vtp"):
        data = parts(tmp_path / name)["CellData"]
        assert set(zip(data["cell"].tolist(), data["comparisons"].tolist(), data["mesh:comparisons"].tolist())) == {(0, 9, 7), (1, 16, 8)}
    assert sorted(np.concatenate(meshio.read(tmp_path / "a.vtu").cell_data["comparisons"]).tolist()) == [9, 16]


def without_claims(page: Path) -> str:
    """The words of a page, without the text of docs/CLAIMS.md."""
    return words(page.read_text().split('<div class="screen"><hr>')[0])


def test_the_page(path, tmp_path):
    """The line and what is proved of it stand there with the option alone, and no times."""
    for more, times_told in ((["--timing"], 1), ([], 0)):
        assert run("plane", path, *ALONG, "--quiet", "--report", tmp_path / "a.html", *more) == 0
        parsed((tmp_path / "a.html").read_text())
        said = without_claims(tmp_path / "a.html")
        assert said.count("comparisons 16 comparisons of points; the most were 16 in cell 0 (hexahedron)") == times_told
        assert said.count("Proved: each cell's number of comparisons of points is that of the rules of the port") == times_told
        assert ("comparison" in said) == bool(times_told) and not re.search(r"\d\.\d{3} s\b", said)
    cicelybeam.cut_plane(cicelybeam.read(path), *MIDDLE).write(tmp_path / "b.html", comparisons=True)
    assert "comparisons 16 comparisons of points" in without_claims(tmp_path / "b.html")
    run("line", path, "--origin", "0,0.5,0.5", "--direction", "x", "--quiet", "--timing", "--report", tmp_path / "c.html")
    assert "comparison" not in without_claims(tmp_path / "c.html")


def test_a_line_cut_has_none_to_tell(path, tmp_path):
    cut = cicelybeam.cut_line(cicelybeam.read(path), (0, 0.5, 0.5), (1, 0, 0))
    with pytest.raises(cicelybeam.CicelybeamError, match="a line cut has no comparisons of points to tell: leave comparisons=True out"):
        cut.write(tmp_path / "a.html", comparisons=True)
    assert not list(tmp_path.glob("a.html"))


def test_the_csv_of_rings_is_as_it_was(path, tmp_path):
    run("plane", path, *ALONG, "--quiet", "--timing", "--report", tmp_path / "a.csv")
    (columns, *_) = csv.reader((tmp_path / "a.csv").open())
    assert columns == list(report.PLANE_COLUMNS) and "comparisons" not in columns


@pytest.mark.parametrize("command", ["plane", "line"])
def test_help(command, capsys):
    with pytest.raises(SystemExit):
        run(command, "--help")
    said = capsys.readouterr().out
    assert ("\n  comparisons\n            of points, with --timing: " in said) == (command == "plane")
    said = " ".join(said.split())
    assert "how long reading, cutting and each output took" in said and ("comparisons of points" in said) == (command == "plane")


# ---- an older library

STUBS = "".join(f"void cicelybeam_{name}(void) {{}}\n" for name in (
    "plane", "gather", "stitch", "line_in_space", "plane_cell_by_normal", "plane_cell_by_direction", "tolerance_in_space", "tolerance_in_plane", "sqrt"))


@pytest.mark.parametrize("older,words_told", [
    ("no sizes", "size_of_section; run python/build to link it again"),
    ("no numbers of arguments", "arguments_of_plane; run python/build to link it again"),
    ("fewer arguments", "cells_by_plane has 17 arguments there, and 18 in this package; run python/build to link it again"),
    ("comparisons", "struct cicelybeam_section has 40 bytes there, and 44 in this package; run python/build to link it again"),
    ("pinched", "struct cicelybeam_section has 40 bytes there, and 44 in this package; run python/build to link it again"),
    ("today's", None),
])
def test_a_library_without_the_field(path, tmp_path, older, words_told):
    """Its answers are shorter, and would be read at wrong places: it is not used."""
    header = (ROOT / "include" / "cicelybeam.h").read_text()
    without = re.sub(rf"\n *uint32_t {older};[^\n]*", "", header)
    assert (without != header) == (older in ("comparisons", "pinched"))
    (tmp_path / "cicelybeam.h").write_text(without)
    (tmp_path / "stubs.c").write_text(STUBS)
    loop = (ROOT / "python" / "loop.c").read_text()
    (tmp_path / "loop.c").write_text(loop.replace("return 18;", "return 17;") if older == "fewer arguments" else loop)
    former = {"no sizes": "size_of_section", "no numbers of arguments": "arguments_of_plane"}
    defined = [f"-D{former[older]}=former"] if older in former else []
    subprocess.run(["gcc", "-shared", "-fPIC", "-I", tmp_path, *defined, "-o", tmp_path / "older.so", tmp_path / "loop.c", tmp_path / "stubs.c"], check=True)
    program = "import cicelybeam.library; cicelybeam.library.library()"
    done = subprocess.run(["/usr/bin/python3", "-c", program], capture_output=True, text=True,
                          env={"CICELYBEAM_LIBRARY": str(tmp_path / "older.so"), "PATH": "/usr/bin", "PYTHONPATH": str(ROOT / "python")})
    if words_told is None:
        assert done.returncode == 0, done.stderr
        return
    assert done.returncode == 1 and "older.so cannot be loaded: " in done.stderr and words_told in done.stderr
    done = subprocess.run([PROGRAM, "plane", path, *ALONG], capture_output=True, text=True,
                          env={"CICELYBEAM_LIBRARY": str(tmp_path / "older.so"), "PATH": "/usr/bin"})
    assert done.returncode == 1 and done.stdout == "" and done.stderr.startswith("cicelybeam: ") and words_told in done.stderr and done.stderr.count("\n") == 1
