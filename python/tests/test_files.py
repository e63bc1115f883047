"""Output files: whole or not there, the mesh untouched; and what stands in them."""
import base64
import contextlib
import csv
import io
import json
import os
import resource
import signal
import subprocess
import time
import warnings
from pathlib import Path
from xml.etree import ElementTree

import meshio
import numpy as np
import pytest
from conftest import CUBE, box
from hypothesis import given
from hypothesis import strategies as st

import cicelybeam
from cicelybeam import outputs
from cicelybeam.__main__ import main
from cicelybeam.onpoints import point_values, welded
from cicelybeam.undrawn import face_segments, undrawn_edges

PLANE = ["--origin", "0.1,0.2,0.4", "--normal", "-1,2,5"]
PROGRAM = Path(__file__).resolve().parents[1] / "bin" / "cicelybeam"
OPEN_BRICK = [[0, 3, 2, 1], [0, 1, 5, 4], [2, 3, 7, 6], [1, 2, 6, 5]]


def run(*arguments) -> int:
    return main([str(a) for a in arguments])


def grouped(n: int = 2) -> meshio.Mesh:
    """A box of tetrahedra in two groups with names, a field of cells, and a linear one and a vector at the nodes."""
    mesh = box(n, "tetra")
    left = (mesh.points[mesh.cells[0].data].mean(axis=1)[:, 0] < 0.5).astype(int)
    mesh.cell_data = {"gmsh:physical": [2 - left], "gmsh:geometrical": [2 - left], "stress": [np.arange(len(left)) * 1.0]}
    mesh.field_data = {"left side": np.array([1, 3]), "right side": np.array([2, 3]), "skin": np.array([1, 2])}
    mesh.point_data = {"T": mesh.points @ [1.0, 2.0, 3.0] + 1, "shift": 2 * mesh.points}
    return mesh


@pytest.fixture
def path(tmp_path) -> Path:
    grouped().write(tmp_path / "box.msh", file_format="gmsh22")
    return tmp_path / "box.msh"


@pytest.mark.parametrize("way", ["name", "link", "hard link", "other name"])
def test_the_mesh_is_never_overwritten(tmp_path, capsys, way):
    mesh = tmp_path / "box.vtu"
    box(2).write(mesh)
    before, out = mesh.read_bytes(), mesh
    if way == "link":
        out = tmp_path / "link.vtu"
        out.symlink_to(mesh)
    elif way == "hard link":
        out = tmp_path / "hard.vtu"
        os.link(mesh, out)
    elif way == "other name":
        out = tmp_path / ".." / tmp_path.name / "box.vtu"
    assert run("plane", mesh, *PLANE, "--vtk", out) == 1
    assert "not overwritten" in capsys.readouterr().err and mesh.read_bytes() == before
    with pytest.raises(cicelybeam.CicelybeamError, match="not overwritten"):
        cicelybeam.cut_plane(cicelybeam.read(mesh), (0, 0, 0.3), (0, 0, 1)).write(out)
    assert mesh.read_bytes() == before


def test_two_outputs_of_one_name(path, tmp_path, capsys):
    assert run("plane", path, *PLANE, "--report", tmp_path / "a.csv", "--table", tmp_path / "a.csv") == 1
    assert "two outputs have this name" in capsys.readouterr().err


OUTPUTS = [("--report", "a.json"), ("--report", "a.csv"), ("--report", "a.html"), ("--table", "a.csv"), ("--vtk", "a.vtp"),
           ("--traces", "a.csv"), ("--traces", "a.vtp"),
           ("--vtk", "a.vtu"), ("--vtk", "a.vtk"), ("--vtk", "a.ply"), ("--vtk", "a.obj"), ("--picture", "a.svg"),
           ("--picture", "a.png"), ("--picture", "a.pdf"), ("--picture", "a.eps")]


@pytest.mark.parametrize("option,name", OUTPUTS)
def test_disk_that_is_full(path, tmp_path, capsys, option, name):
    """No file may be longer than 64 bytes here: the message names the output, and what was there before is still there."""
    out = tmp_path / name
    out.write_text("before")
    soft, hard = resource.getrlimit(resource.RLIMIT_FSIZE)
    resource.setrlimit(resource.RLIMIT_FSIZE, (64, hard))
    try:
        status = run("plane", path, *PLANE, option, out, "--quiet")
    finally:
        resource.setrlimit(resource.RLIMIT_FSIZE, (soft, hard))
    assert status == 1 and str(out) in capsys.readouterr().err
    assert out.read_text() == "before" and {p.name for p in tmp_path.iterdir()} == {"box.msh", name}


@pytest.mark.parametrize("option,name", OUTPUTS)
def test_mode_and_links_stay(path, tmp_path, option, name):
    """What is written through a link goes to the file that it leads to, which keeps its mode."""
    real, out = tmp_path / f"real-{name}", tmp_path / name
    real.write_text("before")
    real.chmod(0o640)
    out.symlink_to(real)
    assert run("plane", path, *PLANE, option, out, "--quiet") == 0
    assert out.is_symlink() and real.stat().st_mode & 0o777 == 0o640 and real.stat().st_size > 40


def test_ctrl_c_while_writing(path, tmp_path, capsys, monkeypatch):
    def interrupted(*_):
        raise KeyboardInterrupt

    monkeypatch.setattr("cicelybeam.report.vtp", interrupted)
    assert run("plane", path, *PLANE, "--vtk", tmp_path / "a.vtp", "--quiet") == 130
    assert capsys.readouterr().err == "cicelybeam: interrupted; no output is left half written\n"
    assert {p.name for p in tmp_path.iterdir()} == {"box.msh"}


@pytest.mark.parametrize("when", ["numpy is loaded", "a file is written"])
def test_ctrl_c_as_a_program(tmp_path, when):
    box(20, "tetra").write(tmp_path / "box.vtu")
    program = subprocess.Popen([PROGRAM, "plane", tmp_path / "box.vtu", *PLANE, "--quiet", "--vtk", tmp_path / "a.vtu"],
                               stdout=subprocess.PIPE, stderr=subprocess.PIPE, text=True)

    def reached() -> bool:
        if when == "a file is written":
            return any(tmp_path.glob(".cicelybeam-*"))
        return "numpy" in Path(f"/proc/{program.pid}/maps").read_text()

    limit = time.monotonic() + 60
    while not reached() and program.poll() is None and time.monotonic() < limit:
        time.sleep(0.0005)
    program.send_signal(signal.SIGINT)
    out, err = program.communicate(timeout=60)
    if program.returncode == 0:
        pytest.skip("it was done before the signal came")
    assert (program.returncode, out) == (130, "") and err.count("\n") == 1 and "interrupted" in err
    left = {p.name: p for p in tmp_path.iterdir()}
    assert set(left) <= {"box.vtu", "a.vtu"}
    assert "a.vtu" not in left or len(meshio.read(left["a.vtu"]).points)


def test_formats_that_cannot_hold_polygons(tmp_path, capsys):
    """Refused before the mesh is even read: it is not there."""
    others = [suffix for suffix in meshio._helpers.extension_to_filetypes if Path("a" + suffix).suffix not in outputs.POLYGONS]
    assert {".stl", ".off", ".msh", ".xdmf", ".med"} <= set(others)
    for suffix in others:
        assert run("plane", tmp_path / "none.msh", *PLANE, "--vtk", tmp_path / f"a{suffix}") == 1
        assert "can hold polygons" in capsys.readouterr().err


@pytest.mark.parametrize("suffix,status", [(".vtp", 0), (".vtu", 1), (".VTK", 1), (".ply", 0), (".obj", 0)])
def test_files_without_a_polygon(path, tmp_path, capsys, suffix, status):
    out = tmp_path / f"a{suffix}"
    assert run("plane", path, "--origin", "0,0,7", "--normal", "z", "--quiet", "--vtk", out) == status and out.exists() == (status == 0)
    words = f"{out}: no polygon is drawn, and meshio writes no {suffix.lower()} file without cells: give a .vtp file\n"
    assert (words in capsys.readouterr().err) == (status == 1)


@pytest.mark.parametrize("suffix", [s for s in outputs.POLYGONS if s != ".vtp"])
def test_formats_that_hold_polygons(tmp_path, capsys, suffix):
    cut = cicelybeam.cut_plane(box(2), (0.1, 0.2, 0.3), (1, 2, 3))
    cut.write(tmp_path / f"a{suffix}")
    said = capsys.readouterr()
    assert said.out == "" and said.err == ""
    found = meshio.read(tmp_path / f"a{suffix}")
    assert sum(len(block.data) for block in found.cells) == len(cut)
    assert {len(row) for block in found.cells for row in block.data} == set(np.diff(cut.ends, prepend=0).tolist()) >= {3, 4, 5}


def test_report_on_standard_output(path, capsys):
    assert run("plane", path, *PLANE, "--report", "-") == 0
    said = capsys.readouterr()
    assert json.loads(said.out)["area"] > 0 and said.err == ""


def test_standard_output_that_is_full(path):
    with open("/dev/full", "w") as full:
        done = subprocess.run([PROGRAM, "plane", path, *PLANE, "--report", "-"], stdout=full, stderr=subprocess.PIPE, text=True)
    assert (done.returncode, done.stderr) == (1, "cicelybeam: standard output: it cannot be written: No space left on device\n")


@pytest.mark.parametrize("again", [["--origin", "0,0,0"], ["--normal", "x"], ["--quiet", "--quiet"], ["--dpi", "9", "--dpi", "9"]])
def test_repeated_options(path, capsys, again):
    with pytest.raises(SystemExit) as told:
        run("plane", path, *PLANE, *again)
    assert told.value.code == 2 and ("given twice" in capsys.readouterr().err or again[0] == "--dpi")


@pytest.mark.parametrize("word,numbers", [("x", (1, 0, 0)), ("y", (0, 1, 0)), ("z", (0, 0, 1)), ("-z", (0, 0, -1))])
def test_normals_by_name(path, capsys, word, numbers):
    assert run("plane", path, "--origin", "0.3,0.3,0.3", "--normal", word, "--report", "-") == 0
    assert json.loads(capsys.readouterr().out)["normal"] == list(numbers)


def ring_area(points: np.ndarray) -> np.ndarray:
    return 0.5 * sum(np.cross(p - points[0], q - points[0]) for p, q in zip(points, np.roll(points, -1, axis=0)))


def test_csv_has_the_polygons(path, tmp_path):
    assert run("plane", path, *PLANE, "--report", tmp_path / "a.csv", "--quiet") == 0
    rows = list(csv.DictReader((tmp_path / "a.csv").open()))
    cut = cicelybeam.cut_plane(cicelybeam.read(path), (0.1, 0.2, 0.4), (-1, 2, 5))
    by_ring: dict[int, list[dict]] = {}
    for row in rows:
        by_ring.setdefault(int(row["polygon"]), []).append(row)
    assert len(by_ring) == len(cut) and {row["group"] for row in rows} == {"left side", "right side"}
    for k, ring in by_ring.items():
        flat = np.array([[float(row["u"]), float(row["v"])] for row in ring])
        space = np.array([[float(row[axis]) for axis in "xyz"] for row in ring])
        area = float(ring[0]["area"])
        assert area == pytest.approx(float(ring_area(flat)), abs=1e-14) and int(ring[0]["cell"]) == cut.polygon_cell[k]
        assert area == pytest.approx(np.linalg.norm(ring_area(space)), abs=1e-14)


def test_json_has_the_polygons_and_the_groups(path, tmp_path):
    assert run("plane", path, *PLANE, "--report", tmp_path / "a.json", "--quiet") == 0
    found = json.loads((tmp_path / "a.json").read_text())
    assert sum(ring["area"] for ring in found["rings"]) == pytest.approx(found["area"], rel=1e-12)
    for ring in found["rings"]:
        assert np.linalg.norm(ring_area(np.array(ring["in_space"]))) == pytest.approx(ring["area"], abs=1e-14)
        assert len(ring["in_plane"]) == len(ring["in_space"]) and ring["type"] == "tetra"
    assert set(found["area_by_group"]) == {"left side", "right side"}
    assert sum(found["area_by_group"].values()) == pytest.approx(found["area"], rel=1e-12)
    assert {"u", "v", "normal", "origin", "shift", "summary", "reasons"} <= set(found)


def test_json_of_names_with_odd_signs(tmp_path):
    mesh = grouped()
    mesh.field_data = {'a "}, {" b': np.array([1, 3]), "}, {": np.array([2, 3])}
    cut = cicelybeam.cut_plane(mesh, (0.1, 0.2, 0.4), (-1, 2, 5))
    cut.write(tmp_path / "a.json")
    found = json.loads((tmp_path / "a.json").read_text())
    assert {ring["group"] for ring in found["rings"]} == set(mesh.field_data)


def test_table(path, tmp_path):
    assert run("plane", path, *PLANE, "--table", tmp_path / "t.csv", "--quiet") == 0
    rows = {row["group"]: float(row["area"]) for row in csv.DictReader((tmp_path / "t.csv").open())}
    assert rows["left side"] + rows["right side"] == pytest.approx(rows["section"], rel=1e-12)


def test_record_tells_the_groups(path, capsys):
    assert run("plane", path, *PLANE) == 0
    assert "group             left side: " in capsys.readouterr().out


def decoded(array) -> np.ndarray:
    """The numbers of a binary DataArray, after the 8 bytes of their length."""
    values = np.frombuffer(base64.b64decode(array.text)[8:], dtype={"Float64": "<f8", "Int64": "<i8", "UInt64": "<u8"}[array.get("type")])
    width = int(array.get("NumberOfComponents"))
    return values.reshape(-1, width) if width > 1 else values


def parts(path: Path) -> dict[str, dict[str, np.ndarray]]:
    piece = ElementTree.parse(path).find(".//Piece")
    return {part.tag: {a.get("Name"): decoded(a) for a in part} for part in piece}


def test_vtp_is_welded_and_has_fields(path, tmp_path):
    assert run("plane", path, *PLANE, "--vtk", tmp_path / "a.vtp", "--quiet") == 0
    found = parts(tmp_path / "a.vtp")
    points = found["Points"]["points"]
    apart = np.linalg.norm(points[:, None] - points[None], axis=2) + np.eye(len(points))
    cut = cicelybeam.cut_plane(cicelybeam.read(path), (0.1, 0.2, 0.4), (-1, 2, 5))
    assert apart.min() > 1e-9 and len(points) < len(cut.points) / 2
    assert found["PointData"]["T"] == pytest.approx(points @ [1.0, 2.0, 3.0] + 1, abs=1e-12)
    assert found["PointData"]["shift"] == pytest.approx(2 * points, abs=1e-12)
    assert {"stress", "gmsh:physical", "cell", "area", "side", "hole_of"} <= set(found["CellData"])
    assert (found["CellData"]["stress"] == found["CellData"]["cell"]).all()


def test_fields_whose_names_are_taken_are_carried_over(tmp_path):
    mesh = box(1, "tetra")
    none = np.uint64(2**64 - 1)
    mesh.cell_data = {"area": [np.arange(6.0)], "flux": [np.arange(18.0).reshape(6, 3)], "<&>": [np.arange(6)], "none": [np.full(6, none)]}
    cut = cicelybeam.cut_plane(mesh, (0, 0, 0.3), (0, 0, 1))
    cut.write(tmp_path / "a.vtp")
    data = parts(tmp_path / "a.vtp")["CellData"]
    assert data["area"].sum() == pytest.approx(1) and (data["mesh:area"] == cut.polygon_cell).all()
    assert (data["flux"][:, 2] == 3 * cut.polygon_cell + 2).all() and (data["<&>"] == cut.polygon_cell).all()
    assert (data["none"] == none).all() and len(data["none"]) == len(cut)


def test_vtp_has_undrawn_edges(tmp_path):
    """Three sides of the open brick, as lines, beside the whole one's polygon."""
    points = np.concatenate([CUBE, CUBE + [2, 0, 0]])
    whole = [*OPEN_BRICK, [4, 5, 6, 7], [3, 0, 4, 7]]
    mesh = meshio.Mesh(points, [("polyhedron8", [[np.array(f) for f in OPEN_BRICK], [8 + np.array(f) for f in whole]])])
    cut = cicelybeam.cut_plane(mesh, (0, 0, 0.5), (0, 0, 1))
    cut.write(tmp_path / "a.vtp")
    found = parts(tmp_path / "a.vtp")
    lines = found["Points"]["points"][found["Lines"]["connectivity"].reshape(-1, 2)]
    assert {tuple(sorted(map(tuple, line[:, :2].round(9).tolist()))) for line in lines} == {
        ((0, 0), (1, 0)), ((1, 0), (1, 1)), ((0, 1), (1, 1))}
    assert found["CellData"]["cell"].tolist() == [0, 0, 0, 1] and len(found["Polys"]["offsets"]) == 1


def test_vtp_read_by_vtk(path, tmp_path):
    vtk = pytest.importorskip("vtkmodules.vtkIOXML")
    from vtkmodules.util.numpy_support import vtk_to_numpy

    assert run("plane", path, *PLANE, "--vtk", tmp_path / "a.vtp", "--quiet") == 0
    reader = vtk.vtkXMLPolyDataReader()
    reader.SetFileName(str(tmp_path / "a.vtp"))
    reader.Update()
    found = reader.GetOutput()
    cut = cicelybeam.cut_plane(cicelybeam.read(path), (0.1, 0.2, 0.4), (-1, 2, 5))
    for k, area in enumerate(cut.polygon_area):
        points = vtk_to_numpy(found.GetCell(k).GetPoints().GetData())
        assert np.linalg.norm(ring_area(points)) == pytest.approx(area, abs=1e-12)
    assert vtk_to_numpy(found.GetCellData().GetArray("area")).tolist() == cut.polygon_area.tolist()


coordinates = st.floats(-1, 1, allow_nan=False)
vectors = st.tuples(*3 * [coordinates]).filter(lambda v: np.linalg.norm(v) > 0.1)


@given(st.sampled_from(["hexahedron", "wedge", "tetra"]), st.tuples(*3 * [st.sampled_from([0.0, 0.25, 0.4, 0.5])]), vectors, vectors)
def test_linear_fields_of_nodes_are_exact(kind, origin, normal, slope):
    """Also where the plane runs through nodes, edges and faces."""
    mesh = box(2, kind)
    mesh.point_data["f"] = mesh.points @ np.array(slope) + 0.5
    cut = cicelybeam.cut_plane(mesh, origin, normal)
    assert point_values(cut)["f"] == pytest.approx(cut.in_space() @ np.array(slope) + 0.5, abs=1e-9)


def test_fields_of_nodes_on_a_shifted_plane():
    mesh = box(2, "tetra")
    mesh.point_data["z"] = mesh.points[:, 2] * 1.0
    cut = cicelybeam.cut_plane(mesh, (0.1, 0.2, 0.5), (0, 0, 1), shift=True)
    assert cut.record.shift and point_values(cut)["z"] == pytest.approx(np.full(len(cut.points), 0.5 + cut.record.shift), abs=1e-15)


def test_fields_of_nodes_of_polyhedra():
    faces = [[0, 3, 2, 1], [4, 5, 6, 7], [0, 1, 5, 4], [2, 3, 7, 6], [1, 2, 6, 5], [3, 0, 4, 7]]
    mesh = meshio.Mesh(CUBE, [("polyhedron8", [[np.array(f) for f in faces]])], point_data={"x": CUBE[:, 0] * 1.0})
    cut = cicelybeam.cut_plane(mesh, (0.3, 0.3, 0.3), (1, 2, 3))
    assert point_values(cut)["x"] == pytest.approx(cut.in_space()[:, 0], abs=1e-12)


@given(st.integers(0, 2**32 - 1), st.floats(0.001, 0.1))
def test_welding(seed, within):
    """Copies that differ by less than a tenth become one; points that are further apart stay apart."""
    random = np.random.default_rng(seed)
    grid = np.stack(np.meshgrid(*2 * [np.arange(5.0)]), -1).reshape(-1, 2) * 3 * within + random.uniform(-1, 1, 2)
    copies = np.concatenate([grid + random.uniform(-within / 20, within / 20, grid.shape) for _ in range(6)])
    firsts, number = welded(copies, within)
    assert len(firsts) == len(grid) and (number == np.tile(np.arange(len(grid)), 6)).all()


@given(st.integers(3, 6), st.integers(0, 2**32 - 1), st.sampled_from([1e-12, 0.05]))
def test_segments_of_a_face_are_as_many_as_the_librarys(corners, seed, tol):
    """A face alone, as a polyhedron of one face; with corners in the plane too."""
    random = np.random.default_rng(seed)
    angles = np.sort(random.uniform(0, 2 * np.pi, corners))
    points = np.stack([np.cos(angles), np.sin(angles), random.choice([-1.0, -0.5, 0.0, 0.5, 1.0], corners)], -1)
    mesh = meshio.Mesh(points, [("polyhedron", [[np.arange(corners)]])])
    cut = cicelybeam.cut_plane(mesh, (0, 0, 0), (0, 0, 1), tol)
    found = face_segments(points.tolist(), cut.near, tol)
    assert len(found) >= cut.record.listed and (len(found) > 0) == (cut.record.listed > 0)
    assert len(undrawn_edges(cut)) == cut.record.flat + cut.record.open


@given(st.sampled_from(["hexahedron", "wedge", "tetra"]), st.tuples(*3 * [st.sampled_from([0.2, 0.25, 0.5])]), vectors,
       st.sampled_from([None, 0.0, 1e-17, 0.02]), st.booleans())
def test_undrawn_edges_are_those_that_are_counted(kind, origin, normal, tol, moved):
    """As many as are flat or open, also with a tolerance at which rounding decides, and on grids that are not straight."""
    mesh = box(2, kind)
    if moved:
        mesh.points += np.random.default_rng(1).uniform(-0.1, 0.1, mesh.points.shape)
    cut = cicelybeam.cut_plane(mesh, origin, normal, tol)
    assert len(undrawn_edges(cut)) == cut.record.flat + cut.record.open


@pytest.fixture
def line(tmp_path) -> list:
    mesh = grouped(3)
    mesh.write(tmp_path / "box.msh", file_format="gmsh22")
    return ["line", tmp_path / "box.msh", "--origin", "0.9,0.3,0.4", "--direction", "-1,0.1,0"]


def test_csv_of_a_line_is_in_order(line, tmp_path):
    assert run(*line, "--report", tmp_path / "a.csv", "--colour", "stress", "--quiet") == 0
    rows = list(csv.DictReader((tmp_path / "a.csv").open()))
    s = np.array([[float(row["s1"]), float(row["s2"])] for row in rows])
    assert (np.diff(s[:, 0]) >= 0).all() and (s[:, 1] > s[:, 0]).all() and len(rows) > 3
    direction = np.array([-1, 0.1, 0]) / np.hypot(1, 0.1)
    for row, (a, b) in zip(rows, s):
        ends = np.array([[float(row[axis + end]) for axis in "xyz"] for end in "12"])
        assert (ends - [0.9, 0.3, 0.4]) @ direction == pytest.approx([a, b]) and float(row["length"]) == pytest.approx(b - a)
        assert float(row["stress"]) == int(row["cell"]) and row["group"] in ("left side", "right side")


def test_json_of_a_line(line, tmp_path):
    assert run(*line, "--report", tmp_path / "a.json", "--quiet") == 0
    found = json.loads((tmp_path / "a.json").read_text())
    assert sum(row["length"] for row in found["by_segment"]) == pytest.approx(found["length"])
    assert found["made_by"]["command"].startswith("cicelybeam line ")


@given(st.data())
def test_any_outputs_of_any_cut(tmp_path_factory, data):
    """Grids moved at random, with a coordinate that is NaN or huge: an answer or a sentence, all files whole, and no words but the command's."""
    pick = lambda *choices: data.draw(st.sampled_from(choices))  # noqa: E731
    folder = tmp_path_factory.mktemp("any")
    mesh = box(pick(1, 2), pick("hexahedron", "wedge", "tetra"), pick((1.0, 1.0, 1.0), (1e-6, 1.0, 1e5)))
    random = np.random.default_rng(data.draw(st.integers(0, 2**32 - 1)))
    mesh.points += pick(0, 0.05) * random.uniform(-1, 1, mesh.points.shape) * np.ptp(mesh.points, axis=0)
    cells = len(mesh.cells[0].data)
    mesh.cell_data = {"gmsh:physical": [random.integers(0, pick(2, 40), cells)], "stress": [random.choice([1.0, 2.0, np.nan, np.inf, -1e300], cells)]}
    mesh.point_data = {"T": random.uniform(0, 1, len(mesh.points))}
    origin = ",".join(repr(float(pick(low, high, (low + high) / 2))) for low, high in zip(mesh.points.min(axis=0), mesh.points.max(axis=0)))
    mesh.points[0, 0] = pick(mesh.points[0, 0], mesh.points[0, 0], np.nan, 1e300)
    mesh.write(folder / "mesh.vtu")
    command = pick("plane", "line")
    given = [command, folder / "mesh.vtu", "--origin", origin, "--normal" if command == "plane" else "--direction", pick("x", "-z", "1,1,0", "1,2,3")]
    given += ["--colour", pick("type", "group", "stress", "cell"), "--report", folder / pick("a.html", "a.json", "a.csv")]
    given += ["--picture", folder / pick("a.svg", "a.png", "a.pdf", "a.eps"), "--dpi", 50, "--size", pick("85", "60,120", "30,30")]
    if command == "plane":
        given += ["--vtk", folder / pick("b.vtp", "b.vtu", "b.vtk", "b.ply", "b.obj"), "--table", folder / "t.csv", "--tolerance", pick("0", "1e-9", "0.1")]
        given += ["--traces", folder / pick("c.csv", "c.vtp"), "--show", pick("polygons", "traces")]
    said = io.StringIO()
    with contextlib.redirect_stderr(said), contextlib.redirect_stdout(said), warnings.catch_warnings():
        warnings.simplefilter("error")
        status = run(*given, "--quiet")
    assert status in (0, 1, 3) and all(line.startswith("cicelybeam: ") for line in said.getvalue().splitlines())
    asked = {Path(word).name for word in map(str, given) if str(folder) in word}
    left = {path.name for path in folder.iterdir()}
    assert left == asked if status in (0, 3) else left <= asked
