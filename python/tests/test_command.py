"""The command: what it prints and writes, its exit status, and every error path."""
import base64
import csv
import json
import subprocess
from pathlib import Path

import meshio
import numpy as np
import pytest
from conftest import CUBE, box

import cicelybeam
from cicelybeam.command import main

PLANE = ["--origin", "0.1,0.2,0.4", "--normal", "-1,2,5"]
ALONG = ["--origin", "0,0,0.5", "--normal", "0,0,1"]


@pytest.fixture
def path(tmp_path) -> Path:
    mesh = box(2, "tetra")
    mesh.cell_data["stress"] = [np.arange(48.0)]
    mesh.write(tmp_path / "box.vtu")
    return tmp_path / "box.vtu"


def run(*arguments) -> int:
    return main([str(a) for a in arguments])


def test_plane_with_all_files(path, tmp_path, capsys):
    names = [tmp_path / name for name in ("a.json", "a.svg", "a.vtp")]
    assert run("plane", path, *PLANE, "--report", names[0], "--picture", names[1], "--vtk", names[2]) == 0
    said = capsys.readouterr().out
    assert "0 flat, 0 open" in said and said.rstrip().endswith("no listed edge is left undrawn.")
    report = json.loads(names[0].read_text())
    assert report["all_drawn"] and report["summary"] in said
    assert sum(row["area"] for row in report["by_cell"]) == pytest.approx(report["area"])
    assert sum(row["listed"] for row in report["by_cell"]) == report["listed"]
    assert "<svg" in names[1].read_text() and "PolyData" in names[2].read_text()


def test_csv(path, tmp_path):
    assert run("plane", path, *PLANE, "--report", tmp_path / "a.csv", "--quiet") == 0
    rows = list(csv.DictReader((tmp_path / "a.csv").open()))
    assert rows and {"polygon", "cell", "type", "group", "area", "x", "y", "z", "u", "v"} <= set(rows[0])


@pytest.mark.parametrize("suffix", [".svg", ".png", ".pdf"])
@pytest.mark.parametrize("colour", ["type", "cell", "stress"])
def test_pictures(path, tmp_path, suffix, colour):
    out = tmp_path / f"a{suffix}"
    assert run("plane", path, *PLANE, "--picture", out, "--colour", colour) == 0
    first = out.read_bytes()
    assert run("plane", path, *PLANE, "--picture", out, "--colour", colour) == 0
    assert out.read_bytes() == first and len(first) > 1000


def test_picture_marks_what_is_missing(path, tmp_path):
    out = tmp_path / "a.svg"
    assert run("plane", path, *PLANE, "--tolerance", 0, "--picture", out) == 3
    assert "#d00000" in out.read_text()


def decoded(array) -> np.ndarray:
    """The numbers of a binary DataArray, after the 8 bytes of their length."""
    raw = base64.b64decode(array.text)[8:]
    values = np.frombuffer(raw, dtype={"Float64": "<f8", "Int64": "<i8"}[array.get("type")])
    width = int(array.get("NumberOfComponents"))
    return values.reshape(-1, width) if width > 1 else values


def test_vtp(path, tmp_path):
    """Read by its own XML: as many polygons, and their areas from the points in space."""
    from xml.etree import ElementTree

    out = tmp_path / "a.vtp"
    assert run("plane", path, *PLANE, "--vtk", out) == 0
    arrays = {a.get("Name"): decoded(a) for a in ElementTree.parse(out).iter("DataArray")}
    points, ends = arrays["points"], arrays["offsets"]
    loops = np.split(arrays["connectivity"], ends[:-1])
    cross = [0.5 * sum(np.cross(points[a], points[b]) for a, b in zip(loop, np.roll(loop, -1))) for loop in loops]
    assert np.linalg.norm(cross, axis=1) == pytest.approx(arrays["area"], abs=1e-12)
    normal = np.array([-1, 2, 5]) / np.sqrt(30)
    assert (points - [0.1, 0.2, 0.4]) @ normal == pytest.approx(np.zeros(len(points)), abs=1e-12)
    assert (np.array(cross) @ normal > 0).all() and "stress" in arrays


@pytest.mark.parametrize("suffix", [".vtu", ".vtk"])
def test_polygons_by_meshio(tmp_path, suffix):
    box(2).write(tmp_path / "box.vtu")
    out = tmp_path / f"polygons{suffix}"
    assert run("plane", tmp_path / "box.vtu", "--origin", "0.1,0.2,0.3", "--normal", "1,2,3", "--vtk", out) == 0
    cut = cicelybeam.cut_plane(box(2), (0.1, 0.2, 0.3), (1, 2, 3))
    found = meshio.read(out)
    assert sum(len(block.data) for block in found.cells) == len(cut)
    assert np.concatenate(found.cell_data["area"]).sum() == pytest.approx(cut.record.area)
    assert {"cell", "listed", "in_loops", "flat", "open"} <= set(found.cell_data)


def test_status_of_what_is_not_drawn(path):
    assert run("plane", path, *PLANE, "--tolerance", 0) == 3
    assert run("plane", path, *PLANE, "--tolerance", 0, "--allow-undrawn") == 0
    assert run("plane", path, *ALONG) == 0


def test_status_is_explained(path, capsys):
    """Every reason, not the first alone."""
    run("plane", path, *PLANE, "--tolerance", 0, "--quiet")
    said = capsys.readouterr().err
    assert "exit status 3: " in said and "area lost" in said and "--allow-undrawn" in said


def test_line_with_status_3(path, capsys):
    line = ["line", path, "--origin", "0.1,0.2,0.3", "--direction", "1,2,3", "--tolerance", 0]
    assert run(*line) == 3 and "may be missing" in capsys.readouterr().out
    assert run(*line, "--allow-undrawn") == 0


def test_reader_that_stops_early(path, tmp_path):
    """The files are written all the same, and no trace is printed."""
    program = Path(__file__).resolve().parents[1] / "bin" / "cicelybeam"
    report = tmp_path / "a.json"
    command = f"{program} plane {path} {' '.join(PLANE)} --report {report} | true"
    done = subprocess.run(["bash", "-c", f"set -o pipefail; {command}"], capture_output=True, text=True)
    assert (done.returncode, done.stderr) == (0, "") and json.loads(report.read_text())["all_drawn"]


def test_voxels_that_meshio_drops_are_told(tmp_path, capsys):
    """meshio leaves out VTK's voxels with a remark only; the remark reaches the user and the status."""
    def array(kind, name, values, parts=1):
        text = " ".join(map(str, np.ravel(values)))
        return f'<DataArray type="{kind}" Name="{name}" NumberOfComponents="{parts}" format="ascii">{text}</DataArray>'

    (tmp_path / "a.vtu").write_text(
        '<VTKFile type="UnstructuredGrid" version="0.1" byte_order="LittleEndian"><UnstructuredGrid>'
        f'<Piece NumberOfPoints="8" NumberOfCells="2"><Points>{array("Float64", "Points", CUBE, 3)}</Points><Cells>'
        + array("Int64", "connectivity", [0, 1, 3, 4, 0, 1, 3, 2, 4, 5, 7, 6]) + array("Int64", "offsets", [4, 12])
        + array("Int64", "types", [10, 11]) + "</Cells></Piece></UnstructuredGrid></VTKFile>")
    assert run("plane", tmp_path / "a.vtu", *ALONG) == 4
    said = capsys.readouterr().out
    assert "cannot handle (type 11)" in said and "meshio left out" in said
    assert run("plane", tmp_path / "a.vtu", *ALONG, "--allow-uncut") == 0


def test_line(path, tmp_path, capsys):
    out = [tmp_path / "a.csv", tmp_path / "a.svg"]
    assert run("line", path, "--origin", "0,0.3,0.4", "--direction", "1,0,0", "--report", out[0], "--picture", out[1]) == 0
    assert "covering 1 of the line" in capsys.readouterr().out
    assert sum(float(row["length"]) for row in csv.DictReader(out[0].open())) == pytest.approx(1)


def test_line_in_a_plane_mesh(tmp_path):
    meshio.Mesh(CUBE[:4], [("quad", np.array([[0, 1, 2, 3]]))]).write(tmp_path / "a.vtu")
    out = tmp_path / "a.png"
    assert run("line", tmp_path / "a.vtu", "--origin", "0,0.5", "--direction", "1,0", "--picture", out) == 0


@pytest.mark.parametrize("name,content,words", [
    ("empty.vtu", b"", "cannot read"),
    ("empty.msh", b"", "cannot read"),
    ("empty.vtk", b"", "cannot read"),
    ("noise.vtu", b"\x00\xff\x17" * 99, "cannot read"),
    ("noise.msh", b"$MeshFormat\n4.1 0 8\n$EndMeshFormat\n$Nodes\n1 x", "cannot read"),
    ("part.xyzzy", b"1", "Could not deduce file format"),
], ids=lambda value: value if isinstance(value, str) else "")
def test_files_that_cannot_be_read(tmp_path, capsys, name, content, words):
    path = tmp_path / name
    path.write_bytes(content)
    assert run("plane", path, *PLANE) == 1
    said = capsys.readouterr()
    assert name in said.err and said.out == ""
    assert words in said.err


@pytest.mark.parametrize("name", ["missing.vtu", "missing.msh", "missing", "no folder/missing.vtu"])
def test_file_that_is_not_there(tmp_path, capsys, name):
    assert run("plane", tmp_path / name, *PLANE) == 1
    said = capsys.readouterr()
    told = "there is no such file; check its name, and give its path from the current folder or its whole path"
    assert said.err == f"cicelybeam: {tmp_path / name}: {told}\n" and said.out == ""


def test_folder_in_place_of_a_file(tmp_path, capsys):
    assert run("plane", tmp_path, *PLANE) == 1
    assert capsys.readouterr().err == f"cicelybeam: {tmp_path}: this is a folder; give the path of a mesh file\n"


def test_truncated_files(path, tmp_path, capsys):
    """A file that breaks off anywhere gives an error or the cut of what it still has, never a trace."""
    whole = path.read_bytes()
    for part in range(1, 8):
        short = tmp_path / "short.vtu"
        short.write_bytes(whole[: len(whole) * part // 8])
        assert run("plane", short, *PLANE) == 1
        assert "short.vtu" in capsys.readouterr().err


@pytest.mark.parametrize("cells,words", [
    ([("triangle", [[0, 1, 2]])], "no cell is of a type that is cut in space; it has 1 triangle"),
    ([("tetra", [[0, 1, 2, 77]])], "cell 0 \\(tetra\\): the node number of a corner is no row"),
])
def test_meshes_of_no_use(tmp_path, capsys, cells, words):
    import re

    meshio.Mesh(CUBE, [(name, np.array(rows)) for name, rows in cells]).write(tmp_path / "a.vtu")
    assert run("plane", tmp_path / "a.vtu", *PLANE) == 1
    said = capsys.readouterr().err
    assert "a.vtu" in said and re.search(words, said)


@pytest.mark.parametrize("arguments", [
    ["plane", "a.vtu"],
    ["plane", "a.vtu", "--origin", "0,0", "--normal", "x,0,1"],
    ["plane", "a.vtu", "--origin", "nan,0,0", "--normal", "0,0,1"],
    ["plane", "a.vtu", "--origin", "0", "--normal", "0,0,1"],
    ["plane", "a.vtu", *PLANE, "--tolerance", "-1"],
    ["plane", "a.vtu", *PLANE, "--tolerance", "nan"],
    ["plane", "a.vtu", *PLANE, "--tolerance", "much"],
    [],
])
def test_wrong_command_lines(arguments, capsys):
    with pytest.raises(SystemExit) as told:
        main(arguments)
    assert told.value.code == 2


@pytest.mark.parametrize("more,words", [
    (["--picture", "a.bmp"], "a picture is"),
    (["--report", "a.txt"], "a report is"),
    (["--picture", "a.svg", "--colour", "heat"], "no cell field 'heat'"),
    (["--picture", "a.svg", "--colour", "group"], "no groups of cells"),
    (["--vtk", "a.nosuch"], "can hold polygons is"),
    (["--vtk", "a.stl"], "can hold polygons is"),
    (["--table", "a.txt"], "a table is"),
    (["--report", "/nowhere/a.json"], "/nowhere/a.json: there is no folder"),
])
def test_other_errors(path, tmp_path, monkeypatch, capsys, more, words):
    monkeypatch.chdir(tmp_path)
    assert run("plane", path, *PLANE, *more) == 1
    assert words in capsys.readouterr().err


@pytest.mark.parametrize("normal,words", [("0,0,0", "no direction"), ("0,1", "as many numbers")])
def test_normals_that_are_refused(path, capsys, normal, words):
    assert run("plane", path, "--origin", "0,0,0", "--normal", normal) == 1
    assert words in capsys.readouterr().err


@pytest.mark.parametrize("command", [["--help"], ["plane", "--help"], ["line", "--help"]])
def test_help(command, capsys):
    with pytest.raises(SystemExit) as told:
        main(command)
    assert told.value.code == 0 and "exit status" in capsys.readouterr().out


def test_as_a_program(path):
    program = Path(__file__).resolve().parents[1] / "bin" / "cicelybeam"
    done = subprocess.run([program, "plane", path, *PLANE], capture_output=True, text=True)
    assert done.returncode == 0 and "polygons" in done.stdout and done.stderr == ""


@pytest.mark.parametrize("name", ["none.so", "other.so"])
def test_library_that_is_not_there(path, tmp_path, name):
    """Or that is another one, or older than the package."""
    if name == "other.so":
        subprocess.run(["gcc", "-shared", "-o", tmp_path / name, "-x", "c", "/dev/null"], check=True)
    program = Path(__file__).resolve().parents[1] / "bin" / "cicelybeam"
    done = subprocess.run([program, "plane", path, *PLANE], capture_output=True, text=True,
                          env={"CICELYBEAM_LIBRARY": str(tmp_path / name), "PATH": "/usr/bin"})
    assert done.returncode == 1 and "run python/build" in done.stderr
