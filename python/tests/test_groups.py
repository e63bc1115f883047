"""Groups of cells from files of several formats, and areas by them."""
import numpy as np
import pytest
from conftest import box, stack
from hypothesis import given
from hypothesis import strategies as st
from test_files import grouped

import cicelybeam
from cicelybeam.areas import in_two


def halves(n: int = 2) -> np.ndarray:
    """For each cell of the box: 1 for the left half, 2 for the right."""
    mesh = box(n, "tetra")
    return 1 + (mesh.points[mesh.cells[0].data].mean(axis=1)[:, 0] > 0.5)


def areas(path) -> dict[str, float]:
    return cicelybeam.cut_plane(cicelybeam.read(path), (0, 0, 0.3), (0, 0, 1)).area_by("group")


def test_gmsh(tmp_path):
    """The group of the same number on the outside has another name, which must not be taken."""
    grouped().write(tmp_path / "a.msh", file_format="gmsh22")
    assert areas(tmp_path / "a.msh") == pytest.approx({"left side": 0.5, "right side": 0.5})


def test_gmshs_own_files(tmp_path):
    gmsh = pytest.importorskip("gmsh")
    gmsh.initialize()
    try:
        gmsh.option.setNumber("General.Terminal", 0)
        for x in (0, 1):
            gmsh.model.occ.addBox(x, 0, 0, 1, 1, 1)
        gmsh.model.occ.fragment([(3, 1)], [(3, 2)])
        gmsh.model.occ.synchronize()
        for dimension, entity, number, name in ((3, 1, 7, "left"), (3, 2, 9, "right"), (2, 1, 7, "skin")):
            gmsh.model.addPhysicalGroup(dimension, [entity], number)
            gmsh.model.setPhysicalName(dimension, number, name)
        gmsh.option.setNumber("Mesh.MeshSizeMax", 0.5)
        gmsh.model.mesh.generate(3)
        for version in (2.2, 4.1):
            gmsh.option.setNumber("Mesh.MshFileVersion", version)
            gmsh.write(str(tmp_path / f"{version}.msh"))
    finally:
        gmsh.finalize()
    for version in (2.2, 4.1):
        assert areas(tmp_path / f"{version}.msh") == pytest.approx({"left": 1.0, "right": 1.0})


def test_med(tmp_path):
    mesh = box(2, "tetra")
    mesh.cell_data = {"cell_tags": [-5 - halves()]}
    mesh.cell_tags = {-6: ["left"], -7: ["right", "outer"]}
    mesh.write(tmp_path / "a.med")
    assert areas(tmp_path / "a.med") == pytest.approx({"left": 0.5, "right + outer": 0.5})


def test_medit_has_numbers(tmp_path):
    mesh = box(2, "tetra")
    mesh.cell_data = {"medit:ref": [halves()]}
    mesh.write(tmp_path / "a.mesh")
    assert areas(tmp_path / "a.mesh") == pytest.approx({"1": 0.5, "2": 0.5})


def test_abaqus_has_sets(tmp_path):
    """Cells in two sets are a group of their own; those in none too."""
    mesh = box(2, "tetra")
    left = np.flatnonzero(halves() == 1)
    low = np.flatnonzero(mesh.points[mesh.cells[0].data].mean(axis=1)[:, 1] < 0.5)
    mesh.cell_sets = {"LEFT": [left], "LOW": [low]}
    mesh.write(tmp_path / "a.inp")
    found = areas(tmp_path / "a.inp")
    assert found == pytest.approx({"LEFT": 0.25, "LOW": 0.25, "LEFT + LOW": 0.25, "no group": 0.25})


def test_meshes_without_groups():
    cut = cicelybeam.cut_plane(box(2), (0, 0, 0.3), (0, 0, 1))
    assert cut.mesh.group is None and cut.mesh.group_of(np.array([0])) is None
    with pytest.raises(cicelybeam.CicelybeamError, match="no groups of cells; its cells are told apart by type, cell"):
        cut.area_by("group")


@given(st.integers(2, 3), st.sampled_from([0.25, 0.3, 0.5, 0.75]), st.sampled_from([(0, 0, 1), (1, 0, 0), (1, 2, 3)]))
def test_areas_by_group_add_up(n, height, normal):
    """Also where the plane runs along faces; what is in two groups is told apart."""
    mesh = box(n, "tetra")
    mesh.cell_data = {"gmsh:physical": [halves(n)], "stress": [np.arange(6.0 * n**3)], "odd": [np.arange(6 * n**3) % 3]}
    cut = cicelybeam.cut_plane(mesh, (height, height, height), normal)
    for by in ("group", "type", "odd"):
        found = cut.area_by(by)
        assert sum(found.values()) - in_two(cut, found) == pytest.approx(cut.record.area, rel=1e-9)
    assert set(cut.area_by("odd")) <= {"0", "1", "2"} and set(cut.area_by("type")) == {"tetra"}


def test_an_interface_is_in_both_groups():
    """2 x 2 bricks under 3 x 3, cut along the plane between them: each group has all of it, and the section has it once."""
    mesh = stack(2, 3)
    mesh.cell_data = {"gmsh:physical": [np.repeat([1, 2], [4, 9])]}
    mesh.field_data = {"below": np.array([1, 3]), "above": np.array([2, 3])}
    cut = cicelybeam.cut_plane(mesh, (0, 0, 0), (0, 0, 1))
    found = cut.area_by("group")
    assert found == pytest.approx({"below": 1, "above": 1}) and cut.record.area == pytest.approx(1)
    assert in_two(cut, found) == pytest.approx(1)


def test_a_group_without_a_name_has_its_number():
    mesh = grouped()
    mesh.field_data = {"left side": np.array([1, 3])}
    cut = cicelybeam.cut_plane(mesh, (0, 0, 0.3), (0, 0, 1))
    assert cut.area_by("group") == pytest.approx({"left side": 0.5, "2": 0.5})
