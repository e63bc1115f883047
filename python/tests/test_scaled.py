"""Scaled normals may be of any length but 0: the same sections, and the record says by which power of two where that matters."""
import json
import math
import re
import struct
import subprocess
from fractions import Fraction

import meshio
import numpy as np
import pytest
from conftest import CUBE, box, stack
from hypothesis import given
from hypothesis import strategies as st
from test_calls import kinds, one_call, places
from test_comparisons import without_claims
from test_files import OPEN_BRICK, PROGRAM, grouped, parts, run
from test_page import parsed
from test_strict import TWO, walls
from test_traces import check, gather_call, polyhedron

import cicelybeam
import sample
from cicelybeam import place, report
from cicelybeam.library import Line, library

LEAST, GREATEST = -1074, 1023  # exponents of 64-bit floats
SCALED = "scaled_exponent", "scaled_why", "summary"  # of the record, what may differ where only the length of the normal does
OVERFLOW = "since the sum of its squares overflows"
VANISH = "since its squares underflow to 0"
LOSE = "since its squares underflow and lose digits"
ODD = [(1e200, 0, 0), (0, 1e-200, 0), (0, 0, 5e-324), (1.7e308, 1e-20, 1e-300), (1.7e308, -1.7e308, 1.7e308), (3e-160, 2e-160, -1e-160),
       (-0.0, 0, 1e-320), (1.5e154, 1e154, -1e154), (5e-324, 1e-323, 1.5e-323), (1e150, 1e-150, 3e-140), (7.0, 1e-310, 2e-316)]


# ---- the scaled vector


def power_below(x: Fraction) -> int:
    """The exponent of the greatest power of two that is not above x, a whole number over a power of two."""
    return x.numerator.bit_length() - x.denominator.bit_length()


def rounded(x: Fraction) -> Fraction:
    """To a multiple of the last digit of a 64-bit float, ties to even."""
    step = Fraction(2) ** max(power_below(abs(x)) - 52, LEAST)
    return round(x / step) * step


def by_fractions(normal) -> list[Fraction]:
    """The exact product with the power of two, rounded once."""
    exact = [Fraction(x) for x in normal]
    factor = Fraction(2) ** -power_below(max(map(abs, exact)))
    return [rounded(x * factor) for x in exact]


def any_normals(count: int) -> list[tuple[float, ...]]:
    """The greatest component at every exponent; others anywhere below it, many of them subnormal after scaling, or halfway between two."""
    rng = np.random.default_rng(7)

    def float_at(exponent: int, odd: bool = False) -> float:
        digits = int(rng.integers(1, 2 ** min(53, exponent - LEAST + 1))) if exponent > LEAST else 1
        digits = digits | 1 if odd else digits
        return math.ldexp(digits, exponent - digits.bit_length() + 1) * float(rng.choice([-1, 1]))

    found = []
    for k in range(count):
        top = LEAST + k % (GREATEST - LEAST + 1)
        greatest = float_at(top)
        other = [float_at(int(rng.integers(max(LEAST, top - 1140), top))) if top > LEAST else float(rng.choice([0.0, -0.0, 5e-324])) for _ in range(2)]
        if top > 60 and k % 2:  # an odd number of halves of the last digit that a scaled component can have
            other[0] = math.ldexp(float(2 * rng.integers(0, 2**40) + 1), top + LEAST - 1) if top + LEAST - 1 >= LEAST else other[0]
        found.append(tuple(float(x) for x in rng.permutation([greatest, *other])))
    return found


def test_scaled_is_the_exact_product_rounded_once():
    """Of normals with a greatest component at each exponent there is, by fractions."""
    normals = [n for n in any_normals(3 * (GREATEST - LEAST + 1)) if abs(np.array(n)).max() > 0]
    halves = inexact = 0
    for normal in normals:
        made, expected = place.scaled_normal(normal), by_fractions(normal)
        assert [Fraction(x) for x in made] == expected
        assert [math.copysign(1, x) for x in made] == [math.copysign(1, x) for x in normal]  # of zeros too
        assert 1 <= max(map(abs, made)) < 2 and place.scaled_normal(made) == made
        factor = Fraction(2) ** -place.exponent(normal)
        steps = [Fraction(x) * factor / Fraction(2) ** LEAST for x in normal]
        inexact += any(Fraction(x) * factor != y for x, y in zip(normal, made))
        halves += any(step % 1 == Fraction(1, 2) for step in steps)
    assert {place.exponent(n) for n in normals} == set(range(LEAST, GREATEST + 1))
    assert inexact > 500 and halves > 500  # or the sample shows nothing of rounding


def test_greatest_components_at_powers_of_two():
    """Just below a power of two, at it, and just above."""
    for power in range(LEAST, GREATEST + 1):
        x = math.ldexp(1.0, power)
        for greatest in {math.nextafter(x, 0), x, math.nextafter(x, math.inf)} - {0.0, math.inf}:
            (made, _, _) = place.scaled_normal((greatest, 0.0, 0.0))
            assert 1 <= made < 2 and Fraction(made) == by_fractions((greatest, 0.0, 0.0))[0]


def test_zeros_are_not_scaled():
    assert struct.pack("3d", *place.scaled_normal((0.0, -0.0, 0.0))) == struct.pack("3d", 0.0, -0.0, 0.0)


def ordinary(count: int, seed: int) -> np.ndarray:
    """Normals of lengths from 1e-140 to 1e150, of like components and unlike ones."""
    rng = np.random.default_rng(seed)
    lengths = np.where(rng.random((count, 1)) < 0.5, rng.uniform(-140, 150, (count, 1)), rng.uniform(-140, 150, (count, 3)))
    return rng.uniform(-1, 1, (count, 3)) * 10**lengths


def test_ordinary_normals_are_the_same_in_both_ways():
    """Bit for bit, and the record says nothing."""
    for normal in map(tuple, ordinary(5000, 1).tolist()):
        assert struct.pack("3d", *place.unit_normal(normal, True)) == struct.pack("3d", *place.unit_normal(normal, False))
        assert place.why_scaled(normal) == ""


# ---- the library


LOSSY = [(2e-157, 3e-157, 1e-157), (-3e-156, 0, 1e-156), (4e-155, 4e-155, -5e-155)]  # as they are given, their unit normals lack digits


@pytest.mark.parametrize("normals,scaled", [(ODD + any_normals(60)[::3] + any_normals(2 * GREATEST)[-20:], True), (LOSSY, True), (LOSSY, False)],
                         ids=["odd", "lossy", "lossy, as they are given"])
def test_the_library_takes_them_as_the_package_does(normals, scaled):
    """Points of cells, and traces of cells and faces, bit by bit, and by the rules in Python."""
    for normal in normals:
        cut = cicelybeam.cut_plane(box(1, "tetra"), (0.4, 0.5, 0.3), normal, scaled=scaled)
        check(cut)
        calls = [one_call(cut.mesh, 12, row, cut.near.origin, normal, cut.asked.tol, scaled=scaled) for row in cut.mesh.blocks[0].nodes]
        assert cut.near_points.tobytes() == b"".join(points.tobytes() for s, points, *_ in calls if s.listed)


def test_both_ways_of_the_library():
    """The same answers for ordinary normals, and any number but 0 asks for the scaled way."""
    mesh = cicelybeam.of_meshio(meshio.Mesh(CUBE, [("hexahedron", [list(range(8))])]))
    for normal in ordinary(300, 2).tolist():
        call = mesh, 14, np.arange(8), (0.4, 0.5, 0.3), normal, 1e-12
        given, *scaled = (one_call(*call, scaled=way) for way in (0, 1, 2, 255))
        for other in scaled:
            assert bytes(other[0]) == bytes(given[0]) and [a.tobytes() for a in other[1:]] == [a.tobytes() for a in given[1:]]
        assert bytes(gather_call(*call, scaled=0)[0]) == bytes(gather_call(*call, scaled=1)[0])


def in_the_plane(normal, scaled) -> Line:
    points, origin, conn, written = CUBE[:4, :2].copy(), np.full(2, 0.5), np.arange(4), np.empty(24)
    n = np.array(normal, dtype=float)
    return library().cicelybeam_plane_cell_by_normal(8, conn.ctypes.data, 4, points.ctypes.data, 8, origin.ctypes.data, 2, n.ctypes.data, n.size,
                                                     scaled, 1e-12, written.ctypes.data, 24)


@pytest.mark.parametrize("length,given,scaled", [
    (1.0, (0, 4, 1), (0, 4, 1)), (1e200, (0, 0, 0), (0, 4, 1)), (1e-200, (6, 0, 0), (0, 4, 1)), (5e-324, (6, 0, 0), (0, 4, 1)),
    (0.0, (6, 0, 0), (6, 0, 0)), (math.nan, (6, 0, 0), (6, 0, 0))])
def test_what_one_call_answers(length, given, scaled):
    """Refusal, edges in space, segments in the plane; as it is given, a long normal is taken and cuts nothing."""
    mesh = cicelybeam.of_meshio(meshio.Mesh(CUBE, [("hexahedron", [list(range(8))])]))
    for way, (refusal, listed, segments) in ((0, given), (1, scaled)):
        call = mesh, 14, np.arange(8), (0.5, 0.5, 0.5), (0, 0, length), 1e-12
        s, *_ = one_call(*call, scaled=way)
        told, _ = gather_call(*call, scaled=way)
        assert (s.refusal, s.listed, told.refusal, told.segments) == (refusal, listed, refusal, listed)
        line = in_the_plane((length, 0), way)
        assert (line.refusal, line.segments) == (refusal, segments)


def test_infinite_components():
    """As it is given, one in the plane is taken; a scaled one is refused, and the number of components before it."""
    assert [in_the_plane((math.inf, 0), way).refusal for way in (0, 1)] == [0, 6]
    assert [in_the_plane((math.inf, 0, 0), way).refusal for way in (0, 1)] == [5, 5]


# ---- whole meshes


def told(cut) -> dict:
    """All that a report tells, but for when and how it was made and how long the normal was; with the traces."""
    cut.traces()
    return {name: value for name, value in report.as_dict(cut).items() if name not in ("made_by", *SCALED)}


def same(a, b) -> None:
    assert told(a) == told(b)
    for name in ("near_points", "nodes", "ends", "polygon_cell", "polygon_area", "counts"):
        assert getattr(a, name).tobytes() == getattr(b, name).tobytes()
    assert a.traces().ends.tobytes() == b.traces().ends.tobytes() and a.near == b.near and a.frame == b.frame


NORMALS = [(0.0, 0.0, 1.0), (1.0, 2.0, 3.0), (-0.3, 0.1, 0.7), (1e-9, 1.0, -1e-5)]


@pytest.mark.parametrize("normal", NORMALS, ids=str)
@pytest.mark.parametrize("power", [-980, -665, -530, -100, 1, 100, 520, 664, 1022])
def test_any_length_cuts_alike(normal, power):
    """The whole result, of meshes of several types, and of one that loses area and is cut by moved planes too."""
    long = tuple(math.ldexp(x, power) for x in normal)
    assert [Fraction(x) for x in long] == [Fraction(x) * Fraction(2) ** power for x in normal]
    for mesh, options in ((box(2, "tetra"), {}), (polyhedron(OPEN_BRICK), {}), (walls(*TWO), {"strict": True})):
        same(*(cicelybeam.cut_plane(mesh, (0.4, 0.5, 0.3), n, **options) for n in (normal, long)))


def test_moved_planes_and_shifts():
    """The estimate of area lost, the search for a shift and the cut by it, and the page."""
    normal = (0.05, 0.1, 1)
    for mesh, origin, n, lost in ((sample.broken(), (0, 0, 0.4), normal, True), (stack(1, 2), (0.2, 0.1, 0), (0.0, 0.0, 1.0), False)):
        one, two = (cicelybeam.cut_plane(mesh, origin, tuple(math.ldexp(x, power) for x in n), shift=True) for power in (0, 800))
        same(one, two)
        assert bool(one.record.lost_area) == lost and two.record.scaled_exponent is not None
        assert one.look_for_shift() == two.look_for_shift()
    shifted = [cicelybeam.cut_plane(sample.plate(), (0, 0, 0.5), (0, 0, length), shift=True) for length in (1, 2.0**-1000)]
    same(*shifted)
    assert shifted[0].record.shift != 0


@given(kinds, places, st.tuples(*3 * [st.floats(allow_nan=False, allow_infinity=False)]).filter(any))
def test_any_normal_at_all(kind, origin, normal):
    """Never refused; the unit normal has length 1 and the direction given, and the section is that of the unit normal."""
    cut = cicelybeam.cut_plane(box(2, kind), origin, normal)
    assert sum(x * x for x in cut.record.normal) == pytest.approx(1, abs=1e-15)
    exact = [Fraction(x) for x in normal]
    greatest = max(map(abs, exact))
    expected = np.array([float(x / greatest) for x in exact])
    assert cut.record.normal == pytest.approx(expected / np.linalg.norm(expected), abs=1e-15)
    assert cut.record.area == pytest.approx(cicelybeam.cut_plane(box(2, kind), origin, cut.record.normal).record.area, abs=1e-12)
    assert cut.record.all_cut and cut.record.scaled


@pytest.mark.parametrize("normal", ODD, ids=str)
@pytest.mark.parametrize("size", [1e100, 1e-100])
def test_large_and_small_meshes(normal, size):
    """As the mesh of size 1, and the areas as they should be."""
    one, other = (cicelybeam.cut_plane(box(2, "wedge", size=(s, s, s)), (0.4 * s, 0.5 * s, 0.3 * s), normal) for s in (1.0, size))
    assert one.counts.tolist() == other.counts.tolist() and one.record.area > 0.5
    assert other.record.area / size / size == pytest.approx(one.record.area, rel=1e-9)


# ---- refusals


@pytest.mark.parametrize("normal,number,words", [
    ((0, 0, 0), 6, r"no direction: .* \(refusal 6\): give a normal with a component other than 0$"),
    ((0, -0.0, 0), 6, "give a normal with a component other than 0$"),
    ((math.nan, 0, 1), None, r"the normal \(nan, 0.0, 1.0\) has a number that is not finite: give finite numbers$"),
    ((1, -math.inf, 0), None, r"the normal \(1.0, -inf, 0.0\) has a number that is not finite: give finite numbers$"),
    ((1e200, 1), 5, "the mesh has 3 dimensions, and 2 numbers were given$")], ids=str)
@pytest.mark.parametrize("scaled", [True, False])
def test_what_is_refused_in_both_ways(cube, normal, number, words, scaled):
    with pytest.raises(cicelybeam.CicelybeamError, match=words) as told:
        cicelybeam.cut_plane(cube, (0, 0, 0.5), normal, scaled=scaled)
    assert getattr(told.value, "number", None) == number


@pytest.mark.parametrize("normal,number,words", [
    ((0, 0, 1e-200), 6, r"the squares of \(0.0, 0.0, 1e-200\) underflow to 0; leave scaled=False out, or scale it to about 1$"),
    ((1e200, 0, 0), None, r"the normal \(1e\+200, 0.0, 0.0\) is too large or too small: its squares cannot be added up; leave scaled=False out, or "),
    ((0, 1e-160, 0), None, "is too large or too small: its squares cannot be added up; leave scaled=False out, or scale it to about 1$")], ids=str)
def test_what_is_refused_as_it_is_given(cube, normal, number, words):
    with pytest.raises(cicelybeam.CicelybeamError, match=words) as told:
        cicelybeam.cut_plane(cube, (0.5, 0.5, 0.5), normal, scaled=False)
    assert getattr(told.value, "number", None) == number
    assert cicelybeam.cut_plane(cube, (0.5, 0.5, 0.5), normal).record.area == 1


def test_a_plane_mesh_is_refused_as_before():
    mesh = meshio.Mesh(CUBE[:4, :2], [("quad", [[0, 1, 2, 3]])])
    for normal in ((1, 0), (1e200, 0), (1e200, 0, 0)):
        with pytest.raises(cicelybeam.MeshError, match="cut it by a line"):
            cicelybeam.cut_plane(mesh, (0.5, 0.5), normal)


@pytest.mark.parametrize("direction,words", [("1e200,0,0", "the direction (1e+200, 0.0, 0.0) is too large or too small: its squares cannot be added up; "
                                              "scale it to about 1"), ("1e-200,0,0", "no direction")])
def test_directions_are_not_scaled(tmp_path, capsys, direction, words):
    box(1).write(tmp_path / "box.vtu")
    assert run("line", tmp_path / "box.vtu", "--origin", "0,0.5,0.5", "--direction", direction) == 1
    said = capsys.readouterr().err
    assert words in said and "scaled=False" not in said


# ---- what is told


@pytest.mark.parametrize("normal,power,why", [
    ((1e200, 0, 0), -664, OVERFLOW), ((1.3e154, 1.3e154, 0), -511, OVERFLOW), ((1.7e308, 1e-20, 0), -1023, OVERFLOW),
    ((0, 1e-200, 0), 665, VANISH), ((0, 0, 5e-324), 1074, VANISH), ((-0.0, 0, 1e-320), 1064, VANISH),
    ((2e-157, 3e-157, 1e-157), 520, LOSE), ((3e-156, 0, 0), 517, LOSE),
    ((3.0, 5 * 5e-324, 0), -1, "which rounds a component"),
    ((1, 2, 3), None, ""), ((0, 0, 1e150), None, ""), ((1e-140, 0, 0), None, ""), ((1e154, 0, 0), None, ""), ((1.0, 5e-324, 0), None, "")], ids=str)
def test_the_record_says_where_it_matters(cube, normal, power, why):
    """And only there: where a normal as it is given is refused, or has another unit normal."""
    record = cicelybeam.cut_plane(cube, (0.5, 0.5, 0.5), normal).record
    assert (record.scaled, record.scaled_exponent, record.scaled_why) == (True, power, why)
    text = str(record).splitlines()
    if power is None:
        assert "scaled" not in str(record) and record.normal == cicelybeam.cut_plane(cube, (0.5, 0.5, 0.5), normal, scaled=False).record.normal
        return
    assert text[5] == f"normal            scaled by 2^{power}, {why}" and text[4].startswith("plane") and text[6].startswith("its axes")
    assert record.sentence().endswith(f"; the normal was scaled by 2^{power}, {why}.")
    try:
        as_given = cicelybeam.cut_plane(cube, (0.5, 0.5, 0.5), normal, scaled=False).record
    except cicelybeam.CicelybeamError:
        return
    assert as_given.normal != record.normal and why not in (OVERFLOW, VANISH)


def test_as_it_is_given(cube):
    """The record has the way, and its text is as it was."""
    one, two = (cicelybeam.cut_plane(cube, (0.5, 0.5, 0.5), (1, 2, 3), scaled=scaled) for scaled in (True, False))
    assert str(one) == str(two) and (one.record.scaled, two.record.scaled) == (True, False)
    assert {**one.record.as_dict(), "scaled": False} == two.record.as_dict()
    lossy = cicelybeam.cut_plane(cube, (0.5, 0.5, 0.5), (3e-156, 0, 0), scaled=False).record
    assert lossy.scaled_exponent is None and lossy.normal != [1, 0, 0]  # a few digits of it are wrong, as mefikit has them


@pytest.mark.parametrize("normal,scaled", [((0, 0, 7), True), ((0, 0, 7), False), ((1e200, 0, 1e190), True), ((5e-324, 0, 0), True)], ids=str)
def test_the_same_cut_by_what_the_report_tells(normal, scaled):
    mesh = cicelybeam.of_meshio(box(2))
    cut = cicelybeam.cut_plane(mesh, (0.5, 0.25, 0.3), normal, scaled=scaled)
    words = report.as_dict(cut)["made_by"]["command"]
    assert ("scaled=False" in words) == (not scaled)
    again = eval(words.replace("cicelybeam.read('mesh')", "mesh"), {"cicelybeam": cicelybeam, "mesh": mesh})  # noqa: S307
    assert again.record.as_dict() == cut.record.as_dict()


@pytest.fixture
def path(tmp_path):
    grouped().write(tmp_path / "box.msh", file_format="gmsh22")
    return tmp_path / "box.msh"


def command(path, normal, *more) -> subprocess.CompletedProcess:
    return subprocess.run([PROGRAM, "plane", path, "--origin", "0.4,0.5,0.3", "--normal", normal, *more], capture_output=True, text=True)


@pytest.mark.parametrize("normal,alike,power", [
    ("1e200,0,0", "1,0,0", "-664"), ("0,4.9e-324,0", "y", "1074"), ("1e308,1e308,1e308", "1,1,1", "-1023"), ("-0.0,0,-1e-320", "-0.0,0,-1", "1064"),
    ("-1e-310,0,0", "-x", "1030")])
def test_the_command(path, tmp_path, normal, alike, power):
    """The same files, lines and exit status, with one line more."""
    done = {}
    for name, given_normal in (("odd", normal), ("plain", alike)):
        folder = tmp_path / name
        folder.mkdir()
        done[name] = command(path, given_normal, "--picture", folder / "a.svg", "--vtk", folder / "a.vtp", "--traces", folder / "t.csv", "--table",
                             folder / "b.csv")
    odd, plain = done["odd"], done["plain"]
    assert (odd.returncode, odd.stderr) == (plain.returncode, plain.stderr) == (0, "")
    lines = [line for line in odd.stdout.splitlines() if not line.startswith("normal ")]
    assert lines[:-1] == plain.stdout.splitlines()[:-1] and len(odd.stdout.splitlines()) == len(lines) + 1
    assert f"\nnormal            scaled by 2^{power}, since " in odd.stdout and "scaled" not in plain.stdout
    first, last = lines[-1].split(f"; the normal was scaled by 2^{power}, since ")
    assert plain.stdout.splitlines()[-1] == first + last[re.search("[;.]", last).start() :]
    for name in ("a.svg", "a.vtp", "t.csv", "b.csv"):
        assert (tmp_path / "odd" / name).read_bytes() == (tmp_path / "plain" / name).read_bytes()


@pytest.mark.parametrize("normal,status,words", [
    ("1e-400,0,0", 1, "give a normal with a component other than 0"), ("0,0,0", 1, "give a normal with a component other than 0"),
    ("1e400,0,0", 2, "'1e400,0,0' is not two or three finite numbers"), ("nan,0,1", 2, "is not two or three finite numbers"),
    ("1e200,0", 1, "the mesh has 3 dimensions, and 2 numbers were given")])
def test_the_command_refuses(path, normal, status, words):
    done = command(path, normal)
    assert done.returncode == status and words in done.stderr and done.stdout == ""


def test_reports(path, tmp_path):
    """JSON has the way and the power; the page has the line and the sentence; and the command as it was given."""
    assert run("plane", path, "--origin", "0.4,0.5,0.3", "--normal", "1e200,0,0", "--quiet", "--report", tmp_path / "a.json") == 0
    found = json.loads((tmp_path / "a.json").read_text())
    assert (found["scaled"], found["scaled_exponent"], found["scaled_why"], found["normal"]) == (True, -664, OVERFLOW, [1, 0, 0])
    assert "the normal was scaled by 2^-664" in found["summary"] and "--normal 1e200,0,0" in found["made_by"]["command"]
    assert run("plane", path, "--origin", "0.4,0.5,0.3", "--normal", "1e200,0,0", "--quiet", "--report", tmp_path / "a.html") == 0
    parsed((tmp_path / "a.html").read_text())
    said = without_claims(tmp_path / "a.html")
    assert f"normal scaled by 2^-664, {OVERFLOW}" in said and f"the normal was scaled by 2^-664, {OVERFLOW}." in said
    cicelybeam.cut_plane(cicelybeam.read(path), (0.4, 0.5, 0.3), (1e200, 0, 0)).traces().write(tmp_path / "t.vtp")
    assert len(parts(tmp_path / "t.vtp")["Lines"]["offsets"])


@pytest.mark.parametrize("name", ["plane", "line"])
def test_help(name, capsys):
    with pytest.raises(SystemExit):
        run(name, "--help")
    said = " ".join(capsys.readouterr().out.split())
    assert ("of any length but 0; or an axis: x, -y, z" in said) == (name == "plane")
    assert ("of a length from 1e-150 to 1e150; or an axis: x, -y, z" in said) == (name == "line")


@pytest.mark.parametrize("length", [1e-150, 1e150])
def test_directions_of_these_lengths(length):
    """What the help says of them."""
    for direction in ((1, 0, 0), (1, 2, -3)):
        one, other = (cicelybeam.cut_line(box(2), (0.1, 0.2, 0.6), np.array(direction) * size).record for size in (1.0, length))
        assert other.covered == pytest.approx(one.covered, rel=1e-12) and one.covered > 0.1
