//! Cells on which cutting is likely to differ, at both widths. How they are cut: cuts.rs.

use crate::lists;
use crate::numbers::*;
use crate::random::Random;

/// A cell, before a cut is placed.
#[derive(Clone, Debug)]
pub struct Cell {
    pub number: u8,
    pub conn: Vec<u64>,
    pub coords: Vec<f64>,
}

/// Ends a face of a polyhedron.
const SEPARATOR: u64 = u64::MAX;

/// The most entries of a cell of any length.
const MOST: usize = 256;

/// The types of fixed shape: type number, nodes, and corners on the unit cube.
type Shape<const D: usize> = (u8, usize, &'static [[f64; D]]);

const TETRAHEDRON: &[[f64; 3]] = &[
    [0.0, 0.0, 0.0],
    [1.0, 0.0, 0.0],
    [0.0, 1.0, 0.0],
    [0.0, 0.0, 1.0],
];
const WEDGE: &[[f64; 3]] = &[
    [0.0, 0.0, 0.0],
    [1.0, 0.0, 0.0],
    [0.0, 1.0, 0.0],
    [0.0, 0.0, 1.0],
    [1.0, 0.0, 1.0],
    [0.0, 1.0, 1.0],
];
const BRICK: &[[f64; 3]] = &[
    [0.0, 0.0, 0.0],
    [1.0, 0.0, 0.0],
    [1.0, 1.0, 0.0],
    [0.0, 1.0, 0.0],
    [0.0, 0.0, 1.0],
    [1.0, 0.0, 1.0],
    [1.0, 1.0, 1.0],
    [0.0, 1.0, 1.0],
];
const TRIANGLE: &[[f64; 2]] = &[[0.0, 0.0], [1.0, 0.0], [0.0, 1.0]];
const SQUARE: &[[f64; 2]] = &[[0.0, 0.0], [1.0, 0.0], [1.0, 1.0], [0.0, 1.0]];

const SPACE_SHAPES: [Shape<3>; 6] = [
    (12, 4, TETRAHEDRON),
    (13, 10, TETRAHEDRON),
    (14, 8, BRICK),
    (15, 21, BRICK),
    (16, 6, WEDGE),
    (17, 15, WEDGE),
];
const PLANE_SHAPES: [Shape<2>; 6] = [
    (5, 3, TRIANGLE),
    (6, 6, TRIANGLE),
    (7, 7, TRIANGLE),
    (8, 4, SQUARE),
    (9, 8, SQUARE),
    (10, 9, SQUARE),
];

/// The faces of a brick, as a polyhedron has them.
const BRICK_FACES: [[u64; 4]; 6] = [
    [0, 3, 2, 1],
    [4, 5, 6, 7],
    [0, 1, 5, 4],
    [2, 3, 7, 6],
    [1, 2, 6, 5],
    [3, 0, 4, 7],
];

/// A space cell of any type, or of this one.
pub fn space_cell(random: &mut Random, number: Option<u8>) -> Cell {
    let number = number.unwrap_or_else(|| 12 + random.within(0, 7).min(6) as u8);
    match SPACE_SHAPES.iter().find(|shape| shape.0 == number) {
        Some(shape) => shaped(random, shape),
        None => polyhedron(random),
    }
}

/// A plane cell of any type, or of this one.
pub fn plane_cell(random: &mut Random, number: Option<u8>) -> Cell {
    let number = number.unwrap_or_else(|| 5 + random.within(0, 8).min(6) as u8);
    match PLANE_SHAPES.iter().find(|shape| shape.0 == number) {
        Some(shape) => shaped(random, shape),
        None => polygon(random),
    }
}

/// A kind of number for coordinates, small whole ones and ordinary ones the most often.
pub fn kind(random: &mut Random) -> Draw {
    match random.below(16) {
        0..=4 => whole,
        5..=8 => ordinary,
        9 => huge,
        10 => tiny,
        11 => maybe_tiny,
        12 => maybe_infinite,
        13 | 14 => maybe_nan,
        _ => any,
    }
}

fn point<const D: usize>(random: &mut Random, draw: Draw) -> [f64; D] {
    std::array::from_fn(|_| draw(random))
}

/// Corners as they are on the unit cube, moved and scaled, with noise, or of one kind of number.
fn corners<const D: usize>(random: &mut Random, shape: &[[f64; D]]) -> Vec<[f64; D]> {
    match random.below(4) {
        0 => {
            let scale = random.pick(&[1.0, 3.0, 1e-3, 1e3, 1e-160, 1e150]);
            let shift: [f64; D] = std::array::from_fn(|_| random.pick(&[0.0, 1.0, -7.5, 1e6]));
            let moved = |p: &[f64; D]| std::array::from_fn(|k| p[k] * scale + shift[k]);
            shape.iter().map(moved).collect()
        }
        1 => {
            let noise = random.pick(&[0.3, 1e-3, 1e-9, 1e-12, 1e-15]);
            let mut moved = |x: f64| x + noise * ordinary(random);
            shape.iter().map(|p| p.map(&mut moved)).collect()
        }
        _ => {
            let draw = kind(random);
            shape.iter().map(|_| point(random, draw)).collect()
        }
    }
}

/// A hexahedron of eight different corners. The plane across its third axis through its corner 0 cuts it along two triangles
/// that share that corner, since the edge from 6 to 7 passes through it; the one is this many times as long as the other.
fn touching_corners(times: f64) -> [[f64; 3]; 8] {
    let [x, y] = [1.0 - 2.0 * times, 2.0 * times];
    [
        [0.0, 0.0, 0.0],
        [-1.0, 0.0, -1.0],
        [x, y, 1.0],
        [1.0, -2.0, 1.0],
        [1.0, 2.0, 1.0],
        [x, -y, 1.0],
        [-1.0, 0.0, 1.0],
        [1.0, 0.0, -1.0],
    ]
}

/// That hexahedron, of either type or of this one, scaled, moved and turned, its corners numbered along the brick's from any one
/// on; and origin and normal of that plane.
pub fn touching(random: &mut Random, number: Option<u8>) -> (Cell, [[f64; 3]; 2]) {
    let number = number.unwrap_or_else(|| random.pick(&[14, 15]));
    let scale = random.pick(&[1.0, 0.5, 4.0, 2f64.powi(-30)]);
    let shift: [f64; 3] = std::array::from_fn(|_| random.pick(&[0.0, 1.0, -8.0]));
    let turn = random.within(0, 2);
    let moved = |p: [f64; 3]| std::array::from_fn(|k| scale * (p[(k + turn) % 3] + shift[k]));
    let times = random.pick(&[1.0, 2.0, 3.0]);
    let corners = touching_corners(times).map(moved);
    let renumbered = renumbered(random).map(|k| corners[k]);
    let shape = SPACE_SHAPES.iter().find(|shape| shape.0 == number).unwrap();
    let cell = with_mid_sides(random, shape, &renumbered);
    let normal = std::array::from_fn(|k| if (k + turn) % 3 == 2 { 1.0 } else { 0.0 });
    (cell, [corners[0], normal])
}

/// The corners of the brick in another order, by which its edges and faces stay edges and faces: its axes are exchanged and
/// turned round.
fn renumbered(random: &mut Random) -> [usize; 8] {
    let mut axes = [0, 1, 2];
    random.shuffle(&mut axes);
    let turned: [bool; 3] = std::array::from_fn(|_| random.one_in(2));
    std::array::from_fn(|corner| {
        let image: [f64; 3] = std::array::from_fn(|k| {
            let x = BRICK[corner][axes[k]];
            if turned[k] {
                1.0 - x
            } else {
                x
            }
        });
        BRICK.iter().position(|p| *p == image).unwrap()
    })
}

/// A type of fixed shape.
fn shaped<const D: usize>(random: &mut Random, shape: &Shape<D>) -> Cell {
    let points = corners(random, shape.2);
    with_mid_sides(random, shape, &points)
}

/// A cell with these corners. Its mid-side nodes are any numbers at all.
fn with_mid_sides<const D: usize>(
    random: &mut Random,
    shape: &Shape<D>,
    points: &[[f64; D]],
) -> Cell {
    let mut cell = numbered(random, shape.0, points);
    let mid_sides = shape.1 - shape.2.len();
    let rows = (cell.coords.len() / D) as u64;
    let wild = random.pick(&[2u64.pow(32), 2u64.pow(63), u64::MAX - 1, u64::MAX]);
    for _ in 0..mid_sides {
        let node = match random.below(3) {
            0 => wild,
            1 => random.bits(),
            _ => random.below(rows + 2),
        };
        cell.conn.push(node);
    }
    if mid_sides > 0 && random.one_in(2) {
        // a row that only mid-side nodes have
        cell.coords.extend([f64::NAN; D]);
        cell.conn[shape.2.len()] = rows;
    }
    cell
}

/// The points in rows of any order, other rows among them, and the nodes that name them.
fn numbered<const D: usize>(random: &mut Random, number: u8, points: &[[f64; D]]) -> Cell {
    let rows = points.len() + random.pick(&[0, 0, 1, 5]);
    let mut places: Vec<usize> = (0..rows).collect();
    if random.one_in(2) {
        random.shuffle(&mut places);
    }
    let mut coords = vec![random.pick(&[f64::NAN, 1e9, 0.0]); D * rows];
    for (point, &row) in points.iter().zip(&places) {
        coords[D * row..][..D].copy_from_slice(point);
    }
    let conn = places[..points.len()].iter().map(|&row| row as u64);
    Cell {
        number,
        conn: conn.collect(),
        coords,
    }
}

// ---- polyhedra

fn polyhedron(random: &mut Random) -> Cell {
    let (points, faces) = match random.below(8) {
        0 => {
            let points = corners(random, BRICK);
            (points, BRICK_FACES.map(|face| face.to_vec()).to_vec())
        }
        1 | 2 => prism(random),
        3 | 4 => walls(random),
        5 => one_face(random),
        _ => random_faces(random),
    };
    listed(random, &points, faces)
}

/// A prism on a polygon of 3 to 36 corners.
fn prism(random: &mut Random) -> (Vec<[f64; 3]>, Vec<Vec<u64>>) {
    let most = random.pick(&[6, 6, 12, 36]);
    let n = random.within(3, most);
    let flat = ring(random, n);
    let level = |z: f64| flat.iter().map(move |p| [p[0], p[1], z]);
    let points = level(-1.0).chain(level(1.0)).collect();
    let n = n as u64;
    let mut faces = vec![(0..n).rev().collect(), (n..2 * n).collect()];
    faces.extend((0..n).map(|k| {
        let next = (k + 1) % n;
        vec![k, next, next + n, k + n]
    }));
    (points, faces)
}

/// A wall over each segment of a list that stitching is tried on, so that the section at height 0 is that
/// list: junctions, flat and open walks among them.
fn walls(random: &mut Random) -> (Vec<[f64; 3]>, Vec<Vec<u64>>) {
    let group = random.pick(&[0, 1, 2, 3, 4, 5, 6, 7, 8]);
    let mut list = (lists::GROUPS[group].2)(random).segments;
    list.truncate(51);
    let mut points = Vec::new();
    let mut faces = Vec::new();
    for [a, b] in list {
        let first = points.len() as u64;
        points.extend([a, b].map(|p| [p[0], p[1], -1.0]));
        points.extend([b, a].map(|p| [p[0], p[1], 1.0]));
        faces.push((first..first + 4).collect());
    }
    (points, faces)
}

/// One face of many corners, above and below in turn or anyhow.
fn one_face(random: &mut Random) -> (Vec<[f64; 3]>, Vec<Vec<u64>>) {
    let n = random.pick(&[6, 9, 40, 255, 256]);
    let in_turn = random.one_in(2);
    let corner = |k: usize| {
        let [x, y, z] = point(random, ordinary);
        let side = if k.is_multiple_of(2) { 1.0 } else { -1.0 };
        [x, y, if in_turn { side * (z.abs() + 0.01) } else { z }]
    };
    ((0..n).map(corner).collect(), vec![(0..n as u64).collect()])
}

/// Faces of none to eight corners among few points, few faces or as many as fit.
fn random_faces(random: &mut Random) -> (Vec<[f64; 3]>, Vec<Vec<u64>>) {
    let draw = kind(random);
    let points: Vec<_> = (0..random.within(3, 10))
        .map(|_| point(random, draw))
        .collect();
    let most = random.pick(&[8, 8, 20, 60]);
    let mut face = || -> Vec<u64> {
        let n = random.pick(&[0, 1, 2, 3, 3, 3, 4, 4, 5, 8]);
        (0..n).map(|_| random.below(points.len() as u64)).collect()
    };
    let faces = (0..most).map(|_| face()).collect();
    (points, faces)
}

/// The faces as one list, short ones put in whose nodes are no rows; now and then as long as may be, or
/// with separators at its end.
fn listed(random: &mut Random, points: &[[f64; 3]], mut faces: Vec<Vec<u64>>) -> Cell {
    let row_of = numbered(random, 18, points);
    for node in faces.iter_mut().flatten() {
        *node = row_of.conn[*node as usize];
    }
    if random.one_in(4) {
        let wild = random.pick(&[0, 1u64 << 40, u64::MAX - 1]);
        let short = vec![wild; random.within(0, 2)];
        let place = random.within(0, faces.len());
        faces.insert(place, short);
    }
    let mut conn = faces.join(&SEPARATOR);
    if random.one_in(8) {
        conn.push(SEPARATOR);
    }
    if random.one_in(32) {
        conn.resize(MOST, SEPARATOR);
    }
    conn.truncate(MOST);
    Cell { conn, ..row_of }
}

// ---- polygons

/// A regular polygon, moved or not.
fn ring(random: &mut Random, n: usize) -> Vec<[f64; 2]> {
    let [x, y] = random.pick(&[[0.0, 0.0], [0.25, -3.0]]);
    let corner = |k: usize| {
        let angle = std::f64::consts::TAU * k as f64 / n as f64;
        [x + angle.cos(), y + angle.sin()]
    };
    (0..n).map(corner).collect()
}

fn polygon(random: &mut Random) -> Cell {
    let most = random.pick(&[3, 6, 6, 6, 12, 40, 256]);
    let n = match random.below(8) {
        0 => most,
        _ => random.within(0, most),
    };
    let points = match random.below(4) {
        0 => ring(random, n),
        1 => (0..n)
            .map(|k| [k as f64, if k % 2 == 0 { 1.0 } else { -1.0 }])
            .collect(),
        _ => {
            let draw = kind(random);
            (0..n).map(|_| point(random, draw)).collect()
        }
    };
    let mut cell = numbered(random, 11, &points);
    if n > 0 && random.one_in(4) {
        // a corner twice
        let again = random.pick(&cell.conn);
        let place = random.within(0, n - 1);
        cell.conn[place] = again;
    }
    cell
}
