//! Prints nanoseconds a call, the proved entries beside the Rust's functions, in one run on the same inputs.
//! The Rust's side has its cell made before the clock runs, and forms the vectors within it, as ours does. It takes each normal as it
//! is given.

use compare::answers::{answer, room};
use compare::entries::{ours, Case, Entry, Lent, Told};
use compare::nanoseconds;
use oracle::mesh::Element;
use oracle::rust::reach;
use oracle::Build;
use std::f64::consts::TAU;
use std::hint::black_box;

const UNIT_CUBE: [f64; 24] = [
    0.0, 0.0, 0.0, 1.0, 0.0, 0.0, 1.0, 1.0, 0.0, 0.0, 1.0, 0.0, // the base
    0.0, 0.0, 1.0, 1.0, 0.0, 1.0, 1.0, 1.0, 1.0, 0.0, 1.0, 1.0, // above it
];
const TETRAHEDRON: [f64; 12] = [0.0, 0.0, 0.0, 1.0, 0.0, 0.0, 0.0, 1.0, 0.0, 0.0, 0.0, 1.0];
const WEDGE: [f64; 18] = [
    0.0, 0.0, 0.0, 1.0, 0.0, 0.0, 0.0, 1.0, 0.0, // the base
    0.0, 0.0, 1.0, 1.0, 0.0, 1.0, 0.0, 1.0, 1.0, // above it
];
const SQUARE: [f64; 8] = [0.0, 0.0, 1.0, 0.0, 1.0, 1.0, 0.0, 1.0];
const UP: [f64; 3] = [0.0, 0.0, 1.0];

fn main() {
    println!("nanoseconds a call                proved     Rust    proved/Rust");
    let at = |z| [0.0, 0.0, z];
    let middle = [0.5; 3];
    let tetrahedron = |origin: [f64; 3]| cell(Entry::Plane, 12, &TETRAHEDRON, &origin, &UP);
    let brick =
        |origin: [f64; 3], normal: [f64; 3]| cell(Entry::Plane, 14, &UNIT_CUBE, &origin, &normal);
    compared("tetrahedron, a triangle", 500_000, &tetrahedron(at(0.25)));
    compared("tetrahedron, missed", 1_000_000, &tetrahedron(at(2.0)));
    compared("brick, a square", 500_000, &brick(at(0.5), UP));
    compared(
        "the same in the strict way",
        500_000,
        &strict(brick(at(0.5), UP)),
    );
    compared(
        "the same by a scaled normal",
        500_000,
        &scaled(brick(at(0.5), UP)),
    );
    compared("brick, a hexagon", 500_000, &brick(middle, [1.0; 3]));
    let gathered = |number, coords: &[f64], z| cell(Entry::Gather, number, coords, &at(z), &UP);
    let tetrahedron = gathered(12, &TETRAHEDRON, 0.25);
    compared("tetrahedron, gathered", 500_000, &tetrahedron);
    compared("brick, gathered", 500_000, &gathered(14, &UNIT_CUBE, 0.5));
    let wedge = cell(Entry::Plane, 16, &WEDGE, &at(0.5), &UP);
    compared("wedge, a triangle", 500_000, &wedge);
    compared("brick as a polyhedron, a square", 500_000, &polyhedron(0.5));
    compared("brick as a polyhedron, missed", 500_000, &polyhedron(2.0));
    compared("polyhedron of 50 quadrilaterals", 50_000, &tube(50));
    let line = cell(
        Entry::LineInSpace,
        14,
        &UNIT_CUBE,
        &middle,
        &[1.0, 2.0, 3.0],
    );
    compared("line through the brick", 200_000, &line);
    let square = cell(Entry::PlaneCellByNormal, 8, &SQUARE, &[0.5; 2], &[0.0, 1.0]);
    compared("quadrilateral by normal", 1_000_000, &square);
    compared("the same by a scaled normal", 1_000_000, &scaled(square));
    compared("384 segments stitched", 4_000, &ring(384));
    compared("the same in the strict way", 4_000, &strict(ring(384)));
}

fn scaled(case: Case) -> Case {
    Case { scaled: 1, ..case }
}

fn strict(case: Case) -> Case {
    Case { strict: 1, ..case }
}

/// A cell whose nodes are all rows in their order, with the tolerance of its mesh.
fn cell(entry: Entry, number: u8, coords: &[f64], origin: &[f64], vector: &[f64]) -> Case {
    let width = entry.width();
    lent(Case {
        number,
        conn: (0..(coords.len() / width) as u64).collect(),
        coords: coords.to_vec(),
        origin: origin.to_vec(),
        vector: vector.to_vec(),
        tol: oracle::tolerance(width, coords).unwrap(),
        ..Case::new(entry)
    })
}

/// The case with buffers that fit.
fn lent(case: Case) -> Case {
    let lent = room(&case);
    Case { lent, ..case }
}

/// The brick handed over as a polyhedron of its six faces, cut at a height.
fn polyhedron(z: f64) -> Case {
    const FACES: [[u64; 4]; 6] = [
        [0, 3, 2, 1],
        [4, 5, 6, 7],
        [0, 1, 5, 4],
        [2, 3, 7, 6],
        [1, 2, 6, 5],
        [3, 0, 4, 7],
    ];
    let mut case = cell(Entry::Plane, 18, &UNIT_CUBE, &[0.0, 0.0, z], &UP);
    case.conn = FACES.join(&u64::MAX);
    lent(case)
}

/// A ring of `n` walls, cut at half its height.
fn tube(n: u64) -> Case {
    let level = |z: f64| {
        (0..n).flat_map(move |k| {
            let angle = TAU * k as f64 / n as f64;
            [angle.cos(), angle.sin(), z]
        })
    };
    let coords: Vec<f64> = level(0.0).chain(level(1.0)).collect();
    let wall = |k: u64| vec![k, (k + 1) % n, n + (k + 1) % n, n + k];
    let faces: Vec<Vec<u64>> = (0..n).map(wall).collect();
    let mut case = cell(Entry::Plane, 18, &coords, &[0.0, 0.0, 0.5], &UP);
    case.conn = faces.join(&u64::MAX);
    lent(case)
}

/// A ring of `n` segments, in their order.
fn ring(n: usize) -> Case {
    let corner = |k: usize| {
        let angle = TAU * (k % n) as f64 / n as f64;
        [angle.cos(), angle.sin()]
    };
    let numbers = |k| [corner(k), corner(k + 1)].concat();
    lent(Case {
        segments: (0..n).flat_map(numbers).collect(),
        tol: 1e-12,
        ..Case::new(Entry::Stitch)
    })
}

fn compared(name: &str, rounds: u32, case: &Case) {
    let mut numbers = vec![0.0; case.lent[0]];
    let (mut nodes, mut ends) = (vec![0; case.lent[1]], vec![0; case.lent[2]]);
    let mut cut = || {
        let lent = Lent {
            numbers: &mut numbers,
            nodes: &mut nodes,
            ends: &mut ends,
        };
        ours(black_box(case), black_box(lent))
    };
    assert_eq!(cut(), expected(case));
    let proved = nanoseconds(rounds, cut);
    let rust = by_the_rust(rounds, case);
    println!(
        "{name:<32} {proved:>7.0}  {rust:>7.0}    {:>7.2}",
        proved / rust
    );
}

fn expected(case: &Case) -> Told {
    answer(case, Build::Counted).told
}

fn by_the_rust(rounds: u32, case: &Case) -> f64 {
    let nodes: Vec<usize> = case.conn.iter().map(|&node| node as usize).collect();
    let cell = || -> Element {
        oracle::element(oracle::Cell {
            number: case.number,
            nodes: &nodes,
            coords: &case.coords,
        })
        .unwrap()
    };
    let tol = case.tol;
    match case.entry {
        Entry::Plane => {
            let (cell, origin, normal) = (cell(), array(&case.origin), array(&case.vector));
            nanoseconds(rounds, || {
                let vectors = reach::plane_vectors(black_box(&normal));
                reach::plane_cut(black_box(&cell), black_box(&origin), &vectors, tol)
            })
        }
        Entry::Gather => {
            let (cell, origin, normal) = (cell(), array(&case.origin), array(&case.vector));
            nanoseconds(rounds, || {
                let vectors = reach::plane_vectors(black_box(&normal));
                reach::plane_segments(black_box(&cell), black_box(&origin), &vectors, tol)
            })
        }
        Entry::LineInSpace => {
            let (cell, origin, direction) = (cell(), array(&case.origin), array(&case.vector));
            nanoseconds(rounds, || {
                let vectors = reach::line_vectors(black_box(&direction));
                reach::line_cut(black_box(&cell), black_box(&origin), &vectors, tol)
            })
        }
        Entry::PlaneCellByNormal => {
            let (cell, origin, normal) = (cell(), array::<2>(&case.origin), array(&case.vector));
            nanoseconds(rounds, || {
                let normal = reach::unit::<2>(black_box(&normal));
                let polygon = reach::cell_polygon(black_box(&cell));
                reach::plane_section_segments(&polygon, black_box(&origin), &normal, tol)
            })
        }
        Entry::Stitch => {
            let segments: Vec<[[f64; 2]; 2]> = case
                .segments
                .chunks_exact(4)
                .map(|s| [[s[0], s[1]], [s[2], s[3]]])
                .collect();
            nanoseconds(rounds, || reach::stitch_segments(black_box(&segments), tol))
        }
        other => panic!("{other:?} is not timed"),
    }
}

fn array<const D: usize>(list: &[f64]) -> [f64; D] {
    list.try_into().unwrap()
}
