//! Cells that the plane passes through and that list no edge at all: how many there are in an ordinary
//! tetrahedral mesh with tolerance 0 and with the mesh's own tolerance, by the proved entry and by the Rust;
//! and the smallest such cell among tetrahedra with small whole coordinates.

use compare::entries::{ours, Case, Entry, Lent};
use compare::random::Random;
use oracle::{Build, Cell};

/// Cubes along each axis of the mesh.
const CUBES: usize = 20;

/// A cube as six tetrahedra around the diagonal from corner 0 to corner 7; corner numbers have one bit an axis.
const TETRAHEDRA: [[usize; 4]; 6] = [
    [0, 1, 3, 7],
    [0, 3, 2, 7],
    [0, 2, 6, 7],
    [0, 6, 4, 7],
    [0, 4, 5, 7],
    [0, 5, 1, 7],
];

fn main() {
    let (coords, cells) = mesh(&mut Random::new(1));
    let origin = [0.5, 0.5, 0.5];
    let normal = [1.0, 2.0, 3.0];
    let own = oracle::tolerance(3, &coords).unwrap();
    println!(
        "{} tetrahedra, origin {origin:?}, normal {normal:?}",
        cells.len()
    );
    for (name, tol) in [("0", 0.0), ("the mesh's own", own)] {
        let mut crossed = 0;
        let mut unseen = [0; 2];
        for nodes in &cells {
            let case = case(&coords, nodes, &origin, &normal, tol);
            if crosses(&case) {
                crossed += 1;
                for (count, listed) in unseen.iter_mut().zip([listed(&case), rust_segments(&case)])
                {
                    *count += usize::from(listed == 0);
                }
            }
        }
        println!(
            "tolerance {name} ({tol:e}): the plane passes through {crossed}; of these {} list no edge, and {} have no \
             segment in the Rust",
            unseen[0], unseen[1]
        );
    }
    smallest();
}

/// A lattice of cubes with its inner points moved a little, cut into tetrahedra.
fn mesh(random: &mut Random) -> (Vec<f64>, Vec<[u64; 4]>) {
    let side = CUBES + 1;
    let number = |at: [usize; 3]| at[0] + side * (at[1] + side * at[2]);
    let mut coords = Vec::new();
    for z in 0..side {
        for y in 0..side {
            for x in 0..side {
                for k in [x, y, z] {
                    let moved = random.below(2001) as f64 / 10_000.0 - 0.1;
                    coords.push((k as f64 + moved) / CUBES as f64);
                }
            }
        }
    }
    let mut cells = Vec::new();
    for cube in 0..CUBES * CUBES * CUBES {
        let low = [cube % CUBES, cube / CUBES % CUBES, cube / CUBES / CUBES];
        for tetrahedron in TETRAHEDRA {
            cells.push(tetrahedron.map(|corner| {
                number([
                    low[0] + (corner & 1),
                    low[1] + (corner >> 1 & 1),
                    low[2] + (corner >> 2),
                ]) as u64
            }));
        }
    }
    (coords, cells)
}

/// The four corners as a case of their own.
fn case(coords: &[f64], nodes: &[u64; 4], origin: &[f64; 3], normal: &[f64; 3], tol: f64) -> Case {
    let mut case = Case::new(Entry::Plane);
    case.number = 12;
    case.conn = vec![0, 1, 2, 3];
    for &node in nodes {
        let at = 3 * node as usize;
        case.coords.extend(&coords[at..at + 3]);
    }
    case.origin = origin.to_vec();
    case.vector = normal.to_vec();
    case.tol = tol;
    case.lent = [72, 18, 6];
    case
}

/// Whether a corner is above the tolerance and another below its negative.
fn crosses(case: &Case) -> bool {
    let norm = case.vector.iter().map(|x| x * x).sum::<f64>().sqrt();
    let distance = |corner: &[f64]| -> f64 {
        (0..3)
            .map(|k| (corner[k] - case.origin[k]) * (case.vector[k] / norm))
            .sum()
    };
    let distances: Vec<f64> = case.coords.chunks(3).map(distance).collect();
    distances.iter().any(|&d| d > case.tol) && distances.iter().any(|&d| d < -case.tol)
}

/// The edges that the proved entry lists.
fn listed(case: &Case) -> u32 {
    let mut numbers = vec![0.0; case.lent[0]];
    let mut nodes = vec![0; case.lent[1]];
    let mut ends = vec![0; case.lent[2]];
    let lent = Lent {
        numbers: &mut numbers,
        nodes: &mut nodes,
        ends: &mut ends,
    };
    let told = ours(case, lent);
    assert_eq!(told.refusal, 0, "{}", case.told());
    told.listed
}

/// The segments that the Rust stitches.
fn rust_segments(case: &Case) -> u32 {
    let nodes: Vec<usize> = case.conn.iter().map(|&node| node as usize).collect();
    let cell = Cell {
        number: case.number,
        nodes: &nodes,
        coords: &case.coords,
    };
    let origin = case.origin[..].try_into().unwrap();
    let normal = case.vector[..].try_into().unwrap();
    oracle::plane_segments(Build::Rust, cell, origin, normal, case.tol)
        .unwrap()
        .len() as u32
}

/// Of the tetrahedra at the origin and on the axes, with origin and normal of small whole numbers over a small
/// denominator, the first that the plane passes through, tolerance 0, and that lists no edge in either.
fn smallest() {
    let corners = [0., 0., 0., 1., 0., 0., 0., 1., 0., 0., 0., 1.];
    for size in 1..12u32 {
        for code in 0..(size + 1).pow(3) {
            let digit = |k: u32| f64::from(code / (size + 1).pow(k) % (size + 1));
            let normal = [digit(0), digit(1), digit(2)];
            for part in [2.0, 4.0, 8.0] {
                let origin = [1.0 / part, 0.0, 0.0];
                let case = case(&corners, &[0, 1, 2, 3], &origin, &normal, 0.0);
                let largest = normal.iter().fold(0.0, |a: f64, &b| a.max(b));
                if largest != f64::from(size) || !crosses(&case) {
                    continue;
                }
                if listed(&case) == 0 && rust_segments(&case) == 0 {
                    println!(
                        "the smallest: TET4 (0,0,0) (1,0,0) (0,1,0) (0,0,1), origin {origin:?}, normal {normal:?}, \
                         tolerance 0: listed 0, in loops 0, flat 0, open 0; the Rust has no segment"
                    );
                    return;
                }
            }
        }
    }
    println!("no small example found");
}
