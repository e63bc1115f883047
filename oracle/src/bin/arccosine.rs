//! Finds segments on which the Rust, comparing arccosines, takes another edge than
//! the rules, comparing cosines. The arccosine is the C library's, so another machine may give
//! other arccosines; the cosines are the same everywhere.
//!
//! The shape is always the same: a walk comes along (1,0) to (0,0), where two edges are nearly
//! equally straight on. The first closes a triangle above, the second one below.

use oracle::*;

const FROM: [f64; 2] = [-1.0, 0.0];
const BELOW: [f64; 2] = [-1.0, -1.0];
/// Greatest whole number tried as a coordinate, and how many such inputs are printed.
const GREATEST: i32 = 24;
const PRINTED: usize = 3;

fn main() {
    let (found, tried) = whole_numbers();
    println!("Edges to (p,q) above and (r,t) below, whole numbers up to {GREATEST}, least first:");
    println!(
        "{tried} pairs with the second cosine greater, {} where the Rust keeps the first.",
        found.len()
    );
    for (above, below) in found.iter().take(PRINTED) {
        show(*above, *below);
    }
    println!("\nAn edge to (0,1) above and (2^-k,-1) below, least k on which they differ:");
    let tiny = (1..1075).map(|k| (k, [0.0, 1.0], [2f64.powi(-k), -1.0]));
    for (k, above, below) in tiny
        .filter(|(_, above, below)| differ(*above, *below))
        .take(1)
    {
        println!("k = {k}; the two triangles, walked as one, have area 0 and are flat");
        show(above, below);
    }
    if let Some((above, below)) = found.first() {
        in_a_cell(*above, *below);
    }
    neighbours();
}

/// The steps above and below.
type Steps = ([f64; 2], [f64; 2]);

/// All pairs of small whole numbers on which the builds differ, and how many might have.
fn whole_numbers() -> (Vec<Steps>, usize) {
    let (mut found, mut tried) = (Vec::new(), 0);
    for size in 1..=GREATEST {
        let quarter = (1..=size).flat_map(|p| (1..=size).map(move |q| [p, q]));
        for above in quarter.clone() {
            for [r, t] in quarter.clone() {
                if above.into_iter().chain([r, t]).all(|k| k < size) {
                    continue;
                }
                let (above, below) = (above.map(f64::from), [r, -t].map(f64::from));
                if cosine(below) > cosine(above) {
                    tried += 1;
                    if differ(above, below) {
                        found.push((above, below));
                    }
                }
            }
        }
    }
    (found, tried)
}

/// The cosine between the step (1,0) and this one, as slice.rs works it out.
fn cosine(step: [f64; 2]) -> f64 {
    let norm = (step[0] * step[0] + step[1] * step[1]).sqrt();
    (1.0 * step[0] + 0.0 * step[1]) / (1.0 * norm)
}

fn segments(above: [f64; 2], below: [f64; 2]) -> [Segment<2>; 6] {
    let here = [0.0, 0.0];
    [
        [FROM, here],
        [here, above],
        [above, FROM],
        [here, below],
        [below, BELOW],
        [BELOW, here],
    ]
}

fn differ(above: [f64; 2], below: [f64; 2]) -> bool {
    let segments = segments(above, below);
    stitch(Build::Rust, &segments, 0.0) != stitch(Build::ByCosine, &segments, 0.0)
}

fn show(above: [f64; 2], below: [f64; 2]) {
    let segments = segments(above, below);
    println!("\n  segments, tol 0:");
    for [a, b] in segments {
        println!("    ({:?}, {:?}) - ({:?}, {:?})", a[0], a[1], b[0], b[1]);
        println!(
            "      {} {} {} {}",
            hex(a[0]),
            hex(a[1]),
            hex(b[0]),
            hex(b[1])
        );
    }
    println!("  at (0,0), coming from (-1,0):");
    for step in [above, below] {
        let cos = cosine(step);
        let arc = cos.clamp(-1.0, 1.0).acos();
        println!("    to ({:?}, {:?})", step[0], step[1]);
        println!("      cosine    {cos:?} {}", hex(cos));
        println!("      arccosine {arc:?} {}", hex(arc));
    }
    answer("Rust       ", &stitch(Build::Rust, &segments, 0.0));
    answer("the rules  ", &stitch(Build::ByCosine, &segments, 0.0));
}

/// The same segments as the section of one PHED: walls of height 1 over them, cut half way up.
fn in_a_cell(above: [f64; 2], below: [f64; 2]) {
    let ground = [FROM, [0.0, 0.0], above, below, BELOW];
    let level = |z: f64| ground.iter().flat_map(move |p| [p[0], p[1], z]);
    let coords: Vec<f64> = level(0.0).chain(level(1.0)).collect();
    let walls = [[0, 1], [1, 2], [2, 0], [1, 3], [3, 4], [4, 1]];
    let mut nodes = Vec::new();
    for [a, b] in walls {
        nodes.extend([a, b, b + 5, a + 5, usize::MAX]);
    }
    let cell = Cell {
        number: 18,
        nodes: &nodes,
        coords: &coords,
    };
    let cut = |build| plane_cut(build, cell, &[0.0, 0.0, 0.5], &[0.0, 0.0, 1.0], 0.0);
    println!(
        "\nThe first of these as a whole cut: a PHED of walls over the segments, z from 0 to 1,"
    );
    println!("origin (0,0,0.5), normal (0,0,1), tol 0.");
    println!("  coordinates {coords:?}");
    let named: Vec<String> = nodes.iter().map(|&node| name(node)).collect();
    println!("  nodes {}", named.join(" "));
    answer("Rust       ", &cut(Build::Rust).unwrap());
    answer("the rules  ", &cut(Build::ByCosine).unwrap());
}

/// Neighbouring cosines over the whole range: how often arccosines are equal, or reversed.
fn neighbours() {
    let (mut pairs, mut equal, mut reversed) = (0u32, 0u32, 0u32);
    for start in 0..2000 {
        let start = (f64::from(start) + 0.5) / 1000.0 - 1.0;
        let mut cos = start;
        for _ in 0..1000 {
            let next = cos.next_up();
            let (arc, arc_next) = (cos.acos(), next.acos());
            pairs += 1;
            equal += u32::from(arc == arc_next);
            reversed += u32::from(arc < arc_next);
            cos = next;
        }
    }
    println!("\nNeighbouring cosines from -1 to 1, {pairs} pairs: {equal} with equal arccosines, {reversed} reversed.");
}

fn answer(who: &str, section: &Section) {
    println!("  {who} points {:?}", section.points);
    if section.loops.is_empty() {
        println!("  {who} no loops");
    }
    for nodes in &section.loops {
        println!(
            "  {who} loop {nodes:?}, area {:?}",
            area(nodes, &section.points)
        );
    }
}

fn name(node: usize) -> String {
    if node == usize::MAX {
        "MAX".into()
    } else {
        node.to_string()
    }
}

fn hex(x: f64) -> String {
    format!("{:016x}", x.to_bits())
}
