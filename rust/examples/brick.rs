//! Cuts the unit brick at half its height, and prints the segments of its faces and its section.

use cicelybeam::{cut_by_plane, gather, tolerance_in_space, Refusal, SpaceType};

const COORDS: [f64; 24] = [
    0., 0., 0., 1., 0., 0., 1., 1., 0., 0., 1., 0., // the base
    0., 0., 1., 1., 0., 1., 1., 1., 1., 0., 1., 1., // above it
];
const NODES: [u64; 8] = [0, 1, 2, 3, 4, 5, 6, 7];

fn main() -> Result<(), Refusal> {
    let (origin, normal) = ([0., 0., 0.5], [0., 0., 1.]);
    let tol = tolerance_in_space(&COORDS)?;
    let gathered = gather(
        SpaceType::Hex8,
        &NODES,
        &COORDS,
        &origin,
        &normal,
        false,
        tol,
    )?;
    for (number, [a, b]) in gathered.segments.iter().enumerate() {
        println!("segment {number}: {} {} to {} {}", a[0], a[1], b[0], b[1]);
    }
    let section = cut_by_plane(
        SpaceType::Hex8,
        &NODES,
        &COORDS,
        &origin,
        &normal,
        false,
        false,
        tol,
    )?;
    for (number, [x, y]) in section.points.iter().enumerate() {
        println!("point {number}: {x} {y}");
    }
    for nodes in section.loops() {
        let nodes: Vec<String> = nodes.iter().map(u32::to_string).collect();
        println!("loop {}", nodes.join(" "));
    }
    let edges = section.edges;
    println!(
        "edges listed {}: in loops {}, flat {}, open {}",
        edges.listed, edges.in_loops, edges.flat, edges.open
    );
    println!("crossings in the middle by default: {}", section.defaulted);
    println!("comparisons of points: {}", section.comparisons);
    Ok(())
}
