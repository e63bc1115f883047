//! Prints nanoseconds a list stitched, the proved stitching in both ways beside the Rust's, in one run.

use compare::lists::List;
use compare::nanoseconds;
use compare::random::Random;
use compare::stitching::ours;
use std::hint::black_box;

fn main() {
    println!("nanoseconds a list                proved   strict     Rust  strict/proved");
    compared("the brick's 4 segments", 1_000_000, &brick());
    compared("ring of 24", 200_000, &ring(24));
    compared("ring of 96", 40_000, &ring(96));
    compared("ring of 384", 4_000, &ring(384));
    compared("ring of 384, shuffled", 4_000, &shuffled(384));
    compared("128 triangles", 4_000, &triangles(128));
}

/// The segments of the unit cube cut at half its height.
fn brick() -> List {
    let corners = [[0.0, 0.0], [1.0, 0.0], [1.0, 1.0], [0.0, 1.0]];
    let sides = (0..4).map(|k| [corners[k], corners[(k + 1) % 4]]);
    List::new(sides.collect(), 1e-12)
}

/// A ring of this many segments, in their order.
fn ring(n: usize) -> List {
    let corner = |k: usize| {
        let angle = std::f64::consts::TAU * (k % n) as f64 / n as f64;
        [angle.cos(), angle.sin()]
    };
    let sides = (0..n).map(|k| [corner(k), corner(k + 1)]);
    List::new(sides.collect(), 1e-12)
}

/// The same, in another order.
fn shuffled(n: usize) -> List {
    let mut list = ring(n);
    Random::new(1).shuffle(&mut list.segments);
    list
}

/// So many triangles apart, each a walk of its own.
fn triangles(n: u32) -> List {
    let sides = (0..n).flat_map(|k| {
        let x = 2.0 * f64::from(k);
        let [a, b, c] = [[x, 0.0], [x + 1.0, 0.0], [x, 1.0]];
        [[a, b], [b, c], [c, a]]
    });
    List::new(sides.collect(), 1e-12)
}

fn compared(name: &str, rounds: u32, list: &List) {
    let s = list.segments.len();
    let (mut points, mut nodes, mut ends) = (vec![0.0; 4 * s], vec![0; s], vec![0; s / 3]);
    let mut timed = |list: &List| {
        assert_eq!(ours(list, &mut points, &mut nodes, &mut ends).in_loops, s);
        nanoseconds(rounds, || {
            ours(black_box(list), &mut points, &mut nodes, &mut ends)
        })
    };
    let proved = timed(list);
    let strict = timed(&List {
        strict: 1,
        ..list.clone()
    });
    let rust = nanoseconds(rounds, || {
        let list = black_box(list);
        oracle::rust::reach::stitch_segments(&list.segments, list.tol)
    });
    println!(
        "{name:<32} {proved:>7.1}  {strict:>7.1}  {rust:>7.1}  {:>13.2}",
        strict / proved
    );
}
