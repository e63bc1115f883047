//! Prints nanoseconds a face clipped, the proved clipping beside the Rust's, in one run.

use compare::faces::Face;
use compare::nanoseconds;
use compare::proved::{self, Clipped};
use std::hint::black_box;

fn main() {
    println!("nanoseconds a face                proved     Rust");
    compared("side of the unit cube, half way", 2_000_000, 1, &side(0.5));
    compared("triangle, half way", 2_000_000, 1, &triangle(0.5));
    compared("side of the unit cube, below", 2_000_000, 0, &side(2.0));
    compared("side of the unit cube, above", 2_000_000, 0, &side(-1.0));
    compared("triangle, below", 2_000_000, 0, &triangle(2.0));
    compared("triangle, above", 2_000_000, 0, &triangle(-1.0));
    compared("polygon of 64 corners", 200_000, 1, &polygon(64));
}

/// A side of the unit cube, and the plane at a height.
fn side(height: f64) -> Face<3> {
    Face {
        polygon: vec![[0.0; 3], [1.0, 0.0, 0.0], [1.0, 0.0, 1.0], [0.0, 0.0, 1.0]],
        origin: [0.0, 0.0, height],
        normal: [0.0, 0.0, 1.0],
        tol: 1e-12,
    }
}

/// The first, second and last corner of that side.
fn triangle(height: f64) -> Face<3> {
    let mut face = side(height);
    face.polygon.remove(2);
    face
}

/// A regular polygon, upright and cut through its middle.
fn polygon(n: usize) -> Face<3> {
    let corner = |k: usize| {
        let angle = std::f64::consts::TAU * (k as f64 + 0.5) / n as f64;
        [angle.cos(), 0.0, angle.sin()]
    };
    Face {
        polygon: (0..n).map(corner).collect(),
        origin: [0.0; 3],
        normal: [0.0, 0.0, 1.0],
        tol: 1e-12,
    }
}

fn compared(name: &str, rounds: u32, segments: usize, face: &Face<3>) {
    let mut out = vec![0.0; face.room()];
    let mut points = vec![0.0; face.room() / 2];
    let placed = [face.origin, face.normal];
    let mut ours = |face: &Face<3>, placed| {
        proved::segments(&face.polygon, placed, face.tol, &mut points, &mut out)
    };
    let expected = Clipped {
        segments,
        defaulted: 0,
    };
    assert_eq!(ours(face, &placed), expected);
    let proved = nanoseconds(rounds, || ours(black_box(face), black_box(&placed)));
    let rust = nanoseconds(rounds, || {
        let face = black_box(face);
        oracle::rust::reach::plane_section_segments(
            &face.polygon,
            &face.origin,
            &face.normal,
            face.tol,
        )
    });
    println!("{name:<32} {proved:>7.1}  {rust:>7.1}");
}
