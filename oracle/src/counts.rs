//! Counts of edges that can be had beside the Rust's answer.
//!
//! slice.rs returns points and loops only. The listed edges are found here once more, from
//! the rules' words, and the edges in loops from the loops. What is listed and in no loop
//! is flat or open; the answer does not tell which.

use crate::{Section, Segment};

#[derive(Clone, Copy, Debug, PartialEq, Eq)]
pub struct Counts {
    pub listed: usize,
    pub in_loops: usize,
}

impl Counts {
    pub fn flat_or_open(self) -> usize {
        self.listed - self.in_loops
    }
}

/// The counts for these segments, whose stitching gave `section`.
pub fn counts(segments: &[Segment<2>], tol: f64, section: &Section) -> Counts {
    Counts {
        listed: listed(segments, tol).1.len(),
        in_loops: section.loops.iter().map(Vec::len).sum(),
    }
}

/// The welded points and the listed edges.
pub fn listed(segments: &[Segment<2>], tol: f64) -> (Vec<[f64; 2]>, Vec<(usize, usize)>) {
    let mut points = Vec::new();
    let mut edges = Vec::new();
    for &[first, second] in segments {
        let a = weld(&mut points, first, tol);
        let b = weld(&mut points, second, tol);
        let edge = (a.min(b), a.max(b));
        if a != b && !edges.contains(&edge) {
            edges.push(edge);
        }
    }
    (points, edges)
}

fn weld(points: &mut Vec<[f64; 2]>, end: [f64; 2], tol: f64) -> usize {
    for (number, point) in points.iter().enumerate() {
        let (x, y) = (point[0] - end[0], point[1] - end[1]);
        if x * x + y * y <= tol * tol {
            return number;
        }
    }
    points.push(end);
    points.len() - 1
}
