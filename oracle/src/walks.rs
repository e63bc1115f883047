//! Another walk along the listed edges, from the rules' words, and what each of its walks is, in the usual way and in
//! the strict one. The Rust returns points and loops only, and has no strict way.

use std::collections::HashSet;

use crate::counts::listed;
use crate::{Section, Segment};

/// The points reached, in their order. A closed walk's start stands once.
#[derive(Clone, Debug, PartialEq)]
pub struct Walk {
    pub nodes: Vec<usize>,
    pub closed: bool,
}

/// What a walk is.
#[derive(Clone, Copy, Debug, PartialEq, Eq)]
pub enum Kind {
    Loop,
    Pinched,
    Flat,
    Open,
}

/// The rules' counts of edges.
#[derive(Clone, Copy, Debug, Default, PartialEq, Eq)]
pub struct Edges {
    pub listed: usize,
    pub in_loops: usize,
    pub pinched: usize,
    pub flat: usize,
    pub open: usize,
}

impl Edges {
    pub fn add(&mut self, other: Edges) {
        self.listed += other.listed;
        self.in_loops += other.in_loops;
        self.pinched += other.pinched;
        self.flat += other.flat;
        self.open += other.open;
    }

    fn count(&mut self, kind: Kind, edges: usize) {
        match kind {
            Kind::Loop => self.in_loops += edges,
            Kind::Pinched => self.pinched += edges,
            Kind::Flat => self.flat += edges,
            Kind::Open => self.open += edges,
        }
    }
}

/// Whether a node stands twice among these.
pub fn repeats(nodes: &[usize]) -> bool {
    let different: HashSet<usize> = nodes.iter().copied().collect();
    different.len() < nodes.len()
}

impl Walk {
    pub fn edges(&self) -> usize {
        self.nodes.len() - usize::from(!self.closed)
    }

    /// Whether its area is above the squared tolerance; one that is NaN is not.
    pub fn large(&self, points: &[[f64; 2]], tol: f64) -> bool {
        half_the_sum(points, &self.nodes).abs() > tol * tol
    }

    /// An open walk is open, also where it passes a point twice; a closed one that does is pinched in the strict way,
    /// whatever its area.
    pub fn kind(&self, points: &[[f64; 2]], strict: bool, tol: f64) -> Kind {
        if !self.closed {
            Kind::Open
        } else if strict && repeats(&self.nodes) {
            Kind::Pinched
        } else if self.large(points, tol) {
            Kind::Loop
        } else {
            Kind::Flat
        }
    }

    /// The nodes as a loop has them: in the order walked, or in reverse where the area is negative.
    fn turned(&self, points: &[[f64; 2]]) -> Vec<usize> {
        let mut nodes = self.nodes.clone();
        if half_the_sum(points, &nodes) < 0.0 {
            nodes.reverse();
        }
        nodes
    }
}

/// The points, the number of listed edges and the walks of segments, found from the rules' words alone.
#[derive(Clone, Debug)]
pub struct Walked {
    pub points: Vec<[f64; 2]>,
    pub listed: usize,
    pub walks: Vec<Walk>,
    pub tol: f64,
}

impl Walked {
    pub fn new(segments: &[Segment<2>], tol: f64) -> Walked {
        let (points, edges) = listed(segments, tol);
        let walks = walks(&points, &edges);
        Walked {
            points,
            listed: edges.len(),
            walks,
            tol,
        }
    }

    pub fn kind(&self, walk: &Walk, strict: bool) -> Kind {
        walk.kind(&self.points, strict, self.tol)
    }

    /// The counts of edges in this way.
    pub fn edges(&self, strict: bool) -> Edges {
        self.edges_by(|walk| self.kind(walk, strict))
    }

    /// The counts of edges where this says what a walk is.
    pub fn edges_by(&self, kind: impl Fn(&Walk) -> Kind) -> Edges {
        let mut count = Edges {
            listed: self.listed,
            ..Edges::default()
        };
        for walk in &self.walks {
            count.count(kind(walk), walk.edges());
        }
        count
    }

    /// The answer in this way.
    pub fn section(&self, strict: bool) -> Section {
        let loops = self.walks.iter();
        let loops = loops.filter(|walk| self.kind(walk, strict) == Kind::Loop);
        Section {
            points: self.points.clone(),
            loops: loops.map(|walk| walk.turned(&self.points)).collect(),
        }
    }
}

/// The walks, in the order walked.
fn walks(points: &[[f64; 2]], edges: &[(usize, usize)]) -> Vec<Walk> {
    let mut free = vec![true; edges.len()];
    let mut walks = Vec::new();
    while let Some(first) = free.iter().position(|&free| free) {
        let mut nodes = vec![edges[first].0, edges[first].1];
        free[first] = false;
        while nodes[0] != nodes[nodes.len() - 1] {
            let Some((edge, next)) = straightest(points, edges, &free, &nodes) else {
                break;
            };
            free[edge] = false;
            nodes.push(next);
        }
        let closed = nodes[0] == nodes[nodes.len() - 1];
        if closed {
            nodes.pop();
        }
        walks.push(Walk { nodes, closed });
    }
    walks
}

/// The free edge at the end of the path with the largest cosine, and where it leads. The first is kept
/// unless a later one is greater; the only one needs no cosine.
fn straightest(
    points: &[[f64; 2]],
    edges: &[(usize, usize)],
    free: &[bool],
    path: &[usize],
) -> Option<(usize, usize)> {
    let (before, here) = (path[path.len() - 2], path[path.len() - 1]);
    let leads = |edge: usize| match edges[edge] {
        (a, b) if a == here => Some(b),
        (a, b) if b == here => Some(a),
        _ => None,
    };
    let ways = (0..edges.len()).filter(|&edge| free[edge]);
    let mut ways = ways
        .filter_map(|edge| Some((edge, leads(edge)?)))
        .peekable();
    let mut best = ways.next()?;
    if ways.peek().is_some() {
        let cosine = |to: usize| cosine(points[before], points[here], points[to]);
        let mut greatest = cosine(best.1);
        for way in ways {
            let other = cosine(way.1);
            if other > greatest {
                (best, greatest) = (way, other);
            }
        }
    }
    Some(best)
}

/// The cosine between the steps from `a` to `b` and from `b` to `c`, cut to -1..1.
fn cosine(a: [f64; 2], b: [f64; 2], c: [f64; 2]) -> f64 {
    let (x, y) = (b[0] - a[0], b[1] - a[1]);
    let (p, q) = (c[0] - b[0], c[1] - b[1]);
    let cosine = (x * p + y * q) / ((x * x + y * y).sqrt() * (p * p + q * q).sqrt());
    cosine.clamp(-1.0, 1.0)
}

/// The area of a closed walk.
fn half_the_sum(points: &[[f64; 2]], nodes: &[usize]) -> f64 {
    let mut sum = 0.0;
    for (k, &node) in nodes.iter().enumerate() {
        let (a, b) = (points[node], points[nodes[(k + 1) % nodes.len()]]);
        sum += a[0] * b[1] - b[0] * a[1];
    }
    sum / 2.0
}

#[cfg(test)]
mod tests {
    use super::*;

    fn walked(corners: &[[f64; 2]]) -> Walked {
        let segments: Vec<_> = corners.windows(2).map(|side| [side[0], side[1]]).collect();
        Walked::new(&segments, 0.0)
    }

    /// Listed, in loops, pinched, flat, open.
    fn counts(walked: &Walked, strict: bool) -> [usize; 5] {
        let found = walked.edges(strict);
        [
            found.listed,
            found.in_loops,
            found.pinched,
            found.flat,
            found.open,
        ]
    }

    const BOW_TIE: [[f64; 2]; 7] = [
        [-2.0, 1.0],
        [0.0, 0.0],
        [2.0, 1.0],
        [2.0, -1.0],
        [0.0, 0.0],
        [-2.0, -1.0],
        [-2.0, 1.0],
    ];

    /// The rules' cases 6, 7 and 9, alike in both ways, and case 10, which is not.
    #[test]
    fn the_walk_counts_as_the_rules() {
        let both = |corners: &[[f64; 2]]| [false, true].map(|way| counts(&walked(corners), way));
        let triangle = [[0.0, 0.0], [0.0, 1.0], [1.0, 0.0], [0.0, 0.0]];
        assert_eq!(both(&triangle), [[3, 3, 0, 0, 0]; 2]);
        assert_eq!(both(&triangle[..3]), [[2, 0, 0, 0, 2]; 2]);
        let line = [[0.0; 2], [1.0, 0.0], [2.0, 0.0], [0.0; 2]];
        assert_eq!(both(&line), [[3, 0, 0, 3, 0]; 2]);
        assert_eq!(both(&BOW_TIE), [[6, 0, 0, 6, 0], [6, 0, 6, 0, 0]]);
        let walk = Walk {
            nodes: vec![0, 1, 3, 2, 1, 4],
            closed: true,
        };
        assert_eq!(walked(&BOW_TIE).walks, [walk]);
    }

    /// Two triangles that share a corner, and a third apart: in the strict way the third alone is a loop.
    #[test]
    fn a_pinched_walk_is_not_returned() {
        let mut corners = BOW_TIE;
        corners[0] = [-4.0, 2.0];
        corners[5] = [-4.0, -2.0];
        corners[6] = corners[0];
        let mut segments: Vec<_> = corners.windows(2).map(|side| [side[0], side[1]]).collect();
        let [a, b, c] = [[9.0, 0.0], [10.0, 0.0], [9.0, 1.0]];
        segments.extend([[a, b], [b, c], [c, a]]);
        let found = Walked::new(&segments, 0.0);
        let [usual, strict] = [false, true].map(|way| found.section(way));
        assert_eq!(usual.points, strict.points);
        assert_eq!(
            usual.loops,
            [vec![4, 1, 2, 3, 1, 0], vec![5, 6, 7]],
            "{found:?}"
        );
        assert_eq!(strict.loops, usual.loops[1..]);
        assert_eq!(counts(&found, false), [9, 9, 0, 0, 0]);
        assert_eq!(counts(&found, true), [9, 3, 6, 0, 0]);
    }

    /// The path 0 1 2 3 1 4 ends at another point than it started.
    #[test]
    fn an_open_walk_that_passes_a_point_twice_is_open() {
        let found = walked(&[
            [0.0, 0.0],
            [1.0, 0.0],
            [2.0, 0.0],
            [1.0, 1.0],
            [1.0, 0.0],
            [1.0, -1.0],
        ]);
        assert!(found.walks.len() == 1 && repeats(&found.walks[0].nodes));
        for strict in [false, true] {
            assert_eq!(counts(&found, strict), [5, 0, 0, 0, 5]);
        }
    }
}
