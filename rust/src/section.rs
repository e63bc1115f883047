//! Sections and their edges.

use crate::lent::{Buffers, Written, WrittenLine};
use crate::Refusal;

/// A section: polygons of points in the cutting plane.
#[derive(Clone, Debug, PartialEq)]
pub struct Section {
    /// The points, in the plane's own coordinates, from the cut's origin.
    pub points: Vec<[f64; 2]>,
    /// The nodes of loop after loop: numbers of points, each less than `points.len()`.
    pub nodes: Vec<u32>,
    /// The number of nodes up to and with each loop.
    pub ends: Vec<u32>,
    /// The edges of the cut, counted.
    pub edges: Edges,
    /// The crossings that lie in the middle [by default](crate#crossings-in-the-middle-by-default).
    pub defaulted: u32,
    /// The [comparisons of points](crate#comparisons-of-points) while welding.
    pub comparisons: u32,
}

/// Segments: the part of a line within a cell, or those that a plane cut gathers.
#[derive(Clone, Debug, PartialEq)]
pub struct Line<const D: usize> {
    /// The two ends of each.
    pub segments: Vec<[[f64; D]; 2]>,
    /// The crossings that lie in the middle [by default](crate#crossings-in-the-middle-by-default).
    pub defaulted: u32,
}

/// The listed edges of a cut, counted: `listed` is always the sum of the other four.
///
/// A listed edge joins two different points, and no two of them join the same two. None is in two loops, or twice
/// in one. A segment whose ends are one point within the tolerance is no edge, and one that repeats an edge adds none.
#[derive(Clone, Copy, Debug, Default, PartialEq, Eq)]
pub struct Edges {
    /// All edges between two different points.
    pub listed: u32,
    /// Those in loops, which are drawn.
    pub in_loops: u32,
    /// Those that close and pass a point twice, whatever their area, which are not drawn: in
    /// [the strict way](crate#the-strict-way), and 0 in the usual one.
    pub pinched: u32,
    /// Those that close without an area above the squared tolerance, which are not drawn.
    pub flat: u32,
    /// Those that do not close, which are not drawn.
    pub open: u32,
}

impl Edges {
    /// Whether every listed edge is drawn.
    pub fn all_drawn(&self) -> bool {
        self.pinched == 0 && self.flat == 0 && self.open == 0
    }
}

impl Section {
    /// The nodes of each loop, at least three, in the order walked, or all in reverse where the walk's rounded area
    /// is negative. So the area of a loop is positive but for rounding: a very thin one can have a negative rounded
    /// area both ways. In the usual way a loop may pass a point twice, and then a part of it may run clockwise; in
    /// [the strict way](crate#the-strict-way) its nodes are all different.
    pub fn loops(&self) -> impl Iterator<Item = &[u32]> {
        let starts = std::iter::once(&0).chain(&self.ends);
        starts
            .zip(&self.ends)
            .map(|(&start, &end)| &self.nodes[start as usize..end as usize])
    }

    /// The points of each loop.
    pub fn polygons(&self) -> impl Iterator<Item = Vec<[f64; 2]>> + '_ {
        let point = |&node: &u32| self.points[node as usize];
        self.loops()
            .map(move |nodes| nodes.iter().map(point).collect())
    }
}

/// The section that `cut` writes into buffers with room for these points, nodes and ends.
pub(crate) fn filled(
    [points, nodes, ends]: [usize; 3],
    cut: impl FnOnce(Buffers<'_>) -> Result<Written, Refusal>,
) -> Result<Section, Refusal> {
    let mut section = Section {
        points: vec![[0.0; 2]; points],
        nodes: vec![0; nodes],
        ends: vec![0; ends],
        edges: Edges::default(),
        defaulted: 0,
        comparisons: 0,
    };
    let written = cut(Buffers {
        numbers: section.points.as_flattened_mut(),
        nodes: &mut section.nodes,
        ends: &mut section.ends,
    })?;
    section.points.truncate(written.points);
    section.nodes.truncate(written.nodes);
    section.ends.truncate(written.loops);
    section.edges = written.edges;
    section.defaulted = written.defaulted;
    section.comparisons = written.comparisons;
    Ok(section)
}

/// The segments that `cut` writes into a buffer of this many numbers at least.
pub(crate) fn filled_line<const D: usize>(
    room: usize,
    cut: impl FnOnce(&mut [f64]) -> Result<WrittenLine, Refusal>,
) -> Result<Line<D>, Refusal> {
    let mut segments = vec![[[0.0; D]; 2]; room.div_ceil(2 * D)];
    let written = cut(segments.as_flattened_mut().as_flattened_mut())?;
    segments.truncate(written.segments);
    Ok(Line {
        segments,
        defaulted: written.defaulted,
    })
}
