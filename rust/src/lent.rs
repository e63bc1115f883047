//! The functions as C has them, over buffers that the caller lends: nothing is allocated, and any type number
//! may be given. What lies beyond an answer keeps its contents, and on a refusal nothing is written: proved up to the
//! bits of a NaN, of which the proofs know one, and shown by runs.
//!
//! The least lengths, with m the corners of all kept faces ([`SpaceType::face_corners`](crate::SpaceType)):
//!
//! | function | numbers | nodes | ends |
//! |---|---|---|---|
//! | [`cut_by_plane`] | 6m | 3m / 2 | m / 2 |
//! | [`gather`] | 6m | | |
//! | [`cut_by_line`] | 14m | | |
//! | [`cut_plane_cell_by_normal`], [`cut_plane_cell_by_direction`], n corners | 6n | | |
//! | [`stitch`], s segments | 4s | s | s / 3 |

use crate::linked::{self, ByDirection, ByNormal};
use crate::{Edges, Refusal};

/// Buffers for a section: the points, two numbers each; the nodes of loop after loop; where each loop ends.
#[derive(Debug)]
pub struct Buffers<'a> {
    /// The points, two numbers each.
    pub numbers: &'a mut [f64],
    /// The nodes of loop after loop.
    pub nodes: &'a mut [u32],
    /// The number of nodes up to and with each loop.
    pub ends: &'a mut [u32],
}

/// How much of the buffers holds the section, and its edges.
#[derive(Clone, Copy, Debug, PartialEq, Eq)]
pub struct Written {
    /// The points, two numbers each.
    pub points: usize,
    /// The nodes of all loops.
    pub nodes: usize,
    /// The loops, and so the ends.
    pub loops: usize,
    /// The edges of the cut, counted.
    pub edges: Edges,
    /// The crossings that lie in the middle [by default](crate#crossings-in-the-middle-by-default).
    pub defaulted: u32,
    /// The [comparisons of points](crate#comparisons-of-points) while welding.
    pub comparisons: u32,
}

/// How much of a buffer holds segments.
#[derive(Clone, Copy, Debug, PartialEq, Eq)]
pub struct WrittenLine {
    /// The segments.
    pub segments: usize,
    /// The crossings that lie in the middle [by default](crate#crossings-in-the-middle-by-default).
    pub defaulted: u32,
}

/// A space cell cut by a plane, into buffers. See [`crate::cut_by_plane`].
// One argument for each of the header's lists, and the buffers.
#[allow(clippy::too_many_arguments)]
pub fn cut_by_plane(
    number: u8,
    conn: &[u64],
    coords: &[f64],
    origin: &[f64],
    normal: &[f64],
    scaled: bool,
    strict: bool,
    tol: f64,
    into: Buffers<'_>,
) -> Result<Written, Refusal> {
    let Buffers {
        numbers,
        nodes,
        ends,
    } = into;
    written(linked::plane(
        number, conn, coords, origin, normal, scaled, strict, tol, numbers, nodes, ends,
    ))
}

/// The segments that a plane cut stitches, four numbers each. See [`crate::gather`].
// One argument for each of the header's lists, and the buffer.
#[allow(clippy::too_many_arguments)]
pub fn gather(
    number: u8,
    conn: &[u64],
    coords: &[f64],
    origin: &[f64],
    normal: &[f64],
    scaled: bool,
    tol: f64,
    numbers: &mut [f64],
) -> Result<WrittenLine, Refusal> {
    let of = ByNormal::Gather;
    segments(linked::segments_by_normal(
        of, number, conn, coords, origin, normal, scaled, tol, numbers,
    ))
}

/// Segments stitched, four numbers each, into buffers. See [`crate::stitch`].
pub fn stitch(
    segments: &[f64],
    strict: bool,
    tol: f64,
    into: Buffers<'_>,
) -> Result<Written, Refusal> {
    written(linked::stitch(
        segments,
        strict,
        tol,
        into.numbers,
        into.nodes,
        into.ends,
    ))
}

/// A space cell cut by a line, six numbers a segment. See [`crate::cut_by_line`].
pub fn cut_by_line(
    number: u8,
    conn: &[u64],
    coords: &[f64],
    origin: &[f64],
    direction: &[f64],
    tol: f64,
    numbers: &mut [f64],
) -> Result<WrittenLine, Refusal> {
    let of = ByDirection::LineInSpace;
    segments(linked::segments_by_direction(
        of, number, conn, coords, origin, direction, tol, numbers,
    ))
}

/// A plane cell cut by a line that its normal gives, four numbers a segment. See
/// [`crate::cut_plane_cell_by_normal`].
// One argument for each of the header's lists, and the buffer.
#[allow(clippy::too_many_arguments)]
pub fn cut_plane_cell_by_normal(
    number: u8,
    conn: &[u64],
    coords: &[f64],
    origin: &[f64],
    normal: &[f64],
    scaled: bool,
    tol: f64,
    numbers: &mut [f64],
) -> Result<WrittenLine, Refusal> {
    let of = ByNormal::PlaneCell;
    segments(linked::segments_by_normal(
        of, number, conn, coords, origin, normal, scaled, tol, numbers,
    ))
}

/// A plane cell cut by a line that its direction gives, four numbers a segment. See
/// [`crate::cut_plane_cell_by_direction`].
pub fn cut_plane_cell_by_direction(
    number: u8,
    conn: &[u64],
    coords: &[f64],
    origin: &[f64],
    direction: &[f64],
    tol: f64,
    numbers: &mut [f64],
) -> Result<WrittenLine, Refusal> {
    let of = ByDirection::PlaneCell;
    segments(linked::segments_by_direction(
        of, number, conn, coords, origin, direction, tol, numbers,
    ))
}

fn written(found: linked::Section) -> Result<Written, Refusal> {
    answered(found.refusal, found.tells_nothing())?;
    Ok(Written {
        points: found.points as usize,
        nodes: found.nodes as usize,
        loops: found.loops as usize,
        edges: Edges {
            listed: found.listed,
            in_loops: found.in_loops,
            pinched: found.pinched,
            flat: found.flat,
            open: found.open,
        },
        defaulted: found.defaulted,
        comparisons: found.comparisons,
    })
}

fn segments(found: linked::Line) -> Result<WrittenLine, Refusal> {
    answered(found.refusal, found.tells_nothing())?;
    Ok(WrittenLine {
        segments: found.segments as usize,
        defaulted: found.defaulted,
    })
}

/// With a refusal the library tells nothing else. If it did, it would not be the library of this crate.
pub(crate) fn answered(refusal: u32, nothing_else: bool) -> Result<(), Refusal> {
    let Some(refusal) = Refusal::of_number(refusal) else {
        return Ok(());
    };
    assert!(
        nothing_else,
        "the linked library tells more beside a refusal"
    );
    Err(refusal)
}
