//! One cell of a finite-element mesh cut by a plane or a line: safe Rust over Cicelybeam's proved functions.
//!
//! A cell is a type, its node numbers, and the coordinates of the whole mesh in rows: three numbers a row in
//! space, two in the plane. Any numbers may be handed over, NaN and infinities included; the answer is a
//! section or a [`Refusal`]. Cut by a plane, a cell gives closed polygons, and an account of every edge of the
//! cut, drawn or not:
//!
//! ```
//! use cicelybeam::{cut_by_plane, tolerance_in_space, SpaceType};
//!
//! let coords = [
//!     0., 0., 0., 1., 0., 0., 1., 1., 0., 0., 1., 0., // the base of the unit cube
//!     0., 0., 1., 1., 0., 1., 1., 1., 1., 0., 1., 1., // above it
//! ];
//! let tol = tolerance_in_space(&coords)?;
//! let nodes = [0, 1, 2, 3, 4, 5, 6, 7];
//! let (origin, normal) = ([0., 0., 0.5], [0., 0., 1.]);
//! let section = cut_by_plane(SpaceType::Hex8, &nodes, &coords, &origin, &normal, false, false, tol)?;
//!
//! assert_eq!(section.points, [[0., 0.], [1., 0.], [1., 1.], [0., 1.]]);
//! assert_eq!(section.loops().collect::<Vec<_>>(), [[0, 1, 2, 3]]);
//! assert!(section.edges.all_drawn());
//! # Ok::<(), cicelybeam::Refusal>(())
//! ```
//!
//! What is proved of the functions, and what is not, stands in the repository's docs/CLAIMS.md. This crate is
//! not proved; it is thin, and its only unsafe code is in `src/linked.rs`.
//!
//! # The scaled way
//!
//! [`cut_by_plane`], [`gather`] and [`cut_plane_cell_by_normal`] take `scaled`: with `false` a normal is taken as it is given,
//! with `true` it is scaled. A normal as it is given is made unit by its squares, as mefikit does it. They overflow where a
//! component is beyond about 1e154 in absolute value: the unit normal is then 0, and the section silently empty. They lose
//! digits, or are all 0 and the normal is refused with [`Refusal::NoDirection`], where all components are within about 1e-153. A
//! normal that is scaled may be of any length: it is first multiplied by the power of two that brings its greatest absolute
//! component to at least 1 and under 2, each component being the exact product rounded once. Its norm is then proved to be from
//! 1 to 4. A normal of zeros is not scaled and is refused with [`Refusal::NoDirection`], and so is one with a component that is
//! NaN or infinite; no other is. Scale normals that were worked out, by a cross product or a division by a determinant; take
//! them as given to have what mefikit has. In every run both had the same unit normal where no square overflows or underflows.
//! Digits that a component lost by being below 2^-1022 do not come back. Directions are not scaled.
//!
//! ```
//! use cicelybeam::{cut_by_plane, SpaceType};
//!
//! let coords = [0., 0., 0., 1., 0., 0., 0., 1., 0., 0., 0., 1.];
//! let origin = [0., 0., 0.25];
//! // (0, 0, 1) divided by a determinant that is nearly zero
//! let normal = [0., 0., 1. / 1e-200];
//! let cut = |scaled| cut_by_plane(SpaceType::Tet4, &[0, 1, 2, 3], &coords, &origin, &normal, scaled, false, 0.);
//! assert_eq!(cut(false)?.loops().count(), 0);
//! assert_eq!(cut(true)?.loops().count(), 1);
//! # Ok::<(), cicelybeam::Refusal>(())
//! ```
//!
//! # The strict way
//!
//! [`cut_by_plane`] and [`stitch`] take `strict`: `false` is the usual way, `true` the strict one, for tools that reject a
//! polygon that passes twice through one point. In the usual way such a walk is a loop or flat as any other. In the
//! strict way it is pinched, whatever its area: it is not returned, and its edges are counted as [`Edges::pinched`], so
//! its area is missing from that of the polygons. The nodes of a loop are then all different. The loops are the usual ones
//! without those that pass a point twice, in the same order, over the same points; refusals, the points, `listed`, `open`,
//! `defaulted` and `comparisons` do not depend on the way. Cuts by a line use the usual way.
//!
//! ```
//! use cicelybeam::stitch;
//!
//! // a triangle of area 4 and one of area 1, which share the corner (0, 0): one walk, which passes it twice
//! let left = [[[-2., 2.], [0., 0.]], [[-2., -2.], [-2., 2.]], [[0., 0.], [-2., -2.]]];
//! let right = [[[0., 0.], [1., -1.]], [[1., -1.], [1., 1.]], [[1., 1.], [0., 0.]]];
//! let touching = [left, right].concat();
//! let [usual, strict] = [stitch(&touching, false, 0.)?, stitch(&touching, true, 0.)?];
//! assert_eq!((usual.loops().count(), usual.edges.in_loops, usual.edges.pinched), (1, 6, 0));
//! assert_eq!((strict.loops().count(), strict.edges.in_loops, strict.edges.pinched), (0, 0, 6));
//! assert!(usual.edges.all_drawn() && !strict.edges.all_drawn());
//! # Ok::<(), cicelybeam::Refusal>(())
//! ```
//!
//! # Crossings in the middle by default
//!
//! A polygon (a face, a plane cell, or a loop that a line cuts) of three corners or more is clipped to the side
//! above the cut where a corner of it is above `tol`, else to the side below where one is below `-tol`, else not
//! at all. An edge of it from a to b, at distances da and db that are positive on that side, has a crossing where
//! one of them is at least `-tol` and the other is not. The crossing lies at t = da / (da - db) of the way from a
//! to b; and in the middle, t = 0.5, by default where da - db is NaN or no more than 2^-1022
//! ([`f64::MIN_POSITIVE`]) in absolute value. `defaulted` is the number of crossings that lie in the middle by
//! default: of all that were computed, also where the point was then skipped. The faces of a cell are added up,
//! so an edge counts once for each of its faces. It is at most 256, and at most 640 for a line in space.
//!
//! # Comparisons of points
//!
//! A plane cut and stitching weld the ends of segments to points. Each end, in order, is compared with the points so
//! far, one after another, up to and with the first at a squared distance of at most `tol * tol`; where there is none
//! it has been compared with all of them, and becomes the next point. `comparisons` is the number of these comparisons.
//! Of s segments it is proved to be at most s(2s - 1), which is 294,528 for [`MOST_SEGMENTS`].
//!
//! ```
//! use cicelybeam::stitch;
//!
//! let triangle = [[[0., 0.], [0., 1.]], [[0., 1.], [1., 0.]], [[1., 0.], [0., 0.]]];
//! // one number an end: the first has no point to be compared with, the last is the first point again
//! assert_eq!(stitch(&triangle, false, 0.)?.comparisons, [0, 1, 2, 2, 3, 1].iter().sum());
//! // nothing is near with NaN, and each end after the first is compared once where all are one point
//! assert_eq!(stitch(&triangle, false, f64::NAN)?.comparisons, 3 * (2 * 3 - 1));
//! assert_eq!(stitch(&triangle, false, f64::INFINITY)?.comparisons, 2 * 3 - 1);
//! # Ok::<(), cicelybeam::Refusal>(())
//! ```
#![deny(missing_docs)]
#![deny(unsafe_code)]

pub mod lent;
#[allow(unsafe_code)]
mod linked;
mod refusal;
mod section;
mod types;

pub use refusal::{Mender, Refusal};
pub use section::{Edges, Line, Section};
pub use types::{PlaneType, SpaceType, FACE_END, MOST_ENTRIES};

use lent::answered;

/// The most segments that [`stitch`] takes.
pub const MOST_SEGMENTS: usize = 384;

/// A space cell cut by the plane through `origin` with this normal, which need not be of length 1.
///
/// `tol` is the distance up to which a point counts as on the plane, and two points as one: usually
/// [`tolerance_in_space`] of the mesh. Any number is taken. With less than that, a crossing that was rounded
/// may not count as on the plane, and its edge is then not found. `scaled` chooses
/// [how the normal is taken](crate#the-scaled-way), and `strict` [the way](crate#the-strict-way).
///
/// ```
/// use cicelybeam::{cut_by_plane, Refusal, SpaceType};
///
/// let coords = [0., 0., 0., 1., 0., 0., 0., 1., 0., 0., 0., 1.];
/// let origin = [0., 0., 0.25];
/// let cut = |normal| cut_by_plane(SpaceType::Tet4, &[0, 1, 2, 3], &coords, &origin, normal, false, false, 0.);
/// assert_eq!(cut(&[0., 0., 1.])?.loops().count(), 1);
/// assert_eq!(cut(&[0., 0., 0.]), Err(Refusal::NoDirection));
/// # Ok::<(), Refusal>(())
/// ```
// One argument for each of the header's lists.
#[allow(clippy::too_many_arguments)]
pub fn cut_by_plane(
    cell: SpaceType,
    conn: &[u64],
    coords: &[f64],
    origin: &[f64],
    normal: &[f64],
    scaled: bool,
    strict: bool,
    tol: f64,
) -> Result<Section, Refusal> {
    let corners = cell.face_corners(conn.len());
    let room = [3 * corners, 3 * corners / 2, corners / 2];
    section::filled(room, |into| {
        lent::cut_by_plane(
            cell.number(),
            conn,
            coords,
            origin,
            normal,
            scaled,
            strict,
            tol,
            into,
        )
    })
}

/// The segments that [`cut_by_plane`] stitches, before they are stitched: those of each face, faces in their order,
/// in the plane's own coordinates.
///
/// [`stitch`] of them with the same `tol` gives what [`cut_by_plane`] gives with the same `scaled` and `strict`, but for
/// `defaulted`, which is told here: stitching computes no crossing. `scaled` chooses
/// [how the normal is taken](crate#the-scaled-way). A face alone can be handed over as a [`SpaceType::Phed`] of one face; a
/// cell's segments are those of its faces, in their order, and its `defaulted` is their sum.
///
/// ```
/// use cicelybeam::{cut_by_plane, gather, stitch, Section, SpaceType};
///
/// let coords = [0., 0., 0., 1., 0., 0., 0., 1., 0., 0., 0., 1.];
/// let (nodes, origin, normal) = ([0, 1, 2, 3], [0., 0., 0.25], [0., 0., 1.]);
/// let gathered = gather(SpaceType::Tet4, &nodes, &coords, &origin, &normal, false, 0.)?;
/// assert_eq!(gathered.segments.len(), 3);
/// let section = cut_by_plane(SpaceType::Tet4, &nodes, &coords, &origin, &normal, false, false, 0.)?;
/// let stitched = stitch(&gathered.segments, false, 0.)?;
/// assert_eq!(Section { defaulted: gathered.defaulted, ..stitched }, section);
/// # Ok::<(), cicelybeam::Refusal>(())
/// ```
pub fn gather(
    cell: SpaceType,
    conn: &[u64],
    coords: &[f64],
    origin: &[f64],
    normal: &[f64],
    scaled: bool,
    tol: f64,
) -> Result<Line<2>, Refusal> {
    let room = 6 * cell.face_corners(conn.len());
    section::filled_line(room, |numbers| {
        lent::gather(
            cell.number(),
            conn,
            coords,
            origin,
            normal,
            scaled,
            tol,
            numbers,
        )
    })
}

/// The part of the line through `origin` with this direction that lies in a space cell, as segments.
///
/// The cell is cut by a plane that holds the line, in the usual way, and the line cuts the loops of that section. Flat and open
/// pieces of the section are dropped, and nothing tells of it: to know, [`cut_by_plane`] by a plane that holds the
/// line. `defaulted` has both: the crossings of that plane cut, and those made where the line cuts its loops.
///
/// ```
/// use cicelybeam::{cut_by_line, SpaceType};
///
/// let coords = [0., 0., 0., 1., 0., 0., 0., 1., 0., 0., 0., 1.];
/// let nodes = [0, 1, 2, 3];
/// let found = cut_by_line(SpaceType::Tet4, &nodes, &coords, &[0.25, 0.25, 0.], &[0., 0., 2.], 1e-12)?;
/// let [a, b] = found.segments[0];
/// assert_eq!((a[2] - b[2]).abs(), 0.5);
/// assert_eq!((found.segments.len(), found.defaulted), (1, 0));
/// # Ok::<(), cicelybeam::Refusal>(())
/// ```
pub fn cut_by_line(
    cell: SpaceType,
    conn: &[u64],
    coords: &[f64],
    origin: &[f64],
    direction: &[f64],
    tol: f64,
) -> Result<Line<3>, Refusal> {
    let room = 14 * cell.face_corners(conn.len());
    section::filled_line(room, |numbers| {
        lent::cut_by_line(cell.number(), conn, coords, origin, direction, tol, numbers)
    })
}

/// The part of the line through `origin` with this normal that lies in a plane cell, as segments. `scaled` chooses
/// [how the normal is taken](crate#the-scaled-way).
///
/// ```
/// use cicelybeam::{cut_plane_cell_by_normal, PlaneType};
///
/// let square = [0., 0., 1., 0., 1., 1., 0., 1.];
/// let (origin, normal) = ([0., 0.5], [0., 1.]);
/// let found = cut_plane_cell_by_normal(PlaneType::Quad4, &[0, 1, 2, 3], &square, &origin, &normal, false, 0.)?;
/// assert_eq!(found.segments, [[[0., 0.5], [1., 0.5]]]);
/// # Ok::<(), cicelybeam::Refusal>(())
/// ```
pub fn cut_plane_cell_by_normal(
    cell: PlaneType,
    conn: &[u64],
    coords: &[f64],
    origin: &[f64],
    normal: &[f64],
    scaled: bool,
    tol: f64,
) -> Result<Line<2>, Refusal> {
    let room = 6 * cell.corners(conn.len());
    section::filled_line(room, |numbers| {
        lent::cut_plane_cell_by_normal(
            cell.number(),
            conn,
            coords,
            origin,
            normal,
            scaled,
            tol,
            numbers,
        )
    })
}

/// The part of the line through `origin` with this direction that lies in a plane cell, as segments.
///
/// ```
/// use cicelybeam::{cut_plane_cell_by_direction, PlaneType};
///
/// let triangle = [0., 0., 1., 0., 0., 1.];
/// let along = [1., 0.];
/// let found = cut_plane_cell_by_direction(PlaneType::Tri3, &[0, 1, 2], &triangle, &[0., 0.5], &along, 0.)?;
/// assert_eq!(found.segments, [[[0., 0.5], [0.5, 0.5]]]);
/// # Ok::<(), cicelybeam::Refusal>(())
/// ```
pub fn cut_plane_cell_by_direction(
    cell: PlaneType,
    conn: &[u64],
    coords: &[f64],
    origin: &[f64],
    direction: &[f64],
    tol: f64,
) -> Result<Line<2>, Refusal> {
    let room = 6 * cell.corners(conn.len());
    section::filled_line(room, |numbers| {
        lent::cut_plane_cell_by_direction(
            cell.number(),
            conn,
            coords,
            origin,
            direction,
            tol,
            numbers,
        )
    })
}

/// The closed polygons that segments in the plane form; at most [`MOST_SEGMENTS`]. No crossing is computed, so
/// `defaulted` is 0. `strict` chooses [the way](crate#the-strict-way).
///
/// ```
/// let open = [[[0., 0.], [0., 1.]], [[0., 1.], [1., 0.]]];
/// let section = cicelybeam::stitch(&open, false, 0.)?;
/// assert_eq!(section.loops().count(), 0);
/// assert_eq!((section.edges.listed, section.edges.open), (2, 2));
/// # Ok::<(), cicelybeam::Refusal>(())
/// ```
pub fn stitch(segments: &[[[f64; 2]; 2]], strict: bool, tol: f64) -> Result<Section, Refusal> {
    let most = segments.len().min(MOST_SEGMENTS);
    let numbers = segments.as_flattened().as_flattened();
    section::filled([2 * most, most, most / 3], |into| {
        lent::stitch(numbers, strict, tol, into)
    })
}

/// The tolerance of a mesh with these coordinates, three a row: never NaN and never negative, whatever they
/// are, and 1e-12 where there are none.
///
/// ```
/// assert_eq!(cicelybeam::tolerance_in_space(&[3., 4., 0.])?, 2f64.powi(-44));
/// # Ok::<(), cicelybeam::Refusal>(())
/// ```
pub fn tolerance_in_space(coords: &[f64]) -> Result<f64, Refusal> {
    let found = linked::tolerance_in_space(coords);
    answered(found.refusal, found.value == 0.0).map(|()| found.value)
}

/// The tolerance of a mesh with these coordinates, two a row, as [`tolerance_in_space`].
pub fn tolerance_in_plane(coords: &[f64]) -> Result<f64, Refusal> {
    let found = linked::tolerance_in_plane(coords);
    answered(found.refusal, found.value == 0.0).map(|()| found.value)
}

/// The square root as IEEE 754 has it.
///
/// ```
/// assert_eq!(cicelybeam::sqrt(4.), 2.);
/// ```
pub fn sqrt(x: f64) -> f64 {
    linked::sqrt(x)
}
