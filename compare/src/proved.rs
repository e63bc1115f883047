//! The proved functions that are linked: those of Cicelybeam's interface, and those that crates/trial
//! makes callable for tests.

use crate::entries::{Case, Entry, Lent};

mod linked {
    use super::{Clipped, Line, Section, Stitched};

    extern "C" {
        pub fn cicelybeam_plane(
            number: u8,
            conn: *const u64,
            conn_len: usize,
            coords: *const f64,
            coords_len: usize,
            origin: *const f64,
            origin_len: usize,
            normal: *const f64,
            normal_len: usize,
            scaled: u8,
            strict: u8,
            tol: f64,
            numbers: *mut f64,
            numbers_len: usize,
            nodes: *mut u32,
            nodes_len: usize,
            ends: *mut u32,
            ends_len: usize,
        ) -> Section;
        pub fn cicelybeam_gather(
            number: u8,
            conn: *const u64,
            conn_len: usize,
            coords: *const f64,
            coords_len: usize,
            origin: *const f64,
            origin_len: usize,
            normal: *const f64,
            normal_len: usize,
            scaled: u8,
            tol: f64,
            numbers: *mut f64,
            numbers_len: usize,
        ) -> Line;
        pub fn cicelybeam_plane_cell_by_normal(
            number: u8,
            conn: *const u64,
            conn_len: usize,
            coords: *const f64,
            coords_len: usize,
            origin: *const f64,
            origin_len: usize,
            normal: *const f64,
            normal_len: usize,
            scaled: u8,
            tol: f64,
            numbers: *mut f64,
            numbers_len: usize,
        ) -> Line;
        pub fn cicelybeam_stitch(
            segments: *const f64,
            segments_len: usize,
            strict: u8,
            tol: f64,
            numbers: *mut f64,
            numbers_len: usize,
            nodes: *mut u32,
            nodes_len: usize,
            ends: *mut u32,
            ends_len: usize,
        ) -> Section;
        pub fn trial_space_segments(
            poly: *const f64,
            poly_len: usize,
            placed: *const f64,
            placed_len: usize,
            tol: f64,
            points: *mut f64,
            points_len: usize,
            out: *mut f64,
            out_len: usize,
        ) -> Clipped;
        pub fn trial_plane_segments(
            poly: *const f64,
            poly_len: usize,
            placed: *const f64,
            placed_len: usize,
            tol: f64,
            points: *mut f64,
            points_len: usize,
            out: *mut f64,
            out_len: usize,
        ) -> Clipped;
        pub fn trial_stitch(
            segments: *const f64,
            segments_len: usize,
            strict: u8,
            tol: f64,
            points: *mut f64,
            points_len: usize,
            nodes: *mut u32,
            nodes_len: usize,
            ends: *mut u32,
            ends_len: usize,
        ) -> Stitched;
        pub fn trial_space_tolerance(coords: *const f64, coords_len: usize) -> f64;
        pub fn trial_plane_tolerance(coords: *const f64, coords_len: usize) -> f64;
        pub fn trial_plane_frame(
            placed: *const f64,
            placed_len: usize,
            out: *mut f64,
            out_len: usize,
        ) -> usize;
        pub fn trial_line_frame(
            placed: *const f64,
            placed_len: usize,
            out: *mut f64,
            out_len: usize,
        ) -> usize;
        pub fn trial_project(
            rows: *const f64,
            rows_len: usize,
            out: *mut f64,
            out_len: usize,
        ) -> usize;
        pub fn trial_deproject(
            rows: *const f64,
            rows_len: usize,
            x: f64,
            y: f64,
            out: *mut f64,
            out_len: usize,
        ) -> usize;
        pub fn trial_scaled_in_space(
            normal: *const f64,
            normal_len: usize,
            out: *mut f64,
            out_len: usize,
        ) -> usize;
        pub fn trial_scaled_in_plane(
            normal: *const f64,
            normal_len: usize,
            out: *mut f64,
            out_len: usize,
        ) -> usize;
        pub fn trial_line_normal(x: f64, y: f64, out: *mut f64, out_len: usize) -> usize;
        pub fn trial_line_normal_along(x: f64, y: f64, out: *mut f64, out_len: usize) -> usize;
    }
}

// SAFETY, for every call below: the function is proved to return, to read and write no more than the
// slices that it is lent, whatever their lengths, and a slice is a pointer and a length.

/// What a proved function answers to lengths that do not fit.
pub const REFUSED: usize = u32::MAX as usize;

/// The proved square root.
pub fn sqrt(x: f64) -> f64 {
    cicelybeam::sqrt(x)
}

/// What the plane cut and stitching alone tell, as C has it.
#[repr(C)]
#[derive(Clone, Copy, Debug)]
pub struct Section {
    pub refusal: u32,
    pub points: u32,
    pub nodes: u32,
    pub loops: u32,
    pub listed: u32,
    pub in_loops: u32,
    pub pinched: u32,
    pub flat: u32,
    pub open: u32,
    pub defaulted: u32,
    pub comparisons: u32,
}

/// The plane cut of a case.
pub fn plane(case: &Case, lent: Lent) -> Section {
    let [coords, origin, normal] = [&case.coords, &case.origin, &case.vector];
    unsafe {
        linked::cicelybeam_plane(
            case.number,
            case.conn.as_ptr(),
            case.conn.len(),
            coords.as_ptr(),
            coords.len(),
            origin.as_ptr(),
            origin.len(),
            normal.as_ptr(),
            normal.len(),
            case.scaled,
            case.strict,
            case.tol,
            lent.numbers.as_mut_ptr(),
            lent.numbers.len(),
            lent.nodes.as_mut_ptr(),
            lent.nodes.len(),
            lent.ends.as_mut_ptr(),
            lent.ends.len(),
        )
    }
}

/// What the functions tell that write segments, as C has it.
#[repr(C)]
#[derive(Clone, Copy, Debug)]
pub struct Line {
    pub refusal: u32,
    pub segments: u32,
    pub defaulted: u32,
}

/// The gathering of a case, or its plane cell by normal.
pub fn segments_by_normal(case: &Case, lent: Lent) -> Line {
    let [coords, origin, normal] = [&case.coords, &case.origin, &case.vector];
    let give = match case.entry {
        Entry::Gather => linked::cicelybeam_gather,
        Entry::PlaneCellByNormal => linked::cicelybeam_plane_cell_by_normal,
        other => panic!("{other:?} gives no segments by a normal"),
    };
    unsafe {
        give(
            case.number,
            case.conn.as_ptr(),
            case.conn.len(),
            coords.as_ptr(),
            coords.len(),
            origin.as_ptr(),
            origin.len(),
            normal.as_ptr(),
            normal.len(),
            case.scaled,
            case.tol,
            lent.numbers.as_mut_ptr(),
            lent.numbers.len(),
        )
    }
}

/// The stitching of a case.
pub fn stitch_alone(case: &Case, lent: Lent) -> Section {
    unsafe {
        linked::cicelybeam_stitch(
            case.segments.as_ptr(),
            case.segments.len(),
            case.strict,
            case.tol,
            lent.numbers.as_mut_ptr(),
            lent.numbers.len(),
            lent.nodes.as_mut_ptr(),
            lent.nodes.len(),
            lent.ends.as_mut_ptr(),
            lent.ends.len(),
        )
    }
}

/// How many segments clipping wrote, or [`REFUSED`], and its crossings in the middle by default.
#[repr(C)]
#[derive(Clone, Copy, Debug, PartialEq, Eq)]
pub struct Clipped {
    pub segments: usize,
    pub defaulted: usize,
}

/// The segments of a polygon, written to `out`. The width is 2 or 3.
pub fn segments<const D: usize>(
    polygon: &[[f64; D]],
    placed: &[[f64; D]; 2],
    tol: f64,
    points: &mut [f64],
    out: &mut [f64],
) -> Clipped {
    let clip = match D {
        2 => linked::trial_plane_segments,
        3 => linked::trial_space_segments,
        _ => panic!("no width {D}"),
    };
    let (polygon, placed) = (polygon.as_flattened(), placed.as_flattened());
    unsafe {
        clip(
            polygon.as_ptr(),
            polygon.len(),
            placed.as_ptr(),
            placed.len(),
            tol,
            points.as_mut_ptr(),
            points.len(),
            out.as_mut_ptr(),
            out.len(),
        )
    }
}

/// How many points, nodes and loops stitching wrote, its five counts of edges, and its comparisons of points.
/// `fitted` is 1; if the lengths did not fit all are 0.
#[repr(C)]
#[derive(Clone, Copy, Debug, Default, PartialEq, Eq)]
pub struct Stitched {
    pub fitted: usize,
    pub points: usize,
    pub nodes: usize,
    pub loops: usize,
    pub listed: usize,
    pub in_loops: usize,
    pub pinched: usize,
    pub flat: usize,
    pub opened: usize,
    pub comparisons: usize,
}

/// Stitching, written to the lent buffers.
pub fn stitch(
    segments: &[[[f64; 2]; 2]],
    strict: u8,
    tol: f64,
    points: &mut [f64],
    nodes: &mut [u32],
    ends: &mut [u32],
) -> Stitched {
    let segments = segments.as_flattened().as_flattened();
    unsafe {
        linked::trial_stitch(
            segments.as_ptr(),
            segments.len(),
            strict,
            tol,
            points.as_mut_ptr(),
            points.len(),
            nodes.as_mut_ptr(),
            nodes.len(),
            ends.as_mut_ptr(),
            ends.len(),
        )
    }
}

/// The tolerance of coordinates, `width` a row.
pub fn tolerance(width: usize, coords: &[f64]) -> f64 {
    let work = match width {
        2 => linked::trial_plane_tolerance,
        3 => linked::trial_space_tolerance,
        _ => panic!("no width {width}"),
    };
    unsafe { work(coords.as_ptr(), coords.len()) }
}

/// The unit normal and the in-plane vectors of a plane with this normal.
pub fn plane_frame(normal: &[f64; 3]) -> Option<[[f64; 3]; 3]> {
    let placed = [0.0, 0.0, 0.0, normal[0], normal[1], normal[2]];
    frame(|out| unsafe { linked::trial_plane_frame(placed.as_ptr(), 6, out.as_mut_ptr(), 9) })
}

/// The same of the plane that holds a line with this direction.
pub fn line_frame(direction: &[f64; 3]) -> Option<[[f64; 3]; 3]> {
    let placed = [0.0, 0.0, 0.0, direction[0], direction[1], direction[2]];
    frame(|out| unsafe { linked::trial_line_frame(placed.as_ptr(), 6, out.as_mut_ptr(), 9) })
}

fn frame(work: impl FnOnce(&mut [f64]) -> usize) -> Option<[[f64; 3]; 3]> {
    let mut out = [[0.0; 3]; 3];
    let told = work(out.as_flattened_mut());
    found(told).then_some(out)
}

/// The coordinates of `p` in the plane through `origin` with the in-plane vectors `u` and `v`.
pub fn project(p: &[f64; 3], origin: &[f64; 3], u: &[f64; 3], v: &[f64; 3]) -> [f64; 2] {
    let rows = [*origin, *u, *v, *p];
    let rows = rows.as_flattened();
    let mut out = [0.0; 2];
    let told = unsafe { linked::trial_project(rows.as_ptr(), rows.len(), out.as_mut_ptr(), 2) };
    assert!(found(told));
    out
}

/// The point of space with the coordinates `p` in the plane through `origin` with the in-plane vectors `u` and `v`.
pub fn deproject(p: &[f64; 2], origin: &[f64; 3], u: &[f64; 3], v: &[f64; 3]) -> [f64; 3] {
    let rows = [*origin, *u, *v];
    let rows = rows.as_flattened();
    let mut out = [0.0; 3];
    let told =
        unsafe { linked::trial_deproject(rows.as_ptr(), 9, p[0], p[1], out.as_mut_ptr(), 3) };
    assert!(found(told));
    out
}

/// A normal scaled, written to `out`: 1, 0 if a component is not finite, or [`REFUSED`]. The width is 2 or 3.
pub fn scaled<const D: usize>(normal: &[f64], out: &mut [f64]) -> usize {
    let scale = match D {
        2 => linked::trial_scaled_in_plane,
        3 => linked::trial_scaled_in_space,
        _ => panic!("no width {D}"),
    };
    unsafe { scale(normal.as_ptr(), normal.len(), out.as_mut_ptr(), out.len()) }
}

/// The unit normal of a line in the plane, given a normal.
pub fn line_normal(normal: &[f64; 2]) -> Option<[f64; 2]> {
    let mut out = [0.0; 2];
    let told = unsafe { linked::trial_line_normal(normal[0], normal[1], out.as_mut_ptr(), 2) };
    found(told).then_some(out)
}

/// The unit normal of a line in the plane, given its direction.
pub fn line_normal_along(direction: &[f64; 2]) -> Option<[f64; 2]> {
    let [x, y] = *direction;
    let mut out = [0.0; 2];
    let told = unsafe { linked::trial_line_normal_along(x, y, out.as_mut_ptr(), 2) };
    found(told).then_some(out)
}

fn found(told: usize) -> bool {
    assert_ne!(told, REFUSED, "the lengths fit");
    told == 1
}
