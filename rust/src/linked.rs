//! The linked functions over slices. All unsafe code of this crate is here.
//!
//! Why it is sound: each function is proved to return, to read and write no more than the slices that it is
//! lent, whatever their lengths and contents, and to keep no pointer. A slice is passed as a pointer and a
//! length. That `&mut` slices overlap nothing else is Rust's own rule. The structs and signatures are those
//! of include/cicelybeam.h.

// One argument for each of the header's.
#![allow(clippy::too_many_arguments)]

#[repr(C)]
pub struct Section {
    pub refusal: u32,
    pub points: u32,
    pub nodes: u32,
    pub loops: u32,
    pub listed: u32,
    pub in_loops: u32,
    pub pinched: u32,
    pub flat: u32,
    pub open: u32,
    pub defaulted: u32,
    pub comparisons: u32,
}

impl Section {
    pub fn tells_nothing(&self) -> bool {
        let told = [
            self.points,
            self.nodes,
            self.loops,
            self.listed,
            self.in_loops,
            self.pinched,
            self.flat,
            self.open,
            self.defaulted,
            self.comparisons,
        ];
        told == [0; 10]
    }
}

#[repr(C)]
pub struct Line {
    pub refusal: u32,
    pub segments: u32,
    pub defaulted: u32,
}

impl Line {
    pub fn tells_nothing(&self) -> bool {
        [self.segments, self.defaulted] == [0; 2]
    }
}

#[repr(C)]
pub struct Tolerance {
    pub refusal: u32,
    pub value: f64,
}

/// The functions that give segments by a normal: type, nodes, coordinates, origin, normal, `scaled`, tolerance, numbers.
type GivesByNormal = unsafe extern "C" fn(
    u8,
    *const u64,
    usize,
    *const f64,
    usize,
    *const f64,
    usize,
    *const f64,
    usize,
    u8,
    f64,
    *mut f64,
    usize,
) -> Line;

/// The same by a direction, which is not scaled.
type GivesByDirection = unsafe extern "C" fn(
    u8,
    *const u64,
    usize,
    *const f64,
    usize,
    *const f64,
    usize,
    *const f64,
    usize,
    f64,
    *mut f64,
    usize,
) -> Line;

extern "C" {
    fn cicelybeam_plane(
        number: u8,
        conn: *const u64,
        conn_len: usize,
        coords: *const f64,
        coords_len: usize,
        origin: *const f64,
        origin_len: usize,
        normal: *const f64,
        normal_len: usize,
        scaled: u8,
        strict: u8,
        tol: f64,
        numbers: *mut f64,
        numbers_len: usize,
        nodes: *mut u32,
        nodes_len: usize,
        ends: *mut u32,
        ends_len: usize,
    ) -> Section;
    fn cicelybeam_gather(
        number: u8,
        conn: *const u64,
        conn_len: usize,
        coords: *const f64,
        coords_len: usize,
        origin: *const f64,
        origin_len: usize,
        normal: *const f64,
        normal_len: usize,
        scaled: u8,
        tol: f64,
        numbers: *mut f64,
        numbers_len: usize,
    ) -> Line;
    fn cicelybeam_line_in_space(
        number: u8,
        conn: *const u64,
        conn_len: usize,
        coords: *const f64,
        coords_len: usize,
        origin: *const f64,
        origin_len: usize,
        direction: *const f64,
        direction_len: usize,
        tol: f64,
        numbers: *mut f64,
        numbers_len: usize,
    ) -> Line;
    fn cicelybeam_plane_cell_by_normal(
        number: u8,
        conn: *const u64,
        conn_len: usize,
        coords: *const f64,
        coords_len: usize,
        origin: *const f64,
        origin_len: usize,
        normal: *const f64,
        normal_len: usize,
        scaled: u8,
        tol: f64,
        numbers: *mut f64,
        numbers_len: usize,
    ) -> Line;
    fn cicelybeam_plane_cell_by_direction(
        number: u8,
        conn: *const u64,
        conn_len: usize,
        coords: *const f64,
        coords_len: usize,
        origin: *const f64,
        origin_len: usize,
        direction: *const f64,
        direction_len: usize,
        tol: f64,
        numbers: *mut f64,
        numbers_len: usize,
    ) -> Line;
    fn cicelybeam_stitch(
        segments: *const f64,
        segments_len: usize,
        strict: u8,
        tol: f64,
        numbers: *mut f64,
        numbers_len: usize,
        nodes: *mut u32,
        nodes_len: usize,
        ends: *mut u32,
        ends_len: usize,
    ) -> Section;
    fn cicelybeam_tolerance_in_space(coords: *const f64, coords_len: usize) -> Tolerance;
    fn cicelybeam_tolerance_in_plane(coords: *const f64, coords_len: usize) -> Tolerance;
    fn cicelybeam_sqrt(x: f64) -> f64;
}

pub fn plane(
    number: u8,
    conn: &[u64],
    coords: &[f64],
    origin: &[f64],
    normal: &[f64],
    scaled: bool,
    strict: bool,
    tol: f64,
    numbers: &mut [f64],
    nodes: &mut [u32],
    ends: &mut [u32],
) -> Section {
    // SAFETY: see the top of this file.
    unsafe {
        cicelybeam_plane(
            number,
            conn.as_ptr(),
            conn.len(),
            coords.as_ptr(),
            coords.len(),
            origin.as_ptr(),
            origin.len(),
            normal.as_ptr(),
            normal.len(),
            u8::from(scaled),
            u8::from(strict),
            tol,
            numbers.as_mut_ptr(),
            numbers.len(),
            nodes.as_mut_ptr(),
            nodes.len(),
            ends.as_mut_ptr(),
            ends.len(),
        )
    }
}

/// Which function gives the segments by a normal.
#[derive(Clone, Copy)]
pub enum ByNormal {
    Gather,
    PlaneCell,
}

pub fn segments_by_normal(
    of: ByNormal,
    number: u8,
    conn: &[u64],
    coords: &[f64],
    origin: &[f64],
    normal: &[f64],
    scaled: bool,
    tol: f64,
    numbers: &mut [f64],
) -> Line {
    let give: GivesByNormal = match of {
        ByNormal::Gather => cicelybeam_gather,
        ByNormal::PlaneCell => cicelybeam_plane_cell_by_normal,
    };
    // SAFETY: see the top of this file.
    unsafe {
        give(
            number,
            conn.as_ptr(),
            conn.len(),
            coords.as_ptr(),
            coords.len(),
            origin.as_ptr(),
            origin.len(),
            normal.as_ptr(),
            normal.len(),
            u8::from(scaled),
            tol,
            numbers.as_mut_ptr(),
            numbers.len(),
        )
    }
}

/// Which function gives the segments by a direction.
#[derive(Clone, Copy)]
pub enum ByDirection {
    LineInSpace,
    PlaneCell,
}

pub fn segments_by_direction(
    of: ByDirection,
    number: u8,
    conn: &[u64],
    coords: &[f64],
    origin: &[f64],
    direction: &[f64],
    tol: f64,
    numbers: &mut [f64],
) -> Line {
    let give: GivesByDirection = match of {
        ByDirection::LineInSpace => cicelybeam_line_in_space,
        ByDirection::PlaneCell => cicelybeam_plane_cell_by_direction,
    };
    // SAFETY: see the top of this file.
    unsafe {
        give(
            number,
            conn.as_ptr(),
            conn.len(),
            coords.as_ptr(),
            coords.len(),
            origin.as_ptr(),
            origin.len(),
            direction.as_ptr(),
            direction.len(),
            tol,
            numbers.as_mut_ptr(),
            numbers.len(),
        )
    }
}

pub fn stitch(
    segments: &[f64],
    strict: bool,
    tol: f64,
    numbers: &mut [f64],
    nodes: &mut [u32],
    ends: &mut [u32],
) -> Section {
    // SAFETY: see the top of this file.
    unsafe {
        cicelybeam_stitch(
            segments.as_ptr(),
            segments.len(),
            u8::from(strict),
            tol,
            numbers.as_mut_ptr(),
            numbers.len(),
            nodes.as_mut_ptr(),
            nodes.len(),
            ends.as_mut_ptr(),
            ends.len(),
        )
    }
}

pub fn tolerance_in_space(coords: &[f64]) -> Tolerance {
    // SAFETY: see the top of this file.
    unsafe { cicelybeam_tolerance_in_space(coords.as_ptr(), coords.len()) }
}

pub fn tolerance_in_plane(coords: &[f64]) -> Tolerance {
    // SAFETY: see the top of this file.
    unsafe { cicelybeam_tolerance_in_plane(coords.as_ptr(), coords.len()) }
}

pub fn sqrt(x: f64) -> f64 {
    // SAFETY: see the top of this file.
    unsafe { cicelybeam_sqrt(x) }
}
