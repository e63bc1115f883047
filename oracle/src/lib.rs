//! mefikit's slice.rs and snap.rs, compiled as they stand, as the judge of a port.
//!
//! The functions here give what the Rust gives for one cell, before nodes are merged and
//! cells deduplicated, over plain numbers. Each takes the [`Build`] to ask.
//!
//! A panic of the Rust is caught, step by step, and becomes a [`Stop`]. The steps are tried in
//! the rules' order, which the Rust itself does not have.

use std::cell::Cell as Flag;
use std::panic::{catch_unwind, set_hook, take_hook, AssertUnwindSafe};
use std::sync::Once;

use ndarray::{Array2, ArrayView2};

pub mod counts;
pub mod mesh;
pub mod scaling;
pub mod walks;

// `tools::snap`, and slice.rs four times: `rust`, `counted`, `by_cosine`, `by_rules`.
include!(concat!(env!("OUT_DIR"), "/modules.rs"));

use mesh::{Dimension, Element, ElementLike, ElementType, UMesh};

pub type Segment<const D: usize> = [[f64; D]; 2];

/// Which copy of slice.rs answers.
#[derive(Clone, Copy, Debug, PartialEq, Eq)]
pub enum Build {
    /// The source unchanged. It counts nothing.
    Rust,
    /// Nothing is changed but that crossings in the middle by default and comparisons of points are counted: see
    /// [`defaulted`] and [`comparisons`].
    Counted,
    /// As `Counted`, and the junction compares cosines, as docs/RULES.md says.
    ByCosine,
    /// As `ByCosine`, and sums start at plus zero: docs/RULES.md to the bit, NaNs being alike.
    ByRules,
}

pub const BUILDS: [Build; 4] = [Build::Rust, Build::Counted, Build::ByCosine, Build::ByRules];

macro_rules! ask {
    ($build:expr, $name:ident($($argument:expr),*)) => {
        match $build {
            Build::Rust => rust::reach::$name($($argument),*),
            Build::Counted => counted::reach::$name($($argument),*),
            Build::ByCosine => by_cosine::reach::$name($($argument),*),
            Build::ByRules => by_rules::reach::$name($($argument),*),
        }
    };
}

/// Why there is no answer. The numbers are the rules'.
#[derive(Clone, Copy, Debug, PartialEq, Eq)]
pub enum Stop {
    /// No such type, or slice.rs panics on it.
    Type = 1,
    /// Not the type's node count. mefikit tests this when a cell enters a mesh, so it is the
    /// stand-in's word; types of any length have no limit.
    Count = 2,
    /// The numbers are no whole rows. No mefikit mesh can hold such coordinates.
    Rows = 3,
    /// A corner is no row: a panic on reading it.
    Corner = 4,
    /// `unit` panics while the vectors are formed.
    Norm = 6,
}

/// A cell as plain numbers: type number, nodes, coordinates in rows.
#[derive(Clone, Copy, Debug)]
pub struct Cell<'a> {
    pub number: u8,
    pub nodes: &'a [usize],
    pub coords: &'a [f64],
}

/// Points and loops of point numbers.
#[derive(Clone, Debug, PartialEq)]
pub struct Section {
    pub points: Vec<[f64; 2]>,
    pub loops: Vec<Vec<usize>>,
}

/// A mesh as plain numbers.
#[derive(Clone, Debug, PartialEq)]
pub struct Mesh {
    pub columns: usize,
    pub coords: Vec<f64>,
    /// Type number and nodes. Answers list them by type number, then as they came.
    pub cells: Vec<(u8, Vec<usize>)>,
}

/// A space cell cut by a plane.
pub fn plane_cut(
    build: Build,
    cell: Cell<'_>,
    origin: &[f64; 3],
    normal: &[f64; 3],
    tol: f64,
) -> Result<Section, Stop> {
    let cell = space_cell(cell)?;
    let vectors = caught(Stop::Norm, || ask!(build, plane_vectors(normal)))?;
    Ok(section(ask!(
        build,
        plane_cut(&cell, origin, &vectors, tol)
    )))
}

/// The segments that a plane cut stitches, in order and in plane coordinates.
pub fn plane_segments(
    build: Build,
    cell: Cell<'_>,
    origin: &[f64; 3],
    normal: &[f64; 3],
    tol: f64,
) -> Result<Vec<Segment<2>>, Stop> {
    let cell = space_cell(cell)?;
    let vectors = caught(Stop::Norm, || ask!(build, plane_vectors(normal)))?;
    Ok(ask!(build, plane_segments(&cell, origin, &vectors, tol)))
}

/// A space cell cut by a line.
pub fn line_cut(
    build: Build,
    cell: Cell<'_>,
    origin: &[f64; 3],
    direction: &[f64; 3],
    tol: f64,
) -> Result<Vec<Segment<3>>, Stop> {
    let cell = space_cell(cell)?;
    let vectors = caught(Stop::Norm, || ask!(build, line_vectors(direction)))?;
    Ok(ask!(build, line_cut(&cell, origin, &vectors, tol)))
}

/// A plane cell cut by a line that its normal gives.
pub fn plane_cell_by_normal(
    build: Build,
    cell: Cell<'_>,
    origin: &[f64; 2],
    normal: &[f64; 2],
    tol: f64,
) -> Result<Vec<Segment<2>>, Stop> {
    let ring = plane_cell(cell)?;
    let normal = caught(Stop::Norm, || ask!(build, unit(normal)))?;
    Ok(ask!(
        build,
        plane_section_segments(&ring, origin, &normal, tol)
    ))
}

/// A plane cell cut by a line that its direction gives.
pub fn plane_cell_by_direction(
    build: Build,
    cell: Cell<'_>,
    origin: &[f64; 2],
    direction: &[f64; 2],
    tol: f64,
) -> Result<Vec<Segment<2>>, Stop> {
    let ring = plane_cell(cell)?;
    let normal = caught(Stop::Norm, || ask!(build, line_normal(direction)))?;
    Ok(ask!(
        build,
        plane_section_segments(&ring, origin, &normal, tol)
    ))
}

/// The cell as slice.rs takes it, its corners not yet read: to call functions of `reach` with.
pub fn element(cell: Cell<'_>) -> Result<Element<'_>, Stop> {
    let found = ElementType::of_number(cell.number).ok_or(Stop::Type)?;
    let columns = if found.dimension() == Dimension::D3 {
        3
    } else {
        2
    };
    typed(cell, found.dimension(), columns)
}

/// Stitching alone.
pub fn stitch(build: Build, segments: &[Segment<2>], tol: f64) -> Section {
    section(ask!(build, stitch_segments(segments, tol)))
}

/// The area that stitching gives a walk of these nodes.
pub fn area(nodes: &[usize], points: &[[f64; 2]]) -> f64 {
    rust::reach::signed_area(nodes, points)
}

/// The faces of a space cell, as positions in its nodes. Coordinates are not read.
pub fn faces(number: u8, nodes: &[usize]) -> Result<Vec<Vec<usize>>, Stop> {
    let coords = &[];
    let cell = typed(
        Cell {
            number,
            nodes,
            coords,
        },
        Dimension::D3,
        3,
    )?;
    Ok(rust::reach::cell_faces(&cell))
}

/// The tolerance of a mesh with these coordinates, in rows of 2 or 3.
pub fn tolerance(columns: usize, coords: &[f64]) -> Result<f64, Stop> {
    let rows = rows(columns, coords)?;
    let mesh = UMesh::new(rows.to_shared());
    Ok(rust::reach::slice_tolerance(&mesh.view()))
}

/// A whole mesh cut as `slice` does it; `None` where the Rust panics.
pub fn slice(build: Build, mesh: &Mesh, origin: &[f64], normal: &[f64]) -> Option<Mesh> {
    whole(mesh, |mesh| match build {
        Build::Rust => rust::slice(&mesh.view(), origin, normal),
        Build::Counted => counted::slice(&mesh.view(), origin, normal),
        Build::ByCosine => by_cosine::slice(&mesh.view(), origin, normal),
        Build::ByRules => by_rules::slice(&mesh.view(), origin, normal),
    })
}

/// A whole mesh cut as `slice_line` does it; `None` where the Rust panics.
pub fn slice_line(build: Build, mesh: &Mesh, origin: &[f64], direction: &[f64]) -> Option<Mesh> {
    whole(mesh, |mesh| match build {
        Build::Rust => rust::slice_line(&mesh.view(), origin, direction),
        Build::Counted => counted::slice_line(&mesh.view(), origin, direction),
        Build::ByCosine => by_cosine::slice_line(&mesh.view(), origin, direction),
        Build::ByRules => by_rules::slice_line(&mesh.view(), origin, direction),
    })
}

thread_local! {
    static DEFAULTED: Flag<usize> = const { Flag::new(0) };
    static COMPARISONS: Flag<usize> = const { Flag::new(0) };
}

/// Called by each build but `Build::Rust` where a crossing lies at t = 0.5 by default.
fn count_defaulted() {
    DEFAULTED.set(DEFAULTED.get() + 1);
}

/// What `work` gives, and the number of crossings at t = 0.5 by default that it computes, by any build but
/// `Build::Rust`. It may call the functions above or those of `reach`.
pub fn defaulted<R>(work: impl FnOnce() -> R) -> (R, usize) {
    let before = DEFAULTED.get();
    let found = work();
    (found, DEFAULTED.get() - before)
}

/// Called by each build but `Build::Rust` where an end of a segment is compared with a point while welding.
fn count_comparison() {
    COMPARISONS.set(COMPARISONS.get() + 1);
}

/// What `work` gives, and the number of comparisons of points that it makes while welding, by any build but
/// `Build::Rust`. It may call the functions above or those of `reach`.
pub fn comparisons<R>(work: impl FnOnce() -> R) -> (R, usize) {
    let before = COMPARISONS.get();
    let found = work();
    (found, COMPARISONS.get() - before)
}

fn section((points, loops): (Vec<[f64; 2]>, Vec<Vec<usize>>)) -> Section {
    Section { points, loops }
}

fn space_cell(cell: Cell<'_>) -> Result<Element<'_>, Stop> {
    let cell = typed(cell, Dimension::D3, 3)?;
    caught(Stop::Corner, || rust::reach::face_rings(&cell))?;
    Ok(cell)
}

/// The corners of a plane cell; none of the builds differs here.
fn plane_cell(cell: Cell<'_>) -> Result<Vec<[f64; 2]>, Stop> {
    let cell = typed(cell, Dimension::D2, 2)?;
    caught(Stop::Corner, || rust::reach::cell_polygon(&cell))
}

/// The cell, if its type has this dimension; slice.rs panics on every other type, which the
/// tests show.
fn typed(cell: Cell<'_>, dimension: Dimension, columns: usize) -> Result<Element<'_>, Stop> {
    let number = ElementType::of_number(cell.number);
    let known = number.filter(|found| found.dimension() == dimension);
    let element_type = known.ok_or(Stop::Type)?;
    let count = element_type.num_nodes();
    if count.is_some_and(|count| count != cell.nodes.len()) {
        return Err(Stop::Count);
    }
    let rows = rows(columns, cell.coords)?;
    Ok(Element::alone(element_type, cell.nodes, rows))
}

fn rows(columns: usize, coords: &[f64]) -> Result<ArrayView2<'_, f64>, Stop> {
    let shape = (coords.len() / columns, columns);
    ArrayView2::from_shape(shape, coords).map_err(|_| Stop::Rows)
}

fn whole(given: &Mesh, cut: impl FnOnce(UMesh) -> UMesh) -> Option<Mesh> {
    let work = || {
        let shape = (given.coords.len() / given.columns, given.columns);
        let coords = Array2::from_shape_vec(shape, given.coords.clone()).unwrap();
        let mut mesh = UMesh::new(coords.into_shared());
        for (number, nodes) in &given.cells {
            mesh.add_element(ElementType::of_number(*number).unwrap(), nodes, None);
        }
        plain(&cut(mesh))
    };
    caught((), work).ok()
}

fn plain(mesh: &UMesh) -> Mesh {
    let coords = mesh.coords();
    let cells = mesh
        .elements()
        .map(|cell| (cell.element_type().number(), cell.connectivity().to_vec()));
    Mesh {
        columns: coords.ncols(),
        coords: coords.rows().flat_map(|row| row.iter().copied()).collect(),
        cells: cells.collect(),
    }
}

thread_local! {
    static QUIET: Flag<bool> = const { Flag::new(false) };
}

/// What `work` gives, or `stop` if it panics.
fn caught<R, E>(stop: E, work: impl FnOnce() -> R) -> Result<R, E> {
    quietly(work).map_err(|_| stop)
}

/// What `work` gives, or what it panics with. Nothing is printed then; panics elsewhere are
/// told as before.
fn quietly<R>(work: impl FnOnce() -> R) -> std::thread::Result<R> {
    static HOOK: Once = Once::new();
    HOOK.call_once(|| {
        let before = take_hook();
        set_hook(Box::new(move |panic| {
            if !QUIET.get() {
                before(panic);
            }
        }));
    });
    QUIET.set(true);
    let outcome = catch_unwind(AssertUnwindSafe(work));
    QUIET.set(false);
    outcome
}

#[cfg(test)]
mod tests;
