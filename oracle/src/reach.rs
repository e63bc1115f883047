// Stands inside each build of slice.rs as a child module, where its private functions can be
// called. The first part only passes on; the second does for one cell what slice_3d,
// slice_line_3d and slice_2d do for each cell, and stops before nodes are merged.

use crate::mesh::{Element, UMesh, UMeshView};

pub type Segment<const D: usize> = [[f64; D]; 2];
pub type Loops = (Vec<[f64; 2]>, Vec<Vec<usize>>);

pub fn unit<const D: usize>(v: &[f64; D]) -> [f64; D] {
    super::unit(v)
}

pub fn dot<const D: usize>(a: &[f64; D], b: &[f64; D]) -> f64 {
    super::dot(a, b)
}

pub fn dist2<const D: usize>(a: &[f64; D], b: &[f64; D]) -> f64 {
    super::dist2(a, b)
}

pub fn cross(a: &[f64; 3], b: &[f64; 3]) -> [f64; 3] {
    super::cross(a, b)
}

pub fn least_aligned_axis(v: &[f64; 3]) -> [f64; 3] {
    super::least_aligned_axis(v)
}

pub fn plane_basis(normal: &[f64; 3]) -> ([f64; 3], [f64; 3]) {
    super::plane_basis(normal)
}

pub fn project(p: &[f64; 3], origin: &[f64; 3], u: &[f64; 3], v: &[f64; 3]) -> [f64; 2] {
    super::project(p, origin, u, v)
}

pub fn deproject(p: &[f64; 2], origin: &[f64; 3], u: &[f64; 3], v: &[f64; 3]) -> [f64; 3] {
    super::deproject(p, origin, u, v)
}

pub fn slice_tolerance(mesh: &UMeshView) -> f64 {
    super::slice_tolerance(mesh)
}

pub fn cell_faces(cell: &Element<'_>) -> Vec<Vec<usize>> {
    super::cell_faces(cell)
}

pub fn cell_polygon(cell: &Element<'_>) -> Vec<[f64; 2]> {
    super::cell_polygon(cell)
}

pub fn plane_section_segments<const D: usize>(
    polygon: &[[f64; D]],
    origin: &[f64; D],
    normal: &[f64; D],
    tol: f64,
) -> Vec<Segment<D>> {
    super::plane_section_segments(polygon, origin, normal, tol)
}

pub fn plane_intersection<const D: usize>(
    a: [f64; D],
    da: f64,
    b: [f64; D],
    db: f64,
    origin: &[f64; D],
    normal: &[f64; D],
) -> [f64; D] {
    super::plane_intersection(a, da, b, db, origin, normal)
}

pub fn push_unique<const D: usize>(points: &mut Vec<[f64; D]>, p: [f64; D], tol: f64) {
    super::push_unique(points, p, tol)
}

pub fn push_coord<const D: usize>(points: &mut Vec<[f64; D]>, p: [f64; D], tol: f64) -> usize {
    super::push_coord(points, p, tol)
}

pub fn stitch_segments(segments: &[Segment<2>], tol: f64) -> Loops {
    super::stitch_segments(segments, tol)
}

pub fn select_next_edge(
    current: usize,
    previous: usize,
    candidates: &[usize],
    edges: &[[usize; 2]],
    used: &[bool],
    points: &[[f64; 2]],
) -> Option<usize> {
    super::select_next_edge(current, previous, candidates, edges, used, points)
}

pub fn signed_area(nodes: &[usize], points: &[[f64; 2]]) -> f64 {
    super::signed_area(nodes, points)
}

pub fn section_cell_by_plane(
    cell: &Element<'_>,
    origin: &[f64; 3],
    normal: &[f64; 3],
    u: &[f64; 3],
    v: &[f64; 3],
    tol: f64,
) -> Loops {
    super::section_cell_by_plane(cell, origin, normal, u, v, tol)
}

pub fn slice_3d(mesh: &UMeshView, origin: [f64; 3], normal: [f64; 3]) -> UMesh {
    super::slice_3d(mesh, origin, normal)
}

pub fn slice_line_3d(mesh: &UMeshView, origin: [f64; 3], direction: [f64; 3]) -> UMesh {
    super::slice_line_3d(mesh, origin, direction)
}

pub fn slice_2d(mesh: &UMeshView, origin: [f64; 2], normal: [f64; 2]) -> UMesh {
    super::slice_2d(mesh, origin, normal)
}

// ---- one cell

/// A plane's unit normal and its two in-plane vectors.
pub fn plane_vectors(normal: &[f64; 3]) -> [[f64; 3]; 3] {
    let normal = unit(normal);
    let (u, v) = plane_basis(&normal);
    [normal, u, v]
}

/// The plane that holds a line: its normal, then the line's direction and the vector across.
pub fn line_vectors(direction: &[f64; 3]) -> [[f64; 3]; 3] {
    let along = unit(direction);
    let across = unit(&cross(&along, &least_aligned_axis(&along)));
    [cross(&along, &across), along, across]
}

/// The normal of a line in the plane, given its direction, as slice_line makes it.
pub fn line_normal(direction: &[f64; 2]) -> [f64; 2] {
    let [a, b] = unit(direction);
    unit(&[-b, a])
}

/// The corners of each face, in face order.
pub fn face_rings(cell: &Element<'_>) -> Vec<Vec<[f64; 3]>> {
    let ring = |face: Vec<usize>| face.iter().map(|&at| super::coord3(cell, at)).collect();
    cell_faces(cell).into_iter().map(ring).collect()
}

/// The segments that a plane cut stitches, in order.
pub fn plane_segments(
    cell: &Element<'_>,
    origin: &[f64; 3],
    [normal, u, v]: &[[f64; 3]; 3],
    tol: f64,
) -> Vec<Segment<2>> {
    let mut gathered = Vec::new();
    for ring in face_rings(cell) {
        let found = plane_section_segments(&ring, origin, normal, tol);
        gathered.extend(found.iter().map(|s| s.map(|p| project(&p, origin, u, v))));
    }
    gathered
}

pub fn plane_cut(
    cell: &Element<'_>,
    origin: &[f64; 3],
    [normal, u, v]: &[[f64; 3]; 3],
    tol: f64,
) -> Loops {
    section_cell_by_plane(cell, origin, normal, u, v, tol)
}

pub fn line_cut(
    cell: &Element<'_>,
    origin: &[f64; 3],
    vectors: &[[f64; 3]; 3],
    tol: f64,
) -> Vec<Segment<3>> {
    let along = vectors[1];
    let place = |p: [f64; 2]| std::array::from_fn(|k| origin[k] + p[0] * along[k]);
    let (points, loops) = plane_cut(cell, origin, vectors, tol);
    let mut found = Vec::new();
    for nodes in loops {
        let ring: Vec<[f64; 2]> = nodes.into_iter().map(|node| points[node]).collect();
        let on_line = plane_section_segments(&ring, &[0.0; 2], &[0.0, 1.0], tol);
        found.extend(on_line.into_iter().map(|s| s.map(place)));
    }
    found
}
