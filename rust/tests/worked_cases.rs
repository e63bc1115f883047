//! The worked cases of docs/RULES.md.

use cicelybeam::*;

const BRICK: [f64; 24] = [
    0., 0., 0., 1., 0., 0., 1., 1., 0., 0., 1., 0., // the base
    0., 0., 1., 1., 0., 1., 1., 1., 1., 0., 1., 1., // above it
];
const EIGHT: [u64; 8] = [0, 1, 2, 3, 4, 5, 6, 7];
const UP: [f64; 3] = [0., 0., 1.];
const SQUARE: [f64; 8] = [0., 0., 1., 0., 1., 1., 0., 1.];
const INFINITY: f64 = f64::INFINITY;

fn brick_at(z: f64) -> Section {
    cut_by_plane(
        SpaceType::Hex8,
        &EIGHT,
        &BRICK,
        &[0., 0., z],
        &UP,
        false,
        false,
        0.,
    )
    .unwrap()
}

/// Listed, in loops, flat, open.
fn counts(section: &Section) -> [u32; 4] {
    let edges = section.edges;
    [edges.listed, edges.in_loops, edges.flat, edges.open]
}

fn loops(section: &Section) -> Vec<&[u32]> {
    section.loops().collect()
}

fn area(polygon: &[[f64; 2]]) -> f64 {
    let n = polygon.len();
    let cross = |k: usize| {
        let (a, b) = (polygon[k], polygon[(k + 1) % n]);
        a[0] * b[1] - b[0] * a[1]
    };
    (0..n).map(cross).sum::<f64>() / 2.
}

/// The segments along a chain of points.
fn chain(points: &[[f64; 2]]) -> Vec<[[f64; 2]; 2]> {
    points.windows(2).map(|pair| [pair[0], pair[1]]).collect()
}

fn triangle() -> Vec<[[f64; 2]; 2]> {
    chain(&[[0., 0.], [0., 1.], [1., 0.], [0., 0.]])
}

#[test]
fn cases_2_and_3_the_brick() {
    for z in [0.5, 0.] {
        let section = brick_at(z);
        assert_eq!(section.points, [[0., 0.], [1., 0.], [1., 1.], [0., 1.]]);
        assert_eq!(loops(&section), [[0, 1, 2, 3]]);
        assert_eq!(counts(&section), [4, 4, 0, 0]);
    }
    let above = brick_at(2.);
    assert!(above.points.is_empty() && above.nodes.is_empty() && above.ends.is_empty());
    assert_eq!(counts(&above), [0; 4]);
}

#[test]
fn case_4_the_tetrahedron() {
    let coords = [0., 0., 0., 1., 0., 0., 0., 1., 0., 0., 0., 1.];
    let at = |z| {
        let (origin, nodes) = ([0., 0., z], [0, 1, 2, 3]);
        cut_by_plane(
            SpaceType::Tet4,
            &nodes,
            &coords,
            &origin,
            &UP,
            false,
            false,
            0.,
        )
        .unwrap()
    };
    assert!(loops(&at(1.)).is_empty());
    let low = at(0.25);
    let polygons: Vec<_> = low.polygons().collect();
    assert_eq!(polygons.len(), 1);
    assert_eq!((polygons[0].len(), area(&polygons[0])), (3, 0.28125));
}

#[test]
fn cases_5_to_10_stitching() {
    let none = stitch(&[], false, 0.).unwrap();
    assert_eq!((none.points.len(), counts(&none)), (0, [0; 4]));

    let closed = stitch(&triangle(), false, 0.).unwrap();
    assert_eq!(loops(&closed), [[2, 1, 0]]);
    assert_eq!(counts(&closed), [3, 3, 0, 0]);

    let two = stitch(&triangle()[..2], false, 0.).unwrap();
    assert_eq!(counts(&two), [2, 0, 0, 2]);

    let unwelded = stitch(&triangle(), false, f64::NAN).unwrap();
    assert_eq!(
        (unwelded.points.len(), counts(&unwelded)),
        (6, [3, 0, 0, 3])
    );

    let line = chain(&[[0., 0.], [1., 0.], [2., 0.], [0., 0.]]);
    assert_eq!(counts(&stitch(&line, false, 0.).unwrap()), [3, 0, 3, 0]);

    let tie = chain(&[
        [-2., 1.],
        [0., 0.],
        [2., 1.],
        [2., -1.],
        [0., 0.],
        [-2., -1.],
        [-2., 1.],
    ]);
    assert_eq!(counts(&stitch(&tie, false, 0.).unwrap()), [6, 0, 6, 0]);
    let strict = stitch(&tie, true, 0.).unwrap();
    assert_eq!((counts(&strict), strict.edges.pinched), ([6, 0, 0, 0], 6));
}

#[test]
fn case_18_triangles_that_share_a_corner() {
    let sharing = chain(&[
        [-4., 2.],
        [0., 0.],
        [2., 1.],
        [2., -1.],
        [0., 0.],
        [-4., -2.],
        [-4., 2.],
    ]);
    let apart = chain(&[[9., 0.], [10., 0.], [9., 1.], [9., 0.]]);
    let segments = [sharing, apart].concat();
    let usual = stitch(&segments, false, 0.).unwrap();
    assert_eq!(loops(&usual), [&[4, 1, 2, 3, 1, 0][..], &[5, 6, 7]]);
    assert_eq!((counts(&usual), usual.edges.pinched), ([9, 9, 0, 0], 0));
    let strict = stitch(&segments, true, 0.).unwrap();
    assert_eq!(loops(&strict), [[5, 6, 7]]);
    assert_eq!((counts(&strict), strict.edges.pinched), ([9, 3, 0, 0], 6));
    assert_eq!(strict.points, usual.points);
}

#[test]
fn case_19_scaled_normals() {
    let cut = |normal: [f64; 3]| {
        let (hex, origin) = (SpaceType::Hex8, [0.5, 0., 0.]);
        cut_by_plane(hex, &EIGHT, &BRICK, &origin, &normal, true, false, 0.)
    };
    for x in [1., 1e200, f64::from_bits(1)] {
        let section = cut([x, 0., 0.]).unwrap();
        assert_eq!(section.points, [[0., 0.], [1., 0.], [1., 1.], [0., 1.]]);
        assert_eq!(loops(&section), [[0, 1, 2, 3]]);
        assert_eq!(counts(&section), [4, 4, 0, 0]);
    }
    for normal in [[0.; 3], [INFINITY, 0., 0.], [1., f64::NAN, 0.]] {
        assert_eq!(cut(normal), Err(Refusal::NoDirection));
    }
    let long = 2f64.powi(1000);
    let line = |normal: [f64; 2]| {
        let (tri, coords) = (PlaneType::Tri3, [0., 0., long, 0., 0., 1.]);
        cut_plane_cell_by_normal(tri, &[0, 1, 2], &coords, &[0.; 2], &normal, true, 0.)
    };
    for normal in [[0.; 2], [INFINITY, 0.], [1., f64::NAN]] {
        assert_eq!(line(normal), Err(Refusal::NoDirection));
    }
    let (half, greatest) = (2f64.powi(-52), 2f64.powi(1023));
    let on = line([half, greatest]).unwrap();
    assert_eq!(on.segments, [[[0., 0.], [long, 0.]]]);
    let above = line([half.next_up(), greatest]).unwrap();
    assert!(above.segments.is_empty());
}

#[test]
fn cases_11_and_12_tolerance_and_roots() {
    assert_eq!(tolerance_in_space(&[3., 4., 0.]), Ok(2f64.powi(-44)));
    assert_eq!(tolerance_in_plane(&[]), Ok(1e-12));
    assert_eq!(sqrt(4.), 2.);
    assert_eq!(sqrt(5e-324), 2f64.powi(-537));
}

#[test]
fn case_13_odd_normals() {
    let middle = [0.5; 3];
    let plane = |normal: [f64; 3]| {
        cut_by_plane(
            SpaceType::Hex8,
            &EIGHT,
            &BRICK,
            &middle,
            &normal,
            false,
            false,
            0.,
        )
    };
    let line = |along: [f64; 3]| cut_by_line(SpaceType::Hex8, &EIGHT, &BRICK, &middle, &along, 0.);
    let huge = [1e200, 0., 0.];
    assert!(loops(&plane(huge).unwrap()).is_empty());
    assert_eq!(line(huge), Err(Refusal::NoDirection));
    assert_eq!(plane([0.; 3]), Err(Refusal::NoDirection));
    assert_eq!(plane([INFINITY, 0., 0.]), Err(Refusal::NoDirection));
    let infinite = [INFINITY, 0.];
    let (nodes, origin) = ([0, 1, 2, 3], [0.5; 2]);
    let quad = PlaneType::Quad4;
    let by_normal = cut_plane_cell_by_normal(quad, &nodes, &SQUARE, &origin, &infinite, false, 0.);
    assert!(by_normal.unwrap().segments.is_empty());
    let by_direction = cut_plane_cell_by_direction(quad, &nodes, &SQUARE, &origin, &infinite, 0.);
    assert_eq!(by_direction, Err(Refusal::NoDirection));
}

#[test]
fn case_14_limits() {
    let segments = vec![[[0., 0.], [1., 0.]]; 385];
    assert_eq!(
        counts(&stitch(&segments[..384], false, 0.).unwrap()),
        [1, 0, 0, 1]
    );
    assert_eq!(stitch(&segments, false, 0.), Err(Refusal::Segments));
    let nodes: Vec<u64> = (0..257).map(|k| k % 4).collect();
    let cut = |n: usize| {
        let (origin, normal) = ([0., 0.5], [0., 1.]);
        cut_plane_cell_by_normal(
            PlaneType::Pgon,
            &nodes[..n],
            &SQUARE,
            &origin,
            &normal,
            false,
            0.,
        )
    };
    assert!(cut(256).is_ok());
    assert_eq!(cut(257), Err(Refusal::NodeCount));
}
