//! Crossings that lie in the middle by default: where the distances of an edge's ends differ by NaN or by no more than
//! 2^-1022.

use cicelybeam::*;

const INFINITY: f64 = f64::INFINITY;
const NAN: f64 = f64::NAN;
/// 2^-1022, and 2^-1074, of which the former is 2^52 times.
const EDGE: f64 = f64::MIN_POSITIVE;
const LEAST: f64 = 5e-324;

/// The triangle (0, high) (4, high) low, cut by the axis y = 0, which its normal or its direction gives.
fn triangle(high: f64, low: [f64; 2], tol: f64) -> Line<2> {
    let coords = [0., high, 4., high, low[0], low[1]];
    let (tri, nodes, origin) = (PlaneType::Tri3, [0, 1, 2], [0., 0.]);
    let by_normal = cut_plane_cell_by_normal(tri, &nodes, &coords, &origin, &[0., 1.], false, tol);
    let by_direction = cut_plane_cell_by_direction(tri, &nodes, &coords, &origin, &[1., 0.], tol);
    let [by_normal, by_direction] = [by_normal.unwrap(), by_direction.unwrap()];
    assert_eq!(by_direction.defaulted, by_normal.defaulted);
    by_normal
}

fn defaulted(high: f64, low: [f64; 2], tol: f64) -> u32 {
    triangle(high, low, tol).defaulted
}

#[test]
fn distances_that_differ_by_no_more_than_the_least_normal_number() {
    let middles = Line {
        segments: vec![[[2., 0.], [0., 0.]]],
        defaulted: 2,
    };
    assert_eq!(triangle(LEAST, [0., -LEAST], 0.), middles);
    assert_eq!(triangle(EDGE / 2., [0., -EDGE / 2.], 0.), middles);
    assert_eq!(defaulted(EDGE / 2. - LEAST, [0., -EDGE / 2.], 0.), 2);
}

#[test]
fn distances_that_differ_by_more_are_divided() {
    assert_eq!(defaulted(EDGE / 2. + LEAST, [0., -EDGE / 2.], 0.), 0);
    assert_eq!(defaulted(EDGE, [0., -EDGE], 0.), 0);
    assert_eq!(triangle(1., [0., -1.], 0.).segments, [[[2., 0.], [0., 0.]]]);
    assert_eq!(defaulted(1., [0., -1.], 0.), 0);
}

/// The distance of a corner is NaN, or that of a corner at an infinity along the axis: no segment is left.
#[test]
fn a_difference_of_nan() {
    for low in [[0., NAN], [NAN, -1.], [INFINITY, -1.], [-INFINITY, NAN]] {
        let found = triangle(1., low, 0.);
        assert_eq!((found.segments.len(), found.defaulted), (0, 2), "{low:?}");
    }
}

/// They differ by an infinity, and divided the crossing lies at NaN.
#[test]
fn infinities_on_both_sides_are_divided() {
    assert_eq!(defaulted(INFINITY, [0., -INFINITY], 0.), 0);
    assert_eq!(defaulted(INFINITY, [0., -1.], 0.), 0);
    assert_eq!(defaulted(1., [0., -INFINITY], 0.), 0);
}

/// With a negative tolerance a corner on the axis is outside; with NaN no corner is beyond the tolerance.
#[test]
fn odd_tolerances() {
    assert_eq!(defaulted(LEAST, [0., 0.], -LEAST), 2);
    assert_eq!(defaulted(LEAST, [0., 0.], 0.), 0);
    assert_eq!(defaulted(LEAST, [0., -LEAST], NAN), 0);
    assert_eq!(defaulted(1., [NAN, -1.], NAN), 0);
    assert_eq!(defaulted(LEAST, [0., -LEAST], LEAST), 0);
}

/// Every edge along z is crossed in two faces. All points are one within the tolerance, so each but the first is skipped.
#[test]
fn a_brick_of_side_1e_310() {
    let base = [[0., 0.], [1., 0.], [1., 1.], [0., 1.]];
    let level = |z: f64| base.map(|[x, y]| [x, y, z].map(|k: f64| k * 1e-310));
    let coords = [level(0.), level(1.)].concat().concat();
    let nodes = [0, 1, 2, 3, 4, 5, 6, 7];
    let (origin, up) = ([0., 0., 5e-311], [0., 0., 1.]);
    let gathered = gather(SpaceType::Hex8, &nodes, &coords, &origin, &up, false, 0.).unwrap();
    assert_eq!((gathered.segments.len(), gathered.defaulted), (0, 8));
    let section = cut_by_plane(
        SpaceType::Hex8,
        &nodes,
        &coords,
        &origin,
        &up,
        false,
        false,
        0.,
    )
    .unwrap();
    assert_eq!((section.edges, section.defaulted), (Edges::default(), 8));
    let faces = [[0, 1, 5, 4], [4, 5, 6, 7]];
    let alone = faces.map(|face| {
        let found = gather(SpaceType::Phed, &face, &coords, &origin, &up, false, 0.).unwrap();
        found.defaulted
    });
    assert_eq!(alone, [2, 0]);
}

/// A wedge with an end at y = -s and one at y = s, each the triangle (x, s) (x + 4, s) (x + 2, -s) of x and z. The plane
/// that holds the x axis crosses each side twice, and the axis crosses the triangle between twice.
#[test]
fn a_line_in_space_adds_those_of_its_loops() {
    let s = LEAST;
    let end = |x: f64, y: f64| [[x, y, s], [x + 4., y, s], [x + 2., y, -s]];
    let coords = [end(0., -s), end(2., s)].concat().concat();
    let nodes = [0, 1, 2, 3, 4, 5];
    let wedge = SpaceType::Wedge6;
    let plane = cut_by_plane(
        wedge,
        &nodes,
        &coords,
        &[0.; 3],
        &[0., -1., 0.],
        false,
        false,
        0.,
    )
    .unwrap();
    assert_eq!((plane.ends.len(), plane.defaulted), (1, 6));
    let line = cut_by_line(wedge, &nodes, &coords, &[0.; 3], &[1., 0., 0.], 0.).unwrap();
    assert_eq!((line.segments.len(), line.defaulted), (1, 8));
}

/// The most nodes that a cell may have, above and below in turn: each edge has one crossing, and 256 is the most.
#[test]
fn the_most_of_one_face() {
    let nodes: Vec<u64> = (0..256).collect();
    let height = |k: usize| if k.is_multiple_of(2) { LEAST } else { -LEAST };
    let rows: Vec<[f64; 2]> = (0..256).map(|k| [k as f64, height(k)]).collect();
    let flat = rows.as_flattened();
    let by_normal = cut_plane_cell_by_normal(
        PlaneType::Pgon,
        &nodes,
        flat,
        &[0., 0.],
        &[0., 1.],
        false,
        0.,
    );
    assert_eq!(by_normal.unwrap().defaulted, 256);
    let coords: Vec<f64> = rows.iter().flat_map(|[x, z]| [*x, x * x, *z]).collect();
    let up = [0., 0., 1.];
    let gathered = gather(SpaceType::Phed, &nodes, &coords, &[0.; 3], &up, false, 0.).unwrap();
    assert_eq!((gathered.segments.len(), gathered.defaulted), (128, 256));
    let section = cut_by_plane(
        SpaceType::Phed,
        &nodes,
        &coords,
        &[0.; 3],
        &up,
        false,
        false,
        0.,
    )
    .unwrap();
    assert_eq!((section.edges.open, section.defaulted), (128, 256));
}

/// Where all crossings are divided, where there is none, and of stitching.
#[test]
fn none() {
    let coords = [0., 0., 0., 1., 0., 0., 0., 1., 0., 0., 0., 1.];
    let at = |z| {
        let (tet, nodes, up) = (SpaceType::Tet4, [0, 1, 2, 3], [0., 0., 1.]);
        cut_by_plane(tet, &nodes, &coords, &[0., 0., z], &up, false, false, 0.).unwrap()
    };
    assert_eq!((at(0.25).defaulted, at(2.).defaulted), (0, 0));
    let segments = [[[0., 0.], [NAN, 1.]], [[LEAST, -LEAST], [INFINITY, 0.]]];
    assert_eq!(stitch(&segments, false, 0.).unwrap().defaulted, 0);
}
