//! Where the claims end: inputs that docs/CLAIMS.md and the header name.

use cicelybeam::*;

fn rounded_area(points: &[[f64; 2]]) -> f64 {
    let n = points.len();
    let cross =
        |k: usize| points[k][0] * points[(k + 1) % n][1] - points[(k + 1) % n][0] * points[k][1];
    (0..n).map(cross).sum::<f64>() / 2.
}

/// The rounded area of this walk is negative, so its list is reversed, and then it is negative too.
#[test]
fn a_reversed_loop_can_have_a_negative_area() {
    let corners = [[0.5, -0.1], [-0.1, -0.3], [0.5, 0.], [-0.1, 0.1]];
    let sides: Vec<_> = (0..4).map(|k| [corners[k], corners[(k + 1) % 4]]).collect();
    let section = stitch(&sides, false, 0.).unwrap();
    assert_eq!(section.loops().collect::<Vec<_>>(), [[3, 2, 1, 0]]);
    let polygon = section.polygons().next().unwrap();
    assert!(rounded_area(&corners) < 0. && rounded_area(&polygon) < 0.);
}

/// A loop of area 6 that meets itself: of its two parts, the triangle (0,0) (2,1) (2,-1) runs clockwise.
#[test]
fn a_part_of_a_loop_can_run_clockwise() {
    let chain = [
        [-4., 2.],
        [0., 0.],
        [2., -1.],
        [2., 1.],
        [0., 0.],
        [-4., -2.],
        [-4., 2.],
    ];
    let sides: Vec<_> = chain.windows(2).map(|pair| [pair[0], pair[1]]).collect();
    let section = stitch(&sides, false, 0.).unwrap();
    assert_eq!(section.loops().collect::<Vec<_>>(), [[4, 1, 3, 2, 1, 0]]);
    let polygon = section.polygons().next().unwrap();
    assert_eq!(
        (rounded_area(&polygon), rounded_area(&polygon[1..4])),
        (6., -2.)
    );
}

/// The unit cube without its side x = 1, as a polyhedron: the section is open, and the line tells nothing of it.
#[test]
fn a_line_through_an_open_section_has_no_segment() {
    let cube = [
        0., 0., 0., 1., 0., 0., 1., 1., 0., 0., 1., 0., // the base
        0., 0., 1., 1., 0., 1., 1., 1., 1., 0., 1., 1., // above it
    ];
    let end = FACE_END;
    let five = [
        0, 3, 2, 1, end, 4, 5, 6, 7, end, 0, 1, 5, 4, end, 2, 3, 7, 6, end, 3, 0, 4, 7,
    ];
    let (middle, along) = ([0.5, 0.5, 0.5], [1., 0., 0.]);
    let found = cut_by_line(SpaceType::Phed, &five, &cube, &middle, &along, 1e-12).unwrap();
    assert!(found.segments.is_empty());
    let section = cut_by_plane(
        SpaceType::Phed,
        &five,
        &cube,
        &middle,
        &[0., 0., 1.],
        false,
        false,
        1e-12,
    )
    .unwrap();
    assert_eq!((section.edges.listed, section.edges.open), (3, 3));
}
