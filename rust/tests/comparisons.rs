//! Comparisons of points while welding: each end of a segment with the points so far, up to and with the first match.

use cicelybeam::lent::Buffers;
use cicelybeam::*;

const INFINITY: f64 = f64::INFINITY;
const NAN: f64 = f64::NAN;

fn comparisons(segments: &[[[f64; 2]; 2]], tol: f64) -> u32 {
    stitch(segments, false, tol).unwrap().comparisons
}

/// The sum of what is worked by hand, one number an end.
fn sum(each: &[u32]) -> u32 {
    each.iter().sum()
}

/// The segments along a chain of points.
fn chain(points: &[[f64; 2]]) -> Vec<[[f64; 2]; 2]> {
    points.windows(2).map(|pair| [pair[0], pair[1]]).collect()
}

fn triangle() -> Vec<[[f64; 2]; 2]> {
    chain(&[[0., 0.], [0., 1.], [1., 0.], [0., 0.]])
}

/// So many segments whose ends are all apart.
fn apart(many: usize) -> Vec<[[f64; 2]; 2]> {
    let end = |k: usize| [k as f64, (k * k) as f64];
    (0..many).map(|k| [end(2 * k), end(2 * k + 1)]).collect()
}

/// The ends become the points 0 1, 1 2 and 2 0. Point k is new after k comparisons, and is found again after k + 1.
/// Nothing is near with NaN, and with infinity all become point 0.
#[test]
fn the_triangle() {
    assert_eq!(comparisons(&triangle(), 0.), sum(&[0, 1, 2, 2, 3, 1]));
    assert_eq!(comparisons(&triangle(), NAN), sum(&[0, 1, 2, 3, 4, 5]));
    assert_eq!(comparisons(&triangle(), INFINITY), sum(&[0, 1, 1, 1, 1, 1]));
    assert_eq!(comparisons(&triangle()[..2], 0.), sum(&[0, 1, 2, 2]));
    assert_eq!(comparisons(&triangle()[..1], 0.), 1);
    assert_eq!(comparisons(&[], 0.), 0);
}

/// An end is compared up to the first point that is near, which need not be the nearest, and not beyond it.
#[test]
fn the_first_match_ends_it() {
    let near_both = [[[0., 0.], [3., 0.]], [[2., 0.], [0., 4.]]];
    assert_eq!(comparisons(&near_both, 2.), sum(&[0, 1, 1, 2]));
    let last = [[[0., 0.], [3., 0.]], [[6., 0.], [6., 0.]]];
    assert_eq!(comparisons(&last, 2.), sum(&[0, 1, 2, 3]));
}

/// The second end of the second segment is near its first end alone, which is the third point by then.
#[test]
fn the_second_end_is_compared_with_the_first() {
    assert_eq!(comparisons(&[[[0., 0.]; 2]], 0.), 1);
    let segments = [[[0., 0.], [4., 0.]], [[2., 0.], [2.5, 0.]]];
    let found = stitch(&segments, false, 1.).unwrap();
    assert_eq!(
        (found.points.len(), found.comparisons),
        (3, sum(&[0, 1, 2, 3]))
    );
}

/// The least number of s segments is 2s - 1, the greatest s(2s - 1). One segment has no other.
#[test]
fn the_least_and_the_greatest() {
    for s in [1, 2, 3, 15, 16, 17, 18, 100, 383, 384] {
        let segments = apart(s);
        let s = s as u32;
        assert_eq!(comparisons(&segments, 0.), s * (2 * s - 1), "{s} apart");
        assert_eq!(comparisons(&segments, NAN), s * (2 * s - 1), "{s}, NaN");
        assert_eq!(comparisons(&segments, INFINITY), 2 * s - 1, "{s}");
        assert_eq!(comparisons(&segments, -INFINITY), 2 * s - 1, "{s}");
    }
    assert_eq!(comparisons(&apart(MOST_SEGMENTS), NAN), 294_528);
    assert_eq!(comparisons(&[[[1., 2.]; 2]; MOST_SEGMENTS], NAN), 294_528);
    assert_eq!(comparisons(&[[[1., 2.]; 2]; MOST_SEGMENTS], 0.), 767);
}

/// The squared tolerance counts: a negative one as the positive. Both zeros are one coordinate, and a NaN is near nothing.
#[test]
fn odd_numbers() {
    for tol in [1., -1.] {
        assert_eq!(comparisons(&triangle(), tol), 5);
    }
    let zeros = [[[0., -0.], [-0., 0.]], [[-0., -0.], [0., 0.]]];
    assert_eq!(comparisons(&zeros, 0.), sum(&[0, 1, 1, 1]));
    assert_eq!(comparisons(&zeros, -0.), sum(&[0, 1, 1, 1]));
    let nan = [[[0., 0.], [NAN, 0.]], [[NAN, 0.], [0., 0.]]];
    assert_eq!(comparisons(&nan, INFINITY), sum(&[0, 1, 2, 1]));
    let infinite = [[[INFINITY, 0.], [INFINITY, 0.]]; 2];
    assert_eq!(comparisons(&infinite, INFINITY), sum(&[0, 1, 2, 3]));
}

/// The segments of the brick at half its height join its points 0 1, 2 3, 1 2 and 3 0. Without a segment there is no
/// comparison.
#[test]
fn plane_cuts() {
    let coords = [
        0., 0., 0., 1., 0., 0., 1., 1., 0., 0., 1., 0., // the base
        0., 0., 1., 1., 0., 1., 1., 1., 1., 0., 1., 1., // above it
    ];
    let nodes = [0, 1, 2, 3, 4, 5, 6, 7];
    let at = |z, tol| {
        let (origin, up) = ([0., 0., z], [0., 0., 1.]);
        cut_by_plane(
            SpaceType::Hex8,
            &nodes,
            &coords,
            &origin,
            &up,
            false,
            false,
            tol,
        )
        .unwrap()
    };
    assert_eq!(at(0.5, 0.).comparisons, sum(&[0, 1, 2, 3, 2, 3, 4, 1]));
    assert_eq!(at(2., 0.).comparisons, 0);
    assert_eq!(at(0.5, NAN).comparisons, 0);
}

/// Stitching what was gathered compares as the plane cut does. A wall of n sides has n segments, and each point is an end
/// twice: point k is new after k comparisons, and is found again after k + 1.
#[test]
fn a_plane_cut_compares_as_stitching_what_it_gathers() {
    for n in [3, 16, 17, 51] {
        let angle = |k: usize| std::f64::consts::TAU * k as f64 / n as f64;
        let level = |z: f64| (0..n).flat_map(move |k| [angle(k).cos(), angle(k).sin(), z]);
        let coords: Vec<f64> = level(0.).chain(level(1.)).collect();
        let wall = |k: usize| [k, (k + 1) % n, n + (k + 1) % n, n + k].map(|node| node as u64);
        let walls: Vec<[u64; 4]> = (0..n).map(wall).collect();
        let nodes = walls.join(&FACE_END);
        let (origin, up) = ([0., 0., 0.5], [0., 0., 1.]);
        let tol = tolerance_in_space(&coords).unwrap();
        let cut = cut_by_plane(
            SpaceType::Phed,
            &nodes,
            &coords,
            &origin,
            &up,
            false,
            false,
            tol,
        )
        .unwrap();
        let gathered = gather(SpaceType::Phed, &nodes, &coords, &origin, &up, false, tol).unwrap();
        assert_eq!(stitch(&gathered.segments, false, tol), Ok(cut.clone()));
        let n = n as u32;
        assert_eq!(
            (gathered.segments.len(), cut.edges.in_loops),
            (n as usize, n)
        );
        assert_eq!(cut.comparisons, n * n);
    }
}

/// A refusal tells nothing, over lent buffers as well; if it told comparisons, the crate would stop.
#[test]
fn refused() {
    let segments = vec![[[0., 0.], [1., 0.]]; MOST_SEGMENTS + 1];
    assert_eq!(stitch(&segments, false, NAN), Err(Refusal::Segments));
    let into = Buffers {
        numbers: &mut [0.; 3],
        nodes: &mut [0],
        ends: &mut [],
    };
    let short = lent::stitch(&[0., 0., 1., 0.], false, NAN, into);
    assert_eq!(short, Err(Refusal::ShortBuffer));
}
