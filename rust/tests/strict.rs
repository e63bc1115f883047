//! The strict way: a closed walk that passes a point twice is pinched, and not returned.

use cicelybeam::lent::{Buffers, Written};
use cicelybeam::*;

const UP: [f64; 3] = [0., 0., 1.];
const EIGHT: [u64; 8] = [0, 1, 2, 3, 4, 5, 6, 7];

/// Eight different corners. The plane z = 0 passes through corner 0, and the edge from 6 to 7 does too, so the section is two
/// triangles that share that corner: of area 1, and of area 4.
const TOUCHING: [f64; 24] = [
    0., 0., 0., -1., 0., -1., -3., 4., 1., 1., -2., 1., //
    1., 2., 1., -3., -4., 1., -1., 0., 1., 1., 0., -1.,
];

/// The segments along a chain of points.
fn chain(points: &[[f64; 2]]) -> Vec<[[f64; 2]; 2]> {
    points.windows(2).map(|pair| [pair[0], pair[1]]).collect()
}

/// Two triangles that share the point (0, 0), the one this long.
fn tie(length: f64) -> Vec<[[f64; 2]; 2]> {
    let [a, b] = [[-length, length / 2.], [-length, -length / 2.]];
    let [c, d, o] = [[2., 1.], [2., -1.], [0., 0.]];
    chain(&[a, o, c, d, o, b, a])
}

fn both_ways(segments: &[[[f64; 2]; 2]], tol: f64) -> [Section; 2] {
    [false, true].map(|strict| stitch(segments, strict, tol).unwrap())
}

/// Listed, in loops, pinched, flat, open.
fn counts(section: &Section) -> [u32; 5] {
    let Edges {
        listed,
        in_loops,
        pinched,
        flat,
        open,
    } = section.edges;
    [listed, in_loops, pinched, flat, open]
}

fn loops(section: &Section) -> Vec<&[u32]> {
    section.loops().collect()
}

/// What does not depend on the way.
fn assert_common([usual, strict]: &[Section; 2]) {
    assert_eq!(usual.points, strict.points);
    assert_eq!(usual.defaulted, strict.defaulted);
    assert_eq!(usual.comparisons, strict.comparisons);
    assert_eq!(usual.edges.listed, strict.edges.listed);
    assert_eq!(usual.edges.open, strict.edges.open);
    assert_eq!(usual.edges.pinched, 0);
}

/// Its area is 0, and pinched is decided before flat.
#[test]
fn the_bow_tie() {
    let both = both_ways(&tie(2.), 0.);
    assert_common(&both);
    assert_eq!(counts(&both[0]), [6, 0, 0, 6, 0]);
    assert_eq!(counts(&both[1]), [6, 0, 6, 0, 0]);
    assert!(both.iter().all(|section| !section.edges.all_drawn()));
}

/// A pinched walk and a triangle apart, which is a loop in both ways.
#[test]
fn the_loops_are_the_usual_ones_without_those_that_pass_a_point_twice() {
    let apart = chain(&[[9., 0.], [10., 0.], [9., 1.], [9., 0.]]);
    for segments in [[tie(4.), apart.clone()], [apart, tie(4.)]] {
        let both = both_ways(&segments.concat(), 0.);
        assert_common(&both);
        let [usual, strict] = &both;
        let mut kept = loops(usual);
        assert_eq!(kept.len(), 2);
        kept.retain(|nodes| nodes.len() == 3);
        assert_eq!(loops(strict), kept);
        assert_eq!(counts(usual), [9, 9, 0, 0, 0]);
        assert_eq!(counts(strict), [9, 3, 6, 0, 0]);
        assert!(usual.edges.all_drawn() && !strict.edges.all_drawn());
    }
}

/// The walk 0 1 2 3 1 4 ends at another point than it started.
#[test]
fn an_open_walk_that_passes_a_point_twice_is_open() {
    let path = [[0., 0.], [1., 0.], [2., 0.], [1., 1.], [1., 0.], [1., -1.]];
    let both = both_ways(&chain(&path), 0.);
    assert_common(&both);
    assert_eq!(both.map(|section| counts(&section)), [[5, 0, 0, 0, 5]; 2]);
}

/// A triangle, a flat walk, two sides of a triangle, ends that are all apart, no segments.
#[test]
fn without_a_repeated_point_both_ways_are_one() {
    let triangle = chain(&[[0., 0.], [0., 1.], [1., 0.], [0., 0.]]);
    let flat = chain(&[[0., 0.], [1., 0.], [2., 0.], [0., 0.]]);
    let lists = [
        (triangle.clone(), 0.),
        (flat, 0.),
        (triangle[..2].to_vec(), 0.),
        (tie(4.), f64::NAN),
        (vec![], 0.),
    ];
    for (segments, tol) in lists {
        let [usual, strict] = both_ways(&segments, tol);
        assert_eq!(usual.edges, strict.edges);
        let same = |section: &Section| (section.nodes.clone(), section.ends.clone());
        assert_eq!(same(&usual), same(&strict));
    }
}

fn cut(kind: SpaceType, nodes: &[u64], coords: &[f64], strict: bool) -> Section {
    cut_by_plane(kind, nodes, coords, &[0.; 3], &UP, false, strict, 0.).unwrap()
}

/// As a hexahedron, and as a polyhedron of its faces.
#[test]
fn a_cell_whose_section_passes_its_corner_twice() {
    let faces = [
        [0, 3, 2, 1],
        [4, 5, 6, 7],
        [0, 1, 5, 4],
        [2, 3, 7, 6],
        [1, 2, 6, 5],
        [3, 0, 4, 7],
    ];
    let cells = [
        (SpaceType::Hex8, EIGHT.to_vec()),
        (SpaceType::Phed, faces.join(&FACE_END)),
    ];
    for (kind, nodes) in cells {
        let both = [false, true].map(|strict| cut(kind, &nodes, &TOUCHING, strict));
        assert_common(&both);
        let [usual, strict] = &both;
        let points = [[-2., 2.], [0., 0.], [1., 1.], [-2., -2.], [1., -1.]];
        assert_eq!(usual.points, points);
        assert_eq!(loops(usual), [[3, 1, 2, 4, 1, 0]]);
        assert_eq!(counts(usual), [6, 6, 0, 0, 0]);
        assert!(loops(strict).is_empty());
        assert_eq!(counts(strict), [6, 0, 6, 0, 0]);
    }
}

/// Cells of a mesh as a mesher makes them.
#[test]
fn ordinary_cells_are_cut_alike_in_both_ways() {
    let brick = [
        0., 0., 0., 1., 0., 0., 1., 1., 0., 0., 1., 0., // the base
        0., 0., 1., 1., 0., 1., 1., 1., 1., 0., 1., 1., // above it
    ];
    let cells: [(SpaceType, &[u64]); 3] = [
        (SpaceType::Tet4, &[0, 1, 3, 4]),
        (SpaceType::Wedge6, &[0, 1, 3, 4, 5, 7]),
        (SpaceType::Hex8, &EIGHT),
    ];
    for (kind, nodes) in cells {
        for normal in [UP, [1., 1., 1.], [-3., 1., 0.5]] {
            let [usual, strict] = [false, true].map(|strict| {
                cut_by_plane(
                    kind, nodes, &brick, &[0.25; 3], &normal, false, strict, 1e-12,
                )
                .unwrap()
            });
            assert_eq!(usual, strict);
            assert!(usual.ends.len() == 1 && usual.edges.all_drawn());
        }
    }
}

/// The line along x lies in the plane across y. The cell is turned so that this plane cuts it along both triangles, which the
/// line passes through.
#[test]
fn a_line_cut_has_the_usual_way() {
    let turned: Vec<f64> = TOUCHING
        .chunks(3)
        .flat_map(|p| [p[0], -p[2], p[1]])
        .collect();
    let (origin, along, across) = ([0., 0., 0.5], [1., 0., 0.], [0., -1., 0.]);
    let hex = SpaceType::Hex8;
    let plane =
        |strict| cut_by_plane(hex, &EIGHT, &turned, &origin, &across, false, strict, 0.).unwrap();
    let ends = [false, true].map(|strict| plane(strict).ends);
    assert_eq!(ends, [vec![6], vec![]]);
    let found = cut_by_line(hex, &EIGHT, &turned, &origin, &along, 0.).unwrap();
    assert_eq!(found.segments.len(), 2);
}

/// Stitching what was gathered gives the plane cut in the same way.
#[test]
fn gathered_and_stitched_is_the_plane_cut() {
    let gathered = gather(SpaceType::Hex8, &EIGHT, &TOUCHING, &[0.; 3], &UP, false, 0.).unwrap();
    for strict in [false, true] {
        let stitched = stitch(&gathered.segments, strict, 0.).unwrap();
        assert_eq!(stitched, cut(SpaceType::Hex8, &EIGHT, &TOUCHING, strict));
    }
}

/// A NaN of an unusual payload: what is not written keeps its bits.
const UNTOUCHED: u64 = 0xfff4_1234_5678_9abc;

/// What is told in buffers of these lengths; beyond the answer, and on a refusal, nothing may be written.
fn lent(
    lengths: [usize; 3],
    work: impl FnOnce(Buffers) -> Result<Written, Refusal>,
) -> Result<Written, Refusal> {
    let mut numbers = vec![f64::from_bits(UNTOUCHED); lengths[0]];
    let (mut nodes, mut ends) = (vec![7; lengths[1]], vec![7; lengths[2]]);
    let found = work(Buffers {
        numbers: &mut numbers,
        nodes: &mut nodes,
        ends: &mut ends,
    });
    let [points, in_nodes, loops] = match &found {
        Ok(written) => [2 * written.points, written.nodes, written.loops],
        Err(_) => [0; 3],
    };
    let untouched = |x: &f64| x.to_bits() == UNTOUCHED;
    assert!(numbers[points..].iter().all(untouched));
    assert!(nodes[in_nodes..].iter().all(|&x| x == 7));
    assert!(ends[loops..].iter().all(|&x| x == 7));
    found
}

#[test]
fn buffers_and_refusals_are_those_of_the_usual_way() {
    let segments = tie(4.);
    let numbers = segments.as_flattened().as_flattened();
    for strict in [false, true] {
        let stitch = |lengths| lent(lengths, |into| lent::stitch(numbers, strict, 0., into));
        let section = |lengths| {
            lent(lengths, |into| {
                lent::cut_by_plane(
                    14, &EIGHT, &TOUCHING, &[0.; 3], &UP, false, strict, 0., into,
                )
            })
        };
        for longer in [0, 1, 20] {
            let pinched = [
                stitch([24, 6, 2].map(|n| n + longer)),
                section([144, 36, 12].map(|n| n + longer)),
            ];
            for written in pinched.map(Result::unwrap) {
                assert_eq!(written.edges.pinched, if strict { 6 } else { 0 });
                assert_eq!(written.points, 5);
            }
        }
        for short in 0..3 {
            let less = |k| usize::from(k == short);
            let [stitching, cutting] = [[24, 6, 2], [144, 36, 12]]
                .map(|lengths| std::array::from_fn(|k| lengths[k] - less(k)));
            assert_eq!(stitch(stitching), Err(Refusal::ShortBuffer));
            assert_eq!(section(cutting), Err(Refusal::ShortBuffer));
        }
        let cut = |nodes: &[u64], coords: &[f64], origin: &[f64], normal: &[f64]| {
            cut_by_plane(
                SpaceType::Hex8,
                nodes,
                coords,
                origin,
                normal,
                false,
                strict,
                0.,
            )
            .unwrap_err()
        };
        let zero = [0.; 3];
        assert_eq!(cut(&EIGHT[1..], &TOUCHING, &zero, &UP), Refusal::NodeCount);
        assert_eq!(cut(&EIGHT, &TOUCHING[1..], &zero, &UP), Refusal::PartialRow);
        assert_eq!(cut(&EIGHT, &TOUCHING[3..], &zero, &UP), Refusal::NoSuchRow);
        assert_eq!(
            cut(&EIGHT, &TOUCHING, &zero[1..], &UP),
            Refusal::VectorLength
        );
        assert_eq!(cut(&EIGHT, &TOUCHING, &zero, &zero), Refusal::NoDirection);
        let many = vec![[[0., 0.], [1., 0.]]; MOST_SEGMENTS + 1];
        assert_eq!(
            cicelybeam::stitch(&many, strict, 0.),
            Err(Refusal::Segments)
        );
    }
}
