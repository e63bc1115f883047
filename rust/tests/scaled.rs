//! The scaled way: a normal of any length, multiplied by a power of two before it is made unit.

use cicelybeam::*;

const BRICK: [f64; 24] = [
    0., 0., 0., 1., 0., 0., 1., 1., 0., 0., 1., 0., // the base
    0., 0., 1., 1., 0., 1., 1., 1., 1., 0., 1., 1., // above it
];
const EIGHT: [u64; 8] = [0, 1, 2, 3, 4, 5, 6, 7];
const SQUARE: [f64; 8] = [0., 0., 1., 0., 1., 1., 0., 1.];
const MIDDLE: [f64; 3] = [0.5; 3];

/// 2^-1074.
const LEAST: f64 = f64::from_bits(1);
const NAN: f64 = f64::NAN;
const INFINITY: f64 = f64::INFINITY;

fn cut(normal: [f64; 3], scaled: bool) -> Result<Section, Refusal> {
    let strict = false;
    cut_by_plane(
        SpaceType::Hex8,
        &EIGHT,
        &BRICK,
        &MIDDLE,
        &normal,
        scaled,
        strict,
        1e-12,
    )
}

fn gathered(normal: [f64; 3], scaled: bool) -> Result<Line<2>, Refusal> {
    let hex = SpaceType::Hex8;
    gather(hex, &EIGHT, &BRICK, &MIDDLE, &normal, scaled, 1e-12)
}

fn line(normal: [f64; 2], scaled: bool) -> Result<Line<2>, Refusal> {
    let (quad, nodes, origin) = (PlaneType::Quad4, [0, 1, 2, 3], [0.5; 2]);
    cut_plane_cell_by_normal(quad, &nodes, &SQUARE, &origin, &normal, scaled, 1e-12)
}

/// Powers of two from the least to the greatest, and what lies between.
fn lengths() -> impl Iterator<Item = f64> {
    let least = [1, 2, 1 << 20, 1 << 51].map(f64::from_bits);
    let powers = (1..2047).step_by(31).map(|e| f64::from_bits(e << 52));
    least
        .into_iter()
        .chain(powers)
        .chain([2f64.powi(1023), 2f64.powi(-1022)])
}

/// Oblique normals of small whole numbers, so that every power of two times them is exact where it is finite.
#[test]
fn every_length_cuts_as_one_does() {
    for normal in [[0., 0., 1.], [1., 1., 1.], [-3., 1., 2.], [0., -1., 3.]] {
        let section = cut(normal, false).unwrap();
        assert!(section.edges.all_drawn() && section.loops().count() == 1);
        let flat = [normal[1], normal[2]];
        for length in lengths() {
            let longer = normal.map(|x| length * x);
            if longer.iter().any(|x| x.is_infinite()) {
                continue;
            }
            assert_eq!(cut(longer, true), Ok(section.clone()));
            assert_eq!(gathered(longer, true), gathered(normal, false));
            assert_eq!(line(flat.map(|x| length * x), true), line(flat, false));
        }
    }
}

/// A square overflows, so that the unit normal is 0; all underflow, so that there is none.
#[test]
fn a_normal_as_it_is_given_is_of_ordinary_length() {
    assert!(cut([1e155, 0., 0.], false).unwrap().points.is_empty());
    assert_eq!(cut([1e155, 0., 0.], true).unwrap().loops().count(), 1);
    assert_eq!(cut([1e-170, 0., 0.], false), Err(Refusal::NoDirection));
    assert_eq!(cut([1e-170, 0., 0.], true).unwrap().loops().count(), 1);
    assert!(gathered([1e155, 0., 0.], false)
        .unwrap()
        .segments
        .is_empty());
    assert_eq!(gathered([1e155, 0., 0.], true).unwrap().segments.len(), 4);
    assert!(line([1e155, 0.], false).unwrap().segments.is_empty());
    assert_eq!(line([1e155, 0.], true).unwrap().segments.len(), 1);
}

/// Of the squares below 2^-1022 some digits are lost: (3, 4, 0) times 2^-538 has the norm 5 times that.
#[test]
fn digits_that_squares_lose_are_kept() {
    let short = [3., 4., 0.].map(|x| x * 2f64.powi(-538));
    assert_eq!(cut(short, true), cut([3., 4., 0.], false));
    assert_ne!(cut(short, false), cut(short, true));
}

#[test]
fn ordinary_lengths_are_cut_alike_in_both_ways() {
    for normal in [[0.3, -0.2, 1.], [1e-140, 3e-140, 0.], [2e150, 1e150, 7e149]] {
        assert!(cut(normal, false).unwrap().edges.all_drawn());
        assert_eq!(cut(normal, true), cut(normal, false));
        assert_eq!(gathered(normal, true), gathered(normal, false));
        let flat = [normal[0], normal[1]];
        assert_eq!(line(flat, true), line(flat, false));
    }
}

/// Beside 2^1023 the other component is rounded to a multiple of 2^-1074: half of that is the middle, and gives 0, which is even; the
/// next number above gives 2^-1074. Then the corner (2^1000, 0) is above the line through (0, 0), and else on it.
#[test]
fn a_component_that_becomes_subnormal_is_rounded_once() {
    let half = 2f64.powi(-52);
    let coords = [0., 0., 2f64.powi(1000), 0., 0., 1.];
    for (x, segments) in [(half, 1), (half.next_up(), 0), (-half, 1)] {
        let normal = [x, 2f64.powi(1023)];
        let (tri, nodes, origin) = (PlaneType::Tri3, [0, 1, 2], [0.; 2]);
        let found = cut_plane_cell_by_normal(tri, &nodes, &coords, &origin, &normal, true, 0.);
        assert_eq!(found.unwrap().segments.len(), segments);
    }
}

#[test]
fn zeros_and_components_that_are_not_finite_are_refused() {
    for wrong in [NAN, INFINITY, -INFINITY] {
        for place in 0..3 {
            for others in [0., 1., LEAST, f64::MAX] {
                let mut normal = [others; 3];
                normal[place] = wrong;
                assert_eq!(cut(normal, true), Err(Refusal::NoDirection));
                assert_eq!(gathered(normal, true), Err(Refusal::NoDirection));
                let flat = [[wrong, others], [others, wrong]][place % 2];
                assert_eq!(line(flat, true), Err(Refusal::NoDirection));
            }
        }
    }
    for zero in [0., -0.] {
        assert_eq!(cut([zero; 3], true), Err(Refusal::NoDirection));
        assert_eq!(gathered([zero; 3], true), Err(Refusal::NoDirection));
        assert_eq!(line([zero; 2], true), Err(Refusal::NoDirection));
    }
    // as it is given, a line in the plane takes an infinite one
    assert!(line([INFINITY, 0.], false).unwrap().segments.is_empty());
}

/// A NaN of an unusual payload: what is not written keeps its bits.
const UNTOUCHED: u64 = 0xfff4_1234_5678_9abc;

/// What a plane cut tells with this type, these nodes and rows, in buffers of these lengths that must stay as they were on a
/// refusal.
fn told(
    number: u8,
    nodes: &[u64],
    rows: &[f64],
    [origin, normal]: [&[f64]; 2],
    lent: [usize; 3],
) -> Option<Refusal> {
    let mut numbers = vec![f64::from_bits(UNTOUCHED); lent[0]];
    let (mut nodes_out, mut ends) = (vec![7; lent[1]], vec![7; lent[2]]);
    let into = lent::Buffers {
        numbers: &mut numbers,
        nodes: &mut nodes_out,
        ends: &mut ends,
    };
    let found = lent::cut_by_plane(number, nodes, rows, origin, normal, true, false, 0., into);
    let mut written = [0; 3];
    if let Ok(found) = &found {
        written = [2 * found.points, found.nodes, found.loops];
    }
    let untouched = |x: &f64| x.to_bits() == UNTOUCHED;
    assert!(numbers[written[0]..].iter().all(untouched));
    assert!(nodes_out[written[1]..].iter().all(|&x| x == 7));
    assert!(ends[written[2]..].iter().all(|&x| x == 7));
    found.err()
}

/// Each of 1 to 5 comes before 6, and 7 after it.
#[test]
fn a_component_that_is_not_finite_is_refused_at_the_place_of_6() {
    let exact = [144, 36, 12];
    let short = [143, 35, 11];
    for normal in [
        [NAN, 0., 1.],
        [0., INFINITY, 1.],
        [1., 0., -INFINITY],
        [0.; 3],
    ] {
        let by = [&MIDDLE[..], &normal];
        for lent in [exact, short, [200; 3]] {
            let six = told(14, &EIGHT, &BRICK, by, lent);
            assert_eq!(six, Some(Refusal::NoDirection));
            assert_eq!(told(8, &EIGHT, &BRICK, by, lent), Some(Refusal::Type));
            let count = told(14, &EIGHT[1..], &BRICK, by, lent);
            assert_eq!(count, Some(Refusal::NodeCount));
            let part = told(14, &EIGHT, &BRICK[1..], by, lent);
            assert_eq!(part, Some(Refusal::PartialRow));
            let row = told(14, &EIGHT, &BRICK[3..], by, lent);
            assert_eq!(row, Some(Refusal::NoSuchRow));
            let length = told(14, &EIGHT, &BRICK, [&MIDDLE[1..], &normal], lent);
            assert_eq!(length, Some(Refusal::VectorLength));
            let length = told(14, &EIGHT, &BRICK, [&MIDDLE, &normal[1..]], lent);
            assert_eq!(length, Some(Refusal::VectorLength));
        }
    }
    let up = [&MIDDLE[..], &[0., 0., 1e300]];
    assert_eq!(told(14, &EIGHT, &BRICK, up, exact), None);
    assert_eq!(told(14, &EIGHT, &BRICK, up, [200; 3]), None);
    for short in [[143, 36, 12], [144, 35, 12], [144, 36, 11]] {
        let seven = told(14, &EIGHT, &BRICK, up, short);
        assert_eq!(seven, Some(Refusal::ShortBuffer));
    }
}

/// Directions are taken as they are given.
#[test]
fn a_line_by_its_direction_has_one_way() {
    let (hex, quad) = (SpaceType::Hex8, PlaneType::Quad4);
    let along = [1e200, 0., 0.];
    let in_space = cut_by_line(hex, &EIGHT, &BRICK, &MIDDLE, &along, 0.);
    assert_eq!(in_space, Err(Refusal::NoDirection));
    let (nodes, origin) = ([0, 1, 2, 3], [0.5; 2]);
    let in_plane = cut_plane_cell_by_direction(quad, &nodes, &SQUARE, &origin, &along[..2], 0.);
    assert_eq!(in_plane, Err(Refusal::NoDirection));
}
