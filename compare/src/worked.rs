//! The rules' worked cases, each with the answer told there, written from its words; and cases of crossings in the middle by
//! default, of comparisons of points, of the strict way and of the scaled one, worked by hand. The comparisons of all cases
//! are worked by hand.
//!
//! Case 12, two square roots, is no case of an entry that compares with the Rust: it stands in `roots`.

use crate::answers::{room, Answer};
use crate::entries::{Case, Entry, Told};

const UNIT_CUBE: [f64; 24] = [
    0.0, 0.0, 0.0, 1.0, 0.0, 0.0, 1.0, 1.0, 0.0, 0.0, 1.0, 0.0, // the base
    0.0, 0.0, 1.0, 1.0, 0.0, 1.0, 1.0, 1.0, 1.0, 0.0, 1.0, 1.0, // above it
];
const TETRAHEDRON: [f64; 12] = [0.0, 0.0, 0.0, 1.0, 0.0, 0.0, 0.0, 1.0, 0.0, 0.0, 0.0, 1.0];
const SQUARE: [f64; 8] = [0.0, 0.0, 1.0, 0.0, 1.0, 1.0, 0.0, 1.0];
const UP: [f64; 3] = [0.0, 0.0, 1.0];
const MIDDLE: [f64; 3] = [0.5; 3];

/// What the cases are about, by their number from 1 on.
pub const NAMES: [&str; 15] = [
    "PHED 0 1 2 MAX 3 4 MAX 5 6 7, its two faces at z = 0.5",
    "brick at z = 0.5",
    "brick at z = 0 and z = 2",
    "tetrahedron at z = 1 and z = 0.25",
    "no segments",
    "triangle",
    "two sides of the triangle",
    "triangle, tolerance NaN",
    "segments there and back",
    "bow-tie",
    "tolerance of the row (3, 4, 0)",
    "roots of 4 and 2^-1074",
    "vectors too long, of no length, infinite",
    "384 and 385 segments, PGON of 256 and 257",
    "brick at z = 0.5, gathered",
];

/// What the cases of crossings in the middle by default are about. They are numbered on from the last of `NAMES`.
pub const BY_DEFAULT: [&str; 10] = [
    "distances that differ by 2^-1073",
    "distances that differ by 2^-1022",
    "distances just above 2^-1022 apart, divided",
    "a distance of NaN, the point skipped",
    "infinities on both sides, divided",
    "brick of side 1e-310, the points skipped",
    "a tolerance of -2^-1074",
    "a tolerance of NaN, no crossing",
    "a slanted wedge, six of its plane",
    "a line in it, six of its plane and two of its loop",
];

/// What the cases of comparisons of points are about. They are numbered on from the last of `BY_DEFAULT`.
pub const COMPARISONS: [&str; 8] = [
    "triangle, each end up to its first match",
    "a second end after the first of its segment",
    "the first match, not the nearest",
    "384 segments, tolerance NaN, the most",
    "384 and 3 segments, tolerance infinite, the fewest",
    "16 and 17 segments apart",
    "a negative tolerance, both zeros, NaN",
    "plane cuts of tubes of 16 and 17 walls",
];

/// What the cases of the strict way are about. They are numbered on from the last of `COMPARISONS`. The first is case 10 of
/// docs/RULES.md; beside the strict answer most have the usual one too.
pub const STRICT: [&str; 9] = [
    "bow-tie, pinched before flat",
    "two triangles that share a corner, and one apart",
    "two triangles on a line that share a corner",
    "an open walk that passes a point twice",
    "no walk that passes a point twice",
    "a hexahedron whose section passes its corner twice",
    "that hexahedron, its section flat too",
    "bow-tie, tolerance NaN",
    "refusals",
];

/// What the cases of the scaled way are about. They are numbered on from the last of `STRICT`. The first three are case 19 of
/// docs/RULES.md.
pub const SCALED: [&str; 4] = [
    "brick at x = 0.5, normals from 2^-1074 to the largest",
    "zeros, NaN, infinities",
    "a component that becomes subnormal, rounded once",
    "6 after 1 to 5 and before 7",
];

/// 2^-1074 and 2^-1022.
const LEAST: f64 = f64::from_bits(1);
const LEAST_NORMAL: f64 = f64::MIN_POSITIVE;

/// A case, the number of its group (up to 15 the case's in docs/RULES.md), and its answer by the rules.
#[derive(Clone)]
pub struct Worked {
    pub number: usize,
    pub case: Case,
    pub answer: Answer,
}

/// Case 12: numbers and their roots.
pub fn roots() -> [(f64, f64); 2] {
    [(4.0, 2.0), (f64::from_bits(1), 2f64.powi(-537))]
}

/// The cases in exact buffers. Where docs/RULES.md leaves the order of points, or what is gathered, to its rules they
/// follow from these.
pub fn worked() -> Vec<Worked> {
    let mut all = cut();
    all.extend(stitched());
    all.extend(placed());
    all.extend(limits());
    all.extend(by_default());
    all.extend(of_comparisons());
    all.extend(of_the_strict_way());
    all.extend(of_the_scaled_way());
    for one in &mut all {
        one.case.lent = room(&one.case);
    }
    all
}

/// Each case as it is and with room to spare, and refused where a buffer is too short by one; a scaled normal that is refused also in
/// short buffers.
pub fn worked_in_all_buffers() -> Vec<Worked> {
    worked().iter().flat_map(in_all_buffers).collect()
}

fn in_all_buffers(one: &Worked) -> Vec<Worked> {
    let mut all = vec![one.clone(), one.clone()];
    all[1].case.lent = one.case.lent.map(|n| n + 5);
    for (k, &length) in one.case.lent.iter().enumerate() {
        if length > 0 && one.answer.told.refusal == 0 {
            let mut short = one.clone();
            short.case.lent[k] -= 1;
            short.answer = refused(7);
            all.push(short);
        }
    }
    if one.answer.told.refusal == 6 && one.case.scaled != 0 {
        let mut short = one.clone();
        short.case.lent = one.case.lent.map(|n| n.saturating_sub(1));
        all.push(short);
    }
    all
}

/// Cases 1 to 4, and 15: cells cut by planes.
fn cut() -> Vec<Worked> {
    let conn = |a, b| [0, 1, 2, u64::MAX, a, b, u64::MAX, 5, 6, 7];
    let ends = [[1.5, 0.0], [0.5, 0.0], [6.5, 0.0], [5.5, 0.0]];
    let faces = |a, b| {
        let answer = section(&ends, &[], [2, 0, 0, 2]);
        let answer = comparing(sum(&[0, 1, 2, 3]), answer);
        is(1, polyhedron(Entry::Plane, &conn(a, b)), answer)
    };
    let half = [0.0, 0.0, 0.5];
    let corners = [[0.0, 0.0], [1.0, 0.0], [1.0, 1.0], [0.0, 1.0]];
    let [a, b, c, d] = corners;
    let sides = [a, b, c, d, b, c, d, a];
    let square = || {
        let square = section(&corners, &[&[0, 1, 2, 3]], [4, 4, 0, 0]);
        comparing(sum(&[0, 1, 2, 3, 2, 3, 4, 1]), square)
    };
    let triangle = [[0.0, 0.0], [0.75, 0.0], [0.0, 0.75]];
    let triangle = section(&triangle, &[&[0, 1, 2]], [3, 3, 0, 0]);
    let triangle = comparing(sum(&[0, 1, 2, 2, 3, 1]), triangle);
    vec![
        faces(3, 4),
        // the nodes of a face that is dropped need be no rows
        faces(98, 99),
        is(
            1,
            polyhedron(Entry::Gather, &conn(3, 4)),
            segments(ends.as_flattened(), 2),
        ),
        is(2, brick(Entry::Plane, half, UP), square()),
        is(3, brick(Entry::Plane, [0.0; 3], UP), square()),
        is(3, brick(Entry::Plane, [0.0, 0.0, 2.0], UP), none()),
        is(4, tetrahedron(1.0), none()),
        is(4, tetrahedron(0.25), triangle),
        is(
            15,
            brick(Entry::Gather, half, UP),
            segments(sides.as_flattened(), 4),
        ),
    ]
}

/// Cases 5 to 10: segments stitched.
fn stitched() -> Vec<Worked> {
    let [a, b, c, _] = triangle();
    let nan = [a, b, b, c, c, a];
    let line = [[0.0, 0.0], [1.0, 0.0], [2.0, 0.0]];
    let there_and_back = [line[0], line[1], line[2], line[0]];
    let [first, middle, second, third, _, last, _] = bow_tie();
    let bow_tie_points = [first, middle, second, third, last];
    vec![
        is(5, stitch(&[], 0.0), none()),
        is(
            6,
            stitch(&triangle(), 0.0),
            comparing(
                sum(&[0, 1, 2, 2, 3, 1]),
                section(&[a, b, c], &[&[2, 1, 0]], [3, 3, 0, 0]),
            ),
        ),
        is(
            7,
            stitch(&triangle()[..3], 0.0),
            comparing(sum(&[0, 1, 2, 2]), section(&[a, b, c], &[], [2, 0, 0, 2])),
        ),
        is(
            8,
            stitch(&triangle(), f64::NAN),
            comparing(sum(&[0, 1, 2, 3, 4, 5]), section(&nan, &[], [3, 0, 0, 3])),
        ),
        is(
            9,
            stitch(&there_and_back, 0.0),
            comparing(sum(&[0, 1, 2, 2, 3, 1]), section(&line, &[], [3, 0, 3, 0])),
        ),
        is(
            10,
            stitch(&bow_tie(), 0.0),
            comparing(
                sum(&[0, 1, 2, 2, 3, 3, 4, 2, 2, 4, 5, 1]),
                section(&bow_tie_points, &[], [6, 0, 6, 0]),
            ),
        ),
    ]
}

/// Cases 11 and 13: a tolerance, and vectors that are too long, of no length, or infinite. docs/RULES.md does not list
/// the last, which its rules settle: the direction's unit is (NaN, 0), and the normal's norm is NaN.
fn placed() -> Vec<Worked> {
    let huge = [1e200, 0.0, 0.0];
    let infinite = [f64::INFINITY, 0.0, 0.0];
    let square = |entry| Case {
        vector: infinite[..2].to_vec(),
        ..square(entry)
    };
    let row = Case {
        coords: vec![3.0, 4.0, 0.0],
        ..Case::new(Entry::ToleranceInSpace)
    };
    vec![
        is(11, row, value(2f64.powi(-44))),
        is(13, brick(Entry::Plane, MIDDLE, huge), none()),
        is(13, brick(Entry::LineInSpace, MIDDLE, huge), refused(6)),
        is(13, brick(Entry::Plane, MIDDLE, [0.0; 3]), refused(6)),
        is(13, brick(Entry::Plane, MIDDLE, infinite), refused(6)),
        is(13, square(Entry::PlaneCellByNormal), none()),
        is(13, square(Entry::PlaneCellByDirection), refused(6)),
    ]
}

/// Case 14: the most segments and the most nodes of a PGON, and one more of each. Of the chain point k is new after k
/// comparisons, and all but the first and the last are found again after k + 1.
fn limits() -> Vec<Worked> {
    let halved = segments(&[0.0, 0.5, 1.0, 0.5], 1);
    let comparisons = (0..385).sum::<u32>() + (1..384).map(|k| k + 1).sum::<u32>();
    vec![
        is(
            14,
            stitch(&zigzag(385), 0.0),
            comparing(comparisons, section(&zigzag(385), &[], [384, 0, 0, 384])),
        ),
        is(14, stitch(&zigzag(386), 0.0), refused(8)),
        is(14, polygon(256), halved),
        is(14, polygon(257), refused(2)),
    ]
}

/// The triangle (0, high) (4, high) low cut by the axis y = 0 crosses it on two sides; where these lie in the middle they
/// are (2, 0) and (0, 0) if low is (0, -high).
fn by_default() -> Vec<Worked> {
    let number = |k: usize| NAMES.len() + k;
    let [normal, direction] = [Entry::PlaneCellByNormal, Entry::PlaneCellByDirection];
    let middles = || with(2, segments(&[2.0, 0.0, 0.0, 0.0], 1));
    let half = LEAST_NORMAL / 2.0;
    // a step of 2^-52 from each corner above towards the one below
    let divided = segments(&[4.0 - 2f64.powi(-50), 0.0, 0.0, 0.0], 1);
    let infinity = f64::INFINITY;
    let odd = |high, low: f64, tol| Case {
        tol,
        ..triangle_across(normal, high, [0.0, low])
    };
    let nan = triangle_across(normal, 1.0, [f64::NAN, -1.0]);
    let [a, b, c] = [[5.0, LEAST], [1.0, LEAST], [3.0, -LEAST]];
    let sides = [a, b, c, a, b, c];
    let loops = section(&[a, b, c], &[&[0, 1, 2]], [3, 3, 0, 0]);
    let loops = comparing(sum(&[0, 1, 2, 1, 2, 3]), loops);
    let line = segments(&[2.0, 0.0, 0.0, 4.0, 0.0, 0.0], 1);
    let on_y = [0.0, -1.0, 0.0];
    vec![
        is(
            number(1),
            triangle_across(normal, LEAST, [0.0, -LEAST]),
            middles(),
        ),
        is(
            number(1),
            triangle_across(direction, LEAST, [0.0, -LEAST]),
            middles(),
        ),
        is(
            number(2),
            triangle_across(normal, half, [0.0, -half]),
            middles(),
        ),
        is(
            number(2),
            triangle_across(direction, half, [0.0, -half]),
            middles(),
        ),
        is(
            number(3),
            triangle_across(normal, LEAST, [0.0, -LEAST_NORMAL]),
            divided,
        ),
        is(number(4), nan, with(2, none())),
        is(
            number(5),
            triangle_across(normal, infinity, [0.0, -infinity]),
            none(),
        ),
        is(number(6), small_brick(Entry::Plane), with(8, none())),
        is(number(6), small_brick(Entry::Gather), with(8, none())),
        is(number(7), odd(LEAST, 0.0, -LEAST), with(2, none())),
        is(number(8), odd(LEAST, -LEAST, f64::NAN), none()),
        is(number(9), wedge(Entry::Plane, &on_y), with(6, loops)),
        is(
            number(9),
            wedge(Entry::Gather, &on_y),
            with(6, segments(sides.as_flattened(), 3)),
        ),
        is(
            number(10),
            wedge(Entry::LineInSpace, &[1.0, 0.0, 0.0]),
            with(8, line),
        ),
    ]
}

/// One number an end, where they are few: the comparisons that it takes until it is found, or those with all points so far.
fn of_comparisons() -> Vec<Worked> {
    let number = |k: usize| NAMES.len() + BY_DEFAULT.len() + k;
    let of = |k, list: &[[[f64; 2]; 2]], tol, comparisons, answer| {
        is(
            number(k),
            stitch_list(list, tol),
            comparing(comparisons, answer),
        )
    };
    let on_x = |x: f64| [x, 0.0];
    let [a, b, c] = [on_x(0.0), on_x(4.0), [0.0, 4.0]];
    let triangle = [[a, b], [on_x(4.5), c], [[0.0, 4.5], [0.0, 0.5]]];
    let second = [[a, b], [on_x(2.0), on_x(2.5)]];
    // the third end is nearer to the second point than to the first
    let nearer = [[a, on_x(3.0)], [on_x(2.0), c]];
    let long: Vec<_> = zigzag(385).windows(2).map(|s| [s[0], s[1]]).collect();
    let zeros = [[[0.0, -0.0], [-0.0, 0.0]], [[-0.0; 2], [0.0; 2]]];
    let nan = [[a, on_x(f64::NAN)], [on_x(f64::NAN), a]];
    let apart = |s: u32| {
        let end = |k: u32| on_x(f64::from(k));
        let list: Vec<_> = (0..s).map(|k| [end(2 * k), end(2 * k + 1)]).collect();
        let answer = section(list.as_flattened(), &[], [s, 0, 0, s]);
        of(6, &list, 0.0, s * (2 * s - 1), answer)
    };
    let one_point = || section(&[a], &[], [0; 4]);
    vec![
        of(
            1,
            &triangle,
            1.0,
            sum(&[0, 1, 2, 2, 3, 1]),
            section(&[a, b, c], &[&[0, 1, 2]], [3, 3, 0, 0]),
        ),
        of(
            2,
            &second,
            1.0,
            sum(&[0, 1, 2, 3]),
            section(&[a, b, on_x(2.0)], &[], [1, 0, 0, 1]),
        ),
        of(2, &[[a, a]], 0.0, sum(&[0, 1]), one_point()),
        of(
            3,
            &nearer,
            2.0,
            sum(&[0, 1, 1, 2]),
            section(&[a, on_x(3.0), c], &[], [2, 0, 0, 2]),
        ),
        of(
            4,
            &long,
            f64::NAN,
            294_528,
            section(long.as_flattened(), &[], [384, 0, 0, 384]),
        ),
        of(5, &long, f64::INFINITY, 767, one_point()),
        of(
            5,
            &triangle,
            f64::INFINITY,
            sum(&[0, 1, 1, 1, 1, 1]),
            one_point(),
        ),
        apart(16),
        apart(17),
        of(
            7,
            &[[a, [0.0, 1.0]], [[0.0, 1.0], [1.0, 0.0]]],
            -1.0,
            sum(&[0, 1, 1, 1]),
            one_point(),
        ),
        of(7, &zeros, 0.0, sum(&[0, 1, 1, 1]), one_point()),
        of(
            7,
            &nan,
            f64::INFINITY,
            sum(&[0, 1, 2, 1]),
            section(&[a, on_x(f64::NAN), on_x(f64::NAN)], &[], [2, 0, 0, 2]),
        ),
        tube(number(8), 16),
        tube(number(8), 17),
    ]
}

/// Walls around the points (k, k * k), cut at half their height. Each wall gives the segment from its point to the next, so
/// point k is new after k comparisons and found again after k + 1.
fn tube(number: usize, n: u32) -> Worked {
    let points: Vec<[f64; 2]> = (0..n).map(|k| [k, k * k].map(f64::from)).collect();
    let level = |z: f64| points.iter().flat_map(move |[x, y]| [*x, *y, z]);
    let coords: Vec<f64> = level(0.0).chain(level(1.0)).collect();
    let wall = |k: u32| [k, (k + 1) % n, n + (k + 1) % n, n + k].map(u64::from);
    let walls: Vec<[u64; 4]> = (0..n).map(wall).collect();
    let case = Case {
        conn: walls.join(&u64::MAX),
        ..cell(Entry::Plane, 18, &coords, &[0.0, 0.0, 0.5], &UP)
    };
    let nodes: Vec<u32> = (0..n).collect();
    let comparisons = (0..n).map(|k| k + (k + 1)).sum();
    let answer = section(&points, &[&nodes], [n, n, 0, 0]);
    is(number, case, comparing(comparisons, answer))
}

/// The walks are those of the usual way. Of a pinched one the edges are counted, and its points stay.
fn of_the_strict_way() -> Vec<Worked> {
    let first = NAMES.len() + BY_DEFAULT.len() + COMPARISONS.len();
    let mut all = bow_ties(first + 1);
    all.extend(larger_on_the_left(first + 2));
    all.extend(on_a_line(first + 3));
    all.extend(an_open_walk(first + 4));
    all.extend(nothing_pinched(first + 5));
    all.extend(touching_itself(first + 6, 2.0));
    all.extend(touching_itself(first + 7, 1.0));
    all.extend(all_apart(first + 8));
    for strict in [1, 2, 255] {
        let strictly = |(case, refusal)| is(first + 9, in_way(strict, case), refused(refusal));
        all.extend(refused_cases().map(strictly));
    }
    all
}

/// Of two triangles that share the second point of the first segment: each end is new, or found again.
const TWO_TRIANGLES: [u32; 12] = [0, 1, 2, 2, 3, 3, 4, 2, 2, 4, 5, 1];

/// The walk 0 1 3 2 1 4 has the area 0.
fn bow_ties(number: usize) -> Vec<Worked> {
    let [a, middle, b, c, _, d, _] = bow_tie();
    let points = [a, middle, b, c, d];
    let answer = |pinched, flat| {
        let answer = pinching(pinched, section(&points, &[], [6, 0, flat, 0]));
        comparing(sum(&TWO_TRIANGLES), answer)
    };
    let mut all = vec![is(number, stitch(&bow_tie(), 0.0), answer(0, 6))];
    for strict in [1, 2, 255] {
        let case = in_way(strict, stitch(&bow_tie(), 0.0));
        all.push(is(number, case, answer(6, 0)));
    }
    all
}

/// The walk 0 1 3 2 1 4 has the area -6, its left part being the larger one, and 5 6 7 has 0.5.
fn larger_on_the_left(number: usize) -> [Worked; 2] {
    let [_, middle, b, c, ..] = bow_tie();
    let [a, d] = [[-4.0, 2.0], [-4.0, -2.0]];
    let [e, f, g] = [[9.0, 0.0], [10.0, 0.0], [9.0, 1.0]];
    let list = [
        pairs(&[a, middle, b, c, middle, d, a]),
        pairs(&[e, f, g, e]),
    ];
    let points = [a, middle, b, c, d, e, f, g];
    let usual = section(&points, &[&[4, 1, 2, 3, 1, 0], &[5, 6, 7]], [9, 9, 0, 0]);
    let strict = pinching(6, section(&points, &[&[5, 6, 7]], [9, 3, 0, 0]));
    let comparisons = sum(&TWO_TRIANGLES) + sum(&[5, 6, 7, 7, 8, 6]);
    let answers = [usual, strict].map(|answer| comparing(comparisons, answer));
    both_ways(number, stitch_list(&list.concat(), 0.0), answers)
}

/// The walk 0 1 2 3 4 2 goes straight on at (0, 0), and all areas are 0.
fn on_a_line(number: usize) -> [Worked; 2] {
    let chain = [1.0, 3.0, 0.0, -1.0, -3.0, 0.0, 1.0].map(|x| [x, 0.0]);
    let usual = section(&chain[..5], &[], [6, 0, 6, 0]);
    let strict = pinching(6, section(&chain[..5], &[], [6, 0, 0, 0]));
    let comparisons = sum(&[0, 1, 2, 2, 3, 3, 4, 4, 5, 3, 3, 1]);
    let answers = [usual, strict].map(|answer| comparing(comparisons, answer));
    both_ways(number, stitch(&chain, 0.0), answers)
}

/// The walk 0 1 2 3 1 4, which ends at another point than it started.
fn an_open_walk(number: usize) -> [Worked; 2] {
    let [o, a, b] = [[0.0, 0.0], [1.0, 0.0], [2.0, 0.0]];
    let [c, d] = [[1.0, 1.0], [1.0, -1.0]];
    let open = section(&[o, a, b, c, d], &[], [5, 0, 0, 5]);
    let open = comparing(sum(&[0, 1, 2, 2, 3, 3, 4, 2, 2, 4]), open);
    let case = stitch(&[o, a, b, c, a, d], 0.0);
    both_ways(number, case, [open.clone(), open])
}

/// Sections of the cases above, and stitchings, that are the same in the strict way.
fn nothing_pinched(number: usize) -> Vec<Worked> {
    let alike = |one: &Worked| [2, 4, 5, 6, 7, 9].contains(&one.number);
    let others = [cut(), stitched()].concat().into_iter().filter(alike);
    let strictly = |one: Worked| is(number, in_way(1, one.case), one.answer);
    others.map(strictly).collect()
}

/// Of the walk 0 1 4 2 1 3 the part to the right has the area 1, the other one -x * x.
fn touching_itself(number: usize, x: f64) -> [Worked; 2] {
    let points = touching_points(x);
    let usual = match x {
        1.0 => section(&points, &[], [6, 0, 6, 0]),
        _ => section(&points, &[&[3, 1, 2, 4, 1, 0]], [6, 6, 0, 0]),
    };
    let strict = pinching(6, section(&points, &[], [6, 0, 0, 0]));
    let comparisons = sum(&[0, 1, 2, 2, 2, 3, 4, 2, 4, 1, 3, 5]);
    let answers = [usual, strict].map(|answer| comparing(comparisons, answer));
    both_ways(number, touching(x), answers)
}

/// With the tolerance NaN every end is a point of its own.
fn all_apart(number: usize) -> [Worked; 2] {
    let points = pairs(&bow_tie()).concat();
    let apart = section(&points, &[], [6, 0, 0, 6]);
    let apart = comparing((0..12).sum(), apart);
    let case = stitch(&bow_tie(), f64::NAN);
    both_ways(number, case, [apart.clone(), apart])
}

/// The same case in the usual way and in the strict one.
fn both_ways(number: usize, case: Case, [usual, strict]: [Answer; 2]) -> [Worked; 2] {
    [
        is(number, case.clone(), usual),
        is(number, in_way(1, case), strict),
    ]
}

fn in_way(strict: u8, case: Case) -> Case {
    Case { strict, ..case }
}

/// The answers to scaled normals, and beside some that to the normal as it is given.
fn of_the_scaled_way() -> Vec<Worked> {
    let first = NAMES.len() + BY_DEFAULT.len() + COMPARISONS.len() + STRICT.len();
    let mut all = across_x(first + 1);
    all.extend(without_direction(first + 2));
    all.extend(rounded_once(first + 3));
    all.extend(not_finite_in_its_place(first + 4));
    all
}

fn scaled(case: Case) -> Case {
    Case { scaled: 1, ..case }
}

/// The square of y and z, from the faces at the sides. For 2 and 255 as for 1.
fn across_x(number: usize) -> Vec<Worked> {
    let [a, b, c, d] = [[0.0, 0.0], [1.0, 0.0], [1.0, 1.0], [0.0, 1.0]];
    let square = section(&[a, b, c, d], &[&[0, 1, 2, 3]], [4, 4, 0, 0]);
    let square = comparing(sum(&[0, 1, 2, 3, 4, 1, 2, 3]), square);
    let sides = segments([a, b, c, d, d, a, b, c].as_flattened(), 4);
    let across =
        |x| [Entry::Plane, Entry::Gather].map(|of| brick(of, [0.5, 0.0, 0.0], [x, 0.0, 0.0]));
    let answers = || [square.clone(), sides.clone()];
    let mut all = Vec::new();
    for x in [1.0, 1e200, f64::MAX, LEAST_NORMAL, LEAST] {
        let pairs = across(x).into_iter().zip(answers());
        all.extend(pairs.map(|(case, answer)| is(number, scaled(case), answer)));
    }
    for scaled in [2, 255] {
        let pairs = across(LEAST).into_iter().zip(answers());
        all.extend(pairs.map(|(case, answer)| is(number, Case { scaled, ..case }, answer)));
    }
    // in the strict way too, and as it is given
    let [case, _] = across(1e200);
    all.push(is(number, in_way(1, scaled(case.clone())), square.clone()));
    all.push(is(number, case, none()));
    all
}

/// In each place; as it is given, an infinite normal of a line in the plane gives no segment.
fn without_direction(number: usize) -> Vec<Worked> {
    let mut all = Vec::new();
    for x in [0.0, -0.0] {
        let space = [Entry::Plane, Entry::Gather].map(|of| brick(of, MIDDLE, [x; 3]));
        all.extend(space.map(|case| is(number, scaled(case), refused(6))));
    }
    for x in [f64::NAN, f64::INFINITY, f64::NEG_INFINITY] {
        for at in 0..3 {
            let mut normal = [1.0; 3];
            normal[at] = x;
            let space = [Entry::Plane, Entry::Gather].map(|of| brick(of, MIDDLE, normal));
            all.extend(space.map(|case| is(number, scaled(case), refused(6))));
        }
    }
    let normals = [
        [0.0; 2],
        [f64::NAN, 1.0],
        [0.0, f64::NEG_INFINITY],
        [f64::INFINITY, 0.0],
    ];
    let square = |normal: [f64; 2]| Case {
        vector: normal.to_vec(),
        ..square(Entry::PlaneCellByNormal)
    };
    all.extend(normals.map(|normal| is(number, scaled(square(normal)), refused(6))));
    all.push(is(number, square(normals[3]), none()));
    all
}

/// The triangle (0,0) (2^1000,0) (0,1) by the line through (0,0) with the normal (x, 2^1023), which is scaled by 2^-1023. Half of 2^-1074
/// gives 0, so that the corner (2^1000,0) is on the line; a little more gives 2^-1074, and its distance is 2^-74.
fn rounded_once(number: usize) -> Vec<Worked> {
    let half = 2f64.powi(-52);
    let long = 2f64.powi(1000);
    let on = segments(&[0.0, 0.0, long, 0.0], 1);
    let cut = |x| {
        let coords = [0.0, 0.0, long, 0.0, 0.0, 1.0];
        let normal = [x, 2f64.powi(1023)];
        scaled(cell(
            Entry::PlaneCellByNormal,
            5,
            &coords,
            &[0.0; 2],
            &normal,
        ))
    };
    vec![
        is(number, cut(half), on.clone()),
        is(number, cut(-half), on.clone()),
        is(number, cut(half.next_down()), on),
        is(number, cut(half.next_up()), none()),
        is(number, cut(2.0 * half), none()),
    ]
}

/// Each other thing wrong beside a component that is not finite, and each buffer too short.
fn not_finite_in_its_place(number: usize) -> Vec<Worked> {
    let [others @ .., _, _] = refused_cases();
    let mut all = Vec::new();
    for x in [f64::NAN, f64::INFINITY] {
        let spoilt = |(case, refusal): (Case, u32)| {
            let vector = vec![0.0, x, 0.0];
            is(number, scaled(Case { vector, ..case }), refused(refusal))
        };
        all.extend(others.clone().map(spoilt));
    }
    all
}

/// Cases that are refused with 1 to 6 and with 8.
fn refused_cases() -> [(Case, u32); 7] {
    let half = [0.0, 0.0, 0.5];
    let spoilt = |spoil: fn(&mut Case)| {
        let mut case = brick(Entry::Plane, half, UP);
        spoil(&mut case);
        case
    };
    [
        (spoilt(|case| case.number = 8), 1),
        (spoilt(|case| case.conn.push(0)), 2),
        (spoilt(|case| case.coords.push(0.0)), 3),
        (spoilt(|case| case.conn[7] = 8), 4),
        (spoilt(|case| case.origin.push(0.0)), 5),
        (spoilt(|case| case.vector.fill(0.0)), 6),
        (stitch(&zigzag(386), 0.0), 8),
    ]
}

/// A hexahedron of eight different corners, cut at z = 0 through its corner 0. The edge from 6 to 7 passes through that corner, so
/// the section is two triangles that share it, the one x times as long as the other. Each face cut gives one segment.
pub fn touching(x: f64) -> Case {
    let (far, wide) = (1.0 - 2.0 * x, 2.0 * x);
    let corners = [
        [0.0, 0.0, 0.0],
        [-1.0, 0.0, -1.0],
        [far, wide, 1.0],
        [1.0, -2.0, 1.0],
        [1.0, 2.0, 1.0],
        [far, -wide, 1.0],
        [-1.0, 0.0, 1.0],
        [1.0, 0.0, -1.0],
    ];
    let flat = corners.as_flattened();
    cell(Entry::Plane, 14, flat, &[0.0; 3], &UP)
}

/// The points of its section, in the order in which the faces give them.
fn touching_points(x: f64) -> [[f64; 2]; 5] {
    [[-x, x], [0.0, 0.0], [1.0, 1.0], [-x, -x], [1.0, -1.0]]
}

/// The triangle, cut by the axis y = 0, which its normal or its direction gives.
fn triangle_across(entry: Entry, high: f64, low: [f64; 2]) -> Case {
    let vector = match entry {
        Entry::PlaneCellByNormal => [0.0, 1.0],
        _ => [1.0, 0.0],
    };
    cell(
        entry,
        5,
        &[0.0, high, 4.0, high, low[0], low[1]],
        &[0.0; 2],
        &vector,
    )
}

/// The plane crosses each of the four sides that stand on the base twice. All of it is one point, so where a crossing is
/// not the first point of its face it is skipped, and each face has one point.
fn small_brick(entry: Entry) -> Case {
    let coords = UNIT_CUBE.map(|x| x * 1e-310);
    cell(entry, 14, &coords, &[0.0, 0.0, 5e-311], &UP)
}

/// The corners of a wedge at y = -2^-1074 and, moved by 2 along x, at y = 2^-1074: the same triangle of x and z at each end. So
/// the plane y = 0 crosses each of the three edges between in the middle, moved by 1, in two faces.
fn wedge(entry: Entry, vector: &[f64; 3]) -> Case {
    let end = |x: f64, y| [x, y, LEAST, x + 4.0, y, LEAST, x + 2.0, y, -LEAST];
    let coords = [end(0.0, -LEAST), end(2.0, LEAST)].concat();
    cell(entry, 16, &coords, &[0.0; 3], vector)
}

/// The answer with so many crossings in the middle by default.
fn with(defaulted: u32, answer: Answer) -> Answer {
    let told = Told {
        defaulted,
        ..answer.told
    };
    Answer { told, ..answer }
}

/// The answer with so many comparisons of points.
fn comparing(comparisons: u32, answer: Answer) -> Answer {
    let told = Told {
        comparisons,
        ..answer.told
    };
    Answer { told, ..answer }
}

/// The answer with so many pinched edges.
fn pinching(pinched: u32, answer: Answer) -> Answer {
    let told = Told {
        pinched,
        ..answer.told
    };
    Answer { told, ..answer }
}

fn sum(each: &[u32]) -> u32 {
    each.iter().sum()
}

fn is(number: usize, case: Case, answer: Answer) -> Worked {
    Worked {
        number,
        case,
        answer,
    }
}

/// A section with these points, loops, and counts of edges listed, in loops, flat and open.
fn section(points: &[[f64; 2]], loops: &[&[u32]], counts: [u32; 4]) -> Answer {
    let nodes = loops.concat();
    let ends = loops.iter().scan(0, |total, nodes| {
        *total += nodes.len() as u32;
        Some(*total)
    });
    let [listed, in_loops, flat, open] = counts;
    Answer {
        told: Told {
            points: points.len() as u32,
            nodes: nodes.len() as u32,
            loops: loops.len() as u32,
            listed,
            in_loops,
            flat,
            open,
            ..Told::default()
        },
        numbers: points.concat(),
        ends: ends.collect(),
        nodes,
    }
}

/// No points, or no segments.
pub fn none() -> Answer {
    Answer::default()
}

pub fn refused(refusal: u32) -> Answer {
    let told = Told {
        refusal,
        ..Told::default()
    };
    Answer { told, ..none() }
}

fn value(tolerance: f64) -> Answer {
    let told = Told {
        tolerance,
        ..Told::default()
    };
    Answer { told, ..none() }
}

fn segments(numbers: &[f64], points: u32) -> Answer {
    let told = Told {
        points,
        ..Told::default()
    };
    let numbers = numbers.to_vec();
    Answer {
        told,
        numbers,
        ..none()
    }
}

/// A cell whose nodes are all rows in their order.
fn cell(entry: Entry, number: u8, coords: &[f64], origin: &[f64], vector: &[f64]) -> Case {
    Case {
        number,
        conn: (0..(coords.len() / entry.width()) as u64).collect(),
        coords: coords.to_vec(),
        origin: origin.to_vec(),
        vector: vector.to_vec(),
        ..Case::new(entry)
    }
}

/// The unit cube.
pub fn brick(entry: Entry, origin: [f64; 3], vector: [f64; 3]) -> Case {
    cell(entry, 14, &UNIT_CUBE, &origin, &vector)
}

/// The unit square cut through its middle, by a vector along x.
pub fn square(entry: Entry) -> Case {
    cell(entry, 8, &SQUARE, &[0.5; 2], &[1.0, 0.0])
}

fn tetrahedron(z: f64) -> Case {
    cell(Entry::Plane, 12, &TETRAHEDRON, &[0.0, 0.0, z], &UP)
}

/// A PHED cut at z = 0.5. Each node stands at its number along x; nodes 1, 4 and 6 are above the plane.
fn polyhedron(entry: Entry, conn: &[u64]) -> Case {
    let row = |k: u32| {
        [
            f64::from(k),
            0.0,
            f64::from(u8::from([1, 4, 6].contains(&k))),
        ]
    };
    let coords = (0..8).flat_map(row).collect();
    Case {
        conn: conn.to_vec(),
        coords,
        ..cell(entry, 18, &[], &[0.0, 0.0, 0.5], &UP)
    }
}

/// The segments along a chain of points.
fn stitch(chain: &[[f64; 2]], tol: f64) -> Case {
    stitch_list(&pairs(chain), tol)
}

/// Each two neighbours of a chain of points.
fn pairs(chain: &[[f64; 2]]) -> Vec<[[f64; 2]; 2]> {
    chain.windows(2).map(|s| [s[0], s[1]]).collect()
}

fn stitch_list(list: &[[[f64; 2]; 2]], tol: f64) -> Case {
    Case {
        segments: list.as_flattened().as_flattened().to_vec(),
        tol,
        ..Case::new(Entry::Stitch)
    }
}

fn triangle() -> [[f64; 2]; 4] {
    [[0.0, 0.0], [0.0, 1.0], [1.0, 0.0], [0.0, 0.0]]
}

fn bow_tie() -> [[f64; 2]; 7] {
    [
        [-2.0, 1.0],
        [0.0, 0.0],
        [2.0, 1.0],
        [2.0, -1.0],
        [0.0, 0.0],
        [-2.0, -1.0],
        [-2.0, 1.0],
    ]
}

/// A chain of `n` points up and down in turn.
fn zigzag(n: usize) -> Vec<[f64; 2]> {
    (0..n).map(|k| [k as f64, (k % 2) as f64]).collect()
}

/// A polygon around the unit square again and again, cut at half its height.
fn polygon(n: u64) -> Case {
    let mut case = cell(Entry::PlaneCellByNormal, 11, &SQUARE, &[0.0, 0.5], &UP[1..]);
    case.conn = (0..n).map(|k| k % 4).collect();
    case
}

#[cfg(test)]
mod tests {
    use super::*;
    use crate::answers::answer;
    use crate::numbers::{agree, alike};
    use oracle::Build;

    #[test]
    fn what_the_paper_tells_is_the_rusts() {
        for one in worked_in_all_buffers() {
            let counted = answer(&one.case, Build::Counted);
            assert_eq!(counted.told, one.answer.told, "case {}", one.number);
            let rust = answer(&one.case, Build::Rust);
            let Told {
                defaulted,
                comparisons,
                ..
            } = counted.told;
            let told = Told {
                defaulted,
                comparisons,
                ..rust.told
            };
            assert_eq!(told, counted.told);
            let numbers = agree(alike, &rust.numbers, &one.answer.numbers);
            assert!(numbers, "case {}", one.number);
            assert_eq!(rust.nodes, one.answer.nodes, "case {}", one.number);
            assert_eq!(rust.ends, one.answer.ends, "case {}", one.number);
        }
    }
}
