//! Answers with one thing wrong, which the program that replays has to tell.

use crate::answers::{answer, room, Answer};
use crate::entries::{Case, Entry};
use crate::recorded::{root_words, words};
use crate::worked::{brick, none, refused, square, touching};
use oracle::Build;

/// What is made wrong in an answer.
type Spoil = fn(&mut Answer);

/// One crossing in the middle by default too many.
const DEFAULTED: Spoil = |a| a.told.defaulted += 1;

/// One comparison of points too many, and one too few.
const COMPARISONS: [Spoil; 2] = [|a| a.told.comparisons += 1, |a| a.told.comparisons -= 1];

/// A pinched edge too many.
const PINCHED: Spoil = |a| a.told.pinched += 1;

/// Of a section with a pinched walk: its edges told as flat, and as in loops; and the walk returned as a loop, which the
/// usual way does.
const OF_THE_STRICT_WAY: [Spoil; 3] = [
    |a| {
        a.told.flat += a.told.pinched;
        a.told.pinched = 0;
    },
    |a| {
        a.told.in_loops += a.told.pinched;
        a.told.pinched = 0;
    },
    |a| {
        let section = touching(2.0);
        let fitting = Case {
            lent: room(&section),
            ..section
        };
        *a = answer(&fitting, Build::Counted);
    },
];

/// Cases of the scaled way: the empty answer that the normal gives as it is given; an answer where a component is not finite or all are
/// zero; and the refusal of a normal that has no unit as it is given.
fn of_the_scaled_way() -> Vec<(Case, Spoil)> {
    let along = |entry, x| brick(entry, [0.5; 3], [x, 0.0, 0.0]);
    let in_plane = Case {
        vector: vec![f64::INFINITY, 0.0],
        ..square(Entry::PlaneCellByNormal)
    };
    let empty: Spoil = |a| *a = none();
    let six: Spoil = |a| *a = refused(6);
    let least = f64::from_bits(1);
    let cases = [
        (along(Entry::Plane, 1e200), empty),
        (along(Entry::Gather, 1e200), empty),
        (along(Entry::Plane, f64::NAN), empty),
        (along(Entry::Gather, 0.0), empty),
        (in_plane, empty),
        (along(Entry::Plane, least), six),
        (along(Entry::Gather, least), six),
    ];
    let scaled = |(case, spoil)| (Case { scaled: 1, ..case }, spoil);
    cases.map(scaled).to_vec()
}

/// Each thing that is compared.
const THINGS: [Spoil; 20] = [
    |a| a.told.refusal += 1,
    |a| a.told.points += 1,
    |a| a.told.nodes += 1,
    |a| a.told.loops += 1,
    |a| a.told.listed += 1,
    |a| a.told.in_loops += 1,
    PINCHED,
    |a| a.told.flat += 1,
    |a| a.told.open += 1,
    DEFAULTED,
    COMPARISONS[0],
    // a point, a node, an end
    |a| a.numbers[3] += 1.0,
    |a| a.nodes[3] += 1,
    |a| a.ends[0] += 1,
    // one more than is written, where the buffer is as before
    |a| a.numbers.push(0.0),
    |a| a.nodes.push(0),
    |a| a.ends.push(0),
    // one fewer, so that the buffer would be as before where the last is written
    |a| a.numbers.truncate(7),
    |a| a.nodes.truncate(3),
    |a| a.ends.clear(),
];

/// Records of the brick's section with each thing wrong, of a section with a pinched walk, of every other entry with each
/// number of the answer wrong, and of scaled normals.
pub fn wrong() -> Vec<Vec<u64>> {
    let up = [0.0, 0.0, 1.0];
    let section = brick(Entry::Plane, [0.0, 0.0, 0.5], up);
    let tolerance = |entry| Case {
        coords: vec![0.0, 3.0, 0.0, 4.0, 0.0, 5.0],
        ..Case::new(entry)
    };
    let stitch = Case {
        segments: vec![0.0, 0.0, 1.0, 0.0],
        ..Case::new(Entry::Stitch)
    };
    let point: Spoil = |a| a.told.points += 1;
    let value: Spoil = |a| a.told.tolerance *= 2.0;
    let lines = [
        brick(Entry::Gather, [0.0, 0.0, 0.5], up),
        brick(Entry::LineInSpace, [0.5; 3], up),
        square(Entry::PlaneCellByNormal),
        square(Entry::PlaneCellByDirection),
    ];
    let strict = Case {
        strict: 1,
        ..touching(2.0)
    };
    let others = [
        (stitch.clone(), point),
        (stitch.clone(), PINCHED),
        (stitch, COMPARISONS[1]),
        (tolerance(Entry::ToleranceInSpace), value),
        (tolerance(Entry::ToleranceInPlane), value),
    ];
    let mut all: Vec<Vec<u64>> = THINGS
        .iter()
        .map(|thing| spoilt(&section, *thing))
        .collect();
    all.extend(OF_THE_STRICT_WAY.map(|thing| spoilt(&strict, thing)));
    for thing in [point, DEFAULTED] {
        all.extend(lines.iter().map(|case| spoilt(case, thing)));
    }
    all.extend(others.iter().map(|(case, thing)| spoilt(case, *thing)));
    all.push(root_words(4.0, -2.0));
    all.extend(
        of_the_scaled_way()
            .iter()
            .map(|(case, thing)| spoilt(case, *thing)),
    );
    all
}

/// The record of a case with room to spare and the Rust's answer made wrong.
fn spoilt(case: &Case, spoil: Spoil) -> Vec<u64> {
    let mut case = case.clone();
    case.lent = room(&case).map(|n| n + 5);
    let mut answer = answer(&case, Build::Counted);
    spoil(&mut answer);
    words(&case, &answer)
}
