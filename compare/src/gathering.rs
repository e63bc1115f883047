//! Gathering held against mefikit's Rust; and on the same cells gathering, and then stitching what was gathered, against the
//! plane cut, the segments of a cell against those of its faces, each handed over alone, and the comparisons of points
//! against the Rust's and a plain count of what was gathered.

use crate::answers::{given, room, Answer, PHED};
use crate::comparisons::{of_segments, segments, Welding, Weldings};
use crate::cuts::any_case_in;
use crate::cutting::{compare_each, Reached};
use crate::entries::{Case, Cut, Entry};
use crate::numbers::{agree, same};
use crate::random::Random;
use crate::ways::{SCALED, SCALED_STRICT, STRICT, USUAL};
use crate::{ByType, Found};
use oracle::Build;

/// What the cells came to.
#[derive(Default)]
pub struct Gathered {
    pub found: Found,
    /// Those whose plane cut is not refused, by type number.
    pub answered: ByType,
    /// Those whose plane cut is refused, by number; 0 is answered.
    pub refused: [u64; 9],
    /// The segments that were gathered and stitched.
    pub segments: u64,
    /// The faces that were handed over alone.
    pub faces: u64,
    /// The crossings in the middle by default that gathering and the plane cut tell.
    pub defaulted: u64,
    /// The comparisons of points that stitching and the plane cut tell.
    pub weldings: Weldings,
    /// The pinched edges that stitching and the plane cut tell.
    pub pinched: u64,
}

/// What one cell showed: the refusal of its plane cut, its segments, its faces, its crossings in the middle by default, its
/// comparisons of points and its pinched edges.
pub struct Right {
    pub refusal: u32,
    pub segments: usize,
    pub faces: usize,
    pub defaulted: u32,
    pub welding: Welding,
    pub pinched: u32,
}

/// Holds gathering, then stitching, against the plane cut of this case.
pub fn judge(case: &Case, cut: Cut) -> Result<Right, String> {
    let wrong = |what: &str| Err(format!("{what}: {}", case.told()));
    let section = given(case, cut);
    let gathering = gathering_of(case);
    let gathered = given(&gathering, cut);
    let expected = refusal_of_gathering(case, section.told.refusal);
    if gathered.told.refusal != expected {
        return wrong(&format!("the refusal of gathering is not {expected}"));
    }
    let alone = match expected {
        0 => face_by_face(gathering, cut),
        _ => Vec::new(),
    };
    let numbers: Vec<f64> = alone.iter().flat_map(|one| one.numbers.clone()).collect();
    if !agree(same, &gathered.numbers, &numbers) {
        return wrong("the segments are not those of the faces");
    }
    let defaulted = gathered.told.defaulted;
    if alone.iter().map(|one| one.told.defaulted).sum::<u32>() != defaulted {
        return wrong("the crossings in the middle by default are not those of the faces");
    }
    let mut welding = Welding::default();
    if section.told.refusal == 0 {
        let list = segments(&gathered.numbers);
        let stitch = || oracle::stitch(Build::Counted, &list, case.tol);
        let (_, counted) = oracle::comparisons(stitch);
        welding = of_segments(&list, case.tol);
        if [counted, welding.comparisons] != [section.told.comparisons as usize; 2] {
            return wrong("the comparisons are not those of stitching what was gathered");
        }
        let mut again = stitched(case, &gathered, cut);
        if again.told.defaulted != 0 {
            return wrong("stitching tells crossings in the middle by default");
        }
        again.told.defaulted = defaulted;
        if !again.is(&section, same) {
            return wrong(
                "gathered and stitched, with the crossings gathered, is not the plane cut",
            );
        }
    }
    Ok(Right {
        refusal: section.told.refusal,
        segments: gathered.told.points as usize,
        faces: alone.len(),
        defaulted,
        welding,
        pinched: section.told.pinched,
    })
}

/// The gathering that this plane cut begins with.
fn gathering_of(case: &Case) -> Case {
    Case {
        entry: Entry::Gather,
        lent: [case.lent[0], 0, 0],
        strict: 0,
        ..case.clone()
    }
}

/// The plane cut's, but that gathering needs no nodes and ends.
fn refusal_of_gathering(case: &Case, refusal: u32) -> u32 {
    match refusal {
        7 if case.lent[0] >= room(case)[0] => 0,
        other => other,
    }
}

/// The numbers gathered, stitched in the plane cut's way in buffers of the least lengths.
fn stitched(plane_cut: &Case, gathered: &Answer, cut: Cut) -> Answer {
    let mut case = Case {
        segments: gathered.numbers.clone(),
        strict: plane_cut.strict,
        tol: plane_cut.tol,
        ..Case::new(Entry::Stitch)
    };
    case.lent = room(&case);
    given(&case, cut)
}

/// What is gathered of each kept face, as a polyhedron of this face alone in a buffer of the least length.
fn face_by_face(cell: Case, cut: Cut) -> Vec<Answer> {
    let nodes: Vec<usize> = cell.conn.iter().map(|&node| node as usize).collect();
    let faces = oracle::faces(cell.number, &nodes).unwrap();
    let mut alone = Case {
        number: PHED,
        ..cell
    };
    let gather = |face: Vec<usize>| {
        alone.conn = face.iter().map(|&at| nodes[at] as u64).collect();
        alone.lent = room(&alone);
        given(&alone, cut)
    };
    faces.into_iter().map(gather).collect()
}

/// Random plane cuts, each refusal among them, in the usual way and in the strict one in turn, and as often with scaled normals.
fn plane_cuts(cases: u64) -> impl Iterator<Item = Case> {
    let mut random = Random::new(0x8f1b_bcdc_bf58_476d);
    let strict = STRICT.iter().zip(SCALED_STRICT);
    let usual = USUAL.iter().cycle().zip(SCALED);
    let ways = strict.zip(usual).flat_map(|((a, b), (c, d))| [a, b, c, d]);
    let case = move |&way| any_case_in(&mut random, Entry::Plane, way);
    ways.cycle().take(cases as usize).map(case)
}

/// Holds the gathering of random plane cuts against mefikit's Rust.
pub fn compare_with_rust(cases: u64, cut: Cut) -> Reached {
    compare_each(plane_cuts(cases).map(|case| gathering_of(&case)), cut)
}

/// Holds gathering, then stitching, against the same plane cuts.
pub fn compare(cases: u64, cut: Cut) -> Gathered {
    let mut all = Gathered::default();
    for case in plane_cuts(cases) {
        let outcome = judge(&case, cut);
        if let Ok(right) = &outcome {
            all.refused[right.refusal as usize] += 1;
            all.segments += right.segments as u64;
            all.faces += right.faces as u64;
            all.defaulted += u64::from(right.defaulted);
            all.weldings.count(&right.welding);
            all.pinched += u64::from(right.pinched);
            if right.refusal == 0 {
                all.answered.count(case.number);
            }
        }
        all.found.count(outcome.map(|right| right.segments > 0));
    }
    all
}

#[cfg(test)]
mod tests {
    use super::*;
    use crate::answers::answer;
    use crate::entries::{ours, Lent, Told};
    use crate::numbers::alike;
    use oracle::BUILDS;

    /// Each of these cuts is seen to be wrong.
    fn seen(cuts: &[Cut]) {
        for (k, &cut) in cuts.iter().enumerate() {
            assert!(compare(3_000, cut).found.differing > 0, "the wrong cut {k}");
        }
    }

    /// The linked functions; what this one tells and writes is changed afterwards.
    fn changed(case: &Case, lent: Lent, entry: Entry, wrong: fn(&mut Told, &mut [f64])) -> Told {
        let Lent {
            numbers,
            nodes,
            ends,
        } = lent;
        let again = Lent {
            numbers: &mut *numbers,
            nodes,
            ends,
        };
        let mut told = ours(case, again);
        if case.entry == entry && told.points > 0 {
            wrong(&mut told, numbers);
        }
        told
    }

    fn gather_changed(case: &Case, lent: Lent, wrong: fn(&mut Told, &mut [f64])) -> Told {
        changed(case, lent, Entry::Gather, wrong)
    }

    /// The linked functions; where gathering is refused with this number it tells another.
    fn gather_refused(case: &Case, lent: Lent, refusal: u32, other: u32) -> Told {
        let mut told = ours(case, lent);
        if case.entry == Entry::Gather && told.refusal == refusal {
            told.refusal = other;
            told.points = 0;
        }
        told
    }

    /// Cells of every type, and with each refusal.
    #[test]
    fn gathered_and_stitched_is_the_plane_cut() {
        let all = compare(20_000, ours);
        assert_eq!(all.found.differing, 0, "{:?}", all.found.first);
        let mut types = Entry::Plane.types();
        assert!(types.all(|number| all.answered.of(number) > 100));
        assert!(all.refused[..8].iter().all(|&count| count > 0));
        assert!(all.segments > all.found.cases && all.faces > all.found.cases);
        assert!(all.defaulted > all.found.cases / 10);
        assert!(all.weldings.comparisons > all.segments && all.weldings.most > 0);
        assert!(all.pinched > 100, "{}", all.pinched);
    }

    /// The builds differ in stitching and in the sign of zeros only, and the Rust as it stands counts no crossings.
    #[test]
    fn each_build_gathers_alike() {
        let mut random = Random::new(1);
        for way in [USUAL[0], SCALED[0]].into_iter().cycle().take(6_000) {
            let case = any_case_in(&mut random, Entry::Gather, way);
            let [mut rust, counted, cosine, rules] = BUILDS.map(|build| answer(&case, build));
            assert_eq!(rust.told.defaulted, 0);
            rust.told.defaulted = rules.told.defaulted;
            assert_eq!([rust.told, counted.told, cosine.told], [rules.told; 3]);
            assert!(agree(same, &rust.numbers, &counted.numbers));
            assert!(agree(same, &rust.numbers, &cosine.numbers));
            assert!(agree(alike, &rust.numbers, &rules.numbers));
        }
    }

    /// One too few, ends exchanged, a bit changed, a zero of the other sign, in another order.
    #[test]
    fn a_wrong_segment_is_seen() {
        seen(&[
            |case, lent| gather_changed(case, lent, |told, _| told.points -= 1),
            |case, lent| gather_changed(case, lent, |_, numbers| numbers[..4].rotate_left(2)),
            |case, lent| {
                gather_changed(case, lent, |_, numbers| {
                    numbers[1] = f64::from_bits(numbers[1].to_bits() ^ 1);
                })
            },
            |case, lent| {
                gather_changed(case, lent, |_, numbers| {
                    let zeros = numbers.iter_mut().filter(|x| **x == 0.0);
                    zeros.for_each(|zero| *zero = -*zero);
                })
            },
            |case, lent| {
                gather_changed(case, lent, |told, numbers| {
                    numbers[..4 * told.points as usize].rotate_left(4);
                })
            },
        ]);
    }

    /// A triangle alone loses a segment. No random cell is one, so only the faces can show it.
    #[test]
    fn a_wrong_face_alone_is_seen() {
        seen(&[|case, lent| match (case.number, case.conn.len()) {
            (PHED, 3) => gather_changed(case, lent, |told, _| told.points -= 1),
            _ => ours(case, lent),
        }]);
    }

    #[test]
    fn a_wrong_stitching_or_plane_cut_is_seen() {
        seen(&[
            |case, lent| changed(case, lent, Entry::Stitch, |told, _| told.flat += 1),
            |case, lent| changed(case, lent, Entry::Stitch, |told, _| told.pinched += 1),
            |case, lent| changed(case, lent, Entry::Plane, |told, _| told.pinched += 1),
            // the one in the usual way alone
            |case, lent| match case.entry {
                Entry::Stitch => {
                    let strict = 0;
                    ours(
                        &Case {
                            strict,
                            ..case.clone()
                        },
                        lent,
                    )
                }
                _ => ours(case, lent),
            },
            |case, lent| changed(case, lent, Entry::Stitch, |told, _| told.defaulted += 1),
            |case, lent| changed(case, lent, Entry::Plane, |told, _| told.defaulted += 1),
            |case, lent| changed(case, lent, Entry::Gather, |told, _| told.defaulted += 1),
            |case, lent| changed(case, lent, Entry::Stitch, |told, _| told.comparisons += 1),
            |case, lent| changed(case, lent, Entry::Plane, |told, _| told.comparisons += 1),
            // both of them, so that they agree
            |case, lent| match case.entry {
                Entry::Gather => ours(case, lent),
                entry => changed(case, lent, entry, |told, _| told.comparisons += 1),
            },
            |case, lent| changed(case, lent, Entry::Plane, |told, _| told.open += 1),
            |case, lent| changed(case, lent, Entry::Plane, |_, numbers| numbers[1] += 1.0),
            |case, lent| match case.entry {
                Entry::Stitch => {
                    let tol = 2.0 * case.tol;
                    ours(
                        &Case {
                            tol,
                            ..case.clone()
                        },
                        lent,
                    )
                }
                _ => ours(case, lent),
            },
        ]);
    }

    /// The next number instead; none where the buffer is short; 7 where it fits.
    #[test]
    fn a_wrong_refusal_is_seen() {
        seen(&[
            |case, lent| gather_refused(case, lent, 1, 2),
            |case, lent| gather_refused(case, lent, 2, 3),
            |case, lent| gather_refused(case, lent, 3, 4),
            |case, lent| gather_refused(case, lent, 4, 5),
            |case, lent| gather_refused(case, lent, 5, 6),
            |case, lent| gather_refused(case, lent, 6, 7),
            |case, lent| gather_refused(case, lent, 7, 0),
            |case, lent| gather_refused(case, lent, 0, 7),
        ]);
    }
}
