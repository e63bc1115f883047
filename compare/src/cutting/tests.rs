use super::*;
use crate::answers::{given, room};
use crate::comparisons::wrong::{counted, right, End, COUNTS};
use crate::cuts::any_case;
use crate::entries::{by_c, ours};
use crate::ways::{ways, wrong::KINDS, SCALED, STRICT, USUAL};
use crate::worked::{self, worked_in_all_buffers, Worked, BY_DEFAULT, COMPARISONS, NAMES};
use oracle::walks::{Kind, Walk};
use oracle::BUILDS;

const ENTRIES: [Entry; 8] = Entry::ALL;
const CUTS: [Entry; 6] = [
    Entry::Plane,
    Entry::Gather,
    Entry::LineInSpace,
    Entry::PlaneCellByNormal,
    Entry::PlaneCellByDirection,
    Entry::Stitch,
];
const SECTIONS: [Entry; 2] = [Entry::Plane, Entry::Stitch];

/// A wrong cut is seen with each of these entries, in each way.
fn seen(entries: &[Entry], cut: Cut) {
    seen_among(3_000, entries, cut);
}

fn seen_among(cases: u64, entries: &[Entry], cut: Cut) {
    for &entry in entries {
        for way in ways(entry) {
            seen_in(way, entry, cases, cut);
        }
    }
}

fn seen_in(way: &[Way], entry: Entry, cases: u64, cut: Cut) {
    let found = compare(entry, cases, way, cut).found;
    assert!(found.differing > 0, "{entry:?} {way:?}");
}

/// The linked function, told otherwise afterwards.
fn retold(case: &Case, lent: Lent, wrong: fn(&mut Told)) -> Told {
    let mut told = ours(case, lent);
    if told.refusal == 0 {
        wrong(&mut told);
    }
    told
}

/// The linked function, with what it wrote changed afterwards.
fn rewritten(case: &Case, lent: Lent, wrong: fn(&Told, &mut Lent)) -> Told {
    let mut lent = lent;
    let again = Lent {
        numbers: &mut *lent.numbers,
        nodes: &mut *lent.nodes,
        ends: &mut *lent.ends,
    };
    let told = ours(case, again);
    wrong(&told, &mut lent);
    told
}

#[test]
fn the_linked_entries_are_the_rusts() {
    for entry in ENTRIES {
        for way in ways(entry) {
            let found = compare(entry, 3_000, way, ours).found;
            assert_eq!(found.differing, 0, "{:?}", found.first);
            let found = compare_refusals(entry, 1, way, ours);
            assert_eq!(found.differing, 0, "{:?}", found.first);
        }
    }
}

/// The crate's functions, which hand over 0 and 1, and C's.
#[test]
fn both_call_the_same() {
    for entry in ENTRIES.into_iter().filter(|&entry| ways(entry).len() > 1) {
        for way in ways(entry) {
            let found = compare(entry, 3_000, way, by_c).found;
            assert_eq!(found.differing, 0, "{:?}", found.first);
        }
    }
}

/// The same answer whatever stands for yes, and beside that of the usual way the same refusal, points, listed and open edges,
/// crossings in the middle by default and comparisons of points.
#[test]
fn every_yes_is_alike() {
    let common = |told: Told| Told {
        nodes: 0,
        loops: 0,
        in_loops: 0,
        pinched: 0,
        flat: 0,
        ..told
    };
    for entry in SECTIONS {
        let mut random = Random::new(1);
        for _ in 0..3_000 {
            let case = any_case(&mut random, entry);
            let in_way = |strict| {
                let case = Case {
                    strict,
                    ..case.clone()
                };
                given(&case, ours)
            };
            let [usual, one, two, most] = [0, 1, 2, 255].map(in_way);
            assert!(one.is(&two, same) && one.is(&most, same), "{}", case.told());
            assert_eq!(common(usual.told), common(one.told), "{}", case.told());
            assert!(agree(same, &usual.numbers, &one.numbers));
        }
    }
}

/// In exact buffers, with room to spare, and with each buffer that has a length too short by one.
#[test]
fn the_worked_cases_are_the_rusts() {
    let mut buffers = Buffers::default();
    for Worked { number, case, .. } in worked_in_all_buffers() {
        if let Err(why) = judge(&case, ours, &mut buffers) {
            panic!("case {number}: {why}");
        }
    }
}

/// The answers by hand in the usual way, but for the bow-tie and the cases of the strict way, which are pinched.
#[test]
fn no_other_worked_case_changes() {
    let first_strict = NAMES.len() + BY_DEFAULT.len() + COMPARISONS.len() + 1;
    let usual = |one: &Worked| one.number != 10 && one.number < first_strict;
    let all = worked_in_all_buffers().into_iter().filter(usual);
    let mut sections = 0;
    for one in all.filter(|one| SECTIONS.contains(&one.case.entry)) {
        let case = Case {
            strict: 1,
            ..one.case
        };
        assert!(
            given(&case, ours).is(&one.answer, alike),
            "case {}",
            one.number
        );
        sections += 1;
    }
    assert!(sections > 100, "{sections}");
}

/// The answers by hand to normals as they are given, but for case 13, whose normals are too long or infinite.
#[test]
fn no_other_worked_case_changes_where_normals_are_scaled() {
    let last_strict = NAMES.len() + BY_DEFAULT.len() + COMPARISONS.len() + worked::STRICT.len();
    let as_given = |one: &Worked| one.number != 13 && one.number <= last_strict;
    let by_normal = |one: &Worked| one.case.entry.takes_normal() && as_given(one);
    let mut cut = 0;
    for one in worked_in_all_buffers().into_iter().filter(by_normal) {
        let case = Case {
            scaled: 1,
            ..one.case
        };
        let found = given(&case, ours);
        assert!(found.is(&one.answer, alike), "case {}", one.number);
        cut += 1;
    }
    assert!(cut > 100, "{cut}");
}

/// Random cases have each refusal of their entry, each type, flat and open walks, and walks that pass a point twice.
#[test]
fn everything_is_reached() {
    for entry in ENTRIES {
        for way in ways(entry) {
            reached_in(way, entry);
        }
    }
    let unlisted = compare(Entry::Plane, 20_000, USUAL, ours).unlisted;
    assert!(unlisted.all > 0);
}

fn reached_in(way: &[Way], entry: Entry) {
    let reached = compare(entry, 20_000, way, ours);
    for &number in refusals(entry) {
        assert!(reached.refused[number as usize] > 0, "{entry:?} {number}");
    }
    if CUTS[..5].contains(&entry) {
        let mut types = entry.types();
        assert!(
            types.all(|number| reached.giving.of(number) > 0),
            "{entry:?}"
        );
    }
    let cuts = reached.cuts;
    if CUTS[..5].contains(&entry) {
        assert!(cuts.defaulted > 20_000 / 50, "{entry:?} {cuts:?}");
        let kinds = [
            cuts.nan,
            cuts.less,
            cuts.least_normal,
            cuts.more,
            cuts.infinite,
        ];
        let odd = [cuts.negative_tolerance, cuts.giving_nothing];
        assert!(
            kinds.iter().chain(&odd).all(|&many| many > 10),
            "{entry:?} {cuts:?}"
        );
    } else {
        assert_eq!(cuts.defaulted, 0, "{entry:?}");
    }
    assert_eq!(cuts.of_both > 0, entry == Entry::LineInSpace);
    let weldings = reached.weldings;
    if SECTIONS.contains(&entry) {
        assert!(reached.with_flat > 0 && reached.with_open > 0, "{entry:?}");
        assert!(weldings.most > 10, "{entry:?} {weldings:?}");
        assert!(weldings.several > weldings.most + weldings.fewest);
        let Repeated {
            pinched,
            pinched_flat,
            open,
            beside_a_loop,
        } = reached.repeated;
        let repeated = [pinched, pinched_flat, open, beside_a_loop];
        assert!(
            repeated.iter().all(|&many| many > 10),
            "{entry:?} {repeated:?}"
        );
        assert_eq!(reached.edges.pinched > 0, way[0].strict > 0);
        let hexahedra = [14, 15].map(|number| reached.pinched.of(number));
        assert_eq!(
            hexahedra.iter().all(|&many| many > 50),
            entry == Entry::Plane
        );
    } else {
        assert_eq!(weldings.comparisons, 0, "{entry:?}");
    }
    if entry == Entry::Stitch {
        assert!(weldings.fewest > 10, "{weldings:?}");
        assert_eq!(weldings.greatest.comparisons, 294_528);
    }
}

#[test]
fn a_wrong_count_is_seen() {
    seen(&CUTS, |case, lent| {
        retold(case, lent, |told| told.points += 1)
    });
    seen(&SECTIONS, |case, lent| {
        retold(case, lent, |told| told.nodes += 1)
    });
    seen(&SECTIONS, |case, lent| {
        retold(case, lent, |told| told.loops += 1)
    });
    seen(&SECTIONS, |case, lent| {
        retold(case, lent, |told| told.listed += 1)
    });
    seen(&SECTIONS, |case, lent| {
        retold(case, lent, |told| told.in_loops += 1)
    });
    seen(&SECTIONS, |case, lent| {
        retold(case, lent, |told| told.pinched += 1)
    });
    // flat edges told as open
    seen(&SECTIONS, |case, lent| {
        retold(case, lent, |told| {
            told.open += told.flat;
            told.flat = 0;
        })
    });
}

/// One more, of stitching too; none; only those whose points are left; each kind left out or counted too; those of the
/// plane that holds a line alone, and those on its loops alone.
#[test]
fn a_wrong_count_of_crossings_is_seen() {
    seen(&CUTS, |case, lent| {
        retold(case, lent, |told| told.defaulted += 1)
    });
    seen(&CUTS[..5], |case, lent| {
        retold(case, lent, |told| told.defaulted = 0)
    });
    seen(&CUTS[..5], |case, lent| {
        retold(case, lent, |told| {
            if told.points == 0 {
                told.defaulted = 0;
            }
        })
    });
    fn recounted(case: &Case, lent: Lent, count: fn(&Crossings) -> u32) -> Told {
        let mut told = ours(case, lent);
        if told.refusal == 0 {
            told.defaulted = count(&of_case(case));
        }
        told
    }
    let wrong: [Cut; 5] = [
        |case, lent| recounted(case, lent, |c| c.less + c.least_normal),
        |case, lent| recounted(case, lent, |c| c.nan + c.least_normal),
        |case, lent| recounted(case, lent, |c| c.nan + c.less),
        |case, lent| recounted(case, lent, |c| c.defaulted() + c.more),
        |case, lent| recounted(case, lent, |c| c.defaulted() + c.infinite),
    ];
    for cut in wrong {
        seen_among(20_000, &CUTS[..5], cut);
    }
    seen_among(20_000, &[Entry::LineInSpace], |case, lent| {
        recounted(case, lent, |c| c.defaulted() - c.on_loops)
    });
    seen_among(20_000, &[Entry::LineInSpace], |case, lent| {
        recounted(case, lent, |c| c.on_loops)
    });
    assert_eq!(
        compare(Entry::LineInSpace, 3_000, USUAL, |case, lent| {
            recounted(case, lent, Crossings::defaulted)
        })
        .found
        .differing,
        0
    );
}

/// The linked function, with the comparisons of points of a section counted otherwise.
fn compared(case: &Case, lent: Lent, of_end: fn(&End) -> usize) -> Told {
    let mut told = ours(case, lent);
    if told.refusal == 0 && SECTIONS.contains(&case.entry) {
        told.comparisons = counted(&stitched(case), case.tol, of_end) as u32;
    }
    told
}

#[test]
fn a_wrong_count_of_comparisons_is_seen() {
    seen(&CUTS, |case, lent| {
        retold(case, lent, |told| told.comparisons += 1)
    });
    seen(&SECTIONS, |case, lent| compared(case, lent, COUNTS[0]));
    seen(&SECTIONS, |case, lent| compared(case, lent, COUNTS[1]));
    seen(&SECTIONS, |case, lent| compared(case, lent, COUNTS[2]));
    seen(&SECTIONS, |case, lent| compared(case, lent, COUNTS[3]));
    seen(&SECTIONS, |case, lent| compared(case, lent, COUNTS[4]));
    for entry in SECTIONS {
        let right: Cut = |case, lent| compared(case, lent, right);
        let found = compare(entry, 3_000, USUAL, right).found;
        assert_eq!(found.differing, 0, "{entry:?}");
    }
}

/// The linked function, with the edges of a section counted by another word on what its walks are.
fn decided(case: &Case, lent: Lent, kind: fn(&Walked, &Walk) -> Kind) -> Told {
    let mut told = ours(case, lent);
    if told.refusal == 0 {
        let walked = Walked::new(&stitched(case), case.tol);
        let edges = walked.edges_by(|walk| kind(&walked, walk));
        told.in_loops = edges.in_loops as u32;
        told.pinched = edges.pinched as u32;
        told.flat = edges.flat as u32;
        told.open = edges.open as u32;
    }
    told
}

#[test]
fn a_walk_of_the_wrong_kind_is_seen() {
    let wrong: [Cut; 5] = [
        |case, lent| decided(case, lent, KINDS[0]),
        |case, lent| decided(case, lent, KINDS[1]),
        |case, lent| decided(case, lent, KINDS[2]),
        |case, lent| decided(case, lent, KINDS[3]),
        |case, lent| decided(case, lent, KINDS[4]),
    ];
    let right: Cut = |case, lent| decided(case, lent, crate::ways::wrong::right);
    for entry in SECTIONS {
        for cut in wrong {
            seen_in(STRICT, entry, 3_000, cut);
        }
        let found = compare(entry, 3_000, STRICT, right).found;
        assert_eq!(found.differing, 0, "{:?}", found.first);
        // pinched in the usual way
        seen_in(USUAL, entry, 3_000, right);
    }
}

/// The usual way in place of the strict one, also where `strict` is above 1 alone, and the strict one in place of the usual.
#[test]
fn the_other_way_is_seen() {
    fn in_way(case: &Case, lent: Lent, strict: u8) -> Told {
        let case = Case {
            strict,
            ..case.clone()
        };
        ours(&case, lent)
    }
    for entry in SECTIONS {
        seen_in(STRICT, entry, 3_000, |case, lent| in_way(case, lent, 0));
        let one_alone: Cut = |case, lent| in_way(case, lent, u8::from(case.strict == 1));
        seen_in(&STRICT[1..], entry, 3_000, one_alone);
        seen_in(USUAL, entry, 3_000, |case, lent| in_way(case, lent, 1));
    }
}

/// The Rust as it stands counts none.
#[test]
fn the_builds_that_count_compare_alike() {
    for entry in SECTIONS {
        let mut random = Random::new(1);
        for _ in 0..1_000 {
            let case = any_case(&mut random, entry);
            let [rust, counted, by_cosine, by_rules] =
                BUILDS.map(|build| answer(&case, build).told.comparisons);
            assert_eq!([rust, by_cosine, by_rules], [0, counted, counted]);
        }
    }
}

#[test]
fn a_dropped_loop_is_seen() {
    seen(&SECTIONS, |case, lent| {
        retold(case, lent, |told| told.loops = told.loops.saturating_sub(1))
    });
}

#[test]
fn a_wrong_tolerance_is_seen() {
    seen(&ENTRIES[6..], |case, lent| {
        retold(case, lent, |told| told.tolerance *= 1.0 + f64::EPSILON)
    });
}

/// A count told beside a refusal.
#[test]
fn a_refusal_that_tells_more_is_seen() {
    seen(&CUTS, |case, lent| {
        let mut told = ours(case, lent);
        told.points += u32::from(told.refusal > 0);
        told
    });
    seen(&CUTS, |case, lent| {
        let mut told = ours(case, lent);
        told.defaulted += u32::from(told.refusal > 0);
        told
    });
    seen(&CUTS, |case, lent| {
        let mut told = ours(case, lent);
        told.comparisons += u32::from(told.refusal > 0);
        told
    });
    seen(&SECTIONS, |case, lent| {
        let mut told = ours(case, lent);
        told.pinched += u32::from(told.refusal > 0);
        told
    });
}

#[test]
fn a_touched_remainder_is_seen() {
    seen(&CUTS, |case, lent| {
        rewritten(case, lent, |_, lent| {
            if let Some(last) = lent.numbers.last_mut() {
                *last = 0.0;
            }
        })
    });
    // a NaN of other bits
    seen(&CUTS, |case, lent| {
        rewritten(case, lent, |_, lent| {
            if let Some(last) = lent.numbers.last_mut() {
                *last = f64::NAN;
            }
        })
    });
    seen(&SECTIONS, |case, lent| {
        rewritten(case, lent, |told, lent| {
            if let Some(next) = lent.nodes.get_mut(told.nodes as usize) {
                *next = 0;
            }
        })
    });
    seen(&SECTIONS, |case, lent| {
        rewritten(case, lent, |told, lent| {
            if let Some(next) = lent.ends.get_mut(told.loops as usize) {
                *next = 0;
            }
        })
    });
}

/// Something written before a refusal is told.
#[test]
fn a_buffer_touched_on_refusal_is_seen() {
    seen(&CUTS, |case, lent| {
        rewritten(case, lent, |told, lent| {
            if told.refusal > 0 && !lent.numbers.is_empty() {
                lent.numbers[0] = 0.0;
            }
        })
    });
}

#[test]
fn an_unwritten_buffer_is_seen() {
    seen(&CUTS, |case, lent| {
        rewritten(case, lent, |_, lent| lent.numbers.fill(UNTOUCHED))
    });
    seen(&SECTIONS, |case, lent| {
        rewritten(case, lent, |_, lent| lent.nodes.fill(NODE))
    });
    seen(&SECTIONS, |case, lent| {
        rewritten(case, lent, |_, lent| lent.ends.fill(NODE))
    });
}

#[test]
fn a_changed_bit_is_seen() {
    seen(&CUTS, |case, lent| {
        rewritten(case, lent, |told, lent| {
            if told.points > 0 {
                lent.numbers[1] = f64::from_bits(lent.numbers[1].to_bits() ^ 1);
            }
        })
    });
}

/// A zero of the other sign is alike to the Rust's and not as by the rules.
#[test]
fn a_zero_of_the_other_sign_is_seen() {
    seen(&CUTS, |case, lent| {
        rewritten(case, lent, |_, lent| {
            let zero = lent.numbers.iter_mut().find(|x| **x == 0.0);
            if let Some(zero) = zero {
                *zero = -*zero;
            }
        })
    });
}

#[test]
fn a_turned_loop_is_seen() {
    seen(&SECTIONS, |case, lent| {
        rewritten(case, lent, |told, lent| {
            if told.loops > 0 {
                lent.nodes[..lent.ends[0] as usize].reverse();
            }
        })
    });
}

/// Scaled though it is to be taken as it is given, and the other way round.
#[test]
fn a_normal_taken_in_the_other_way_is_seen() {
    let other: Cut = |case, lent| {
        let case = Case {
            scaled: u8::from(case.scaled == 0),
            ..case.clone()
        };
        ours(&case, lent)
    };
    let by_normal = ENTRIES.into_iter().filter(|entry| entry.takes_normal());
    for entry in by_normal {
        for way in ways(entry) {
            seen_in(way, entry, 20_000, other);
        }
    }
}

/// Refuses always; gives an empty section to all.
#[test]
fn an_entry_that_does_no_work_is_seen() {
    seen(&ENTRIES, |_, _| Told {
        refusal: 3,
        ..Told::default()
    });
    seen(&CUTS, |_, _| Told::default());
}

/// Refusals told in another order: each with its neighbour exchanged, where both conditions are there.
#[test]
fn another_order_of_refusals_is_seen() {
    /// Whether the condition of the next refusal is there too.
    fn later(case: &Case, told: u32) -> bool {
        let width = case.entry.width();
        let rows = (case.coords.len() / width) as u64;
        match told {
            1 => case.conn.len() > 256,
            2 => !case.coords.len().is_multiple_of(width),
            3 => kept_corners(case).iter().any(|&at| case.conn[at] >= rows),
            4 => case.origin.len() != width || case.vector.len() != width,
            5 => {
                let normal = &as_given(case).vector;
                normal.iter().all(|x| x * x == 0.0 || x.is_nan())
            }
            _ => (0..3).any(|k| case.lent[k] < room(case)[k]),
        }
    }
    fn exchanged(case: &Case, lent: Lent, refusal: u32) -> Told {
        let mut told = ours(case, lent);
        if told.refusal == refusal && later(case, refusal) {
            told.refusal += 1;
        }
        told
    }
    let wrong: [Cut; 6] = [
        |case, lent| exchanged(case, lent, 1),
        |case, lent| exchanged(case, lent, 2),
        |case, lent| exchanged(case, lent, 3),
        |case, lent| exchanged(case, lent, 4),
        |case, lent| exchanged(case, lent, 5),
        |case, lent| exchanged(case, lent, 6),
    ];
    for cut in wrong {
        for entry in &CUTS[..5] {
            for way in ways(*entry) {
                let found = compare_refusals(*entry, 1, way, cut);
                assert!(found.differing > 0, "{entry:?} {way:?}");
            }
        }
    }
    // stitching that tests 7 before 8
    let short_first: Cut = |case, lent| {
        let room = lent.numbers.len() >= case.segments.len();
        let mut told = ours(case, lent);
        if told.refusal == 8 && !room {
            told.refusal = 7;
        }
        told
    };
    assert!(compare_refusals(Entry::Stitch, 4, STRICT, short_first).differing > 0);
}

/// A component that is not finite refused before all else, and one that is not refused.
#[test]
fn a_component_that_is_not_finite_out_of_its_place_is_seen() {
    fn told_as(
        case: &Case,
        lent: Lent,
        refusals: std::ops::RangeInclusive<u32>,
        told: u32,
    ) -> Told {
        let right = ours(case, lent);
        let finite = case.vector.iter().all(|x| x.is_finite());
        if case.scaled == 0 || finite || !refusals.contains(&right.refusal) {
            return right;
        }
        Told {
            refusal: told,
            ..Told::default()
        }
    }
    let early: Cut = |case, lent| told_as(case, lent, 1..=5, 6);
    let late: Cut = |case, lent| told_as(case, lent, 6..=6, 7);
    let never: Cut = |case, lent| told_as(case, lent, 6..=6, 0);
    let by_normal = ENTRIES.into_iter().filter(|entry| entry.takes_normal());
    for entry in by_normal {
        for cut in [early, late, never] {
            assert!(
                compare_refusals(entry, 1, SCALED, cut).differing > 0,
                "{entry:?}"
            );
        }
    }
}

/// Refusal 7 for buffers that fit exactly, and none for those that lack one place.
#[test]
fn wrong_room_is_seen() {
    seen(&CUTS, |case, lent| {
        let exact = lent.numbers.len() == room(case)[0];
        let mut told = ours(case, lent);
        if exact && told.refusal == 0 {
            told = Told {
                refusal: 7,
                ..Told::default()
            };
        }
        told
    });
    seen(&CUTS, |case, lent| {
        let mut told = ours(case, lent);
        if told.refusal == 7 {
            told.refusal = 0;
        }
        told
    });
}

/// Mid-side nodes tested for refusal 4.
#[test]
fn mid_side_nodes_that_matter_are_seen() {
    seen(&CUTS[..5], |case, lent| {
        let rows = (case.coords.len() / case.entry.width()) as u64;
        let told = ours(case, lent);
        if told.refusal == 0 && case.conn.iter().any(|&node| node >= rows) {
            return Told {
                refusal: 4,
                ..Told::default()
            };
        }
        told
    });
}
