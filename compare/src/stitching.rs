//! The proved stitching held against mefikit's in the usual way, against another walk in both, and its comparisons against
//! a plain count.

use crate::comparisons::{of_segments, Welding, Weldings};
use crate::lists::{Group, List};
use crate::numbers::{agree, alike, same, untouched, UNTOUCHED};
use crate::proved::{self, Stitched};
use crate::random::Random;
use crate::ways::{of_walks, Repeated, Repeats, Way};
use crate::Found;
use oracle::walks::{repeats, Edges, Walked};
use oracle::{Build, Section};

/// Stitches a list into points, nodes and ends.
pub type Stitch = fn(&List, &mut [f64], &mut [u32], &mut [u32]) -> Stitched;

/// The proved stitching.
pub fn ours(list: &List, points: &mut [f64], nodes: &mut [u32], ends: &mut [u32]) -> Stitched {
    proved::stitch(&list.segments, list.strict, list.tol, points, nodes, ends)
}

/// Stands in the nodes and ends of a buffer before it is lent, and must stand where nothing was written.
const NODE: u32 = 0xdead_beef;

/// How far a buffer is watched beyond what is lent.
const WATCHED: usize = 8;

/// Buffers to lend, kept from case to case.
#[derive(Default)]
pub struct Buffers {
    points: Vec<f64>,
    nodes: Vec<u32>,
    ends: Vec<u32>,
}

/// What a comparison found, the edges of each kind, and where the Rust's arccosine decides otherwise.
#[derive(Default)]
pub struct Stitchings {
    pub found: Found,
    pub edges: Edges,
    pub weldings: Weldings,
    pub repeated: Repeated,
    /// Lists on which the Rust and the Rust with cosines differ, and the first of them.
    pub arccosine: u64,
    pub first_arccosine: Option<String>,
}

/// What one list showed.
pub struct Right {
    pub edges: Edges,
    pub welding: Welding,
    pub repeats: Repeats,
    /// The Rust and the Rust with cosines differ.
    pub arccosine: bool,
}

/// Holds a stitching against mefikit's and another walk on one list, in exact buffers or longer ones. mefikit has no strict way:
/// there the loops are those by the rules in which no point stands twice, and the Rust as it stands is not asked.
pub fn judge(
    list: &List,
    stitch: Stitch,
    longer: [usize; 3],
    buffers: &mut Buffers,
) -> Result<Right, String> {
    let s = list.segments.len();
    let lent = [4 * s + longer[0], s + longer[1], s / 3 + longer[2]];
    let Buffers {
        points,
        nodes,
        ends,
    } = buffers;
    lend(points, lent[0], UNTOUCHED);
    lend(nodes, lent[1], NODE);
    lend(ends, lent[2], NODE);
    let told = stitch(
        list,
        &mut points[..lent[0]],
        &mut nodes[..lent[1]],
        &mut ends[..lent[2]],
    );
    let wrong = |what: &str| Err(format!("{what} ({told:?}): {}", list.told()));
    if told.fitted != 1 {
        return wrong("refused");
    }
    if 2 * told.points > lent[0] || told.nodes > lent[1] || told.loops > lent[2] {
        return wrong("more than there is room for");
    }
    let (points, points_rest) = points.split_at(2 * told.points);
    let (nodes, nodes_rest) = nodes.split_at(told.nodes);
    let (ends, ends_rest) = ends.split_at(told.loops);
    let as_before =
        points_rest.iter().all(untouched) && nodes_rest.iter().chain(ends_rest).all(|&x| x == NODE);
    if !as_before {
        return wrong("wrote beyond the answer");
    }
    if points.iter().any(untouched) {
        return wrong("left a number unwritten");
    }
    let rules = || oracle::stitch(Build::ByRules, &list.segments, list.tol);
    let (mut rules, comparisons) = oracle::comparisons(rules);
    let strict = list.strict != 0;
    rules.loops.retain(|nodes| !(strict && repeats(nodes)));
    let same_points = agree(same, points, rules.points.as_flattened());
    if !same_points || !loops_are(nodes, ends, &rules) {
        return wrong("differs from the rules");
    }
    let mut arccosine = false;
    if !strict {
        let rust = oracle::stitch(Build::Rust, &list.segments, list.tol);
        let cosine = oracle::stitch(Build::ByCosine, &list.segments, list.tol);
        arccosine = rust.loops != cosine.loops;
        let alike_points = agree(alike, points, rust.points.as_flattened());
        if !alike_points || !(arccosine || loops_are(nodes, ends, &rust)) {
            return wrong("differs from the Rust");
        }
    }
    let walked = Walked::new(&list.segments, list.tol);
    if walked.section(strict).loops != rules.loops {
        return wrong("another walk gives other loops than the rules");
    }
    let counted = walked.edges(strict);
    let claimed = Edges {
        listed: told.listed,
        in_loops: told.in_loops,
        pinched: told.pinched,
        flat: told.flat,
        open: told.opened,
    };
    if claimed != counted || told.nodes != counted.in_loops {
        return wrong(&format!("the counts are not {counted:?}"));
    }
    let welding = of_segments(&list.segments, list.tol);
    if [comparisons, welding.comparisons] != [told.comparisons; 2] {
        return wrong(&format!(
            "the Rust counts {comparisons}, the plain count is {welding:?}"
        ));
    }
    Ok(Right {
        edges: claimed,
        welding,
        repeats: of_walks(&walked),
        arccosine,
    })
}

fn lend<T: Copy>(buffer: &mut Vec<T>, lent: usize, pattern: T) {
    buffer.clear();
    buffer.resize(lent + WATCHED, pattern);
}

/// Whether node numbers and running totals are those of these loops.
pub fn loops_are(nodes: &[u32], ends: &[u32], section: &Section) -> bool {
    let mut total = 0;
    let mut expected = section.loops.iter().map(|nodes| {
        total += nodes.len();
        total
    });
    let same_ends = ends
        .iter()
        .all(|&end| expected.next() == Some(end as usize));
    let same_nodes = nodes.len() == section.loops.iter().map(Vec::len).sum()
        && nodes
            .iter()
            .zip(section.loops.iter().flatten())
            .all(|(&a, &b)| a as usize == b);
    ends.len() == section.loops.len() && same_ends && same_nodes
}

/// Holds a stitching against mefikit's and another walk on a group, in these ways in turn.
pub fn compare(group: &Group, cases: u64, ways: &[Way], stitch: Stitch) -> Stitchings {
    let mut random = Random::new(0x2127_599b_f432_5c37);
    let mut buffers = Buffers::default();
    let mut all = Stitchings::default();
    for case in 0..cases * group.1 / 1000 {
        let list = List {
            strict: ways[case as usize % ways.len()].strict,
            ..(group.2)(&mut random)
        };
        let longer = if case % 2 == 0 {
            [0; 3]
        } else {
            [1, 2, 3].map(|least| random.within(least, 20))
        };
        let outcome = judge(&list, stitch, longer, &mut buffers);
        if let Ok(right) = &outcome {
            all.edges.add(right.edges);
            all.weldings.count(&right.welding);
            all.repeated.count(right.repeats);
            if right.arccosine {
                all.arccosine += 1;
                all.first_arccosine.get_or_insert_with(|| list.told());
            }
        }
        all.found
            .count(outcome.map(|right| right.edges.in_loops > 0));
    }
    all
}

#[cfg(test)]
mod tests {
    use super::*;
    use crate::comparisons::wrong::{counted, right, End, COUNTS};
    use crate::lists::GROUPS;
    use crate::ways::{wrong::KINDS, STRICT, USUAL};
    use oracle::walks::{Kind, Walk};
    use oracle::BUILDS;

    type Lent<'a> = (&'a mut [f64], &'a mut [u32], &'a mut [u32]);

    /// How many of a group's lists, some thousands or hundreds of them, are seen to differ, for each group but the last.
    fn seen(ways: &[Way], stitch: Stitch) -> Vec<u64> {
        let found = |group: &Group| compare(group, 2_000_000 / group.1, ways, stitch).found;
        let few = GROUPS[..MANY].iter();
        few.map(|group| found(group).differing).collect()
    }

    fn seen_in_each(stitch: Stitch) {
        for ways in [USUAL, STRICT] {
            let differing = seen(ways, stitch);
            assert!(differing.iter().all(|&count| count > 0), "{differing:?}");
        }
    }

    /// The group from which on lists are long.
    const MANY: usize = GROUPS.len() - 3;

    #[test]
    fn the_proved_stitching_is_the_rusts() {
        for ways in [USUAL, STRICT] {
            assert_eq!(seen(ways, ours), [0; MANY]);
            for group in &GROUPS[MANY..] {
                let found = compare(group, 100_000 / group.1, ways, ours).found;
                assert_eq!(found.differing, 0, "{:?}", found.first);
            }
        }
    }

    /// The proved stitching, with the edges counted by another word on what the walks are.
    fn decided(list: &List, lent: Lent, kind: fn(&Walked, &Walk) -> Kind) -> Stitched {
        let walked = Walked::new(&list.segments, list.tol);
        let edges = walked.edges_by(|walk| kind(&walked, walk));
        Stitched {
            in_loops: edges.in_loops,
            pinched: edges.pinched,
            flat: edges.flat,
            opened: edges.open,
            ..ours(list, lent.0, lent.1, lent.2)
        }
    }

    #[test]
    fn a_walk_of_the_wrong_kind_is_seen() {
        let wrong: [Stitch; 5] = [
            |list, a, b, c| decided(list, (a, b, c), KINDS[0]),
            |list, a, b, c| decided(list, (a, b, c), KINDS[1]),
            |list, a, b, c| decided(list, (a, b, c), KINDS[2]),
            |list, a, b, c| decided(list, (a, b, c), KINDS[3]),
            |list, a, b, c| decided(list, (a, b, c), KINDS[4]),
        ];
        let right: Stitch = |list, a, b, c| decided(list, (a, b, c), crate::ways::wrong::right);
        let sum = |ways, stitch| seen(ways, stitch).iter().sum::<u64>();
        for stitch in wrong {
            assert!(sum(STRICT, stitch) > 0);
        }
        assert_eq!(sum(STRICT, right), 0);
        assert!(sum(USUAL, right) > 0);
    }

    /// A pinched walk returned as in the usual way, and none in the usual way.
    #[test]
    fn the_other_way_is_seen() {
        fn in_way(list: &List, lent: Lent, strict: u8) -> Stitched {
            let list = List {
                strict,
                ..list.clone()
            };
            ours(&list, lent.0, lent.1, lent.2)
        }
        let usual: Stitch = |list, a, b, c| in_way(list, (a, b, c), 0);
        let strict: Stitch = |list, a, b, c| in_way(list, (a, b, c), 1);
        assert!(seen(STRICT, usual).iter().sum::<u64>() > 0);
        assert!(seen(USUAL, strict).iter().sum::<u64>() > 0);
    }

    /// In some of the groups: a ring passes no point twice.
    #[test]
    fn walks_that_pass_a_point_twice_are_reached() {
        let mut all = Repeated::default();
        for group in &GROUPS {
            all.add(compare(group, 20_000, STRICT, ours).repeated);
        }
        let Repeated {
            pinched,
            pinched_flat,
            open,
            beside_a_loop,
        } = all;
        let found = [pinched, pinched_flat, open, beside_a_loop];
        assert!(found.iter().all(|&many| many > 100), "{found:?}");
    }

    #[test]
    fn a_changed_point_is_seen() {
        seen_in_each(|list, points, nodes, ends| {
            let told = ours(list, points, nodes, ends);
            if told.points > 0 {
                let last = &mut points[2 * told.points - 1];
                *last = f64::from_bits(last.to_bits() ^ 1);
            }
            told
        });
    }

    #[test]
    fn a_loop_from_another_node_is_seen() {
        seen_in_each(|list, points, nodes, ends| {
            let told = ours(list, points, nodes, ends);
            if told.loops > 0 {
                nodes[..ends[0] as usize].rotate_left(1);
            }
            told
        });
    }

    #[test]
    fn a_wrong_end_is_seen() {
        seen_in_each(|list, points, nodes, ends| {
            let told = ours(list, points, nodes, ends);
            if told.loops > 0 {
                ends[told.loops - 1] += 1;
            }
            told
        });
    }

    /// Each count one too many, and flat edges told as open.
    #[test]
    fn invented_counts_are_seen() {
        fn with(list: &List, lent: Lent, wrong: fn(&mut Stitched)) -> Stitched {
            let mut told = ours(list, lent.0, lent.1, lent.2);
            wrong(&mut told);
            told
        }
        seen_in_each(|list, a, b, c| with(list, (a, b, c), |told| told.listed += 1));
        seen_in_each(|list, a, b, c| with(list, (a, b, c), |told| told.in_loops += 1));
        seen_in_each(|list, a, b, c| with(list, (a, b, c), |told| told.pinched += 1));
        seen_in_each(|list, a, b, c| with(list, (a, b, c), |told| told.flat += 1));
        seen_in_each(|list, a, b, c| with(list, (a, b, c), |told| told.opened += 1));
        seen_in_each(|list, a, b, c| with(list, (a, b, c), |told| told.comparisons += 1));
        seen_in_each(|list, a, b, c| {
            with(list, (a, b, c), |told| {
                told.opened += told.flat;
                told.flat = 0;
            })
        });
    }

    /// The proved stitching, with the comparisons of points counted otherwise.
    fn recounted(list: &List, lent: Lent, of_end: fn(&End) -> usize) -> Stitched {
        Stitched {
            comparisons: counted(&list.segments, list.tol, of_end),
            ..ours(list, lent.0, lent.1, lent.2)
        }
    }

    #[test]
    fn a_wrong_count_of_comparisons_is_seen() {
        seen_in_each(|list, a, b, c| recounted(list, (a, b, c), COUNTS[0]));
        seen_in_each(|list, a, b, c| recounted(list, (a, b, c), COUNTS[1]));
        seen_in_each(|list, a, b, c| recounted(list, (a, b, c), COUNTS[2]));
        seen_in_each(|list, a, b, c| recounted(list, (a, b, c), COUNTS[3]));
        seen_in_each(|list, a, b, c| recounted(list, (a, b, c), COUNTS[4]));
        let right: Stitch = |list, a, b, c| recounted(list, (a, b, c), right);
        assert_eq!(seen(USUAL, right), [0; MANY]);
    }

    #[test]
    fn the_builds_that_count_compare_alike() {
        let mut random = Random::new(1);
        for group in &GROUPS {
            for _ in 0..50 {
                let list = (group.2)(&mut random);
                let stitch = |build| oracle::stitch(build, &list.segments, list.tol);
                let found = BUILDS.map(|build| oracle::comparisons(|| stitch(build)).1);
                let [rust, counted, by_cosine, by_rules] = found;
                assert_eq!([rust, by_cosine, by_rules], [0, counted, counted]);
            }
        }
    }

    #[test]
    fn the_most_and_the_fewest_comparisons_are_reached() {
        let found = compare(&GROUPS[MANY], 100_000, USUAL, ours);
        let weldings = found.weldings;
        assert_eq!(found.found.differing, 0, "{:?}", found.found.first);
        assert!(weldings.most > 100 && weldings.fewest > 100, "{weldings:?}");
        assert!(weldings.several > weldings.most + weldings.fewest);
        let greatest = weldings.greatest;
        assert_eq!((greatest.segments, greatest.comparisons), (384, 294_528));
    }

    #[test]
    fn a_number_beyond_is_seen() {
        seen_in_each(|list, points, nodes, ends| {
            let told = ours(list, points, nodes, ends);
            if let Some(next) = nodes.get_mut(told.nodes) {
                *next = 0;
            }
            told
        });
    }

    /// Too short by one, each in turn: refused, and nothing is written.
    #[test]
    fn too_little_room_is_refused() {
        for (short, strict) in (0..3).flat_map(|k| [0, 1, 2, 255].map(|way| (k, way))) {
            let list = List {
                strict,
                ..List::new(vec![[[0.0, 0.0], [0.0, 1.0]]; 3], 0.0)
            };
            let mut lent = [12, 3, 1];
            lent[short] -= 1;
            let (mut points, mut nodes, mut ends) = ([UNTOUCHED; 12], [NODE; 3], [NODE; 1]);
            let told = ours(
                &list,
                &mut points[..lent[0]],
                &mut nodes[..lent[1]],
                &mut ends[..lent[2]],
            );
            assert_eq!(told, Stitched::default());
            assert!(points.iter().all(untouched));
            assert!(nodes.iter().chain(&ends).all(|&x| x == NODE));
        }
    }
}
