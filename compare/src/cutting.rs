//! The linked entries held against mefikit's Rust and the rules' refusals, and their counts, and the strict way, against
//! another walk and plain counts of crossings and of comparisons. mefikit is handed a scaled normal by the plain model.

use crate::answers::{answer, as_given, kept_corners};
use crate::comparisons::{of_segments, stitched, Welding, Weldings};
use crate::cuts::{any_case_in, corner, refusals, sound, spoil};
use crate::defaulted::{of_case, Crossings, Cuts};
use crate::entries::{Case, Cut, Entry, Lent, Told};
use crate::numbers::{agree, alike, same, untouched, UNTOUCHED};
use crate::random::Random;
use crate::stitching::loops_are;
use crate::ways::{of_walks, Repeated, Repeats, Way};
use crate::{ByType, Found};
use oracle::by_rules::reach::{dot, unit};
use oracle::walks::{Edges, Walked};
use oracle::Build;

/// Stands in the nodes and ends of a buffer before it is lent, and must stand where nothing was written.
const NODE: u32 = 0xdead_beef;

/// How far a buffer is watched beyond what is lent.
const WATCHED: usize = 8;

/// Buffers to lend, kept from case to case.
#[derive(Default)]
pub struct Buffers {
    numbers: Vec<f64>,
    nodes: Vec<u32>,
    ends: Vec<u32>,
}

/// What one case showed.
pub struct Right {
    pub told: Told,
    /// The Rust, comparing arccosines, goes another way than with cosines.
    pub arccosine: bool,
    pub crossings: Crossings,
    pub welding: Welding,
    pub repeats: Repeats,
}

/// Holds an answer against mefikit's on one case. mefikit has no strict way: there the loops are those by the rules in which no
/// point stands twice, and the Rust as it stands is not asked. In both ways they are another walk's.
pub fn judge(case: &Case, cut: Cut, buffers: &mut Buffers) -> Result<Right, String> {
    let Buffers {
        numbers,
        nodes,
        ends,
    } = buffers;
    lend(numbers, case.lent[0], UNTOUCHED);
    lend(nodes, case.lent[1], NODE);
    lend(ends, case.lent[2], NODE);
    let told = cut(
        case,
        Lent {
            numbers: &mut numbers[..case.lent[0]],
            nodes: &mut nodes[..case.lent[1]],
            ends: &mut ends[..case.lent[2]],
        },
    );
    let wrong = |what: &str| Err(format!("{what} ({told:?}): {}", case.told()));
    let case = &*as_given(case);
    let rules = answer(case, Build::ByRules);
    if told.refusal != rules.told.refusal {
        return wrong(&format!("the refusal is not {}", rules.told.refusal));
    }
    if !same_told(&told, &rules.told) {
        return wrong(&format!("the answer is not {:?}", rules.told));
    }
    let written = [rules.numbers.len(), rules.nodes.len(), rules.ends.len()];
    let (numbers, numbers_rest) = numbers.split_at(written[0]);
    let (nodes, nodes_rest) = nodes.split_at(written[1]);
    let (ends, ends_rest) = ends.split_at(written[2]);
    let as_before = numbers_rest.iter().all(untouched)
        && nodes_rest.iter().chain(ends_rest).all(|&x| x == NODE);
    if !as_before {
        return wrong("wrote beyond the answer");
    }
    if numbers.iter().any(untouched) {
        return wrong("left a number unwritten");
    }
    if !agree(same, numbers, &rules.numbers) || nodes != rules.nodes || ends != rules.ends {
        return wrong("wrote something else than by the rules");
    }
    let is = |build| {
        let other = answer(case, build);
        agree(alike, numbers, &other.numbers) && nodes == other.nodes && ends == other.ends
    };
    let strict = case.strict != 0;
    let arccosine = !strict && !is(Build::Rust);
    let right = match case.entry {
        // gathering walks along no edge, so every build has to agree
        Entry::Gather => !arccosine && is(Build::ByCosine),
        _ => !arccosine || is(Build::ByCosine),
    };
    if !right {
        return wrong("differs from the Rust");
    }
    let (crossings, list) = match told.refusal {
        0 => (of_case(case), stitched(case)),
        _ => Default::default(),
    };
    let walked = Walked::new(&list, case.tol);
    if !loops_are(nodes, ends, &walked.section(strict)) {
        return wrong("another walk gives other loops");
    }
    let welding = of_segments(&list, case.tol);
    if crossings.defaulted() != told.defaulted {
        return wrong(&format!("the plain count is {crossings:?}"));
    }
    if welding.comparisons != told.comparisons as usize {
        return wrong(&format!("the plain count is {welding:?}"));
    }
    Ok(Right {
        told,
        arccosine,
        crossings,
        welding,
        repeats: of_walks(&walked),
    })
}

fn lend<T: Copy>(buffer: &mut Vec<T>, lent: usize, pattern: T) {
    buffer.clear();
    buffer.resize(lent + WATCHED, pattern);
}

fn same_told(a: &Told, b: &Told) -> bool {
    let counts = |told: &Told| Told {
        tolerance: 0.0,
        ..*told
    };
    counts(a) == counts(b) && same(a.tolerance, b.tolerance)
}

/// What the cases of an entry came to.
#[derive(Default)]
pub struct Reached {
    pub found: Found,
    /// Those answered, by type number.
    pub answered: ByType,
    /// Those with a loop or a segment, by type number.
    pub giving: ByType,
    /// Those refused, by number; 0 is answered.
    pub refused: [u64; 9],
    pub loops: u64,
    pub edges: Edges,
    pub with_flat: u64,
    pub with_open: u64,
    pub arccosine: u64,
    /// Those with crossings in the middle by default.
    pub cuts: Cuts,
    pub weldings: Weldings,
    pub repeated: Repeated,
    /// Those with a closed walk that passes a point twice, by type number.
    pub pinched: ByType,
    /// Cells with a corner above the tolerance and one below that list no edge.
    pub unlisted: Unlisted,
}

/// Cells that the plane crosses and that list no edge, by why.
#[derive(Default)]
pub struct Unlisted {
    pub all: u64,
    /// A corner or the cut has a number that is not finite.
    pub not_finite: u64,
    /// Else: the tolerance is less than the mesh's own, so that rounded crossings may not be on the plane.
    pub less_tolerance: u64,
    /// Else: it is at least a thousandth of the greatest absolute coordinate.
    pub large_tolerance: u64,
    /// Else: coordinates above 1e150, whose squares overflow, or all below 1e-150.
    pub extreme: u64,
    /// None of these: how many, and the first.
    pub others: u64,
    pub first: Option<String>,
}

impl Unlisted {
    fn count(&mut self, case: &Case) {
        let at = |at| corner::<3>(case, at);
        let corners: Vec<f64> = kept_corners(case).into_iter().flat_map(at).collect();
        let all = corners.iter().chain(&case.origin).chain(&case.vector);
        let greatest = corners.iter().fold(0.0, |most: f64, x| most.max(x.abs()));
        self.all += 1;
        if !all.copied().all(f64::is_finite) {
            self.not_finite += 1;
        } else if case.tol < oracle::tolerance(3, &corners).unwrap() {
            self.less_tolerance += 1;
        } else if case.tol >= greatest / 1000.0 {
            self.large_tolerance += 1;
        } else if !(1e-150..1e150).contains(&greatest) {
            self.extreme += 1;
        } else {
            self.others += 1;
            self.first.get_or_insert_with(|| case.told());
        }
    }
}

impl Reached {
    fn count(&mut self, case: &Case, outcome: Result<Right, String>) {
        if let Ok(Right {
            told,
            arccosine,
            crossings,
            welding,
            repeats,
        }) = &outcome
        {
            self.cuts.count(crossings, case.tol, gives(case, told));
            self.weldings.count(welding);
            self.repeated.count(*repeats);
            if repeats.pinched {
                self.pinched.count(case.number);
            }
            self.refused[told.refusal as usize] += 1;
            self.arccosine += u64::from(*arccosine);
            self.loops += u64::from(told.loops);
            self.edges.add(Edges {
                listed: told.listed as usize,
                in_loops: told.in_loops as usize,
                pinched: told.pinched as usize,
                flat: told.flat as usize,
                open: told.open as usize,
            });
            self.with_flat += u64::from(told.flat > 0);
            self.with_open += u64::from(told.open > 0);
            if told.refusal == 0 {
                self.answered.count(case.number);
            }
            if gives(case, told) {
                self.giving.count(case.number);
            }
            let given = &*as_given(case);
            let plane_cut = case.entry == Entry::Plane && told.refusal == 0;
            if plane_cut && told.listed == 0 && crossed(given) {
                self.unlisted.count(given);
            }
        }
        self.found
            .count(outcome.map(|right| gives(case, &right.told)));
    }
}

/// Whether there is a loop, a segment or a tolerance.
fn gives(case: &Case, told: &Told) -> bool {
    match case.entry {
        Entry::Plane | Entry::Stitch => told.loops > 0,
        Entry::ToleranceInSpace | Entry::ToleranceInPlane => told.refusal == 0,
        _ => told.points > 0,
    }
}

/// Whether a corner of the cell lies above the plane by more than the tolerance and one below.
fn crossed(case: &Case) -> bool {
    let origin: [f64; 3] = case.origin.as_slice().try_into().unwrap();
    let normal = unit::<3>(&case.vector.as_slice().try_into().unwrap());
    let heights: Vec<f64> = kept_corners(case)
        .into_iter()
        .map(|at| corner(case, at))
        .map(|p: [f64; 3]| dot(&std::array::from_fn(|k| p[k] - origin[k]), &normal))
        .collect();
    heights.iter().any(|&h| h > case.tol) && heights.iter().any(|&h| h < -case.tol)
}

/// Holds an entry against mefikit's on random cases, in these ways in turn.
pub fn compare(entry: Entry, cases: u64, ways: &[Way], cut: Cut) -> Reached {
    let mut random = Random::new(0x9ae1_6a3b_2f90_404f + entry as u64);
    let case = |&way| any_case_in(&mut random, entry, way);
    compare_each(ways.iter().cycle().take(cases as usize).map(case), cut)
}

/// The same on these cases.
pub fn compare_each(cases: impl Iterator<Item = Case>, cut: Cut) -> Reached {
    let mut buffers = Buffers::default();
    let mut reached = Reached::default();
    for case in cases {
        reached.count(&case, judge(&case, cut, &mut buffers));
    }
    reached
}

/// Holds an entry against the rules' order of refusals: for each type, cells with each set of conditions
/// together, `turns` times in each of these ways. The first of the set must be told. Counted as giving: all
/// that are refused.
pub fn compare_refusals(entry: Entry, turns: u64, ways: &[Way], cut: Cut) -> Found {
    let mut random = Random::new(0xc949_d7c7_509e_6557 + entry as u64);
    let mut buffers = Buffers::default();
    let mut found = Found::default();
    let order = refusals(entry);
    for number in entry.types() {
        for set in 0u32..1 << order.len() {
            for &Way { scaled, strict } in (0..turns).flat_map(|_| ways) {
                let mut case = Case {
                    scaled,
                    strict,
                    ..sound(&mut random, entry, Some(number))
                };
                let chosen = (0..order.len()).filter(|k| set >> k & 1 == 1);
                // from the last to the first: what comes first may hide how a later one is made
                let made: Vec<usize> = chosen
                    .rev()
                    .filter(|&k| spoil(&mut random, &mut case, order[k]))
                    .collect();
                let first = made.last().map(|&k| order[k]);
                let outcome = judge(&case, cut, &mut buffers);
                found.count(outcome.and_then(|right| told_first(&case, first, right.told)));
            }
        }
    }
    found
}

/// Whether the refusal told is the first of those made. A sound cell may be refused with 6 alone: some
/// vectors have no direction as they come.
fn told_first(case: &Case, first: Option<u32>, told: Told) -> Result<bool, String> {
    let by_itself = told.refusal == 6 && first.is_none_or(|first| first == 7);
    if told.refusal == first.unwrap_or(0) || by_itself {
        return Ok(told.refusal > 0);
    }
    Err(format!(
        "{} told, not {first:?}: {}",
        told.refusal,
        case.told()
    ))
}

#[cfg(test)]
mod tests;
