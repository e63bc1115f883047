//! Writes what crates/replay reads: the rules' worked cases with the answers told there, what the Rust
//! answers to some thousands of cases, refusals among them, and in the strict way the Rust and another walk, by a scaled
//! normal the Rust by that of the plain model; the machine's square roots; and answers with one thing wrong. The format
//! stands in compare/src/recorded.rs. Right answers are held against the linked entries first.

use compare::answers::{answer, given, Answer};
use compare::cuts::{any_case_in, refusals, sound, spoil};
use compare::entries::{ours, Case, Entry};
use compare::numbers::alike;
use compare::random::Random;
use compare::recorded::{file, root_words, words, Group};
use compare::roots::{sample, GROUPS};
use compare::ways::{self, Way, USUAL};
use compare::worked::{roots, worked_in_all_buffers, Worked};
use compare::worked::{BY_DEFAULT, COMPARISONS, NAMES, SCALED, STRICT};
use compare::wrong::wrong;
use oracle::Build;
use std::process::ExitCode;

/// Each entry with its name and how many random cases it has.
const SHARES: [(Entry, &str, usize); 8] = [
    (Entry::Plane, "plane cut", 1500),
    (Entry::Gather, "gathering", 430),
    (Entry::LineInSpace, "line cut in space", 900),
    (Entry::PlaneCellByNormal, "plane cell by normal", 600),
    (Entry::PlaneCellByDirection, "plane cell by direction", 600),
    (Entry::Stitch, "stitching alone", 600),
    (Entry::ToleranceInSpace, "tolerance in space", 100),
    (Entry::ToleranceInPlane, "tolerance in the plane", 100),
];

/// The same of those that have a strict way, in that.
const STRICT_SHARES: [(Entry, &str, usize); 2] = [
    (Entry::Plane, "plane cut", 800),
    (Entry::Stitch, "stitching alone", 400),
];

/// The same of those that take a normal, scaled.
const SCALED_SHARES: [(Entry, &str, usize); 3] = [
    (Entry::Plane, "plane cut", 600),
    (Entry::Gather, "gathering", 200),
    (Entry::PlaneCellByNormal, "plane cell by normal", 300),
];

/// How many square roots each group of patterns has.
const ROOTS: [usize; 6] = [800, 1000, 800, 700, 776, 20];

/// The most words of a random case, and of one with two things wrong.
const MOST_WORDS: usize = 205;
const MOST_WORDS_REFUSED: usize = 405;

/// A case and its right answer.
type Right = (Case, Answer);

fn main() -> ExitCode {
    let arguments: Vec<String> = std::env::args().skip(1).collect();
    let [path] = arguments.as_slice() else {
        eprintln!("usage: record FILE");
        return ExitCode::from(2);
    };
    let mut right = cases_worked();
    right.extend(SHARES.map(|(entry, name, share)| cases_of(entry, name, share)));
    right.extend(STRICT_SHARES.map(|(entry, name, share)| strict_cases_of(entry, name, share)));
    right.extend(SCALED_SHARES.map(|(entry, name, share)| scaled_cases_of(entry, name, share)));
    let differing: usize = right.iter().map(|(_, cases)| differing(cases)).sum();
    let mut groups: Vec<Group> = right
        .iter()
        .map(|(name, cases)| group(name, cases))
        .collect();
    groups[11].records = roots().map(|(x, root)| root_words(x, root)).to_vec();
    groups.push(square_roots());
    groups.push(Group {
        name: "wrong answers, each of which has to differ".into(),
        records: wrong(),
    });
    let bytes = file(&groups);
    if let Err(why) = std::fs::write(path, &bytes) {
        eprintln!("{path}: {why}");
        return ExitCode::from(1);
    }
    println!(
        "{} records in {} bytes; {differing} differ from the linked entries",
        groups
            .iter()
            .map(|group| group.records.len())
            .sum::<usize>(),
        bytes.len()
    );
    ExitCode::from(u8::from(differing > 0))
}

/// The worked cases by their number, and those of crossings in the middle by default, of comparisons of points, of the strict
/// way and of the scaled one by their name. Case 12, two square roots, has none here.
fn cases_worked() -> Vec<(String, Vec<Right>)> {
    let all = worked_in_all_buffers();
    let of = |number| {
        let cases = all.iter().filter(move |one| one.number == number);
        let right = |one: &Worked| (one.case.clone(), one.answer.clone());
        cases.map(right).collect()
    };
    let name = |(k, name)| (format!("case {}, {name}", k + 1), of(k + 1));
    let mut named: Vec<(String, Vec<Right>)> = NAMES.iter().enumerate().map(name).collect();
    for (about, names) in [
        ("by default", &BY_DEFAULT[..]),
        ("comparisons", &COMPARISONS),
        ("strict", &STRICT),
        ("scaled", &SCALED),
    ] {
        let first = named.len() + 1;
        let name = |(k, name)| (format!("{about}, {name}"), of(first + k));
        named.extend(names.iter().enumerate().map(name));
    }
    named
}

/// Random cases of an entry in the usual way, and its refusals.
fn cases_of(entry: Entry, name: &str, share: usize) -> (String, Vec<Right>) {
    let mut cases = Vec::new();
    record(entry, share, USUAL, |_| true, &mut cases);
    record_refusals(entry, USUAL[0], |_| true, &mut cases);
    let refused = refused(&cases);
    (format!("{name}, {refused} refusals"), cases)
}

/// Random cases of an entry by scaled normals, in the usual way and in the strict one, and refusals with 6, also beside another.
fn scaled_cases_of(entry: Entry, name: &str, share: usize) -> (String, Vec<Right>) {
    let mut cases = Vec::new();
    let ways = match entry {
        Entry::Plane => [ways::SCALED, ways::SCALED_STRICT].concat(),
        _ => ways::SCALED.to_vec(),
    };
    record(entry, share, &ways, |_| true, &mut cases);
    record_refusals(entry, ways[0], |pair| pair.contains(&6), &mut cases);
    let refused = refused(&cases);
    (format!("{name}, scaled, {refused} refusals"), cases)
}

fn refused(cases: &[Right]) -> usize {
    let refused = |(_, answer): &&Right| answer.told.refusal > 0;
    cases.iter().filter(refused).count()
}

/// Random cases of an entry in the strict way, a quarter of them with a pinched walk at least.
fn strict_cases_of(entry: Entry, name: &str, share: usize) -> (String, Vec<Right>) {
    let mut cases = Vec::new();
    let pinched = |(_, answer): &Right| answer.told.pinched > 0;
    record(entry, share - share / 4, ways::STRICT, |_| true, &mut cases);
    record(entry, share / 4, ways::STRICT, pinched, &mut cases);
    let pinched = cases.iter().filter(|right| pinched(right)).count();
    (format!("{name}, strict, {pinched} pinched"), cases)
}

fn group(name: &str, cases: &[Right]) -> Group {
    Group {
        name: name.into(),
        records: cases.iter().map(|(case, a)| words(case, a)).collect(),
    }
}

/// The machine's roots.
fn square_roots() -> Group {
    let patterns = GROUPS.iter().zip(ROOTS);
    let patterns = patterns.flat_map(|(group, share)| sample(group, share));
    let numbers = patterns.map(f64::from_bits);
    Group {
        name: "square root".into(),
        records: numbers.map(|x| root_words(x, x.sqrt())).collect(),
    }
}

/// The case and the Rust's answer, unless its arccosines take it another way than cosines.
fn recorded(case: Case) -> Option<Right> {
    let [rust, cosine] = [Build::Counted, Build::ByCosine].map(|build| answer(&case, build));
    rust.is(&cosine, alike).then_some((case, rust))
}

/// Random cases that are not large and that are wanted, in these ways in turn.
fn record(
    entry: Entry,
    share: usize,
    ways: &[Way],
    wanted: fn(&Right) -> bool,
    cases: &mut Vec<Right>,
) {
    let mut random = Random::new(0x517c_c1b7_2722_0a95 + entry as u64 + cases.len() as u64);
    let mut ways = ways.iter().cycle();
    let mut found = 0;
    while found < share {
        let case = any_case_in(&mut random, entry, *ways.next().unwrap());
        let right = recorded(case).filter(|right| within(right, MOST_WORDS));
        if let Some(right) = right.filter(wanted) {
            cases.push(right);
            found += 1;
        }
    }
}

/// Each refusal, and each two of them together, that are wanted, for each type, in this way.
fn record_refusals(entry: Entry, way: Way, wanted: fn([u32; 2]) -> bool, cases: &mut Vec<Right>) {
    let mut random = Random::new(0x2545_f491_4f6c_dd1d + entry as u64);
    let order = refusals(entry);
    for number in entry.types() {
        for first in 0..order.len() {
            for second in first..order.len() {
                if !wanted([order[first], order[second]]) {
                    continue;
                }
                let made = std::iter::repeat_with(|| {
                    let mut case = Case {
                        scaled: way.scaled,
                        strict: way.strict,
                        ..sound(&mut random, entry, Some(number))
                    };
                    let spoilt = spoil(&mut random, &mut case, order[second])
                        && (first == second || spoil(&mut random, &mut case, order[first]));
                    spoilt.then(|| recorded(case)).flatten()
                });
                let small = made
                    .take(100)
                    .flatten()
                    .find(|right| within(right, MOST_WORDS_REFUSED));
                cases.extend(small);
            }
        }
    }
}

fn within((case, answer): &Right, most: usize) -> bool {
    words(case, answer).len() <= most
}

/// How many answers the linked entries give otherwise.
fn differing(cases: &[Right]) -> usize {
    let differs = |(case, expected): &&Right| !given(case, ours).is(expected, alike);
    cases.iter().filter(differs).count()
}
