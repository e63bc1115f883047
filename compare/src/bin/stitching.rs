//! Holds the proved stitching against mefikit's in the usual way, and its counts and the strict way against another walk. The
//! number is that of lists in each way.

use compare::cases_asked;
use compare::lists::GROUPS;
use compare::stitching::{compare, ours, Stitchings};
use compare::ways::{Way, STRICT, USUAL};
use std::process::ExitCode;
use std::time::Instant;

const FULL: u64 = 8_000_000;

fn main() -> ExitCode {
    let cases = cases_asked("stitching", FULL);
    let start = Instant::now();
    println!("lists stitched, with the bits of the rules, NaN alike, and alike to the Rust's:");
    let usual = of_all_groups(cases, USUAL);
    println!(
        "the same in the strict way, with the loops by the rules in which no point stands twice, and those of another walk:"
    );
    let strict = of_all_groups(cases, STRICT);
    let differing = usual + strict;
    println!(
        "{:.1} seconds, {differing} differ",
        start.elapsed().as_secs_f64()
    );
    ExitCode::from(u8::from(differing > 0))
}

/// Prints what the comparison found in these ways, and gives how many lists differ.
fn of_all_groups(cases: u64, ways: &[Way]) -> u64 {
    let mut all = Stitchings::default();
    for group in &GROUPS {
        let group_found = compare(group, cases, ways, ours);
        group_found.found.print(group.0, "have loops");
        all.found.cases += group_found.found.cases;
        all.found.giving += group_found.found.giving;
        all.found.differing += group_found.found.differing;
        all.edges.add(group_found.edges);
        all.weldings.add(&group_found.weldings);
        all.repeated.add(group_found.repeated);
        all.arccosine += group_found.arccosine;
        all.first_arccosine = all.first_arccosine.or(group_found.first_arccosine);
    }
    all.found.print("lists in all", "have loops");
    let edges = all.edges;
    println!(
        "{:>10} edges listed: {} in loops, {} pinched, {} flat, {} open",
        edges.listed, edges.in_loops, edges.pinched, edges.flat, edges.open
    );
    all.weldings.print();
    all.repeated.print();
    if all.arccosine > 0 {
        println!(
            "{:>10} lists on which the Rust, comparing arccosines, goes another way than with cosines",
            all.arccosine
        );
    }
    if let Some(first) = all.first_arccosine {
        println!("           first: {first}");
    }
    all.found.differing
}
