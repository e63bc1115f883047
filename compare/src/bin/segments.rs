//! Holds the proved clipping, tolerance and frames against mefikit's. The number is that of faces at each
//! width.

use compare::faces::groups;
use compare::segments::{self, Clippings};
use compare::{cases_asked, vectors};
use std::process::ExitCode;
use std::time::Instant;

const FULL: u64 = 20_000_000;

fn main() -> ExitCode {
    let cases = cases_asked("segments", FULL);
    let start = Instant::now();
    let mut differing = 0;
    for all in [width::<3>("space", cases), width::<2>("the plane", cases)] {
        differing += all.found.differing;
    }
    println!("vectors, with the bits of the rules, NaN alike, and alike to the Rust's:");
    for (name, judge) in vectors::KINDS {
        let found = vectors::compare(judge, cases / 5);
        found.print(name, "give some");
        differing += found.differing;
    }
    println!(
        "{:.1} seconds, {differing} differ",
        start.elapsed().as_secs_f64()
    );
    ExitCode::from(u8::from(differing > 0))
}

/// Every group at one width, printed.
fn width<const D: usize>(name: &str, cases: u64) -> Clippings {
    println!("faces in {name}, with the bits of the rules, NaN alike, and alike to the Rust's:");
    let mut all = Clippings::default();
    for group in &groups::<D>() {
        let Clippings { found, cuts } = segments::compare(group, cases, segments::ours);
        found.print(group.0, "give some");
        if cuts.defaulted > 0 {
            cuts.print();
        }
        all.found.cases += found.cases;
        all.found.giving += found.giving;
        all.found.differing += found.differing;
        all.cuts.add(&cuts);
    }
    all.found.print("faces in all", "give some");
    all.cuts.print();
    all
}
