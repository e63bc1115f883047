//! Holds the proved square root against the machine's.

use compare::roots::{compare, GROUPS};
use std::process::ExitCode;

/// How many patterns a group draws at random.
const MANY: u64 = 20_000_000;

fn main() -> ExitCode {
    let mut patterns = 0;
    let mut differing = 0;
    for group in &GROUPS {
        let found = compare(group, MANY, compare::sqrt, f64::sqrt);
        println!(
            "{:>10} {:<32} {} differ",
            found.patterns, group.0, found.differing
        );
        if let Some(bits) = found.first {
            println!("           first: the root of {bits:016x}");
        }
        patterns += found.patterns;
        differing += found.differing;
    }
    println!("{patterns:>10} roots beside the machine's, {differing} differ");
    ExitCode::from(u8::from(differing > 0))
}
