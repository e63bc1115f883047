//! Cicelybeam's proved functions as Rust sees them, and what the comparisons share.

#[cfg(feature = "mefikit")]
pub mod answers;
pub mod cells;
#[cfg(feature = "mefikit")]
pub mod comparisons;
#[cfg(feature = "mefikit")]
pub mod cuts;
#[cfg(feature = "mefikit")]
pub mod cutting;
#[cfg(feature = "mefikit")]
pub mod defaulted;
pub mod entries;
pub mod faces;
#[cfg(feature = "mefikit")]
pub mod gathering;
pub mod lists;
pub mod numbers;
pub mod proved;
pub mod random;
#[cfg(feature = "mefikit")]
pub mod recorded;
pub mod roots;
#[cfg(feature = "mefikit")]
pub mod scaling;
#[cfg(feature = "mefikit")]
pub mod segments;
#[cfg(feature = "mefikit")]
pub mod stitching;
#[cfg(feature = "mefikit")]
pub mod vectors;
#[cfg(feature = "mefikit")]
pub mod ways;
#[cfg(feature = "mefikit")]
pub mod worked;
#[cfg(feature = "mefikit")]
pub mod wrong;

pub use proved::sqrt;

/// What a group's comparison found: how many cases, how many gave something, how many differ, and
/// the first that does.
#[derive(Default)]
pub struct Found {
    pub cases: u64,
    pub giving: u64,
    pub differing: u64,
    pub first: Option<String>,
}

impl Found {
    /// Counts a case: whether it gave something, or what is wrong with it.
    pub fn count(&mut self, outcome: Result<bool, String>) {
        self.cases += 1;
        match outcome {
            Ok(gives) => self.giving += u64::from(gives),
            Err(input) => {
                self.differing += 1;
                self.first.get_or_insert(input);
            }
        }
    }

    /// The line of a table, and the first difference below it.
    pub fn print(&self, name: &str, gave: &str) {
        println!(
            "{:>10} {:<38} {:>9} {gave:<12} {} differ",
            self.cases, name, self.giving, self.differing
        );
        if let Some(first) = &self.first {
            println!("           first: {first}");
        }
    }
}

/// The types from number 5 on.
const TYPES: [&str; 14] = [
    "TRI3", "TRI6", "TRI7", "QUAD4", "QUAD8", "QUAD9", "PGON", "TET4", "TET10", "HEX8", "HEX21",
    "WEDGE6", "WEDGE15", "PHED",
];

/// How many cells of each type; 0 is none, of lists stitched and tolerances.
#[derive(Clone, Copy, Debug, Default)]
pub struct ByType([u64; 19]);

impl ByType {
    pub fn count(&mut self, number: u8) {
        self.0[usize::from(number)] += 1;
    }

    pub fn of(&self, number: u8) -> u64 {
        self.0[usize::from(number)]
    }

    /// The types that were counted, by name, or nothing.
    pub fn told(&self) -> String {
        let counted = TYPES
            .iter()
            .zip(5..)
            .filter(|&(_, number)| self.of(number) > 0);
        let told: Vec<String> = counted
            .map(|(name, number)| format!("{name} {}", self.of(number)))
            .collect();
        told.join(", ")
    }
}

/// How many were refused, by number; 0 is answered.
pub fn refused_by(counts: &[u64; 9]) -> String {
    let refused: Vec<String> = (1..9)
        .filter(|&number| counts[number] > 0)
        .map(|number| format!("{number}: {}", counts[number]))
        .collect();
    format!("refused by {}", refused.join(", "))
}

/// The number of cases that the command line asks for, or else `full`.
pub fn cases_asked(program: &str, full: u64) -> u64 {
    let arguments: Vec<String> = std::env::args().skip(1).collect();
    let number = match arguments.as_slice() {
        [] => Some(full),
        [number] => number.parse().ok(),
        _ => None,
    };
    number.unwrap_or_else(|| {
        eprintln!("usage: {program} [CASES]");
        std::process::exit(2)
    })
}

/// Nanoseconds a call: the least of five turns, which together have this many calls.
pub fn nanoseconds<T>(rounds: u32, mut work: impl FnMut() -> T) -> f64 {
    let calls = rounds / 5;
    let turn = |_| {
        let start = std::time::Instant::now();
        for _ in 0..calls {
            std::hint::black_box(work());
        }
        start.elapsed().as_secs_f64() * 1e9 / f64::from(calls)
    };
    (0..5).map(turn).fold(f64::INFINITY, f64::min)
}
