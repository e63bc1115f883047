//! The proved tolerance, frames and projection held against mefikit's.

use crate::numbers::*;
use crate::proved;
use crate::random::Random;
use crate::Found;
use std::panic::{catch_unwind, UnwindSafe};

/// A comparison of one case: whether it gave something, or what is wrong.
pub type Judge = fn(&mut Random) -> Result<bool, String>;

/// What is compared: its name, and one case of it.
pub const KINDS: [(&str, Judge); 8] = [
    ("the tolerance in space", |random| tolerance(random, 3)),
    ("the tolerance in the plane", |random| tolerance(random, 2)),
    ("a plane's frame by its normal", plane_frame),
    ("a space line's frame by its direction", line_frame),
    ("a plane line's normal by its normal", line_normal),
    ("a plane line's normal by its direction", line_normal_along),
    ("projection", project),
    ("the way back from a plane", deproject),
];

/// Holds one kind against mefikit's. Where mefikit panics there must be no answer; the panics are quiet.
pub fn compare(judge: Judge, cases: u64) -> Found {
    let mut random = Random::new(0xaf63_bd4c_8601_b7df);
    let mut found = Found::default();
    let hook = std::panic::take_hook();
    std::panic::set_hook(Box::new(|_| {}));
    for _ in 0..cases {
        found.count(judge(&mut random));
    }
    std::panic::set_hook(hook);
    found
}

/// Numbers of one kind, or each of a kind of its own.
fn numbers<const D: usize>(random: &mut Random) -> [f64; D] {
    const KINDS: [Draw; 7] = [ordinary, whole, tiny, huge, any, maybe_infinite, maybe_nan];
    if random.one_in(4) {
        return std::array::from_fn(|_| random.pick(&KINDS)(random));
    }
    let draw = match random.below(4) {
        0 => random.pick(&KINDS),
        _ => random.pick(&[ordinary as Draw, whole]),
    };
    std::array::from_fn(|_| draw(random))
}

fn told<const D: usize>(what: &str, numbers: &[f64; D]) -> String {
    let bits = numbers.map(|x| format!("{:016x}", x.to_bits())).join(" ");
    format!("{what} of {numbers:?} ({bits})")
}

/// No rows or up to twelve of one kind of number.
fn tolerance(random: &mut Random, width: usize) -> Result<bool, String> {
    let rows = random.within(0, 12);
    let coords: Vec<f64> = match random.below(3) {
        0 => (0..rows * width).map(|_| ordinary(random)).collect(),
        1 => (0..rows * width).map(|_| numbers::<1>(random)[0]).collect(),
        _ => {
            let draw = random.pick(&[tiny as Draw, huge, any, maybe_infinite, maybe_nan]);
            (0..rows * width).map(|_| draw(random)).collect()
        }
    };
    let theirs = oracle::tolerance(width, &coords).unwrap();
    let ours = proved::tolerance(width, &coords);
    if same(ours, theirs) {
        Ok(rows > 0)
    } else {
        Err(format!(
            "the tolerance {ours:e} for {theirs:e} of {coords:?}"
        ))
    }
}

/// What the Rust gives, if it does not panic.
fn given<T>(work: impl FnOnce() -> T + UnwindSafe) -> Option<T> {
    catch_unwind(work).ok()
}

/// Ours is the rules' to the bit, and alike to the Rust's; there is none where they panic.
fn hold(
    ours: Option<&[f64]>,
    rules: Option<&[f64]>,
    rust: Option<&[f64]>,
    input: impl FnOnce() -> String,
) -> Result<bool, String> {
    let right = match (ours, rules, rust) {
        (None, None, None) => true,
        (Some(ours), Some(rules), Some(rust)) => {
            agree(same, ours, rules) && agree(alike, ours, rust)
        }
        _ => false,
    };
    if right {
        Ok(ours.is_some())
    } else {
        Err(format!("{}: {ours:?} for {rules:?}", input()))
    }
}

fn plane_frame(random: &mut Random) -> Result<bool, String> {
    let normal = numbers(random);
    let ours = proved::plane_frame(&normal);
    let rules = given(|| oracle::by_rules::reach::plane_vectors(&normal));
    let rust = given(|| oracle::rust::reach::plane_vectors(&normal));
    hold(
        ours.as_ref().map(|frame| frame.as_flattened()),
        rules.as_ref().map(|frame| frame.as_flattened()),
        rust.as_ref().map(|frame| frame.as_flattened()),
        || told("the plane's frame", &normal),
    )
}

fn line_frame(random: &mut Random) -> Result<bool, String> {
    let direction = numbers(random);
    let ours = proved::line_frame(&direction);
    let rules = given(|| oracle::by_rules::reach::line_vectors(&direction));
    let rust = given(|| oracle::rust::reach::line_vectors(&direction));
    hold(
        ours.as_ref().map(|frame| frame.as_flattened()),
        rules.as_ref().map(|frame| frame.as_flattened()),
        rust.as_ref().map(|frame| frame.as_flattened()),
        || told("the line's frame", &direction),
    )
}

fn line_normal(random: &mut Random) -> Result<bool, String> {
    let normal = numbers(random);
    let ours = proved::line_normal(&normal);
    let rules = given(|| oracle::by_rules::reach::unit(&normal));
    let rust = given(|| oracle::rust::reach::unit(&normal));
    hold(
        ours.as_ref().map(|v| v.as_slice()),
        rules.as_ref().map(|v| v.as_slice()),
        rust.as_ref().map(|v| v.as_slice()),
        || told("the unit normal", &normal),
    )
}

fn line_normal_along(random: &mut Random) -> Result<bool, String> {
    let direction = numbers(random);
    let ours = proved::line_normal_along(&direction);
    let rules = given(|| oracle::by_rules::reach::line_normal(&direction));
    let rust = given(|| oracle::rust::reach::line_normal(&direction));
    hold(
        ours.as_ref().map(|v| v.as_slice()),
        rules.as_ref().map(|v| v.as_slice()),
        rust.as_ref().map(|v| v.as_slice()),
        || told("the normal along", &direction),
    )
}

fn project(random: &mut Random) -> Result<bool, String> {
    let (p, origin) = (numbers(random), numbers(random));
    let (u, v) = (numbers(random), numbers(random));
    let ours = proved::project(&p, &origin, &u, &v);
    let rules = oracle::by_rules::reach::project(&p, &origin, &u, &v);
    let rust = oracle::rust::reach::project(&p, &origin, &u, &v);
    hold(Some(&ours), Some(&rules), Some(&rust), || {
        told("the projection", &p) + &told(" from", &origin) + &told(" to", &u) + &told(" and", &v)
    })
}

fn deproject(random: &mut Random) -> Result<bool, String> {
    let (p, origin) = (numbers(random), numbers(random));
    let (u, v) = (numbers(random), numbers(random));
    let ours = proved::deproject(&p, &origin, &u, &v);
    let rules = oracle::by_rules::reach::deproject(&p, &origin, &u, &v);
    let rust = oracle::rust::reach::deproject(&p, &origin, &u, &v);
    hold(Some(&ours), Some(&rules), Some(&rust), || {
        told("the point", &p) + &told(" from", &origin) + &told(" along", &u) + &told(" and", &v)
    })
}

#[cfg(test)]
mod tests {
    use super::*;

    #[test]
    fn the_proved_vectors_are_the_rusts() {
        for (name, judge) in KINDS {
            let found = compare(judge, 10_000);
            assert_eq!(found.differing, 0, "{name}: {:?}", found.first);
            assert!(found.giving > 1000, "{name}");
        }
    }

    #[test]
    fn a_wrong_vector_is_seen() {
        let input = String::new;
        assert!(hold(Some(&[1.0]), Some(&[1.0]), Some(&[1.0]), input).is_ok());
        assert!(hold(Some(&[0.0]), Some(&[0.0]), Some(&[-0.0]), input).is_ok());
        assert!(hold(Some(&[-0.0]), Some(&[0.0]), Some(&[-0.0]), input).is_err());
        assert!(hold(Some(&[1.0]), Some(&[1.0]), Some(&[1.0f64.next_up()]), input).is_err());
        assert!(hold(None, Some(&[1.0]), Some(&[1.0]), input).is_err());
        assert!(hold(Some(&[1.0]), None, None, input).is_err());
        assert_eq!(hold(None, None, None, input), Ok(false));
    }
}
