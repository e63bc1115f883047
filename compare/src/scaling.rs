//! The scaled way of taking a normal held against the plain model: the scaled normal itself to the bit, and the entries that take
//! a normal, which have to answer as they do where the model's scaled normal is handed over as it is given.

use crate::answers::{as_given, given};
use crate::cuts::any_case_in;
use crate::entries::{Case, Cut, Entry};
use crate::numbers::{agree, same, untouched, UNTOUCHED};
use crate::proved::{self, REFUSED};
use crate::random::Random;
use crate::ways::{Way, SCALED, SCALED_STRICT};
use crate::Found;
use oracle::scaling::{exactly, power, scaled, Exact};
use std::cmp::Ordering;

/// The least exponent of a greatest component, and how many there are, up to 1023.
const LEAST: i32 = -1074;
const MANY: usize = 2098;

/// Scales a normal, written to the second list: 1, 0 if a component is not finite, or [`REFUSED`].
pub type Scale = fn(&[f64], &mut [f64]) -> usize;

/// The proved scaling in the plane and in space.
pub const PROVED: [Scale; 2] = [proved::scaled::<2>, proved::scaled::<3>];

/// What a normal can be, as its components and the model show.
pub const KINDS: [&str; 18] = [
    "the greatest is a power of two",
    "the greatest is just below one",
    "the greatest is negative",
    "two are greatest",
    "0.0 is among them",
    "-0.0 is among them",
    "one becomes subnormal, exactly",
    "one is rounded down",
    "one is rounded up",
    "one lies in the middle and is rounded down",
    "one lies in the middle and is rounded up",
    "one lies just below the middle",
    "one lies just above the middle",
    "one that is not zero becomes zero",
    "one is rounded up to 2^-1022",
    "NaN is among them",
    "an infinity is among them",
    "all are zero",
];

/// What scaling the normals of a run came to, and what they were.
pub struct Scalings {
    pub found: Found,
    /// How many were of each kind.
    pub kinds: [u64; KINDS.len()],
    /// How often the greatest component had each exponent.
    pub exponents: Vec<u64>,
    /// How often a component that is not finite stood in each place.
    pub places: Vec<u64>,
    /// Those whose squares neither overflow nor underflow.
    pub ordinary: u64,
}

impl Scalings {
    fn new(width: usize) -> Scalings {
        Scalings {
            found: Found::default(),
            kinds: [0; KINDS.len()],
            exponents: vec![0; MANY],
            places: vec![0; width],
            ordinary: 0,
        }
    }

    /// Whether each kind occurred, each exponent and each place.
    pub fn complete(&self) -> bool {
        let counts = self.kinds.iter().chain(&self.exponents);
        self.ordinary > 0 && counts.chain(&self.places).all(|&many| many > 0)
    }

    fn count(&mut self, normal: &[f64]) {
        self.ordinary += u64::from(ordinary(normal));
        for (many, x) in self.places.iter_mut().zip(normal) {
            *many += u64::from(!x.is_finite());
        }
        for (many, is) in self.kinds.iter_mut().zip(kinds(normal)) {
            *many += u64::from(is);
        }
        if let Some(power) = exactly(normal).and_then(|exact| power(&exact)) {
            self.exponents[(power - LEAST) as usize] += 1;
        }
    }
}

fn kinds(normal: &[f64]) -> [bool; KINDS.len()] {
    let any = |is: fn(f64) -> bool| normal.iter().any(|&x| is(x));
    let mut kinds = [false; KINDS.len()];
    kinds[15] = any(f64::is_nan);
    kinds[16] = any(f64::is_infinite);
    let Some(exact) = exactly(normal) else {
        return kinds;
    };
    let Some(power) = power(&exact) else {
        kinds[17] = true;
        return kinds;
    };
    let greatest = normal.iter().fold(0.0, |most: f64, x| most.max(x.abs()));
    let mantissa = |x| Exact::of(x).map_or(0, |exact| exact.mantissa);
    kinds[0] = mantissa(greatest).is_power_of_two();
    kinds[1] = mantissa(greatest.next_up()).is_power_of_two();
    kinds[2] = normal.contains(&-greatest);
    kinds[3] = normal.iter().filter(|x| x.abs() == greatest).count() > 1;
    kinds[4] = any(|x| x.to_bits() == 0);
    kinds[5] = any(|x| x.to_bits() == 1 << 63);
    for exact in exact.into_iter().map(|x| x.times(-power)) {
        let value = exact.rounded().abs();
        let below = (LEAST - exact.exponent).clamp(0, 64);
        let part = u128::from(exact.mantissa) % (1 << below);
        let just = part.abs_diff((1 << below) / 2) == 1;
        let up = Exact::of(value).is_some_and(|x| x.compare(exact) == Ordering::Greater);
        match exact.left() {
            None => kinds[6] |= value > 0.0 && value < f64::MIN_POSITIVE,
            Some(Ordering::Equal) => kinds[if up { 10 } else { 9 }] = true,
            Some(side) => {
                kinds[if up { 8 } else { 7 }] = true;
                kinds[11] |= just && side == Ordering::Less;
                kinds[12] |= just && side == Ordering::Greater;
            }
        }
        kinds[13] |= exact.mantissa > 0 && value == 0.0;
        kinds[14] |= up && value == f64::MIN_POSITIVE;
    }
    kinds
}

// ---- normals

/// Normals whose greatest component has each exponent in turn, and between them some that have none.
fn normals<const D: usize>(cases: u64) -> impl Iterator<Item = [f64; D]> {
    let mut random = Random::new(0xd6e8_feb8_6659_fd93 + D as u64);
    let exponents = (LEAST..).take(MANY).map(Some);
    let turn = exponents.chain([None; 60]).cycle();
    turn.take(cases as usize).map(move |power| match power {
        Some(power) => of_power(&mut random, power),
        None => of_no_power(&mut random),
    })
}

/// A normal whose greatest component has this exponent. The others are of one kind, or each of its own.
fn of_power<const D: usize>(random: &mut Random, power: i32) -> [f64; D] {
    let greatest = greatest(random, power);
    let at = random.within(0, D - 1);
    let one = random.one_in(2).then(|| random.below(8));
    std::array::from_fn(|k| {
        let kind = one.unwrap_or_else(|| random.below(8));
        let x = if k == at {
            greatest
        } else {
            other(random, kind, greatest, power)
        };
        random.pick(&[x, -x])
    })
}

/// Its mantissa is any, or that of a power of two, or of the numbers beside one, as far as the exponent has these.
fn greatest(random: &mut Random, power: i32) -> f64 {
    let digits = (power - LEAST).min(52);
    let ones = (1 << digits) - 1;
    let rest = match random.below(8) {
        0 | 1 => 0,
        2 => ones,
        3 => ones.min(1),
        _ => random.bits() & ones,
    };
    number(1 << digits | rest, power - digits)
}

/// A component that is not above the greatest.
fn other(random: &mut Random, kind: u64, greatest: f64, power: i32) -> f64 {
    let any = random.below(53) + 1;
    let length = random.pick(&[any, any, 53]);
    let odd = match random.below(8) {
        0 => (1 << length) - 1,
        _ => random.bits() >> (64 - length) | 1,
    };
    // what is 2^-1074 after scaling
    let unit = LEAST + power;
    match kind {
        0 => f64::from_bits(random.below(greatest.to_bits() + 1)),
        1 => random.pick(&[greatest, greatest.next_down()]),
        2 => 0.0,
        3 => number(odd, unit),
        4 => number(odd, unit - 1),
        5 => number(odd, unit - 1).next_up(),
        6 => number(odd, unit - 1).next_down().max(0.0),
        _ => number(odd, unit - random.below(80) as i32),
    }
}

/// The f64 nearest to the mantissa times 2 to the exponent.
fn number(mantissa: u64, exponent: i32) -> f64 {
    let negative = false;
    let exact = Exact {
        negative,
        mantissa,
        exponent,
    };
    exact.rounded()
}

/// Zeros, or any numbers of which some are not finite.
fn of_no_power<const D: usize>(random: &mut Random) -> [f64; D] {
    if random.one_in(4) {
        return std::array::from_fn(|_| random.pick(&[0.0, -0.0]));
    }
    let mut normal = std::array::from_fn(|_| f64::from_bits(random.bits()));
    if random.one_in(4) {
        normal.fill(random.pick(&[0.0, 1.0, f64::MAX]));
    }
    for _ in 0..random.within(1, D) {
        let odd = [f64::NAN, -f64::NAN, f64::INFINITY, f64::NEG_INFINITY];
        normal[random.within(0, D - 1)] = random.pick(&odd);
    }
    normal
}

// ---- the scaled normal

/// Holds a scaling against the model on one normal: as it is, with numbers beyond it, and in lists that are too short. Where no square
/// overflows or underflows its unit has to be that of the normal as it is given. Whether there is a scaled normal.
fn judge<const D: usize>(normal: &[f64; D], scale: Scale) -> Result<bool, String> {
    let right = scaled(normal);
    let wrong = |what: &str, out: &[f64]| {
        let bits = normal.map(|x| format!("{:016x}", x.to_bits())).join(" ");
        Err(format!(
            "{what}: {normal:?} ({bits}), model {right:?}, written {out:?}"
        ))
    };
    let longer = [&normal[..], &[1.0, f64::NAN]].concat();
    for (list, room) in [(&normal[..], D), (&longer, D + 2)] {
        let mut out = vec![UNTOUCHED; room];
        let told = scale(list, &mut out);
        if told != usize::from(right.is_some()) {
            return wrong(&format!("{told} told"), &out);
        }
        let expected = right.as_deref().unwrap_or(&[]);
        if !out[expected.len()..].iter().all(untouched) {
            return wrong("wrote beyond the answer", &out);
        }
        if !agree(same, &out[..expected.len()], expected) {
            return wrong("not the exact products, rounded once", &out);
        }
    }
    for (list, room) in [(&normal[1..], D), (&normal[..], D - 1)] {
        let mut out = vec![UNTOUCHED; room];
        let told = scale(list, &mut out);
        if told != REFUSED || !out.iter().all(untouched) {
            return wrong("lists that are too short were taken", &out);
        }
    }
    if ordinary(normal)
        && !right
            .as_deref()
            .is_some_and(|right| same_unit::<D>(normal, right))
    {
        return wrong("has another unit as it is given", &[]);
    }
    Ok(right.is_some())
}

/// Whether the proved unit vector, and in space the whole frame, is the same of both.
fn same_unit<const D: usize>(a: &[f64], b: &[f64]) -> bool {
    let frame = |normal: &[f64]| match D {
        2 => proved::line_normal(normal.try_into().unwrap()).map(|unit| unit.to_vec()),
        _ => proved::plane_frame(normal.try_into().unwrap()).map(|frame| frame.concat()),
    };
    match (frame(a), frame(b)) {
        (Some(a), Some(b)) => agree(same, &a, &b),
        (a, b) => a.is_none() && b.is_none(),
    }
}

/// Holds a scaling of this width against the model.
pub fn compare<const D: usize>(cases: u64, scale: Scale) -> Scalings {
    let mut all = Scalings::new(D);
    for normal in normals::<D>(cases) {
        all.count(&normal);
        all.found.count(judge(&normal, scale));
    }
    all
}

// ---- the entries

/// The entries that take a normal, and the ways in which they scale it.
pub const ENTRIES: [(Entry, &[Way], &str); 4] = [
    (Entry::Plane, SCALED, "space cells cut by a plane"),
    (Entry::Plane, SCALED_STRICT, "the same in the strict way"),
    (Entry::Gather, SCALED, "space cells gathered"),
    (
        Entry::PlaneCellByNormal,
        SCALED,
        "plane cells cut by normal",
    ),
];

/// What the cases of an entry came to.
#[derive(Default)]
pub struct Entries {
    pub found: Found,
    /// Those refused, by number; 0 is answered.
    pub refused: [u64; 9],
    /// Those refused with 6 since a component is not finite.
    pub not_finite: u64,
    /// Those that are answered otherwise where the normal is taken as it is given.
    pub changed: u64,
    /// Those whose squares neither overflow nor underflow, so that they are not.
    pub ordinary: u64,
}

/// Whether all components are finite, and no square of one overflows or underflows, nor their sum overflows.
fn ordinary(normal: &[f64]) -> bool {
    let squares = || normal.iter().map(|x| x * x);
    let underflows = |(x, square): (&f64, f64)| *x != 0.0 && square <= f64::MIN_POSITIVE;
    squares().sum::<f64>().is_finite() && !normal.iter().zip(squares()).any(underflows)
}

/// Holds an entry in the scaled way against itself on random cases.
pub fn compare_entry(entry: Entry, ways: &[Way], cases: u64, cut: Cut) -> Entries {
    let mut random = Random::new(0xe703_7ed1_a0b4_28db + entry as u64);
    let mut all = Entries::default();
    for &way in ways.iter().cycle().take(cases as usize) {
        let case = any_case_in(&mut random, entry, way);
        let outcome = all.judge(&case, cut);
        all.found.count(outcome);
    }
    all
}

impl Entries {
    /// Whether the case gives a point or a segment, or what is wrong.
    fn judge(&mut self, case: &Case, cut: Cut) -> Result<bool, String> {
        let by = |scaled| {
            let case = Case {
                scaled,
                ..case.clone()
            };
            given(&case, cut)
        };
        let found = given(case, cut);
        if !found.is(&given(&as_given(case), cut), same) {
            return Err(format!("not as by the model's normal: {}", case.told()));
        }
        if ![1, 2, 255].iter().all(|&yes| by(yes).is(&found, same)) {
            return Err(format!("not alike for 1, 2 and 255: {}", case.told()));
        }
        let changed = !by(0).is(&found, same);
        let ordinary = ordinary(&case.vector);
        if changed && ordinary {
            return Err(format!("not as the normal is given: {}", case.told()));
        }
        let refusal = found.told.refusal;
        self.refused[refusal as usize] += 1;
        self.not_finite += u64::from(refusal == 6 && !case.vector.iter().all(|x| x.is_finite()));
        self.changed += u64::from(changed);
        self.ordinary += u64::from(ordinary && refusal == 0);
        Ok(found.told.points > 0)
    }
}

#[cfg(test)]
mod tests {
    use super::*;
    use crate::entries::{ours, Lent, Told};

    const CASES: u64 = 40_000;

    #[test]
    fn the_proved_scaling_is_the_models() {
        for all in [
            compare::<2>(CASES, PROVED[0]),
            compare::<3>(CASES, PROVED[1]),
        ] {
            assert_eq!(all.found.differing, 0, "{:?}", all.found.first);
            assert!(all.complete(), "{:?} {:?}", all.kinds, all.places);
        }
    }

    #[test]
    fn the_entries_take_the_models_normal() {
        for (entry, ways, name) in ENTRIES {
            let all = compare_entry(entry, ways, 6_000, ours);
            assert_eq!(all.found.differing, 0, "{:?}", all.found.first);
            assert!(all.refused[..8].iter().all(|&many| many > 0), "{name}");
            let some = [all.found.giving, all.not_finite, all.changed, all.ordinary];
            assert!(some.iter().all(|&many| many > 100), "{name} {some:?}");
        }
    }

    // ---- wrong programs

    type Wrong = fn(&[f64]) -> Option<Vec<f64>>;

    /// The power of two as the model has it, and each component by this.
    fn each(normal: &[f64], by: impl Fn(f64, i32) -> f64) -> Option<Vec<f64>> {
        match power(&exactly(normal)?) {
            None => Some(normal.to_vec()),
            Some(power) => Some(normal.iter().map(|&x| by(x, power)).collect()),
        }
    }

    fn times(x: f64, power: i32) -> f64 {
        Exact::of(x).unwrap().times(power).rounded()
    }

    /// One more for a power of two, so that the greatest comes to 2.
    fn to_two(normal: &[f64]) -> Option<Vec<f64>> {
        let greatest = normal.iter().fold(0.0, |most: f64, x| most.max(x.abs()));
        let exact = Exact::of(greatest)?;
        let more = i32::from(exact.mantissa.is_power_of_two());
        each(normal, |x, power| times(x, more - power))
    }

    /// NaN is passed over where the greatest is looked for, and divided.
    fn nan_as_small(normal: &[f64]) -> Option<Vec<f64>> {
        let without: Vec<f64> = normal
            .iter()
            .map(|x| if x.is_nan() { 0.0 } else { *x })
            .collect();
        let power = power(&exactly(&without)?).unwrap_or(0);
        let by = |x: &f64| Exact::of(*x).map_or(*x, |exact| exact.times(-power).rounded());
        Some(normal.iter().map(by).collect())
    }

    /// Half of an odd multiple of 2^-1074 away from zero.
    fn rounded_away(x: f64, power: i32) -> f64 {
        let exact = Exact::of(x).unwrap().times(-power);
        let toward = Exact {
            mantissa: exact.mantissa - u64::from(exact.mantissa > 0),
            ..exact
        };
        match exact.left() {
            Some(Ordering::Equal) if toward.rounded() == exact.rounded() => {
                f64::from_bits(exact.rounded().to_bits() + 1)
            }
            _ => exact.rounded(),
        }
    }

    fn cut_off(x: f64, power: i32) -> f64 {
        let rounded = times(x, -power);
        match Exact::of(rounded) {
            Some(up) if up.compare(Exact::of(x).unwrap().times(-power)) == Ordering::Greater => {
                f64::from_bits(rounded.to_bits() - 1)
            }
            _ => rounded,
        }
    }

    /// The greatest as it is given, without its sign.
    fn signed_greatest(normal: &[f64]) -> Option<Vec<f64>> {
        let exact = exactly(normal)?;
        let greatest = normal.iter().fold(f64::MIN, |most: f64, &x| most.max(x));
        match power(&[Exact::of(greatest)?]) {
            Some(power) if greatest > 0.0 => {
                Some(exact.iter().map(|x| x.times(-power).rounded()).collect())
            }
            _ => Some(normal.to_vec()),
        }
    }

    /// What each wrong program does, in the order of the request.
    const WRONG: [(&str, Wrong); 11] = [
        ("two roundings: by 2^(1-k), then by 1/2", |normal| {
            each(normal, |x, power| times(x, 1 - power) / 2.0)
        }),
        ("halved or doubled step by step", |normal| {
            let step = |x: f64, power: i32| match power {
                0.. => (0..power).fold(x, |x, _| x / 2.0),
                _ => (power..0).fold(x, |x, _| x * 2.0),
            };
            each(normal, step)
        }),
        ("the greatest above 1 and at most 2", to_two),
        ("only the greatest scaled", |normal| {
            let greatest = normal.iter().fold(0.0, |most: f64, x| most.max(x.abs()));
            each(normal, |x, power| match x.abs() == greatest {
                true => times(x, -power),
                false => x,
            })
        }),
        ("NaN taken for small", nan_as_small),
        ("the zero vector divided by zero", |normal| {
            let right = scaled(normal)?;
            Some(match right.iter().all(|&x| x == 0.0) {
                true => vec![f64::NAN; normal.len()],
                false => right,
            })
        }),
        ("the middle rounded away from zero", |normal| {
            each(normal, rounded_away)
        }),
        ("cut off, not rounded", |normal| each(normal, cut_off)),
        ("the greatest without its absolute value", signed_greatest),
        ("an infinity left as it is", |normal| match scaled(normal) {
            None if !normal.iter().any(|x| x.is_nan()) => Some(normal.to_vec()),
            right => right,
        }),
        ("minus zero as zero", |normal| {
            each(normal, |x, power| times(x, -power) + 0.0)
        }),
    ];

    /// How many normals tell a wrong program from the right one.
    fn telling<const D: usize>(wrong: Wrong) -> usize {
        let same_as = |right: Option<Vec<f64>>, found: Option<Vec<f64>>| match (right, found) {
            (Some(a), Some(b)) => agree(same, &a, &b),
            (a, b) => a.is_none() && b.is_none(),
        };
        let tells = |normal: &[f64; D]| !same_as(scaled(normal), wrong(normal));
        normals::<D>(CASES).filter(tells).count()
    }

    #[test]
    fn wrong_programs_are_told_from_the_model() {
        for (name, wrong) in WRONG {
            let counts = [telling::<2>(wrong), telling::<3>(wrong)];
            println!("{counts:?} of {CASES}: {name}");
            assert!(counts.iter().all(|&many| many > 0), "{name}");
        }
        assert_eq!(telling::<3>(scaled), 0);
    }

    /// A number told otherwise, one written beyond the answer or left unwritten, lists that are too short taken.
    #[test]
    fn what_is_told_and_left_is_seen() {
        let wrong: [Scale; 5] = [
            |normal, out| match PROVED[1](normal, out) {
                0 => 1,
                told => told,
            },
            |normal, out| {
                let told = PROVED[1](normal, out);
                if told == 0 {
                    out[0] = 0.0;
                }
                told
            },
            |normal, out| {
                let told = PROVED[1](normal, out);
                if let Some(beyond) = out.get_mut(3) {
                    *beyond = 0.0;
                }
                told
            },
            |normal, out| {
                let told = PROVED[1](normal, out);
                if told == 1 {
                    out[2] = UNTOUCHED;
                }
                told
            },
            |normal, out| match PROVED[1](normal, out) {
                REFUSED => 0,
                told => told,
            },
        ];
        for (k, scale) in wrong.into_iter().enumerate() {
            assert!(compare::<3>(CASES, scale).found.differing > 0, "{k}");
        }
    }

    /// The linked functions with another `scaled` or another normal.
    fn with(case: &Case, lent: Lent, change: fn(&mut Case)) -> Told {
        let mut case = case.clone();
        change(&mut case);
        ours(&case, lent)
    }

    /// Never scaled; by odd numbers alone; three times the model's normal.
    #[test]
    fn an_entry_that_takes_a_normal_otherwise_is_seen() {
        let wrong: [Cut; 3] = [
            |case, lent| with(case, lent, |case| case.scaled = 0),
            |case, lent| with(case, lent, |case| case.scaled %= 2),
            |case, lent| {
                with(case, lent, |case| {
                    if let Some(normal) = scaled(&case.vector).filter(|_| case.scaled != 0) {
                        (case.scaled, case.vector) = (0, normal.iter().map(|x| 3.0 * x).collect());
                    }
                })
            },
        ];
        for (k, cut) in wrong.into_iter().enumerate() {
            for (entry, ways, name) in ENTRIES {
                let found = compare_entry(entry, ways, 6_000, cut).found;
                assert!(found.differing > 0, "{k} {name}");
            }
        }
    }

    /// In space it has no basis either way.
    #[test]
    fn an_infinite_normal_of_a_line_taken_as_it_is_given_is_seen() {
        let wrong: Cut = |case, lent| {
            with(case, lent, |case| {
                if case.vector.iter().any(|x| x.is_infinite()) {
                    case.scaled = 0;
                }
            })
        };
        let found = compare_entry(Entry::PlaneCellByNormal, SCALED, 6_000, wrong).found;
        assert!(found.differing > 0);
    }
}
