//! Patterns of f64 on which a square root is likely to be wrong, and their comparison.

use crate::numbers::same;
use crate::random::Random;

/// A root of an f64.
pub type Root = fn(f64) -> f64;

/// A group of patterns: its name, and what it hands to the visitor.
pub type Group = (&'static str, fn(u64, &mut dyn FnMut(u64)));

/// The groups. The number is how many patterns a group draws at random, at least.
pub const GROUPS: [Group; 6] = [
    ("random bits", random_bits),
    ("every exponent, boundary digits", every_exponent),
    ("subnormals", subnormals),
    ("perfect squares and neighbours", perfect_squares),
    ("halfway between two roots", halfway),
    ("special values", special_values),
];

const DIGITS: u64 = (1 << 52) - 1;

fn random_bits(n: u64, visit: &mut dyn FnMut(u64)) {
    let mut random = Random::new(0x9e37_79b9_7f4a_7c15);
    for _ in 0..n {
        visit(random.bits());
    }
}

/// Each of the 4096 signs and exponents with the lowest, the highest and some middle digits.
fn every_exponent(_: u64, visit: &mut dyn FnMut(u64)) {
    for head in 0..4096u64 {
        for place in 0..52 {
            let one = 1u64 << place;
            for digits in [
                one - 1,
                one,
                one + 1,
                DIGITS - one + 1,
                DIGITS - one,
                DIGITS ^ one,
            ] {
                visit(head << 52 | digits & DIGITS);
            }
        }
        visit(head << 52);
        visit(head << 52 | DIGITS);
    }
}

/// Numbers below 2^-1022, of every length.
fn subnormals(n: u64, visit: &mut dyn FnMut(u64)) {
    let mut random = Random::new(0x2545_f491_4f6c_dd1d);
    for small in 0..100_000 {
        visit(small);
    }
    for _ in 0..n {
        let length = random.below(52) + 1;
        visit(random.bits() >> (64 - length));
    }
}

/// Squares of numbers of up to 26 digits, which are exact, and the numbers beside them.
fn perfect_squares(n: u64, visit: &mut dyn FnMut(u64)) {
    let mut random = Random::new(0xd1b5_4a32_d192_ed03);
    for _ in 0..n / 3 {
        let length = random.below(26) + 1;
        let root = random.bits() >> (64 - length) | 1;
        let scale = f64::from_bits((random.below(800) + 600) << 52);
        let square = (root * root) as f64 * scale * scale;
        let bits = square.to_bits();
        visit(bits);
        visit(bits.wrapping_sub(1));
        visit(bits.wrapping_add(1));
    }
}

/// Numbers whose root is as near as can be to a point half-way between two neighbours.
///
/// Such a point is z / 2 for an odd z of 54 digits, in steps of the root's last digit, and its square
/// has 107 or 108 digits, of which a number keeps 53. So z * z has to leave little in the 54 or 55
/// lowest digits: it is c modulo 2^54 or 2^55 for a small c, above or below 0.
fn halfway(n: u64, visit: &mut dyn FnMut(u64)) {
    let mut random = Random::new(0x8cb9_2ba7_2f3d_8dd7);
    for k in 0..n / 4 {
        let c = 8 * i128::from(k / 2) + 1;
        let c = if k % 2 == 0 {
            c
        } else {
            c - 8 * (i128::from(k) + 1)
        };
        for dropped in [54, 55] {
            let a = square_root_modulo(c, dropped);
            let half = 1i128 << (dropped - 1);
            for z in [
                a,
                2 * half - a,
                (a + half) % (2 * half),
                (3 * half - a) % (2 * half),
            ] {
                let digits = (z * z - c) >> dropped;
                if (1 << 53..1 << 54).contains(&z) && (1 << 52..1 << 53).contains(&digits) {
                    // the root's exponent is even, so the field has the other parity of 52 + dropped
                    let field = 2 * random.below(1000) + 20 + (dropped + 1) % 2;
                    let bits = field << 52 | digits as u64 & DIGITS;
                    visit(bits);
                    visit(bits - 1);
                    visit(bits + 1);
                }
            }
        }
    }
}

/// An odd a below 2^places with a * a = c modulo 2^places, for a c that is 1 modulo 8, digit by digit.
fn square_root_modulo(c: i128, places: u64) -> i128 {
    let mut a = 1i128;
    for place in 3..places {
        if (a * a - c) >> place & 1 == 1 {
            a += 1 << (place - 1);
        }
    }
    a % (1 << places)
}

fn special_values(_: u64, visit: &mut dyn FnMut(u64)) {
    for sign in [0, 1 << 63] {
        for magnitude in [
            0,
            1,
            DIGITS,
            DIGITS + 1,
            0x3ff0 << 48,
            0x7fef_ffff_ffff_ffff,
            0x7ff0 << 48,
            0x7ff0_0000_0000_0001,
            0x7ff8 << 48,
            0x7fff_ffff_ffff_ffff,
        ] {
            visit(sign | magnitude);
        }
    }
}

/// `share` patterns of a group, evenly spread over it.
pub fn sample(group: &Group, share: usize) -> Vec<u64> {
    let mut all = Vec::new();
    (group.1)(20_000, &mut |bits| all.push(bits));
    (0..share).map(|k| all[k * all.len() / share]).collect()
}

/// What a group's comparison found: how many patterns, how many differences, and the first of them.
pub struct Found {
    pub patterns: u64,
    pub differing: u64,
    pub first: Option<u64>,
}

/// Holds one root against another on a group.
pub fn compare(group: &Group, n: u64, ours: Root, theirs: Root) -> Found {
    let mut found = Found {
        patterns: 0,
        differing: 0,
        first: None,
    };
    (group.1)(n, &mut |bits| {
        let x = f64::from_bits(bits);
        found.patterns += 1;
        if !same(ours(x), theirs(x)) {
            found.differing += 1;
            found.first.get_or_insert(bits);
        }
    });
    found
}

#[cfg(test)]
mod tests {
    use super::*;

    /// Each group sees a root that is one unit off, and one that is wrong for its own kind only.
    #[test]
    fn a_wrong_root_is_seen() {
        for group in &GROUPS {
            let found = compare(group, 1000, |x| x.sqrt().next_up(), f64::sqrt);
            assert!(found.differing > 0, "{}", group.0);
        }
    }

    /// Rounding down always is seen where the root is close to half-way.
    #[test]
    fn rounding_down_is_seen() {
        fn down(x: f64) -> f64 {
            let root = x.sqrt();
            if root.mul_add(root, -x) > 0.0 {
                root.next_down()
            } else {
                root
            }
        }
        for group in [&GROUPS[0], &GROUPS[4]] {
            assert!(compare(group, 1000, down, f64::sqrt).differing > 0);
        }
    }

    /// The square of a root misses by the root times its step, but for the last digits.
    #[test]
    fn halfway_is_halfway() {
        let mut numbers = 0;
        halfway(1200, &mut |bits| {
            numbers += 1;
            if numbers % 3 == 1 {
                // away from the smallest values, where the miss itself would be rounded
                let x = f64::from_bits(bits % (2 << 52) + (1022 << 52));
                let root = x.sqrt();
                let step = root.next_up() - root;
                let miss = root.mul_add(root, -x).abs() / (root * step);
                assert!((miss - 1.0).abs() < 1e-10, "{bits:016x}: {miss}");
            }
        });
        assert!(numbers > 600);
    }

    #[test]
    fn the_proved_root_is_the_machines() {
        for group in &GROUPS {
            let found = compare(group, 10_000, crate::sqrt, f64::sqrt);
            assert_eq!(found.differing, 0, "{} at {:x?}", group.0, found.first);
        }
    }
}
