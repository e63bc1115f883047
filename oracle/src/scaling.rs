//! The scaled way of taking a normal, in whole numbers. The Rust has no such way: it is what docs/RULES.md says. The normal is
//! multiplied by the power of two that brings its greatest absolute component to at least 1 and under 2, each component being the
//! exact product rounded once. A zero normal is not scaled.

use std::cmp::Ordering;

/// The mantissa, below 2^53, times 2 to the exponent. A zero has a sign too.
#[derive(Clone, Copy, Debug, PartialEq, Eq)]
pub struct Exact {
    pub negative: bool,
    pub mantissa: u64,
    pub exponent: i32,
}

/// The exponent of the least number above 0; all f64 are multiples of it.
const UNIT: i32 = -1074;

impl Exact {
    /// What a number is worth; none if it is not finite.
    pub fn of(x: f64) -> Option<Exact> {
        let bits = x.to_bits();
        let (field, fraction) = (bits >> 52 & 0x7ff, bits & ((1 << 52) - 1));
        let (mantissa, exponent) = match field {
            0x7ff => return None,
            0 => (fraction, UNIT),
            _ => (fraction | 1 << 52, UNIT + field as i32 - 1),
        };
        Some(Exact {
            negative: bits >> 63 == 1,
            mantissa,
            exponent,
        })
    }

    /// The exponent of the greatest power of two that its absolute value is not below, of a number other than 0.
    pub fn power(self) -> i32 {
        self.exponent + self.mantissa.ilog2() as i32
    }

    /// Its absolute value beside another's.
    pub fn compare(self, other: Exact) -> Ordering {
        if self.mantissa == 0 || other.mantissa == 0 {
            return self.mantissa.cmp(&other.mantissa);
        }
        let aligned = |x: Exact| x.mantissa << (63 - x.mantissa.ilog2());
        let powers = self.power().cmp(&other.power());
        powers.then(aligned(self).cmp(&aligned(other)))
    }

    /// The exact product with this power of two.
    pub fn times(self, power: i32) -> Exact {
        Exact {
            exponent: self.exponent + power,
            ..self
        }
    }

    /// What is left of it beyond a multiple of 2^-1074, beside the half of that; none if nothing is.
    pub fn left(self) -> Option<Ordering> {
        let below = (UNIT - self.exponent).max(0);
        if below > 64 {
            return (self.mantissa > 0).then_some(Ordering::Less);
        }
        let left = u128::from(self.mantissa) % (1 << below);
        (left > 0).then(|| (2 * left).cmp(&(1 << below)))
    }

    /// Rounded once: to the nearest f64, of two the one with an even mantissa. Its absolute value is under 2^1024.
    pub fn rounded(self) -> f64 {
        let below = UNIT - self.exponent;
        let bits = if self.mantissa == 0 {
            0
        } else if below > 0 {
            // a multiple of 2^-1074, of which a pattern without a sign counts that many, up to 2^53 of them
            let whole = self.mantissa.checked_shr(below as u32).unwrap_or(0);
            let up = match self.left() {
                Some(Ordering::Greater) => true,
                Some(Ordering::Equal) => whole % 2 == 1,
                _ => false,
            };
            whole + u64::from(up)
        } else if self.power() < -1022 {
            self.mantissa << -below
        } else {
            let fraction = self.mantissa << (52 - self.mantissa.ilog2()) & ((1 << 52) - 1);
            (self.power() + 1023) as u64 * (1 << 52) + fraction
        };
        f64::from_bits(u64::from(self.negative) << 63 | bits)
    }
}

/// The exponent of the power of two that the greatest absolute component is at least, and under twice; none of a zero vector.
pub fn power(normal: &[Exact]) -> Option<i32> {
    let greatest = normal.iter().copied().max_by(|a, b| a.compare(*b))?;
    (greatest.mantissa > 0).then(|| greatest.power())
}

/// The components as whole numbers with their exponents; none where one is not finite.
pub fn exactly(normal: &[f64]) -> Option<Vec<Exact>> {
    normal.iter().copied().map(Exact::of).collect()
}

/// The scaled normal; none where a component is not finite.
pub fn scaled(normal: &[f64]) -> Option<Vec<f64>> {
    let exact = exactly(normal)?;
    Some(match power(&exact) {
        None => normal.to_vec(),
        Some(power) => exact.iter().map(|x| x.times(-power).rounded()).collect(),
    })
}

#[cfg(test)]
mod tests {
    use super::*;

    const LEAST: f64 = f64::from_bits(1);

    fn bits(normal: &[f64]) -> Vec<u64> {
        normal.iter().map(|x| x.to_bits()).collect()
    }

    fn is(normal: &[f64], right: &[f64]) {
        let found = scaled(normal).unwrap();
        assert_eq!(bits(&found), bits(right), "{normal:?} gave {found:?}");
    }

    #[test]
    fn by_hand() {
        is(&[1e200, 0.0, -0.0], &[1e200 / 2f64.powi(664), 0.0, -0.0]);
        is(&[3.0, -4.0, 5.0], &[0.75, -1.0, 1.25]);
        is(&[8.0, 7.0], &[1.0, 0.875]);
        is(&[-1.0, 1.0], &[-1.0, 1.0]);
        is(&[f64::MAX, 1.0], &[2f64.next_down(), 2f64.powi(-1023)]);
        is(&[LEAST, -LEAST], &[1.0, -1.0]);
        is(&[3.0 * LEAST, 2.0 * LEAST], &[1.5, 1.0]);
        is(&[0.0, -0.0, 0.0], &[0.0, -0.0, 0.0]);
        assert_eq!(scaled(&[1.0, f64::NAN]), None);
        assert_eq!(scaled(&[f64::NEG_INFINITY, 0.0, 0.0]), None);
    }

    /// Beside 2^1023 the number q times 2^-51 is q units of 2^-1074.
    #[test]
    fn ties_are_rounded_to_even() {
        let huge = 2f64.powi(1023);
        let unit = 2f64.powi(-51);
        for (units, right) in [
            (0.5, 0),
            (1.5, 2),
            (2.5, 2),
            (3.5, 4),
            (-0.5, 1 << 63),
            (-1.5, 1 << 63 | 2),
            (0.5f64.next_up(), 1),
            (2.5f64.next_up(), 3),
            (1.5f64.next_down(), 1),
            (0.25, 0),
            // the middle between the greatest subnormal number and the least normal one
            ((1u64 << 52) as f64 - 0.5, 1 << 52),
        ] {
            is(&[units * unit, huge], &[f64::from_bits(right), 1.0]);
        }
    }

    /// A quotient by a power of two is the exact product rounded once, as the machine has it.
    #[test]
    fn a_quotient_by_a_power_of_two_is_that_of_the_machine() {
        let mut x = 1u64;
        for _ in 0..100_000 {
            x ^= x << 13;
            x ^= x >> 7;
            x ^= x << 17;
            let [a, b] = [f64::from_bits(x), f64::from_bits(x.rotate_left(27))];
            let (Some(a_exact), Some(b_exact)) = (Exact::of(a), Exact::of(b)) else {
                continue;
            };
            assert_eq!(a_exact.compare(b_exact), a.abs().total_cmp(&b.abs()));
            let power = power(&[a_exact, b_exact]).unwrap();
            let divisor = match power {
                -1022.. => f64::from_bits(((power + 1023) as u64) << 52),
                _ => f64::from_bits(1 << (power + 1074)),
            };
            is(&[a, b], &[a / divisor, b / divisor]);
        }
    }
}
