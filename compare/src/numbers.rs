//! When two numbers count as one, and numbers on which arithmetic is likely to differ.

use crate::random::Random;

/// Whether two results are the same to the bit, all NaN alike.
pub fn same(a: f64, b: f64) -> bool {
    a.to_bits() == b.to_bits() || (a.is_nan() && b.is_nan())
}

/// Whether two results are equal, all NaN alike and both zeros alike.
pub fn alike(a: f64, b: f64) -> bool {
    a == b || (a.is_nan() && b.is_nan())
}

/// Whether the numbers of two lists agree one by one.
pub fn agree(agree: fn(f64, f64) -> bool, a: &[f64], b: &[f64]) -> bool {
    a.len() == b.len() && a.iter().zip(b).all(|(&a, &b)| agree(a, b))
}

/// Stands in the numbers of a buffer before it is lent: a signalling NaN with a payload that no operation
/// gives, so that arithmetic on it, a NaN written anew and a number left unwritten all show in the bits.
pub const UNTOUCHED: f64 = f64::from_bits(0xfff4_1234_5678_9abc);

/// Whether a number of a buffer still has the bits that it was lent with.
pub fn untouched(x: &f64) -> bool {
    x.to_bits() == UNTOUCHED.to_bits()
}

/// A kind of number to draw.
pub type Draw = fn(&mut Random) -> f64;

/// From -1 to 1, evenly.
pub fn ordinary(random: &mut Random) -> f64 {
    random.below(1 << 53) as f64 / (1u64 << 52) as f64 - 1.0
}

/// A whole number from -2 to 2, either zero among them.
pub fn whole(random: &mut Random) -> f64 {
    random.pick(&[-2.0, -1.0, -0.0, 0.0, 0.0, 1.0, 2.0])
}

/// Below 2^-1022 or a little above, of every length.
pub fn tiny(random: &mut Random) -> f64 {
    let length = random.below(54) + 1;
    let x = f64::from_bits(random.bits() >> (64 - length));
    signed(random, x)
}

/// Tiny, one in two: where all are, squared distances come out as 0.
pub fn maybe_tiny(random: &mut Random) -> f64 {
    if random.one_in(2) {
        tiny(random)
    } else {
        whole(random)
    }
}

/// Near 2^-1022, or less: halves, neighbours and sums of a few such numbers are among them.
pub fn nearly_nothing(random: &mut Random) -> f64 {
    let least_normal = f64::MIN_POSITIVE;
    let x = random.pick(&[
        0.0,
        5e-324,
        5e-324,
        1e-310,
        least_normal / 2.0,
        least_normal / 2.0,
        (least_normal / 2.0).next_up(),
        least_normal.next_down(),
        least_normal,
        least_normal,
        least_normal.next_up(),
        least_normal * 2.0,
    ]);
    match random.below(8) {
        0 => tiny(random),
        _ => signed(random, x),
    }
}

/// Whose square overflows, or nearly.
pub fn huge(random: &mut Random) -> f64 {
    let exponent = random.pick(&[1030, 1500, 1533, 1534, 1535, 1536, 1540, 2040, 2045, 2046]);
    let x = f64::from_bits(exponent << 52 | random.bits() >> 12);
    signed(random, x)
}

/// Any pattern.
pub fn any(random: &mut Random) -> f64 {
    f64::from_bits(random.bits())
}

/// A number one in eight of which is infinite.
pub fn maybe_infinite(random: &mut Random) -> f64 {
    if random.one_in(8) {
        signed(random, f64::INFINITY)
    } else {
        whole(random)
    }
}

/// A number one in eight of which is NaN.
pub fn maybe_nan(random: &mut Random) -> f64 {
    if random.one_in(8) {
        f64::NAN
    } else {
        whole(random)
    }
}

/// An infinity, or a NaN now and then.
pub fn wild_number(random: &mut Random) -> f64 {
    match random.below(4) {
        0 => f64::NAN,
        _ => signed(random, f64::INFINITY),
    }
}

/// A tolerance of any kind.
pub fn any_tolerance(random: &mut Random) -> f64 {
    random.pick(&[
        0.0,
        -0.0,
        -1e-9,
        -1.0,
        5e-324,
        f64::MIN_POSITIVE,
        1e-300,
        1e-154,
        1e-12,
        1e-9,
        1e-3,
        0.5,
        1.0,
        1.5,
        2.0,
        1e10,
        1e200,
        f64::INFINITY,
        f64::NEG_INFINITY,
        f64::NAN,
    ])
}

/// A tolerance as a mesh has it, mostly.
pub fn usual_tolerance(random: &mut Random) -> f64 {
    match random.below(8) {
        0 => any_tolerance(random),
        1 => 0.0,
        2 => 0.25,
        _ => random.pick(&[1e-12, 1.4e-12, 1e-9]),
    }
}

fn signed(random: &mut Random, x: f64) -> f64 {
    if random.one_in(2) {
        -x
    } else {
        x
    }
}
