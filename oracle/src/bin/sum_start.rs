//! Shows where a sum's start shows: this compiler's `sum()` starts at -0.0, the rules'
//! sums at plus zero. `ByCosine` and `ByRules` differ in that alone.
//!
//! Why no answer differs by more than a zero's sign. Call two numbers alike if they compare
//! equal or are both NaN.
//! - The two starts give the same bits, unless every addend is -0.0: then -0.0 and 0.0. A
//!   square is never -0.0, so `dist2` and the norm in `unit` cannot tell the starts apart.
//! - Sum, difference, product, negation, absolute value and root take alike to alike. Zero
//!   times infinity is NaN with either sign.
//! - A quotient does too, unless a number other than zero is divided by zeros of unlike sign.
//!   slice.rs divides by n with n > 0; by da - db where its absolute value is above
//!   `MIN_POSITIVE`; by 2; and by the product of two roots of x * x + y * y, written out, which
//!   is never -0.0.
//! - Clamping keeps zeros, and the arccosines of both zeros are one number.
//! - Otherwise floats are only compared, where zeros are equal and NaN fails with either sign;
//!   slice.rs and snap.rs never look at a sign or at bits. Points, edges and loops are chosen by
//!   such comparisons.
//!
//! So both runs take the same branches, and each number of one is alike to that of the other.

use oracle::*;

const TRIALS: u32 = 200_000;
const SIZES: i32 = 12;
/// Numbers that make zeros of both signs, and the edges of the format.
const NUMBERS: [f64; 16] = [
    0.0,
    -0.0,
    0.0,
    -0.0,
    0.5,
    -0.5,
    1.0,
    -1.0,
    2.0,
    -3.0,
    1e-12,
    5e-324,
    -5e-324,
    1e200,
    f64::INFINITY,
    f64::NAN,
];
const TOLERANCES: [f64; 6] = [0.0, 1e-12, 0.25, -0.0, f64::NAN, f64::INFINITY];

fn main() {
    single_functions();
    one_cut();
    trials();
}

fn single_functions() {
    println!("Sums of nothing, and of -0.0 alone:");
    let nothing: [f64; 0] = [];
    println!(
        "  sum() {:?}, {:?}",
        nothing.iter().sum::<f64>(),
        [-0.0].iter().sum::<f64>()
    );
    println!("  from plus zero {:?}, {:?}", 0.0, 0.0 + -0.0);

    println!(
        "Arccosines of 0.0 and -0.0: {:?}, {:?}",
        0f64.acos(),
        (-0f64).acos()
    );

    let (a, b) = ([-0.0, 0.0, 0.0], [1.0, -1.0, -1.0]);
    println!("dot of {a:?} and {b:?}:");
    println!("  Rust {:?}", rust::reach::dot(&a, &b));
    println!("  the rules {:?}", by_rules::reach::dot(&a, &b));

    let (p, o, u, v) = ([2.0; 3], [2.0; 3], [-1.0; 3], [-0.5; 3]);
    println!("project of {p:?} with that origin, u {u:?}, v {v:?}:");
    println!("  Rust {:?}", rust::reach::project(&p, &o, &u, &v));
    println!("  the rules {:?}", by_rules::reach::project(&p, &o, &u, &v));
}

/// The first small normal on which a whole cut shows it, through the tetrahedron's corner.
fn one_cut() {
    let coords = [0.0, 0.0, 0.0, 1.0, 0.0, 0.0, 0.0, 1.0, 0.0, 0.0, 0.0, 1.0];
    let cell = Cell {
        number: 12,
        nodes: &[0, 1, 2, 3],
        coords: &coords,
    };
    let origin = [0.0; 3];
    let side = |size: i32| (-size..=size).rev();
    let normals = (1..=SIZES).flat_map(|size| {
        let cube = side(size).flat_map(move |a| side(size).map(move |b| (a, b)));
        let cube = cube.flat_map(move |(a, b)| side(size).map(move |c| [a, b, c]));
        cube.filter(move |normal| normal.iter().any(|k| k.abs() == size))
    });
    for normal in normals.map(|normal| normal.map(f64::from)) {
        let cut = |build| plane_cut(build, cell, &origin, &normal, 0.0);
        let (Ok(by_sum), Ok(by_rules)) = (cut(Build::ByCosine), cut(Build::ByRules)) else {
            continue;
        };
        if by_sum.loops.is_empty() || bits(&by_sum) == bits(&by_rules) {
            continue;
        }
        println!("TET4 (0,0,0) (1,0,0) (0,1,0) (0,0,1), origin (0,0,0), normal {normal:?}, tol 0:");
        println!("  Rust        {:?} loops {:?}", by_sum.points, by_sum.loops);
        println!(
            "  the rules {:?} loops {:?}",
            by_rules.points, by_rules.loops
        );
        return;
    }
    println!("No small normal shows it in a whole cut.");
}

/// Many cuts full of zeros: how many answers differ at all, and by more than a zero's sign.
fn trials() {
    let mut seed = 1u64;
    let mut next = |bound: usize| {
        seed = seed
            .wrapping_mul(6364136223846793005)
            .wrapping_add(1442695040888963407);
        (seed >> 33) as usize % bound
    };
    let (mut filled, mut other_bits, mut beyond) = (0, 0, 0);
    for trial in 0..TRIALS {
        // Every second trial keeps to ordinary numbers, so that loops come about.
        let range = if trial % 2 == 0 { 10 } else { NUMBERS.len() };
        let mut number = || NUMBERS[next(range)];
        let coords: Vec<f64> = (0..24).map(|_| number()).collect();
        let (origin, normal) = ([0; 3].map(|_| number()), [0; 3].map(|_| number()));
        let tol = TOLERANCES[next(TOLERANCES.len())];
        let (number, count) = [(12, 4), (14, 8)][next(2)];
        let nodes = &[0, 1, 2, 3, 4, 5, 6, 7][..count];
        let coords = &coords;
        let cell = Cell {
            number,
            nodes,
            coords,
        };
        let plane = |build| plain(plane_cut(build, cell, &origin, &normal, tol));
        let line = |build| flat(line_cut(build, cell, &origin, &normal, tol));
        for (by_sum, by_rules) in [
            (plane(Build::ByCosine), plane(Build::ByRules)),
            (line(Build::ByCosine), line(Build::ByRules)),
        ] {
            filled += u32::from(!by_sum.1.is_empty());
            other_bits += u32::from(!same(&by_sum, &by_rules, |x, y| x.to_bits() == y.to_bits()));
            beyond += u32::from(!same(&by_sum, &by_rules, |x, y| x == y));
        }
    }
    println!("{TRIALS} cells, each cut by a plane and by a line:");
    println!("  answers that are not empty: {filled}");
    println!("  answers whose bits differ: {other_bits}");
    println!("  answers that differ by more than a zero's sign: {beyond}");
}

/// Are the shapes equal and the numbers the same, any two NaNs being the same?
fn same(one: &Plain, other: &Plain, number: fn(f64, f64) -> bool) -> bool {
    let mut both = one.1.iter().zip(&other.1);
    one.0 == other.0 && both.all(|(&x, &y)| number(x, y) || x.is_nan() && y.is_nan())
}

/// An answer's shape and its numbers in a row.
type Plain = (Result<Vec<Vec<usize>>, Stop>, Vec<f64>);

fn plain(found: Result<Section, Stop>) -> Plain {
    match found {
        Ok(section) => {
            let count = vec![section.points.len()];
            let shape = section.loops.into_iter().chain([count]).collect();
            (Ok(shape), section.points.concat())
        }
        Err(stop) => (Err(stop), Vec::new()),
    }
}

fn flat(found: Result<Vec<Segment<3>>, Stop>) -> Plain {
    match found {
        Ok(segments) => (Ok(vec![vec![segments.len()]]), segments.concat().concat()),
        Err(stop) => (Err(stop), Vec::new()),
    }
}

fn bits(section: &Section) -> Vec<u64> {
    let numbers = section.points.iter().flatten();
    numbers.map(|x| x.to_bits()).collect()
}
