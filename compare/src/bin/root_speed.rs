//! Prints nanoseconds a root, the proved one beside the hardware's, in one run: one after another
//! (each root waits for the one before) and side by side (the processor may overlap them).

use compare::random::Random;
use std::hint::black_box;
use std::time::Instant;

const ROUNDS: usize = 2000;

fn main() {
    let mut random = Random::new(7);
    let inputs: Vec<f64> = (0..4096)
        .map(|_| f64::from_bits(random.bits() >> 1))
        .map(|x| if x.is_finite() { x } else { 2.0 })
        .collect();
    println!("nanoseconds a root   proved   hardware");
    println!(
        "one after another   {:>7.1}    {:>7.1}",
        chained(compare::sqrt, &inputs),
        chained(f64::sqrt, &inputs)
    );
    println!(
        "side by side        {:>7.1}    {:>7.1}",
        overlapped(compare::sqrt, &inputs),
        overlapped(f64::sqrt, &inputs)
    );
}

/// Each input is bent by the root before it, by an amount that leaves it as it is.
fn chained(root: impl Fn(f64) -> f64, inputs: &[f64]) -> f64 {
    let start = Instant::now();
    let mut last = 0.0_f64;
    for _ in 0..ROUNDS {
        for &x in inputs {
            let zero = last.to_bits() & black_box(0);
            last = root(f64::from_bits(x.to_bits() | zero));
        }
    }
    black_box(last);
    nanoseconds(start, inputs)
}

fn overlapped(root: impl Fn(f64) -> f64, inputs: &[f64]) -> f64 {
    let start = Instant::now();
    for _ in 0..ROUNDS {
        for &x in inputs {
            black_box(root(black_box(x)));
        }
    }
    nanoseconds(start, inputs)
}

fn nanoseconds(start: Instant, inputs: &[f64]) -> f64 {
    start.elapsed().as_secs_f64() * 1e9 / (ROUNDS * inputs.len()) as f64
}
