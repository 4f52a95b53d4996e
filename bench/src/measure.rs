//! Timing: both sides by turns, the median of many samples, and the ratio of the two.

use std::hint::black_box;
use std::time::Instant;

/// How many samples of each side are taken.
const SAMPLES: usize = 201;

/// How many nanoseconds a sample should last, about.
const SAMPLE_NANOS: u128 = 200_000;

/// `size` bytes, the same for the same seed.
pub fn bytes(size: usize, seed: u64) -> Vec<u8> {
    let mut state = seed;
    (0..size)
        .map(|_| {
            state = state.wrapping_mul(6364136223846793005).wrapping_add(1442695040888963407);
            (state >> 56) as u8
        })
        .collect()
}

/// Prints the median times of the plain and of our side, and plain divided by ours: more than 1 is faster than plain Rust.
pub fn compare<T, U>(name: &str, size: usize, plain: impl Fn() -> T, ours: impl Fn() -> U) {
    let turns = turns(&plain);
    let mut plain_times = Vec::with_capacity(SAMPLES);
    let mut our_times = Vec::with_capacity(SAMPLES);
    for _ in 0..SAMPLES {
        plain_times.push(sample(turns, &plain));
        our_times.push(sample(turns, &ours));
    }
    let (p, o) = (median(plain_times), median(our_times));
    println!("{name}: ratio {:.2} (plain {p:.1} ns, ours {o:.1} ns, {size} bytes)", p / o);
}

/// How often a call is made in a sample.
fn turns<T>(call: &impl Fn() -> T) -> u32 {
    let mut turns = 1;
    loop {
        let start = Instant::now();
        for _ in 0..turns {
            black_box(call());
        }
        if start.elapsed().as_nanos() >= SAMPLE_NANOS || turns > 1 << 24 {
            return turns;
        }
        turns *= 2;
    }
}

/// The time of one call in nanoseconds, over a sample.
fn sample<T>(turns: u32, call: &impl Fn() -> T) -> f64 {
    let start = Instant::now();
    for _ in 0..turns {
        black_box(call());
    }
    start.elapsed().as_nanos() as f64 / f64::from(turns)
}

fn median(mut times: Vec<f64>) -> f64 {
    times.sort_by(f64::total_cmp);
    times[times.len() / 2]
}
