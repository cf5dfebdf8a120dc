//! `f2dis` on numbers at random, so that no test of it can be foreseen:
//! nanoseconds for each call of our export, and of the Rust's native build.
//!
//! bench_f2dis [CALLS] [SEED]: 2^18 calls a round by default, the best of 40
//! rounds.

use oracle::ours;
use oracle::random::Random;
use oracle::report::argument;
use oracle::voacap::muf;
use oracle::voacap::side::{self as native, Deciles};
use oracle::words::*;
use std::hint::black_box;
use std::time::Instant;

const ROUNDS: usize = 40;

/// fmuf, ssn, clat, freq, abb: rows, hemispheres and halves each as likely.
fn call(r: &mut Random) -> [f32; 5] {
    let fmuf = r.between(2.0, 30.0);
    let ssn = r.between(0.0, 150.0);
    let freq = fmuf * r.between(0.5, 1.5);
    [fmuf, ssn, r.between(-1.5, 1.5), freq, r.between(0.0, 24.0)]
}

fn our_round(deciles: &[u32], calls: &[[u32; 5]]) {
    for numbers in calls {
        let mut out = [0];
        ours::port_f2dis(deciles, numbers, &mut out);
        black_box(out);
    }
}

fn rust_round(deciles: &Deciles, calls: &[[f32; 5]]) {
    for [fmuf, ssn, clat, freq, abb] in calls {
        black_box(muf::f2dis(deciles, *fmuf, *ssn, *clat, *freq, *abb));
    }
}

fn main() {
    let mut r = Random::new(argument(2, 1));
    let calls: Vec<[f32; 5]> = (0..argument(1, 1 << 18)).map(|_| call(&mut r)).collect();
    let words: Vec<[u32; 5]> = calls.iter().map(|c| c.map(f32::to_bits)).collect();
    let deciles: Vec<u32> = (0..DECILES).map(|_| r.tabled(0.5, 1.6).to_bits()).collect();
    let table = native::deciles_of(&deciles);
    let each = |round: &dyn Fn()| {
        let started = Instant::now();
        round();
        started.elapsed().as_secs_f64() * 1e9 / calls.len() as f64
    };
    let mut best = [f64::MAX; 2];
    for _ in 0..ROUNDS {
        best[0] = best[0].min(each(&|| our_round(&deciles, &words)));
        best[1] = best[1].min(each(&|| rust_round(&table, &calls)));
    }
    let ratio = best[0] / best[1];
    println!(
        "f2dis: ours {:.1} ns, the Rust {:.1} ns, ratio {ratio:.2}",
        best[0], best[1]
    );
}
