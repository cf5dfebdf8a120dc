//! How far answers with our elementary functions lie from those with Rust's
//! own, on the same realistic hours: in last places, and in kHz for cells.
//!
//! distances [HOURS] [SEED]: 10^5 hours by default.

use oracle::float;
use oracle::random::Random;
use oracle::report::argument;
use oracle::words::*;
use oracle::{ours, routed, states, voacap};

/// Distances in powers of two: 0, 1, 2 to 3, 4 to 7, and so on.
struct Histogram {
    name: &'static str,
    counts: [u64; 34],
    largest: u64,
    one_nan: u64,
}

impl Histogram {
    fn new(name: &'static str) -> Self {
        Histogram {
            name,
            counts: [0; 34],
            largest: 0,
            one_nan: 0,
        }
    }

    fn numbers(&mut self, ours: &[u32], rust: &[u32]) {
        for (a, b) in ours.iter().zip(rust) {
            match float::distance(f32::from_bits(*a), f32::from_bits(*b)) {
                Some(distance) => self.add(distance),
                None => self.one_nan += 1,
            }
        }
    }

    fn whole(&mut self, ours: &[u32], rust: &[u32]) {
        for (a, b) in ours.iter().zip(rust) {
            self.add((i64::from(*a as i32) - i64::from(*b as i32)).unsigned_abs());
        }
    }

    fn add(&mut self, distance: u64) {
        self.counts[(64 - distance.leading_zeros()) as usize] += 1;
        self.largest = self.largest.max(distance);
    }

    fn print(&self) {
        let (name, largest) = (self.name, self.largest);
        println!("{name}: largest {largest}, just one NaN {}", self.one_nan);
        for (i, count) in self.counts.iter().enumerate().filter(|(_, c)| **c > 0) {
            match i {
                0 | 1 => println!("  {i}: {count}"),
                _ => println!("  {} to {}: {count}", 1u64 << (i - 1), (1u64 << i) - 1),
            }
        }
    }
}

fn main() {
    ours::warn_of_stand_ins();
    let mut r = Random::new(argument(2, 1));
    let mut mufs = Histogram::new("MUFs (E, F1, F2, Es, circuit)");
    let mut rows = Histogram::new("rows (fvert, hprim, htrue)");
    let mut losses = Histogram::new("loss factors (afac)");
    let mut cells = Histogram::new("cells, kHz");
    for _ in 0..argument(1, 100_000) {
        let state = states::slots(&mut r);
        let call = states::plain_hour(&mut r, state[KM] as usize);
        let ours = routed::side::curmuf(&state, &call).2;
        let rust = voacap::side::curmuf(&state, &call).2;
        mufs.numbers(&ours[..5], &rust[..5]);
        let k = ours[KS] as usize;
        let ours = routed::side::sheet(&state, k, 34, &ours[KS + 1..]);
        let rust = voacap::side::sheet(&state, k, 34, &rust[KS + 1..]);
        rows.numbers(&ours.1[..LOSSES], &rust.1[..LOSSES]);
        losses.numbers(&ours.1[LOSSES..SEGMENT], &rust.1[LOSSES..SEGMENT]);
        cells.whole(&ours.2, &rust.2);
    }
    for histogram in [mufs, rows, losses, cells] {
        histogram.print();
    }
}
