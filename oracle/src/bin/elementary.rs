//! The six elementary functions on every pattern of their domains, against
//! the f64 library functions (good to 2^-28 of an f32's last place, which a
//! second reference with pairs of f64 checks on a sample and at the largest
//! error), their special values, the distances to Rust's own f32 functions,
//! and nanoseconds beside those.
//!
//! elementary [STEP] [NAME..]: every STEP-th pattern (1 by default).

use oracle::float::{distance, same};
use oracle::precise::{self, Pair};
use oracle::random::Random;
use oracle::report::{argument, finish, nanoseconds, Verdict};
use oracle::{float, ours};

/// One function under trial.
struct Function {
    name: &'static str,
    ours: fn(f32) -> f32,
    rust: fn(f32) -> f32,
    library: fn(f64) -> f64,
    precise: fn(f64) -> Pair,
    /// The answer's bits where the paper names one.
    special: fn(f32) -> Option<u32>,
    /// Arguments for the timing.
    range: (f32, f32),
}

/// The f32 nearest to half pi.
const HALF_PI: u32 = 0x3fc9_0fdb;
const INFINITY: u32 = 0x7f80_0000;

const FUNCTIONS: [Function; 6] = [
    Function {
        name: "scalar_exp",
        ours: ours::scalar_exp,
        rust: f32::exp,
        library: f64::exp,
        precise: precise::exp,
        special: exp_special,
        range: (-10.0, 0.0),
    },
    Function {
        name: "scalar_ln",
        ours: ours::scalar_ln,
        rust: f32::ln,
        library: f64::ln,
        precise: precise::ln,
        special: ln_special,
        range: (1.0, 2000.0),
    },
    Function {
        name: "scalar_sin",
        ours: ours::scalar_sin,
        rust: f32::sin,
        library: f64::sin,
        precise: |x| precise::sin_cos(x).0,
        special: |x| outside(x, 4.0).or(zero(x)),
        range: (0.0, 1.6),
    },
    Function {
        name: "scalar_cos",
        ours: ours::scalar_cos,
        rust: f32::cos,
        library: f64::cos,
        precise: |x| precise::sin_cos(x).1,
        special: |x| outside(x, 4.0),
        range: (0.0, 1.6),
    },
    Function {
        name: "scalar_asin",
        ours: ours::scalar_asin,
        rust: f32::asin,
        library: f64::asin,
        precise: precise::asin,
        special: |x| outside(x, 1.0).or(zero(x)),
        range: (-1.0, 1.0),
    },
    Function {
        name: "scalar_atan",
        ours: ours::scalar_atan,
        rust: f32::atan,
        library: f64::atan,
        precise: precise::atan,
        special: atan_special,
        range: (0.0, 10.0),
    },
];

fn exp_special(x: f32) -> Option<u32> {
    if x.is_nan() {
        Some(float::NAN)
    } else if x == f32::NEG_INFINITY {
        Some(0)
    } else {
        // Infinity exactly where e^x is 2^128 or more: no f32 comes near.
        (f64::from(x).exp() >= 2f64.powi(128)).then_some(INFINITY)
    }
}

fn ln_special(x: f32) -> Option<u32> {
    if x.is_nan() || x < 0.0 {
        Some(float::NAN)
    } else if x == 0.0 {
        Some(INFINITY | 1 << 31)
    } else {
        (x == f32::INFINITY).then_some(INFINITY)
    }
}

fn atan_special(x: f32) -> Option<u32> {
    if x.is_nan() {
        Some(float::NAN)
    } else if x.is_infinite() {
        Some(HALF_PI | x.to_bits() & 1 << 31)
    } else {
        zero(x)
    }
}

/// NaN outside -limit to limit, and at NaN.
fn outside(x: f32, limit: f32) -> Option<u32> {
    (x.is_nan() || x.abs() > limit).then_some(float::NAN)
}

/// A zero's answer is that zero.
fn zero(x: f32) -> Option<u32> {
    (x == 0.0).then_some(x.to_bits())
}

/// What a run over all patterns found.
#[derive(Default)]
struct Found {
    inputs: u64,
    specials: u64,
    wrong_specials: u64,
    too_far: u64,
    largest: f64,
    largest_at: u32,
    not_nearest: u64,
    checked: u64,
    reference_off: u64,
    /// Distances 0, 1, 2, 3 or more from Rust's own; just one NaN.
    distances: [u64; 5],
}

/// One in so many references is checked with pairs of f64.
const SAMPLE: u64 = 4099;

impl Found {
    fn special(&mut self, name: &str, x: f32, got: u32, wanted: u32) {
        self.specials += 1;
        if !same(got, wanted) {
            self.wrong_specials += 1;
            if self.wrong_specials <= 3 {
                let x = x.to_bits();
                println!("  {name}({x:08x}) is {got:08x}, not {wanted:08x}");
            }
        }
    }

    fn value(&mut self, f: &Function, x: f32, got: f32) {
        self.inputs += 1;
        let exact = (f.library)(f64::from(x));
        let unit = last_place(got);
        let error = ((f64::from(got) - exact) / unit).abs();
        self.not_nearest += u64::from(error > 0.5);
        // A NaN error is too far.
        let near = error < 1.0;
        if !near {
            self.too_far += 1;
            if self.too_far <= 3 {
                println!("  {}({:08x}): {error} last places", f.name, x.to_bits());
            }
        }
        if error > self.largest {
            self.largest = error;
            self.largest_at = x.to_bits();
        }
        if self.inputs.is_multiple_of(SAMPLE) && exact.abs() > 1e-300 {
            self.check_reference(f, x, exact, unit);
        }
    }

    fn check_reference(&mut self, f: &Function, x: f32, exact: f64, unit: f64) {
        self.checked += 1;
        let off = (f.precise)(f64::from(x)).distance(exact, unit);
        let near = off < 2f64.powi(-28);
        self.reference_off += u64::from(!near);
    }

    fn distance(&mut self, ours: f32, rust: f32) {
        let place = distance(ours, rust).map_or(4, |d| d.min(3) as usize);
        self.distances[place] += 1;
    }

    fn print(&self, f: &Function) {
        let at = f32::from_bits(self.largest_at);
        let got = f64::from((f.ours)(at));
        let again = (f.precise)(f64::from(at)).distance(got, last_place(got as f32));
        println!(
            "{}: {} inputs, {} special; largest error {:.6} (with pairs {again:.6}) at {:08x} ({at:e}); \
             not nearest {}, one place or more {}, wrong special {}; \
             reference off at {} of {} checked",
            f.name,
            self.inputs,
            self.specials,
            self.largest,
            self.largest_at,
            self.not_nearest,
            self.too_far,
            self.wrong_specials,
            self.reference_off,
            self.checked
        );
        let [d0, d1, d2, d3, nan] = self.distances;
        println!("  from Rust's own: 0: {d0}, 1: {d1}, 2: {d2}, 3 or more: {d3}, one NaN: {nan}");
    }

    fn verdict(&self) -> Verdict {
        if self.too_far + self.wrong_specials + self.reference_off == 0 {
            Verdict::Same
        } else {
            Verdict::Differs
        }
    }
}

/// The unit in the last place of a result, at least 2^-149.
fn last_place(r: f32) -> f64 {
    let exponent = (r.to_bits() >> 23 & 0xff).clamp(1, 254) as i32;
    2f64.powi(exponent - 150)
}

fn run(f: &Function, step: u64) -> Verdict {
    if !ours::all_built(&[f.name]) {
        return Verdict::NotMade;
    }
    let mut found = Found::default();
    for bits in (0..1u64 << 32).step_by(step as usize) {
        let x = f32::from_bits(bits as u32);
        let got = (f.ours)(x);
        match (f.special)(x) {
            Some(wanted) => found.special(f.name, x, got.to_bits(), wanted),
            None => {
                found.value(f, x, got);
                found.distance(got, (f.rust)(x));
            }
        }
    }
    found.print(f);
    time(f);
    found.verdict()
}

fn time(f: &Function) {
    let mut random = Random::new(3);
    let (low, high) = f.range;
    let numbers: Vec<f32> = (0..4096).map(|_| random.between(low, high)).collect();
    let ours = nanoseconds(&numbers, f.ours);
    let rust = nanoseconds(&numbers, f.rust);
    let ratio = ours / rust;
    println!("  ours {ours:.1} ns, Rust's own {rust:.1} ns, ratio {ratio:.2}");
}

fn main() {
    let step = argument(1, 1);
    let named: Vec<String> = std::env::args().skip(2).collect();
    let chosen = |f: &&Function| named.is_empty() || named.iter().any(|n| n == f.name);
    let verdicts: Vec<Verdict> = FUNCTIONS
        .iter()
        .filter(chosen)
        .map(|f| run(f, step))
        .collect();
    finish(&verdicts)
}
