//! Square root and truncation on all 2^32 patterns against Rust's own;
//! minimum and maximum on pairs of edges and on random pairs against the
//! paper's rule.
//!
//! scalars [PAIRS] [PATTERNS]: 10^8 random pairs and every pattern by default.
//! Then our root's time beside the hardware's: `scalars 1 1` for that alone.

use oracle::float::{same, same_number};
use oracle::ours;
use oracle::random::{Random, EDGES};
use oracle::report::{argument, chained_nanoseconds, finish, nanoseconds, Tally, Verdict};
use oracle::routing::{max_rule, min_rule};

fn main() {
    let pairs = argument(1, 100_000_000);
    let patterns = argument(2, 1 << 32);
    let verdicts = [
        on_patterns("scalar_sqrt", patterns, roots_differ),
        on_patterns("scalar_trunc", patterns, truncations_differ),
        on_pairs("scalar_min", pairs, ours::scalar_min, min_rule),
        on_pairs("scalar_max", pairs, ours::scalar_max, max_rule),
    ];
    time_roots();
    finish(&verdicts)
}

/// Every pattern below 2^32, or as many evenly spread ones.
fn on_patterns(name: &'static str, patterns: u64, differs: fn(f32) -> Option<String>) -> Verdict {
    if !ours::all_built(&[name]) {
        return Verdict::NotMade;
    }
    let mut tally = Tally::new(name);
    let step = ((1u64 << 32) / patterns).max(1);
    for bits in (0..1u64 << 32).step_by(step as usize) {
        tally.case(0, differs(f32::from_bits(bits as u32)));
    }
    tally.done()
}

fn roots_differ(x: f32) -> Option<String> {
    let (ours, rust) = (ours::scalar_sqrt(x), x.sqrt());
    (!same_number(ours, rust)).then(|| differing(&[x], ours.to_bits(), rust.to_bits()))
}

fn truncations_differ(x: f32) -> Option<String> {
    let (ours, rust) = (ours::scalar_trunc(x), x as i32);
    (ours != rust).then(|| differing(&[x], ours as u32, rust as u32))
}

fn differing(of: &[f32], ours: u32, theirs: u32) -> String {
    let of: Vec<String> = of.iter().map(|x| format!("{:08x}", x.to_bits())).collect();
    format!("of {}: ours {ours:08x}, theirs {theirs:08x}", of.join(" "))
}

type Pair = fn(f32, f32) -> f32;

fn on_pairs(name: &'static str, pairs: u64, ours: Pair, rule: Pair) -> Verdict {
    if !ours::all_built(&[name]) {
        return Verdict::NotMade;
    }
    let mut tally = Tally::new(name);
    let mut check = |a: f32, b: f32| {
        let (x, y) = (ours(a, b).to_bits(), rule(a, b).to_bits());
        tally.case(0, (!same(x, y)).then(|| differing(&[a, b], x, y)));
    };
    for a in EDGES {
        for b in EDGES {
            check(f32::from_bits(a), f32::from_bits(b));
        }
    }
    let mut random = Random::new(1);
    for _ in 0..pairs {
        let a = random.pattern();
        let b = if random.once_in(4) {
            random.beside(a, 1)
        } else {
            random.pattern()
        };
        check(a, b);
    }
    tally.done()
}

/// Nanoseconds of our root beside the hardware's, on the same numbers: back to
/// back, and each call waiting for the one before.
fn time_roots() {
    let mut random = Random::new(2);
    let numbers: Vec<f32> = (0..4096).map(|_| random.between(0.0001, 1.0)).collect();
    let ours = |x| ours::scalar_sqrt(x);
    let ways = [
        (
            "back to back",
            nanoseconds(&numbers, ours),
            nanoseconds(&numbers, f32::sqrt),
        ),
        (
            "in a chain",
            chained_nanoseconds(&numbers, ours),
            chained_nanoseconds(&numbers, f32::sqrt),
        ),
    ];
    for (way, ours, rust) in ways {
        let ratio = ours / rust;
        println!("sqrt {way}: ours {ours:.2} ns, hardware {rust:.2} ns, ratio {ratio:.2}");
    }
}
