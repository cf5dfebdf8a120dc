//! Each exported function against the routed Rust, alone, on states that no
//! function of ours made: answers, every word lent, refusals in their order.
//!
//! port [CASES] [SEED] [NAME..]: 10^6 cases of each by default; a name with
//! `exact` behind it has the switch of the exact height rule on.

use oracle::calls::{Case, COMPARISONS};
use oracle::ours;
use oracle::random::Random;
use oracle::report::{argument, finish, Tally, Verdict};

fn compare(name: &'static str, cases: u64, seed: u64, case: Case) -> Verdict {
    let function = name.split(' ').next().unwrap_or(name);
    if !ours::all_built(&[function]) {
        return Verdict::NotMade;
    }
    let mut tally = Tally::new(name);
    let mut random = Random::new(seed);
    for _ in 0..cases {
        let call = case(&mut random);
        tally.case(call.wanted, call.differs());
        tally.zeros(call.zeros());
    }
    tally.done()
}

fn main() {
    let (cases, seed) = (argument(1, 1_000_000), argument(2, 1));
    let named: Vec<String> = std::env::args().skip(3).collect();
    let chosen = |name: &str| named.is_empty() || named.iter().any(|n| n == name);
    ours::warn_of_stand_ins();
    let verdicts: Vec<Verdict> = COMPARISONS
        .iter()
        .filter(|(name, _)| chosen(name))
        .map(|(name, case)| compare(name, cases, seed, *case))
        .collect();
    finish(&verdicts)
}
