//! The day's total, from the first price and from the last, against the sum of
//! the same prices in a shuffled order.
//!
//! totals [CASES] [SEED]: 10^6 lists by default.

use oracle::ours;
use oracle::random::Random;
use oracle::report::{argument, finish, Tally, Verdict};

/// What lent words hold before a call.
const MARK: u32 = 0xdead_beef;
/// The highest price.
const MOST: u32 = 14_400_000;

fn main() {
    let (cases, seed) = (argument(1, 1_000_000), argument(2, 1));
    let verdicts = [
        compare("port_total", ours::port_total, cases, seed),
        compare("port_total_last", ours::port_total_last, cases, seed),
    ];
    finish(&verdicts)
}

type Export = fn(&[u32], &mut [u32]) -> u32;

fn compare(name: &'static str, export: Export, cases: u64, seed: u64) -> Verdict {
    if !ours::all_built(&[name]) {
        return Verdict::NotMade;
    }
    let mut tally = Tally::new(name);
    let mut random = Random::new(seed);
    for _ in 0..cases {
        let mut prices = any(&mut random);
        let mut got = vec![MARK; usize::from(!random.once_in(32)) * 2];
        let mut wanted = got.clone();
        let answer = export(&prices, &mut got);
        shuffle(&mut random, &mut prices);
        let expected = match total(&prices) {
            _ if got.is_empty() => 1,
            Some(cents) => {
                wanted[0] = cents;
                0
            }
            None => 17,
        };
        let differs = answer != expected || got != wanted;
        tally.case(
            expected,
            differs.then(|| format!("{answer} {got:?}, not {expected} {wanted:?}, of {prices:?}")),
        );
    }
    tally.done()
}

/// Up to 300 prices; all at the top now and then, or one above it.
fn any(r: &mut Random) -> Vec<u32> {
    let count = match r.below(8) {
        0 => r.pick(&[0, 1, 2, 255, 256, 257, 258]),
        1 => r.below(300),
        _ => r.below(257),
    };
    let highest = r.once_in(8);
    let price = |r: &mut Random| {
        if highest {
            MOST
        } else {
            r.below(MOST as usize + 1) as u32
        }
    };
    let mut prices: Vec<u32> = (0..count).map(|_| price(r)).collect();
    if count > 0 && r.once_in(4) {
        prices[r.below(count)] = if r.once_in(2) { MOST + 1 } else { r.word() };
    }
    prices
}

fn shuffle(r: &mut Random, prices: &mut [u32]) {
    for k in (1..prices.len()).rev() {
        prices.swap(k, r.below(k + 1));
    }
}

fn total(prices: &[u32]) -> Option<u32> {
    let good = prices.len() <= 256 && prices.iter().all(|price| *price <= MOST);
    let sum: u64 = prices.iter().map(|price| u64::from(*price)).sum();
    good.then(|| u32::try_from(sum).unwrap())
}
