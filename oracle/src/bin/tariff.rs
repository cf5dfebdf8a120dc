//! The price of a call against one worked out from the request's words: the
//! figure as Rust itself prints it, bands looked at from the last to the first,
//! and the least number of cents whose sixtyfold is enough.
//!
//! tariff [CASES] [SEED]: 10^6 cases by default.

use oracle::ours;
use oracle::random::Random;
use oracle::report::{argument, finish, Tally, Verdict};

/// What lent words hold before a call.
const MARK: u32 = 0xdead_beef;

fn main() {
    let (cases, seed) = (argument(1, 1_000_000), argument(2, 1));
    finish(&[compare(cases, seed)])
}

fn compare(cases: u64, seed: u64) -> Verdict {
    if !ours::all_built(&["port_price"]) {
        return Verdict::NotMade;
    }
    let mut tally = Tally::new("port_price");
    let mut random = Random::new(seed);
    for _ in 0..cases {
        let call = Call::any(&mut random);
        let mut got = vec![MARK; usize::from(!random.once_in(32)) * 2];
        let mut wanted = got.clone();
        let expected = match call.price() {
            _ if got.is_empty() => 1,
            Ok(cents) => {
                wanted[0] = cents;
                0
            }
            Err(number) => number,
        };
        let bits = call.muf.to_bits();
        let answer = ours::port_price(bits, &call.tops, &call.rates, call.seconds, &mut got);
        let differs = answer != expected || got != wanted;
        tally.case(
            expected,
            differs.then(|| format!("{answer} {got:?}, not {expected} {wanted:?}, of {call:?}")),
        );
    }
    tally.done()
}

#[derive(Debug)]
struct Call {
    muf: f32,
    tops: Vec<u32>,
    rates: Vec<u32>,
    seconds: u32,
}

impl Call {
    /// A good tariff, mostly, with one thing of it spoilt now and then; a MUF
    /// that is often at or beside a top, or halfway between two tenths.
    fn any(r: &mut Random) -> Call {
        let bands = r.pick(&[0, 1, 1, 2, 3, 5, 8, 15, 16, 16, 17]);
        let mut tops: Vec<u32> = (0..bands).map(|_| r.below(10_000) as u32).collect();
        tops.sort_unstable();
        if !r.once_in(8) {
            tops.dedup();
        }
        if let (true, Some(top)) = (r.once_in(4), tops.last_mut()) {
            *top = 9_999;
        }
        let mut rates: Vec<u32> = tops.iter().map(|_| r.below(10_001) as u32).collect();
        match r.below(24) {
            0 => rates.truncate(r.below(rates.len() + 1)),
            1 => rates.push(7),
            2 => spoil(r, &mut tops, 10_000),
            3 => spoil(r, &mut rates, 10_001),
            4 => tops.reverse(),
            _ => {}
        }
        let muf = match r.below(8) {
            0 => r.wild(),
            1 => r.pattern(),
            2 => -r.between(0.0, 0.2),
            3 | 4 if !tops.is_empty() => {
                let top = r.pick(&tops) as f32 / 10.0;
                let step = r.pick(&[-0.1, -0.05, 0.0, 0.05, 0.1]);
                r.beside(top + step, 2)
            }
            5 => r.below(40_000) as f32 / 20.0,
            6 => r.between(990.0, 1001.0),
            _ => r.between(0.0, 1000.0),
        };
        let seconds = match r.below(8) {
            0 => r.pick(&[0, 1, 2, 59, 60, 61, 86_399, 86_400, 86_401, u32::MAX]),
            1 => r.word(),
            _ => r.below(86_402) as u32,
        };
        Call {
            muf,
            tops,
            rates,
            seconds,
        }
    }

    fn price(&self) -> Result<u32, u32> {
        let bands = self.tops.len();
        let described = (1..=16).contains(&bands)
            && self.rates.len() == bands
            && self.tops.iter().all(|top| *top <= 9_999)
            && self.tops.windows(2).all(|pair| pair[0] < pair[1])
            && self.rates.iter().all(|rate| *rate <= 10_000);
        let figure = figure(self.muf).filter(|_| described).ok_or(15u32)?;
        let reaching = (0..bands).rev().filter(|k| self.tops[*k] >= figure);
        let band = reaching.last().ok_or(15u32)?;
        if !(1..=86_400).contains(&self.seconds) {
            return Err(16);
        }
        let due = self.rates[band] * self.seconds;
        let near = due / 60;
        Ok((near.saturating_sub(1)..=near + 1)
            .find(|c| 60 * c >= due)
            .unwrap())
    }
}

fn spoil(r: &mut Random, numbers: &mut [u32], from: u32) {
    if !numbers.is_empty() {
        let at = r.below(numbers.len());
        numbers[at] = if r.once_in(2) {
            from
        } else {
            r.word().max(from)
        };
    }
}

/// The tenths of the figure that Rust prints with one decimal in five places,
/// if it is a number from 0.0 to 999.9; a zero has no minus.
fn figure(muf: f32) -> Option<u32> {
    let text = format!("{:.1}", f64::from(muf));
    let text = if text == "-0.0" { "0.0" } else { &text };
    let digits = text.strip_suffix(|c: char| c.is_ascii_digit())?;
    let whole: u32 = digits.strip_suffix('.')?.parse().ok()?;
    let tenth = text.bytes().last()? - b'0';
    (text.len() <= 5).then_some(whole * 10 + u32::from(tenth))
}
