//! How far printed figures and prices jump, tried on our exports: figures of
//! MUFs that lie anywhere, near one another or next to one another, and prices
//! of one second more.
//!
//! jumps [CASES] [SEED]: 10^6 cases of each by default.

use oracle::ours;
use oracle::random::Random;
use oracle::report::{argument, finish, Tally, Verdict};

/// Numbers are taken as multiples of 2^-80.
const UNIT: i32 = -80;

fn main() {
    let (cases, seed) = (argument(1, 1_000_000), argument(2, 1));
    finish(&[figures(cases, seed), prices(cases, seed)])
}

fn figures(cases: u64, seed: u64) -> Verdict {
    if !ours::all_built(&["port_figure"]) {
        return Verdict::NotMade;
    }
    let mut tally = Tally::new("figures");
    let mut random = Random::new(seed);
    let mut reached = 0u64;
    for _ in 0..cases {
        let (v, w) = pair(&mut random);
        let (Some(a), Some(b)) = (tenths(v), tenths(w)) else {
            tally.case(0, None);
            continue;
        };
        let (Some(x), Some(y)) = (whole(v), whole(w)) else {
            tally.case(0, None);
            continue;
        };
        // the least whole d for which they differ by at most d tenths
        let one = 1i128 << -UNIT;
        let d = (10 * (x - y).abs() + one - 1) / one;
        let jump = i128::from(a.abs_diff(b));
        reached += u64::from(jump == d + 1);
        let turned = (x <= y && a > b) || (y <= x && b > a);
        let differs = jump > d + 1 || turned;
        tally.case(0, differs.then(|| format!("{v} and {w}, {d} tenths apart, print {a} and {b}")));
    }
    println!("  pairs that reach d + 1: {reached}");
    tally.done()
}

/// Two MUFs: beside one another, some tenths apart, or anywhere.
fn pair(r: &mut Random) -> (f32, f32) {
    let v = match r.below(6) {
        0 => -r.between(0.0, 0.05),
        1 => r.below(20_000) as f32 / 20.0,
        2 => r.between(990.0, 1000.0),
        3 => r.between(0.0, 1.0),
        _ => r.between(0.0, 1000.0),
    };
    let w = match r.below(4) {
        0 => f32::from_bits(v.to_bits().wrapping_add(1)),
        1 => v + r.below(40) as f32 / 20.0,
        2 => v + r.between(-1.0, 1.0),
        _ => r.between(0.0, 1000.0),
    };
    (v, w)
}

/// The tenths that our figure prints, if they are from 0.0 to 999.9.
fn tenths(v: f32) -> Option<u32> {
    let mut text = [0u8; 5];
    assert_eq!(ours::port_figure(v.to_bits(), &mut text), 0);
    let text = std::str::from_utf8(&text).unwrap().trim_start();
    let (whole, tenth) = text.split_once('.')?;
    let whole: u32 = whole.parse().ok()?;
    let tenth: u32 = tenth.parse().ok()?;
    Some(10 * whole + tenth)
}

/// The number in units of 2^-80, where it is a multiple of that.
fn whole(v: f32) -> Option<i128> {
    let bits = v.to_bits();
    let field = ((bits >> 23) & 0xff) as i32;
    let digits = i128::from(bits & 0x7f_ffff) + if field == 0 { 0 } else { 1 << 23 };
    let shift = field.max(1) - 150 - UNIT;
    let size = if shift >= 0 {
        digits << shift
    } else if digits == 0 {
        0
    } else {
        return None;
    };
    Some(if bits >> 31 == 0 { size } else { -size })
}

fn prices(cases: u64, seed: u64) -> Verdict {
    if !ours::all_built(&["port_price"]) {
        return Verdict::NotMade;
    }
    let mut tally = Tally::new("prices");
    let mut random = Random::new(seed);
    for _ in 0..cases {
        let rate = random.below(10_001) as u32;
        let seconds = 1 + random.below(86_399) as u32;
        let muf = random.between(0.0, 999.0).to_bits();
        let price = |seconds| {
            let mut out = [0u32];
            assert_eq!(ours::port_price(muf, &[9_999], &[rate], seconds, &mut out), 0);
            out[0]
        };
        let (less, more) = (price(seconds), price(seconds + 1));
        let most = less + rate.div_ceil(60);
        let differs = more < less || more > most;
        tally.case(0, differs.then(|| format!("rate {rate}, {seconds} s: {less}, then {more}")));
    }
    tally.done()
}
