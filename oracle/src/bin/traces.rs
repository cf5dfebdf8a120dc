//! Two traces held against one another, and ionograms as traces, against a
//! map and f64 products: answer, lines, cells left.
//!
//! traces [CASES] [SEED]: 10^6 cases by default.

use oracle::random::Random;
use oracle::report::{argument, finish, hex, Tally, Verdict};
use oracle::routed::side;
use oracle::traces::{self, Trace, MOST};
use oracle::{ours, states, words};

/// What lent words hold before a call.
const MARK: u32 = 0xdead_beef;
const SIGNED: i64 = -0x5a5a_5a5a_5a5a;

fn main() {
    let (cases, seed) = (argument(1, 1_000_000), argument(2, 1));
    let verdicts = [
        compare("port_compare", cases, seed, lines_case),
        compare("port_trace", cases, seed, trace_case),
        ionograms(cases, seed),
    ];
    finish(&verdicts)
}

type Case = fn(&mut Random) -> (u32, Option<String>);

fn compare(name: &'static str, cases: u64, seed: u64, case: Case) -> Verdict {
    if !ours::all_built(&[name]) {
        return Verdict::NotMade;
    }
    let mut tally = Tally::new(name);
    let mut random = Random::new(seed);
    for _ in 0..cases {
        let (answer, differs) = case(&mut random);
        tally.case(answer, differs);
    }
    tally.done()
}

/// A height of any size.
fn height(r: &mut Random) -> u32 {
    match r.below(4) {
        0 => r.word(),
        1 => r.pick(&[0, 1, u32::MAX - 1, u32::MAX]),
        _ => r.below(8000) as u32,
    }
}

/// Rising kHz, some of them, often those of another trace, up to both ends of u32.
fn trace(r: &mut Random, other: &[u32]) -> Trace {
    let count = match r.below(16) {
        0 => 0,
        1 => MOST - r.below(2),
        2 => r.below(MOST + 1),
        _ => r.below(40),
    };
    let (low, span) = match r.below(4) {
        0 => (0, 1 + r.below(2000)),
        1 => (u32::MAX as usize - 2000, 2001),
        2 => (0, 1 << 32),
        _ => (1000, 12000),
    };
    let mut khz: Vec<u32> = (0..count).map(|_| (low + r.below(span)) as u32).collect();
    for k in &mut khz {
        if !other.is_empty() && r.once_in(2) {
            *k = r.pick(other);
        }
    }
    khz.sort_unstable();
    khz.dedup();
    let height = khz.iter().map(|_| height(r)).collect();
    Trace { khz, height }
}

/// Now and then what is no trace: two equal kHz, two in the wrong order, one
/// list longer, or too many rows.
fn spoil(r: &mut Random, t: &mut Trace) {
    let n = t.khz.len();
    match r.below(60) {
        0 if n > 1 => {
            let i = r.below(n - 1);
            t.khz[i] = t.khz[i + 1];
        }
        1 if n > 1 => {
            let i = r.below(n - 1);
            t.khz.swap(i, i + 1);
        }
        2 => t.height.push(0),
        3 if n > 0 => {
            t.height.pop();
        }
        4 => {
            let rows = MOST + 1 + r.below(3);
            t.khz = (0..rows as u32).map(|k| 7 * k).collect();
            t.height = vec![1; rows];
        }
        _ => {}
    }
}

/// Lists lent: as many cells as there are rows, fewer or more.
fn room(r: &mut Random, rows: usize) -> usize {
    match r.below(50) {
        0 => rows.saturating_sub(1),
        1 => r.below(rows + 1),
        2..=24 => rows + r.below(20),
        _ => rows,
    }
}

/// Calls ours on two traces; what is wanted, and what differs.
fn held(first: &Trace, second: &Trace, rooms: [usize; 4]) -> (u32, Option<String>) {
    let [a, b, c, d] = rooms;
    let (mut khz, mut which) = (vec![MARK; a], vec![MARK; b]);
    let (mut difference, mut out) = (vec![SIGNED; c], vec![MARK; d]);
    let (mut khz_wanted, mut which_wanted) = (khz.clone(), which.clone());
    let (mut difference_wanted, mut out_wanted) = (difference.clone(), out.clone());
    let wanted = if d < 1 {
        Err(1)
    } else {
        traces::lines(first, second, a.min(b).min(c))
    };
    if let Ok(lines) = &wanted {
        out_wanted[0] = lines.len() as u32;
        for (i, (k, w, e)) in lines.iter().enumerate() {
            khz_wanted[i] = *k;
            which_wanted[i] = *w;
            difference_wanted[i] = *e;
        }
    }
    let number = wanted.err().unwrap_or(0);
    let answer = ours::port_compare(
        &first.khz,
        &first.height,
        &second.khz,
        &second.height,
        &mut khz,
        &mut which,
        &mut difference,
        &mut out,
    );
    let differs = if answer != number {
        Some(format!("answer {answer}, not {number}"))
    } else if khz != khz_wanted {
        Some("kHz".into())
    } else if which != which_wanted {
        Some("which".into())
    } else if difference != difference_wanted {
        Some("differences".into())
    } else if out != out_wanted {
        Some("count".into())
    } else {
        None
    };
    let shown = |what| format!("{what}\n    rooms {rooms:?}, {first:?}, {second:?}");
    (number, differs.map(shown))
}

fn lines_case(r: &mut Random) -> (u32, Option<String>) {
    let mut first = trace(r, &[]);
    let mut second = trace(r, &first.khz);
    spoil(r, &mut first);
    spoil(r, &mut second);
    let rows = first.khz.len() + second.khz.len();
    let rooms = [
        room(r, rows),
        room(r, rows),
        room(r, rows),
        usize::from(!r.once_in(40)) * (1 + r.below(3)),
    ];
    held(&first, &second, rooms)
}

/// Rows of an hour, wild ones, and some whose products lie about a half, about
/// the ends of u32 and about zero.
fn trace_case(r: &mut Random) -> (u32, Option<String>) {
    let mut rows = states::rows(r);
    if r.once_in(2) {
        rising(r, &mut rows);
    }
    let used = match r.below(30) {
        0 => r.below(60),
        1 => 60,
        _ => rows.len(),
    };
    rows.truncate(used);
    let lent = |r: &mut Random| match r.below(30) {
        0 => r.below(30),
        1 => 30 + r.below(9),
        _ => 30,
    };
    let mut khz = vec![MARK; lent(r)];
    let mut height = vec![MARK; lent(r)];
    let (mut khz_wanted, mut height_wanted) = (khz.clone(), height.clone());
    let wanted = if used < 60 || khz.len() < 30 || height.len() < 30 {
        Err(1)
    } else {
        traces::of_rows(&rows)
    };
    if let Ok(t) = &wanted {
        khz_wanted[..30].copy_from_slice(&t.khz);
        height_wanted[..30].copy_from_slice(&t.height);
    }
    let number = wanted.err().unwrap_or(0);
    let answer = ours::port_trace(&rows, &mut khz, &mut height);
    let differs = if answer != number {
        Some(format!("answer {answer}, not {number}"))
    } else {
        words::difference(&khz, &khz_wanted, words::no_floats)
            .map(|i| format!("kHz {i}"))
            .or(words::difference(&height, &height_wanted, words::no_floats)
                .map(|i| format!("height {i}")))
    };
    let shown = |what| format!("{what}\n    rows {}", hex(&rows));
    (number, differs.map(shown))
}

/// Rising frequencies and plausible heights, now and then at an edge.
fn rising(r: &mut Random, rows: &mut [u32]) {
    let step = r.pick(&[0.0005, 0.001, 0.01, 0.5, 143165.0]);
    for i in 0..30 {
        let fvert = step * (i as f32 + r.pick(&[0.0, 0.5, 0.25]));
        rows[i] = r.beside(fvert, 1).to_bits();
        rows[30 + i] = r.between(60.0, 900.0).to_bits();
    }
    if r.once_in(3) {
        let edge = r.pick(&[-0.0, 4294967.5, 4294967.0, -1e-40, 1e-40, 0.0005, f32::NAN]);
        rows[r.pick(&[0, 29])] = r.beside(edge, 1).to_bits();
    }
    if r.once_in(3) {
        let edge = r.pick(&[-0.0, 0.05, 0.25, 429496729.6, f32::INFINITY, -1e-40]);
        rows[30 + r.below(30)] = r.beside(edge, 1).to_bits();
    }
}

/// Two slots of realistic hours against one another: how many ionograms stand
/// as traces, and the lines of those pairs that do.
fn ionograms(cases: u64, seed: u64) -> Verdict {
    if !ours::all_built(&["port_compare", "port_trace"]) {
        return Verdict::NotMade;
    }
    ours::warn_of_stand_ins();
    let mut tally = Tally::new("ionograms of realistic hours");
    let mut random = Random::new(seed);
    let (mut fit, mut shared, mut lines) = (0u64, 0u64, 0u64);
    let mut no_number = 0u64;
    for _ in 0..cases {
        let mut read = || {
            let state = states::realistic(&mut random);
            let k = random.below(state[words::KFX] as usize);
            let rows = side::genion(&side::lecden(&state, k), k);
            let (mut khz, mut height) = (vec![0; 30], vec![0; 30]);
            let answer = ours::port_trace(&rows, &mut khz, &mut height);
            (answer, Trace { khz, height }, rows)
        };
        let pair = [read(), read()];
        let stray = pair
            .iter()
            .find(|(answer, _, rows)| traces::of_rows(rows).err().unwrap_or(0) != *answer);
        if let Some((answer, _, rows)) = stray {
            tally.case(0, Some(format!("answer {answer}\n    rows {}", hex(rows))));
            continue;
        }
        fit += pair.iter().filter(|(answer, _, _)| *answer == 0).count() as u64;
        no_number += pair.iter().filter(|(_, _, rows)| unsound(rows)).count() as u64;
        let [(a, first, _), (b, second, _)] = &pair;
        if *a != 0 || *b != 0 {
            tally.case(traces::REFUSED, None);
            continue;
        }
        let (number, differs) = held(first, second, [60; 4]);
        if let Ok(l) = traces::lines(first, second, 60) {
            lines += l.len() as u64;
            shared += l.iter().filter(|(_, which, _)| *which == 0).count() as u64;
        }
        tally.case(number, differs);
    }
    let verdict = tally.done();
    println!(
        "  {fit} of {} ionograms are fit, {no_number} have a number that is not finite or below zero; \
         the pairs have {lines} lines, {shared} of them in both",
        2 * cases
    );
    verdict
}

/// A frequency or virtual height that is not finite or is below zero.
fn unsound(rows: &[u32]) -> bool {
    let bad = |x: f32| !x.is_finite() || x < 0.0;
    rows[..60].iter().any(|w| bad(f32::from_bits(*w)))
}
