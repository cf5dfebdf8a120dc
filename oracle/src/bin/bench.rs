//! Our exports beside the Rust's native build on the same realistic hours, in
//! one run: nanoseconds for each call and their ratio. A desk gives 1, 3 or 5
//! points, and their profiles rise, so that both sides walk; the others, of 2
//! or 4 points, whose last slot has no E layer, are timed apart: both scan.
//!
//! bench [HOURS] [SEED] [NAME..]: 300 hours of each kind and all names by
//! default; what reads heights by the exact rule too; and the program `sheet`
//! beside `native_sheet`, each a process of its own.

use oracle::ours;
use oracle::random::Random;
use oracle::report::argument;
use oracle::routed::side as routed;
use oracle::states;
use oracle::voacap::ionogram::{self, Ionogram};
use oracle::voacap::ionosphere::EsParams;
use oracle::voacap::muf::{self, IonoState, LayerMuf};
use oracle::voacap::side::{self as native, Deciles};
use oracle::words::*;
use std::cell::RefCell;
use std::fs::File;
use std::hint::black_box;
use std::path::{Path, PathBuf};
use std::process::{Command, Stdio};
use std::time::Instant;

/// One hour, as words for ours and as records for the Rust.
struct Hourly {
    words: State,
    state: IonoState,
    profile_words: State,
    profile: IonoState,
    call: Hour,
    es: Vec<EsParams>,
    deciles: Deciles,
    lists: [Vec<f32>; 3],
    slot: u32,
    layer_words: Vec<u32>,
    layers: [LayerMuf; 4],
    row_words: Vec<u32>,
    rows: Ionogram,
}

impl Hourly {
    fn new(r: &mut Random, points: &[usize], exact: bool) -> Self {
        let count = r.pick(points);
        let mut words = states::slots_of(r, count);
        words[IEDP] = -1i32 as u32;
        words[EXACT] = u32::from(exact);
        let call = states::plain_hour(r, words[KM] as usize);
        let (profile_words, _, hour) = routed::curmuf(&words, &call);
        let slot = hour[KS];
        let layer_words = hour[KS + 1..].to_vec();
        let row_words = routed::genion(&profile_words, slot as usize);
        Hourly {
            state: native::state_of(&words),
            profile: native::state_of(&profile_words),
            es: native::es_of(&call.es),
            deciles: native::deciles_of(&call.deciles),
            lists: [&call.clat, &call.clck, &call.numbers].map(|l| numbers(l)),
            layers: native::layers_of(&layer_words),
            rows: native::rows_of(&row_words),
            words,
            profile_words,
            call,
            slot,
            layer_words,
            row_words,
        }
    }
}

/// Angles of the reflectrix that is timed.
const ANGLES: usize = 34;

fn our_gethp(h: &Hourly) {
    for f in &h.rows.fvert {
        let mut out = [0; 4];
        ours::port_gethp(&h.profile_words, f.to_bits(), &mut out);
        black_box(out);
    }
}

fn rust_gethp(h: &Hourly) {
    for f in &h.rows.fvert {
        black_box(muf::gethp(black_box(&h.profile), *f));
    }
}

fn our_muf(h: &Hourly) {
    let (mut state, mut es) = (h.words, h.call.es.clone());
    let (c, mut out) = (&h.call, [0; HOUR]);
    ours::port_curmuf(
        &mut state, &mut es, &c.deciles, &c.clat, &c.clck, &c.numbers, &mut out,
    );
    black_box((state, es, out));
}

fn rust_muf(h: &Hourly) {
    let (mut state, mut es) = (h.state.clone(), h.es.clone());
    let [clat, clck, n] = &h.lists;
    let hour = muf::curmuf(
        &mut state, &mut es, &h.deciles, clat, clck, n[0], n[1], n[2], n[3],
    );
    black_box((state, es, hour));
}

thread_local! {
    /// Cells that a caller lends again at each call.
    static LENT: RefCell<[u32; CELLS * ANGLES]> = const { RefCell::new([0; CELLS * ANGLES]) };
}

fn our_sheet(h: &Hourly) {
    let mut state = h.words;
    let mut out = [0; SHEET];
    let nang = ANGLES as u32;
    LENT.with_borrow_mut(|cells| {
        ours::port_sheet(&mut state, h.slot, nang, &h.layer_words, cells, &mut out);
        black_box(cells);
    });
    black_box((state, out));
}

fn rust_sheet(h: &Hourly) {
    let mut state = h.state.clone();
    let k = h.slot as usize;
    muf::lecden(&mut state, k);
    let mut ion = ionogram::genion(&state, k);
    let cells = ionogram::fobby(&ion, ANGLES);
    ionogram::alosfv(&state, k, &mut ion, &h.layers);
    black_box((state, ion, cells));
}

fn our_lecden(h: &Hourly) {
    let mut state = h.words;
    ours::port_lecden(&mut state, h.slot);
    black_box(state);
}

fn rust_lecden(h: &Hourly) {
    let mut state = h.state.clone();
    muf::lecden(&mut state, h.slot as usize);
    black_box(state);
}

fn our_genion(h: &Hourly) {
    let mut out = [0; ROWS];
    ours::port_genion(&h.profile_words, h.slot, &mut out);
    black_box(out);
}

fn rust_genion(h: &Hourly) {
    black_box(ionogram::genion(black_box(&h.profile), h.slot as usize));
}

fn our_fobby(h: &Hourly) {
    LENT.with_borrow_mut(|cells| {
        ours::port_fobby(&h.row_words, ANGLES as u32, cells);
        black_box(cells);
    });
}

fn rust_fobby(h: &Hourly) {
    black_box(ionogram::fobby(black_box(&h.rows), ANGLES));
}

fn our_alosfv(h: &Hourly) {
    let mut rows = h.row_words.clone();
    ours::port_alosfv(&h.profile_words, h.slot, &mut rows, &h.layer_words);
    black_box(rows);
}

fn rust_alosfv(h: &Hourly) {
    let mut rows = h.rows;
    ionogram::alosfv(black_box(&h.profile), h.slot as usize, &mut rows, &h.layers);
    black_box(rows);
}

/// What is timed: our export, calls of it for each state, ours, the Rust's.
type Timed = (&'static str, usize, fn(&Hourly), fn(&Hourly));

const TIMED: [Timed; 7] = [
    ("port_gethp", 30, our_gethp, rust_gethp),
    ("port_curmuf", 1, our_muf, rust_muf),
    ("port_sheet", 1, our_sheet, rust_sheet),
    ("port_lecden", 1, our_lecden, rust_lecden),
    ("port_genion", 1, our_genion, rust_genion),
    ("port_fobby", 1, our_fobby, rust_fobby),
    ("port_alosfv", 1, our_alosfv, rust_alosfv),
];

/// Those that read heights, timed with the switch of the exact rule on too.
const READING: [&str; 4] = ["port_gethp", "port_curmuf", "port_sheet", "port_genion"];

const ROUNDS: usize = 60;

/// The calls that make up a slot sheet.
const PARTS: [&str; 4] = ["port_lecden", "port_genion", "port_fobby", "port_alosfv"];

/// Hours timed together: few, so that some round of them runs undisturbed.
const GROUP: usize = 10;

/// Nanoseconds for each call of ours and of the Rust's.
type Times = [f64; 2];

/// One round of one group; the best so far is kept.
fn round(hours: &[Hourly], (_, calls, ours, rust): Timed, best: &mut Times) {
    for (f, best) in [ours, rust].into_iter().zip(best) {
        let started = Instant::now();
        hours.iter().for_each(f);
        let each = started.elapsed().as_secs_f64() * 1e9 / (hours.len() * calls) as f64;
        *best = best.min(each);
    }
}

/// The groups' best rounds, on the average. All that is timed takes turns, so
/// that each meets the machine's quiet moments.
fn measure(hours: &[Hourly], timed: &[Timed]) -> Vec<Times> {
    let groups: Vec<&[Hourly]> = hours.chunks(GROUP).collect();
    let mut best = vec![vec![[f64::MAX; 2]; groups.len()]; timed.len()];
    for _ in 0..ROUNDS {
        for (timed, best) in timed.iter().zip(&mut best) {
            for (group, best) in groups.iter().zip(best) {
                round(group, *timed, best);
            }
        }
    }
    let mean = |b: &[Times], side: usize| b.iter().map(|t| t[side]).sum::<f64>() / b.len() as f64;
    best.iter().map(|b| [mean(b, 0), mean(b, 1)]).collect()
}

fn print_times(name: &str, [ours, rust]: Times) {
    let ratio = ours / rust;
    println!("{name}: ours {ours:.0} ns, the Rust {rust:.0} ns, ratio {ratio:.2}");
}

/// What each part takes of all four, in hundredths, ours and the Rust's.
fn print_shares(times: &[(&str, Times)]) {
    let parts = || times.iter().filter(|(name, _)| PARTS.contains(name));
    let sums = [0, 1].map(|side| parts().map(|(_, t)| t[side]).sum::<f64>());
    for (name, t) in parts() {
        let [ours, rust] = [0, 1].map(|side| 100.0 * t[side] / sums[side]);
        println!("of a sheet, {name}: ours {ours:.0} %, the Rust {rust:.0} %");
    }
}

/// Hours whose profile rises, or does not, of one of these numbers of points,
/// and how many were drawn.
struct Kind {
    name: &'static str,
    points: &'static [usize],
    rising: bool,
    exact: bool,
}

const KINDS: [Kind; 3] = [
    Kind {
        name: "rising profiles, by forty nodes",
        points: &[1, 3, 5],
        rising: true,
        exact: false,
    },
    Kind {
        name: "other profiles, by forty nodes",
        points: &[2, 4],
        rising: false,
        exact: false,
    },
    Kind {
        name: "rising profiles, by the exact rule",
        points: &[1, 3, 5],
        rising: true,
        exact: true,
    },
];

impl Kind {
    fn hours(&self) -> Vec<Hourly> {
        let mut random = Random::new(argument(2, 1));
        let wanted = argument(1, 300) as usize;
        let (mut kept, mut drawn) = (Vec::new(), 0);
        while kept.len() < wanted {
            let hour = Hourly::new(&mut random, self.points, self.exact);
            drawn += 1;
            if rises(&hour.profile_words) == self.rising {
                kept.push(hour);
            }
        }
        let (name, points) = (self.name, self.points);
        println!("{name}: {wanted} of {drawn} hours with {points:?} points");
        kept
    }
}

/// A program's time on the sample circuit, from its start to its end.
fn process(program: &Path) -> f64 {
    let sample = repository().join("crates/sheet/stdin");
    let input = File::open(sample).expect("the sample circuit");
    let started = Instant::now();
    let status = Command::new(program)
        .stdin(input)
        .stdout(Stdio::null())
        .status()
        .expect("the program runs");
    assert!(status.success());
    started.elapsed().as_secs_f64() * 1e9
}

fn repository() -> PathBuf {
    Path::new(env!("CARGO_MANIFEST_DIR")).join("..")
}

/// `sheet` on the sample circuit beside the Rust doing the same.
fn processes() {
    let beside = std::env::current_exe().expect("this program's path");
    let programs = [
        repository().join("target/bin/sheet"),
        beside.with_file_name("native_sheet"),
    ];
    if let Some(missing) = programs.iter().find(|p| !p.exists()) {
        println!("not timed: {} is not there", missing.display());
        return;
    }
    let mut best = [f64::MAX; 2];
    for _ in 0..10 * ROUNDS {
        for (program, best) in programs.iter().zip(&mut best) {
            *best = best.min(process(program));
        }
    }
    println!("whole processes, the sample circuit");
    print_times("sheet", best);
}

fn main() {
    let named: Vec<String> = std::env::args().skip(3).collect();
    let chosen = |name: &str| named.is_empty() || named.iter().any(|n| n == name);
    let timed: Vec<Timed> = TIMED
        .into_iter()
        .filter(|t| chosen(t.0) && ours::all_built(&[t.0]))
        .collect();
    let reading: Vec<Timed> = timed
        .iter()
        .filter(|t| READING.contains(&t.0))
        .copied()
        .collect();
    for kind in &KINDS {
        let timed = if kind.exact { &reading } else { &timed };
        if timed.is_empty() {
            continue;
        }
        let times = measure(&kind.hours(), timed);
        let times: Vec<(&str, Times)> = timed.iter().map(|t| t.0).zip(times).collect();
        for (name, times) in &times {
            print_times(name, *times);
        }
        if named.is_empty() && kind.rising && !kind.exact {
            print_shares(&times);
        }
    }
    if chosen("sheet") {
        processes();
    }
}
