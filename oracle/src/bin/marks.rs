//! The marks of slots, by `port_sheet`, against those of the shapes that the
//! routed Rust's `lecden` worked out; and how many there were of each, of the
//! slots of each kind, and of densities that several shapes have.
//!
//! marks [CASES] [SEED]: 10^6 slots by default.

use oracle::marks;
use oracle::random::Random;
use oracle::report::{argument, finish, hex, Tally, Verdict};
use oracle::routed::side;
use oracle::words::*;
use oracle::{ours, states};

/// Marks by number, slots by `iedp` below zero or not, supplied or not.
#[derive(Default)]
struct Counts {
    marks: [u64; 7],
    slots: [[u64; 2]; 2],
    tied: u64,
}

fn case(r: &mut Random, counts: &mut Counts) -> Option<String> {
    let mut state = match r.below(3) {
        0 => states::slots(r),
        _ => states::any(r),
    };
    state[IEDP] = r.pick(&[-1i32, 0]) as u32;
    let k = r.below(3);
    let layers = [0; LAYERS];
    let wanted = side::marks(&state, k);
    let tied = |(s, density): &&(marks::Shapes, f32)| s.tied(*density);
    counts.tied += side::shapes(&state, k).iter().filter(tied).count() as u64;
    let (mut after, mut out) = (state, [0; SHEET]);
    let answer = ours::port_sheet(&mut after, k as u32, 0, &layers, &mut [], &mut out);
    let got = &out[ROWS..];
    for m in got {
        if let Some(n) = counts.marks.get_mut(*m as usize) {
            *n += 1;
        }
    }
    let shape = usize::from(state[IEDP] == 0);
    counts.slots[usize::from(state[IELECT] != 0)][shape] += 1;
    if answer != 0 {
        return Some(format!("answer {answer}, slot {k}\n    {}", hex(&state)));
    }
    difference(got, &wanted, no_floats).map(|i| {
        let (got, wanted) = (marks::name(got[i]), marks::name(wanted[i]));
        format!("height {}: {got}, not {wanted}, slot {k}\n    {}", i + 1, hex(&state))
    })
}

fn main() {
    if !ours::all_built(&["port_sheet"]) {
        finish(&[Verdict::NotMade]);
    }
    let mut tally = Tally::new("marks");
    let mut random = Random::new(argument(2, 1));
    let mut counts = Counts::default();
    for _ in 0..argument(1, 1_000_000) {
        tally.case(0, case(&mut random, &mut counts));
    }
    let verdict = tally.done();
    for (m, n) in counts.marks.iter().enumerate() {
        println!("  {}: {n}", marks::name(m as u32));
    }
    println!("  densities of several shapes: {}", counts.tied);
    let [own, supplied] = counts.slots;
    println!("  slots worked out: {} with iedp -1, {} with 0", own[0], own[1]);
    println!("  supplied: {} and {}", supplied[0], supplied[1]);
    finish(&[verdict])
}
