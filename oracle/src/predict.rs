//! The paper's refusals, cursor and kinds of readings, worked out without our
//! code.

use crate::routed::muf::reach;
use crate::routed::side;
use crate::routing;
use crate::words::*;

/// Slot and layer numbers: 0 to 2.
pub fn slot(numbers: &[u32]) -> Result<(), u32> {
    if numbers.iter().all(|n| *n <= 2) {
        Ok(())
    } else {
        Err(6)
    }
}

/// Reflectrix cells.
pub fn cells(nang: u32, lent: usize) -> Result<(), u32> {
    if nang <= 40 && lent >= CELLS * nang as usize {
        Ok(())
    } else {
        Err(8)
    }
}

/// `sang`'s distance.
pub fn sang(gcdkm: f32) -> Result<(), u32> {
    if (gcdkm / 2000.0 + 1.0) as i32 >= 1 {
        Ok(())
    } else {
        Err(7)
    }
}

/// The domain of the MUF.
fn domain(numbers: &[u32]) -> Result<(), u32> {
    let n = crate::words::numbers(numbers);
    let (gcd, gcdkm, amind) = (n[0], n[1], n[2]);
    let within = (0.0..=40100.0).contains(&gcdkm) && (0.0..=6.3).contains(&gcd);
    // NaN amind counts as 0, so is not too steep.
    let too_steep = amind > 90.0;
    if within && !too_steep {
        Ok(())
    } else {
        Err(9)
    }
}

/// The nominal MUF's: 5, also where the F2M3s are not as many as the points,
/// then 9.
pub fn nommuf(call: &Nominal) -> Result<(), u32> {
    let whole = call.points.len() % POINT == 0;
    let points = call.points.len() / POINT;
    if !whole || !(1..=5).contains(&points) || call.f2m3.len() != points {
        return Err(5);
    }
    // amind is no argument of it: one that passes.
    domain(&[&call.numbers[..2], &[0]].concat())
}

fn decile_count(deciles: &[u32]) -> Result<(), u32> {
    if deciles.len() == DECILES {
        Ok(())
    } else {
        Err(10)
    }
}

fn time_block(deciles: &[u32], clck: u32) -> Result<(), u32> {
    let none = f32::from_bits(deciles[0]) <= 0.0;
    let block = (f32::from_bits(clck) / 4.0 + 1.55) as i32;
    if none || block >= 1 {
        Ok(())
    } else {
        Err(12)
    }
}

/// `f2dis`, whose last number is the local time.
pub fn f2dis(deciles: &[u32], numbers: &[u32]) -> Result<(), u32> {
    decile_count(deciles)?;
    time_block(deciles, numbers[4])
}

fn hops(counts: &[i32]) -> Result<(), u32> {
    if counts.iter().all(|n| (0..=999).contains(n)) {
        Ok(())
    } else {
        Err(11)
    }
}

/// The controlling slot and the hop counts of the routed Rust, run with lists
/// that it can't trip over.
fn controlling(state: &State, call: &Hour) -> (usize, Vec<i32>) {
    let safe = Hour {
        deciles: vec![0; DECILES],
        clat: vec![0; 3],
        clck: vec![0; 3],
        ..call.clone()
    };
    routing::take_hops();
    let (_, _, hour) = side::curmuf(state, &safe);
    (hour[KS] as usize, routing::take_hops())
}

/// The hop counts of a circuit MUF, before their plus one: E, F2, F1 if there
/// is one, Es by point.
pub fn hop_counts(state: &State, call: &Hour) -> Vec<i32> {
    controlling(state, call).1
}

/// The slot that a circuit MUF picks: none where it is refused 9, or 10 for
/// its deciles.
pub fn picks(state: &State, call: &Hour) -> Option<usize> {
    let picks = domain(&call.numbers).and_then(|()| decile_count(&call.deciles));
    picks.ok().map(|()| controlling(state, call).0)
}

/// The circuit MUF's, in the paper's order: 9, 10, E hops, F2 hops, deciles,
/// F1 hops, Es hops by point.
pub fn curmuf(state: &State, call: &Hour) -> Result<(), u32> {
    domain(&call.numbers)?;
    decile_count(&call.deciles)?;
    let (slot, counts) = controlling(state, call);
    let (_, Some(clck)) = call.clat.get(slot).zip(call.clck.get(slot)).unzip() else {
        return Err(10);
    };
    hops(&counts[..2])?;
    time_block(&call.deciles, *clck)?;
    hops(&counts[2..])
}

/// The cursor that the walk hands up: how many of the upper 49 heights are at
/// or below the height of the last read; 0 where no walk ran, as where the
/// exact rule did.
pub fn cursor(state: &State, fxx: f32) -> u32 {
    let (htr, fnsq) = (heights(state), densities(state));
    let fr = fxx * fxx;
    if fr - fnsq[0] <= 0.0 || !rises(state) {
        return 0;
    }
    let ht = reach::profile_interpolate(&fnsq, &htr, fr) - htr[0];
    if state[EXACT] != 0 && ht > 0.0 {
        return 0;
    }
    // The last node read, on the side that is higher up.
    let node = reach::NODES[19];
    let part = if ht >= 0.0 { 1.0 - node } else { 1.0 + node };
    let read = ht * (1.0 - 0.5 * part) + htr[0];
    htr[1..].iter().filter(|h| **h <= read).count() as u32
}

/// The kind of a density read, 0 floor, 1 on a segment, 2 top, and its
/// segment. Floor, whose segment is 0, is the first test's answer; top, whose
/// segment is 49, is where no segment holds the read.
pub fn kind(state: &State, zi: f32) -> (u32, u32) {
    let htr = heights(state);
    if zi - htr[0] <= 0.0 {
        return (0, 0);
    }
    match htr.windows(2).position(|h| holds(h[0], h[1], zi)) {
        Some(n) => (1, n as u32),
        None => (2, 49),
    }
}

/// Whether the segment between two heights holds the read. A rising one holds
/// all that is under its upper end, whether or not that is over its lower one;
/// a falling one what is from its first height down to over its second; two
/// equal heights only the read that meets them. The signs are those of the
/// differences: two equal infinities have none.
fn holds(first: f32, second: f32, zi: f32) -> bool {
    use std::cmp::Ordering::{Equal, Greater, Less};
    let sign = |a: f32, b: f32| (a - b).partial_cmp(&0.0);
    let (from_first, from_second) = (sign(first, zi), sign(zi, second));
    match sign(first, second) {
        Some(Less) => !matches!(from_first, Some(Less | Equal)) || from_second == Some(Less),
        Some(Equal) => from_first == Some(Equal),
        // falling, or without a sign
        _ => matches!(from_first, Some(Greater | Equal)) && from_second == Some(Greater),
    }
}
