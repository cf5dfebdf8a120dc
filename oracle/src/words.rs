//! The layouts of words that cross the C boundary.

use crate::float;

/// A state: fi, yi, hi (15 each, point-major), km, kfx, htr 50, fnsq 50,
/// rises, fsecv 3, iedp, ielect, owner, the switch of the exact height rule.
pub const STATE: usize = 155;
pub const FI: usize = 0;
pub const YI: usize = 15;
pub const HI: usize = 30;
pub const KM: usize = 45;
pub const KFX: usize = 46;
pub const HTR: usize = 47;
pub const FNSQ: usize = 97;
pub const RISES: usize = 147;
pub const FSECV: usize = 148;
pub const IEDP: usize = 151;
pub const IELECT: usize = 152;
pub const OWNER: usize = 153;
pub const EXACT: usize = 154;

/// A point: fi, yi, hi.
pub const POINT: usize = 9;
/// An Es row: fs 3, hs.
pub const ES_ROW: usize = 4;
/// One layer's MUF line, the hop count at place 7.
pub const LAYER: usize = 11;
pub const HOPS: usize = 7;
/// The true height at the layer's MUF.
pub const HEIGHT: usize = 4;
/// Four layer lines.
pub const LAYERS: usize = 4 * LAYER;
/// An hour: eight numbers, modmuf, ks, four layer lines.
pub const HOUR: usize = 10 + LAYERS;
pub const MODMUF: usize = 8;
pub const KS: usize = 9;
/// Deciles, last index fastest.
pub const DECILES: usize = 576;
/// Thirty rows: fvert, hprim, htrue, afac, segment, one after the other.
pub const ROWS: usize = 150;
/// The marks of fifty heights.
pub const MARKS: usize = 50;
/// What a slot sheet answers: rows, then marks.
pub const SHEET: usize = ROWS + MARKS;
/// Where the true heights begin.
pub const TRUE: usize = 60;
/// Where the loss factors begin, and the segments, which are no floats.
pub const LOSSES: usize = 90;
pub const SEGMENT: usize = 120;
/// Reflectrix cells of one angle.
pub const CELLS: usize = 30;

pub type State = [u32; STATE];

/// A circuit MUF's arguments beside the state.
#[derive(Clone, Debug)]
pub struct Hour {
    pub es: Vec<u32>,
    pub deciles: Vec<u32>,
    pub clat: Vec<u32>,
    pub clck: Vec<u32>,
    /// gcd, gcdkm, amind, ssn.
    pub numbers: Vec<u32>,
}

/// A nominal MUF's arguments.
#[derive(Clone, Debug)]
pub struct Nominal {
    pub points: Vec<u32>,
    pub f2m3: Vec<u32>,
    pub es: Vec<u32>,
    /// gcd, gcdkm.
    pub numbers: Vec<u32>,
}

/// Which words of a layout are floats.
pub type Floats = fn(usize) -> bool;

pub fn state_floats(i: usize) -> bool {
    !matches!(i, KM | KFX | RISES | IEDP | IELECT | OWNER | EXACT)
}

pub fn layer_floats(i: usize) -> bool {
    i % LAYER != HOPS
}

pub fn hour_floats(i: usize) -> bool {
    i < MODMUF || i > KS && layer_floats(i - KS - 1)
}

pub fn row_floats(i: usize) -> bool {
    i < SEGMENT
}

pub fn all_floats(_: usize) -> bool {
    true
}

pub fn no_floats(_: usize) -> bool {
    false
}

/// The first place where two lists of words differ, or where one ends.
pub fn difference(a: &[u32], b: &[u32], floats: Floats) -> Option<usize> {
    let same = |i: usize| a[i] == b[i] || floats(i) && float::same(a[i], b[i]);
    let both = a.len().min(b.len());
    (0..both)
        .find(|&i| !same(i))
        .or((a.len() != b.len()).then_some(both))
}

/// The heights' part of a state.
pub fn heights(state: &State) -> [f32; 50] {
    std::array::from_fn(|i| f32::from_bits(state[HTR + i]))
}

/// The squared frequencies.
pub fn densities(state: &State) -> [f32; 50] {
    std::array::from_fn(|i| f32::from_bits(state[FNSQ + i]))
}

/// Whether the heights pass the test by which `lecden` sets its mark.
pub fn rises(state: &State) -> bool {
    let h = heights(state);
    (0..49).all(|i| h[i] < h[i + 1])
}

pub fn bits(numbers: &[f32]) -> Vec<u32> {
    numbers.iter().map(|x| x.to_bits()).collect()
}

pub fn numbers(words: &[u32]) -> Vec<f32> {
    words.iter().map(|w| f32::from_bits(*w)).collect()
}
