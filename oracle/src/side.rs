// One build's functions over words: compiled twice, under the modules as they
// stand and under the routed ones.

use super::ionogram::Ionogram;
use super::ionosphere::{EsParams, LayerParams};
use super::muf::{IonoState, LayerMuf, MufHour};
use super::{ionogram, muf, noted, sigdis};
use crate::owner;
use crate::marks::Shapes;
use crate::words::*;

/// The deciles as `f2d` has them.
pub type Deciles = [[[f32; 16]; 6]; 6];

fn table(words: &[u32]) -> [[f32; 3]; 5] {
    std::array::from_fn(|k| std::array::from_fn(|i| f32::from_bits(words[3 * k + i])))
}

/// The state that the words stand for.
pub fn state_of(w: &[u32]) -> IonoState {
    let profile = |at: usize| std::array::from_fn(|i| f32::from_bits(w[at + i]));
    let mut s = IonoState {
        fi: table(&w[FI..]),
        yi: table(&w[YI..]),
        hi: table(&w[HI..]),
        km: w[KM] as usize,
        kfx: w[KFX] as usize,
        htr: profile(HTR),
        fnsq: profile(FNSQ),
        numerics: Default::default(),
        htr_rises: w[RISES] != 0,
        fsecv: std::array::from_fn(|k| f32::from_bits(w[FSECV + k])),
        iedp: w[IEDP] as i32,
        ielect: w[IELECT] != 0,
    };
    s.numerics.exact_virtual_height = w[EXACT] != 0;
    s
}

/// The state, its mark set to what the rising test says: the Rust reads the
/// stored mark, ours never does.
pub fn marked_state(w: &State) -> IonoState {
    let mut s = state_of(w);
    s.htr_rises = rises(w);
    s
}

/// The state's words after a call on `marked_state` that makes `k` the owner:
/// where a profile was supplied, the stored mark is as it came.
fn unmarked_words(s: &IonoState, before: &State, k: usize) -> State {
    let mut w = state_words(s, owner::left(before, owner::of_slot(k)));
    if s.ielect {
        w[RISES] = u32::from(before[RISES] != 0);
    }
    w
}

/// A state's words, and the owner's, which the Rust's state has not.
fn state_words(s: &IonoState, owner: u32) -> State {
    let mut w = [0; STATE];
    for k in 0..5 {
        for i in 0..3 {
            w[FI + 3 * k + i] = s.fi[k][i].to_bits();
            w[YI + 3 * k + i] = s.yi[k][i].to_bits();
            w[HI + 3 * k + i] = s.hi[k][i].to_bits();
        }
    }
    for i in 0..50 {
        w[HTR + i] = s.htr[i].to_bits();
        w[FNSQ + i] = s.fnsq[i].to_bits();
    }
    for k in 0..3 {
        w[FSECV + k] = s.fsecv[k].to_bits();
    }
    w[KM] = s.km as u32;
    w[KFX] = s.kfx as u32;
    w[RISES] = u32::from(s.htr_rises);
    w[IEDP] = s.iedp as u32;
    w[IELECT] = u32::from(s.ielect);
    w[OWNER] = owner;
    w[EXACT] = u32::from(s.numerics.exact_virtual_height);
    w
}

/// A point's layers; what `from_layers` doesn't read is zero.
pub fn point_of(w: &[u32]) -> LayerParams {
    let three = |at: usize| std::array::from_fn(|i| f32::from_bits(w[at + i]));
    LayerParams {
        fi: three(0),
        yi: three(3),
        hi: three(6),
        f2m3: 0.0,
        hpf2: 0.0,
        rat: 0.0,
        abiy: 0.0,
        clck: 0.0,
        zenang: 0.0,
        zenmax: 0.0,
    }
}

pub fn es_of(w: &[u32]) -> Vec<EsParams> {
    w.chunks_exact(ES_ROW)
        .map(|r| EsParams {
            fs: std::array::from_fn(|i| f32::from_bits(r[i])),
            hs: f32::from_bits(r[3]),
        })
        .collect()
}

/// Writes the rows back; words past the last whole row stay.
pub fn put_es(rows: &[EsParams], w: &mut [u32]) {
    for (e, r) in rows.iter().zip(w.chunks_exact_mut(ES_ROW)) {
        for i in 0..3 {
            r[i] = e.fs[i].to_bits();
        }
        r[3] = e.hs.to_bits();
    }
}

pub fn deciles_of(w: &[u32]) -> Deciles {
    let at = |a: usize, b: usize, c: usize| f32::from_bits(w[(a * 6 + b) * 16 + c]);
    std::array::from_fn(|a| std::array::from_fn(|b| std::array::from_fn(|c| at(a, b, c))))
}

pub fn layer_of(w: &[u32]) -> LayerMuf {
    let x = |i: usize| f32::from_bits(w[i]);
    LayerMuf {
        sigl: x(0),
        sigu: x(1),
        delmuf: x(2),
        hpmuf: x(3),
        htmuf: x(4),
        fvmuf: x(5),
        afmuf: x(6),
        nhopmf: w[HOPS] as i32,
        yfot: x(8),
        ymuf: x(9),
        yhpf: x(10),
    }
}

pub fn layers_of(w: &[u32]) -> [LayerMuf; 4] {
    std::array::from_fn(|i| layer_of(&w[LAYER * i..]))
}

pub fn layer_words(l: &LayerMuf) -> [u32; LAYER] {
    [
        l.sigl.to_bits(),
        l.sigu.to_bits(),
        l.delmuf.to_bits(),
        l.hpmuf.to_bits(),
        l.htmuf.to_bits(),
        l.fvmuf.to_bits(),
        l.afmuf.to_bits(),
        l.nhopmf as u32,
        l.yfot.to_bits(),
        l.ymuf.to_bits(),
        l.yhpf.to_bits(),
    ]
}

pub fn hour_words(h: &MufHour) -> Vec<u32> {
    let mut w = bits(&[
        h.emuf, h.f1muf, h.f2muf, h.esmuf, h.allmuf, h.fot, h.hpf, h.angmuf,
    ]);
    w.push(h.modmuf as u32);
    w.push(h.ks as u32);
    for l in &h.layers {
        w.extend(layer_words(l));
    }
    w
}

pub fn rows_of(w: &[u32]) -> Ionogram {
    let thirty = |at: usize| std::array::from_fn(|i| f32::from_bits(w[at + i]));
    Ionogram {
        fvert: thirty(0),
        hprim: thirty(30),
        htrue: thirty(60),
        afac: thirty(90),
    }
}

/// The four columns of numbers, then the segments.
pub fn row_words(ion: &Ionogram, segments: &[u32]) -> Vec<u32> {
    let mut words: Vec<u32> = [ion.fvert, ion.hprim, ion.htrue, ion.afac]
        .iter()
        .flat_map(|c| bits(c))
        .collect();
    words.extend(segments);
    words
}

pub fn from_layers(points: &[u32]) -> State {
    let points: Vec<LayerParams> = points.chunks_exact(POINT).map(point_of).collect();
    state_words(&IonoState::from_layers(&points), owner::NOBODY)
}

pub fn ionset(state: &State) -> State {
    let mut s = state_of(state);
    muf::ionset(&mut s);
    state_words(&s, owner::left(state, owner::NOBODY))
}

pub fn lecden(state: &State, k: usize) -> State {
    let mut s = state_of(state);
    muf::lecden(&mut s, k);
    state_words(&s, owner::left(state, owner::of_slot(k)))
}

/// Both heights and the segment of the true one, under a rising mark of the
/// caller's choice.
pub fn gethp(state: &State, fxx: f32, rises: bool) -> [u32; 3] {
    let mut s = state_of(state);
    s.htr_rises = rises;
    let (hp, ht) = muf::gethp(&s, fxx);
    [hp.to_bits(), ht.to_bits(), noted::last_found()]
}

/// The density at a height as `gethp` has it by scans, and its segment: the
/// first under its floor test, else what the scan answers.
pub fn reading(state: &State, zi: f32) -> [u32; 2] {
    let s = state_of(state);
    if zi - s.htr[0] <= 0.0 {
        return [s.fnsq[0].to_bits(), 0];
    }
    let density = muf::reach::profile_interpolate(&s.htr, &s.fnsq, zi);
    [density.to_bits(), noted::last_tried()]
}

/// The same by the walk on a rising profile, the cursor at its start: where it
/// stops is the segment.
pub fn walked(state: &State, zi: f32) -> [u32; 2] {
    let s = state_of(state);
    if zi - s.htr[0] <= 0.0 {
        return [s.fnsq[0].to_bits(), 0];
    }
    let mut ih = 0;
    let density = muf::reach::rising_interpolate(&s.htr, &s.fnsq, zi, &mut ih);
    [density.to_bits(), ih as u32]
}

pub fn bendy(state: &State, i: usize, k: usize, f: f32) -> u32 {
    muf::bendy(&state_of(state), i, k, f).to_bits()
}

pub fn pen(state: &State, i: usize, k: usize, f: f32) -> u32 {
    muf::pen(&state_of(state), i, k, f).to_bits()
}

/// The number, and its segment.
pub fn xlin(x: f32, xn: &[f32; 50], yn: &[f32; 50]) -> [u32; 2] {
    [sigdis::xlin(x, xn, yn).to_bits(), noted::last_found()]
}

/// numbers: fmuf, ssn, clat, freq, abb.
pub fn f2dis(deciles: &[u32], n: &[u32]) -> u32 {
    let n = numbers(n);
    muf::f2dis(&deciles_of(deciles), n[0], n[1], n[2], n[3], n[4]).to_bits()
}

/// The state and the Es words after, and the hour.
pub fn curmuf(state: &State, call: &Hour) -> (State, Vec<u32>, Vec<u32>) {
    let mut s = marked_state(state);
    let mut es = es_of(&call.es);
    let n = numbers(&call.numbers);
    let hour = muf::curmuf(
        &mut s,
        &mut es,
        &deciles_of(&call.deciles),
        &numbers(&call.clat),
        &numbers(&call.clck),
        n[0],
        n[1],
        n[2],
        n[3],
    );
    let mut rows = call.es.clone();
    put_es(&es, &mut rows);
    (unmarked_words(&s, state, hour.ks), rows, hour_words(&hour))
}

/// The hour of as many points as there are.
pub fn nommuf(call: &Nominal) -> Vec<u32> {
    let km = call.points.len() / POINT;
    let (points, es) = (numbers(&call.points), numbers(&call.es));
    let (mut fi, mut fs) = ([[0.0; 3]; 5], [[0.0; 3]; 5]);
    let (mut f2m3, mut hs) = ([0.0; 5], [0.0; 5]);
    for k in 0..km {
        fi[k].copy_from_slice(&points[POINT * k..POINT * k + 3]);
        fs[k].copy_from_slice(&es[ES_ROW * k..ES_ROW * k + 3]);
        hs[k] = es[ES_ROW * k + 3];
        f2m3[k] = f32::from_bits(call.f2m3[k]);
    }
    let n = numbers(&call.numbers);
    hour_words(&muf::nommuf(&fi, &f2m3, &fs, &hs, km, n[0], n[1]))
}

pub fn sang(gcdkm: f32, amind: f32) -> u32 {
    ionogram::sang(gcdkm, amind) as u32
}

pub fn selmod(state: &State) -> u32 {
    ionogram::selmod(&state_of(state)) as u32
}

pub fn genion(state: &State, k: usize) -> Vec<u32> {
    let ion = ionogram::genion(&marked_state(state), k);
    row_words(&ion, &noted::last_rows())
}

/// The cells of `nang` angles.
pub fn fobby(rows: &[u32], nang: usize) -> Vec<u32> {
    ionogram::fobby(&rows_of(rows), nang)
        .iter()
        .flatten()
        .map(|c| *c as u32)
        .collect()
}

pub fn alosfv(state: &State, k: usize, rows: &[u32], layers: &[u32]) -> Vec<u32> {
    let mut ion = rows_of(rows);
    ionogram::alosfv(&state_of(state), k, &mut ion, &layers_of(layers));
    row_words(&ion, &rows[SEGMENT..ROWS])
}

/// The shapes that `lecden` has at slot k's heights, with the densities; none
/// where it makes no profile.
pub fn shapes(state: &State, k: usize) -> Vec<(Shapes, f32)> {
    noted::take_shapes();
    let mut s = state_of(state);
    muf::lecden(&mut s, k);
    noted::take_shapes().into_iter().zip(s.fnsq).collect()
}

/// The marks of slot k's heights; of no shape where there is no profile.
pub fn marks(state: &State, k: usize) -> Vec<u32> {
    let shapes = shapes(state, k);
    if shapes.is_empty() {
        return vec![0; MARKS];
    }
    shapes.iter().map(|(s, density)| s.mark(*density)).collect()
}

/// `lecden`, `genion`, `fobby`, `alosfv` in turn: state, rows, cells.
pub fn sheet(state: &State, k: usize, nang: usize, layers: &[u32]) -> (State, Vec<u32>, Vec<u32>) {
    let mut s = marked_state(state);
    muf::lecden(&mut s, k);
    let mut ion = ionogram::genion(&s, k);
    let segments = noted::last_rows();
    let cells = ionogram::fobby(&ion, nang);
    ionogram::alosfv(&s, k, &mut ion, &layers_of(layers));
    let cells = cells.iter().flatten().map(|c| *c as u32).collect();
    (
        unmarked_words(&s, state, k),
        row_words(&ion, &segments),
        cells,
    )
}
