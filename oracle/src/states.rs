//! States and arguments: realistic, at the edges, and adversarial. None of
//! them is made by a function of ours.

use crate::float;
use crate::random::Random;
use crate::routed::side;
use crate::words::*;

/// A point's fi, yi, hi as a month's maps give them.
pub fn point(r: &mut Random) -> [f32; POINT] {
    let e = r.tabled(0.4, 4.5);
    let (ye, he) = if r.once_in(4) {
        (r.tabled(5.0, 40.0), r.tabled(95.0, 130.0))
    } else {
        (20.0, 110.0)
    };
    let [f1, y1, h1] = f1_layer(r, e);
    let f2 = r.tabled(1.2, 17.0);
    let h2 = r.tabled(200.0, 480.0);
    let y2 = h2 / r.between(2.5, 7.0);
    [e, f1, f2, ye, y1, y2, he, h1, h2]
}

/// None, one close above E, or a plain one.
fn f1_layer(r: &mut Random, e: f32) -> [f32; 3] {
    let h = r.tabled(150.0, 240.0);
    match r.below(5) {
        0 | 1 => [0.0; 3],
        2 => [e + r.tabled(0.0, 0.5), h / 4.0, h],
        _ => [r.tabled(2.5, 7.0), r.tabled(15.0, 70.0), h],
    }
}

/// One to five points' words; now and then with wild numbers.
pub fn points(r: &mut Random) -> Vec<u32> {
    let count = 1 + r.below(5);
    let mut w: Vec<u32> = (0..count).flat_map(|_| bits(&point(r))).collect();
    match r.below(6) {
        0 | 1 => spoil(r, &mut w),
        2 => put_zeros(r, &mut w, 3),
        _ => {}
    }
    w
}

/// Puts wild numbers into a few words.
pub fn spoil(r: &mut Random, w: &mut [u32]) {
    for _ in 0..1 + r.below(4) {
        let at = r.below(w.len());
        w[at] = r.wild().to_bits();
    }
}

/// Slots as the Rust leaves them, of realistic points; no profile yet.
pub fn slots(r: &mut Random) -> State {
    let count = 1 + r.below(5);
    slots_of(r, count)
}

/// So of this many points.
pub fn slots_of(r: &mut Random, count: usize) -> State {
    let points: Vec<u32> = (0..count).flat_map(|_| bits(&point(r))).collect();
    let mut state = side::ionset(&side::from_layers(&points));
    state[IEDP] = r.pick(&[-1i32, -1, 0]) as u32;
    state
}

/// As an hour has it: slots, then the profile of one of them.
pub fn realistic(r: &mut Random) -> State {
    let state = slots(r);
    let k = r.below(state[KFX] as usize);
    side::lecden(&state, k)
}

/// Either zero.
fn zero(r: &mut Random) -> f32 {
    r.pick(&[0.0, -0.0])
}

/// Zeros of both signs in place of one word in n.
pub fn put_zeros(r: &mut Random, w: &mut [u32], n: usize) {
    for word in w {
        if r.once_in(n) {
            *word = zero(r).to_bits();
        }
    }
}

/// A state full of zeros of both signs: layer numbers, densities, a height
/// where the heights still rise, or all heights.
pub fn zeros(r: &mut Random) -> State {
    let mut state = if r.once_in(4) { slots(r) } else { realistic(r) };
    let n = 1 + r.below(4);
    put_zeros(r, &mut state[FI..FI + 45], 2 * n);
    put_zeros(r, &mut state[FSECV..FSECV + 3], 2);
    match r.below(4) {
        0 => {}
        1 => put_zeros(r, &mut state[HTR..HTR + 50], n),
        _ => zero_height(r, &mut state),
    }
    put_zeros(r, &mut state[FNSQ..FNSQ + 50], n);
    state[IELECT] = r.below(2) as u32;
    state[RISES] = r.below(2) as u32;
    state
}

/// All heights moved so that one of them is a zero; some rise, some fall.
fn zero_height(r: &mut Random, state: &mut State) {
    let at = r.below(50);
    let mut h = if r.once_in(2) {
        heights(state)
    } else {
        even(r)
    };
    let moved = h[at];
    h = h.map(|x| x - moved);
    h[at] = zero(r);
    if r.once_in(4) {
        h.reverse();
    }
    state[HTR..HTR + 50].copy_from_slice(&bits(&h));
}

/// A state of any class, the switch of the exact height rule on or off.
pub fn any(r: &mut Random) -> State {
    let state = of_any_class(r);
    let on = r.once_in(2);
    switched(r, state, on)
}

/// The state with the switch of the exact height rule so: any word but 0 is on.
pub fn switched(r: &mut Random, mut state: State, on: bool) -> State {
    state[EXACT] = if on {
        r.pick(&[1, 1, 1, 7, u32::MAX])
    } else {
        0
    };
    state
}

fn of_any_class(r: &mut Random) -> State {
    let mut state = match r.below(10) {
        0 => wild(r),
        1 | 2 => slots(r),
        3 | 4 => return zeros(r),
        _ => realistic(r),
    };
    if r.once_in(2) {
        spoil_slots(r, &mut state);
    }
    if r.once_in(3) {
        supply_profile(r, &mut state);
    }
    if r.once_in(3) {
        spoil_rest(r, &mut state);
    }
    state
}

/// Every number wild.
fn wild(r: &mut Random) -> State {
    let mut state = [0; STATE];
    for i in (0..STATE).filter(|i| state_floats(*i)) {
        state[i] = r.wild().to_bits();
    }
    state[KM] = 1 + r.below(5) as u32;
    state[KFX] = 1 + r.below(3) as u32;
    state[IEDP] = r.pick(&[-1i32, 0]) as u32;
    state[OWNER] = r.below(6) as u32;
    state
}

/// Wild layer numbers, thicknesses of zero, equal heights and frequencies.
fn spoil_slots(r: &mut Random, state: &mut State) {
    for _ in 0..1 + r.below(5) {
        let at = r.below(45);
        state[at] = match r.below(4) {
            0 => state[r.below(45)],
            1 => r.pick(&[0, 1 << 31]),
            2 => beside(r, state[at]),
            _ => r.wild().to_bits(),
        };
    }
}

fn beside(r: &mut Random, word: u32) -> u32 {
    r.beside(f32::from_bits(word), 2).to_bits()
}

/// Anything in km, kfx, the marks, `iedp`, the owner and `fsecv`.
fn spoil_rest(r: &mut Random, state: &mut State) {
    let counts = [0, 1, 2, 3, 4, 5, 6, 255, 1 << 31, u32::MAX];
    if r.once_in(4) {
        state[KM] = r.pick(&counts);
    }
    if r.once_in(4) {
        state[KFX] = r.pick(&counts);
    }
    state[RISES] = r.pick(&[0, 1, 1, 7, u32::MAX]);
    state[IEDP] = r.pick(&[-1, -1, 0, 0, 1, i32::MIN, i32::MAX]) as u32;
    state[IELECT] = r.pick(&[0, 0, 0, 1, 9]);
    state[OWNER] = r.pick(&[0, 1, 2, 3, 4, 5, 255, u32::MAX]);
    for k in 0..3 {
        state[FSECV + k] = r.wild().to_bits();
    }
}

/// A profile that no `lecden` made; the stored mark may be wrong.
pub fn supply_profile(r: &mut Random, state: &mut State) {
    let heights = heights_of(r);
    let densities = densities_of(r, &heights);
    for i in 0..50 {
        state[HTR + i] = heights[i].to_bits();
        state[FNSQ + i] = densities[i].to_bits();
    }
    state[RISES] = r.below(2) as u32;
    state[IELECT] = r.below(2) as u32;
}

/// Fifty heights: rising in every way, or in disorder.
pub fn heights_of(r: &mut Random) -> [f32; 50] {
    let mut h = match r.below(8) {
        0..=2 => even(r),
        3 | 4 => by_rank(r),
        5 => sorted(r),
        6 => [(); 50].map(|_| r.wild()),
        _ => [r.wild(); 50],
    };
    match r.below(8) {
        0 => disorder(r, &mut h),
        1 => h.reverse(),
        2 => h[0] = f32::NEG_INFINITY,
        3 => h[49] = f32::INFINITY,
        _ => {}
    }
    h
}

/// Steps of about one size, at any scale.
fn even(r: &mut Random) -> [f32; 50] {
    let scale = r.pick(&[1.0, 1.0, 1.0, 0.001, 1e-30, 1e30]);
    let mut at = r.between(-50.0, 120.0);
    let step = r.between(0.5, 12.0);
    [(); 50].map(|_| {
        at += step * r.between(0.1, 1.0);
        at * scale
    })
}

/// Steps of so many numbers: by single ones, or over the whole range.
fn by_rank(r: &mut Random) -> [f32; 50] {
    let most = r.pick(&[1, 3, 300, 300_000, 80_000_000]);
    let first = r.pick(&[
        -25,
        0,
        0x428c_0000,
        float::LOWEST,
        float::HIGHEST - 55,
        -0x3f80_0000,
    ]);
    let mut rank: i64 = first;
    // Heights that rise have one zero at most.
    let left_out = float::rank(zero(r));
    [(); 50].map(|_| {
        rank += 1 + r.below(most) as i64;
        rank += i64::from(rank == left_out);
        float::at_rank(rank)
    })
}

/// Wild numbers in order, equal ones among them.
fn sorted(r: &mut Random) -> [f32; 50] {
    let mut h = [(); 50].map(|_| r.wild());
    for x in h.iter_mut().filter(|x| x.is_nan()) {
        *x = 0.0;
    }
    h.sort_by(f32::total_cmp);
    h
}

/// Two exchanged, one repeated, or one made wild.
fn disorder(r: &mut Random, h: &mut [f32; 50]) {
    for _ in 0..1 + r.below(3) {
        let (i, j) = (r.below(50), r.below(50));
        match r.below(3) {
            0 => h.swap(i, j),
            1 => h[i] = h[(i + 1) % 50],
            _ => h[i] = r.wild(),
        }
    }
}

/// Squared frequencies: a layer's curve, rising, falling, level or wild.
fn densities_of(r: &mut Random, heights: &[f32; 50]) -> [f32; 50] {
    let top = r.between(1.0, 200.0);
    let mut d: [f32; 50] = match r.below(6) {
        0 | 1 => std::array::from_fn(|i| top * (1.0 - ((49 - i) as f32 / 50.0).powi(2))),
        2 => heights_of(r),
        3 => [(); 50].map(|_| r.between(0.0, top)),
        4 => std::array::from_fn(|i| (heights[i] - heights[0]) * 0.1),
        _ => [(); 50].map(|_| r.wild()),
    };
    match r.below(6) {
        0 | 1 => disorder(r, &mut d),
        2 => gap(r, &mut d),
        _ => {}
    }
    d
}

/// A NaN, which the search passes over, then a slow rise: there it may answer
/// below the lowest height.
fn gap(r: &mut Random, d: &mut [f32; 50]) {
    let i = if r.once_in(2) { 1 } else { 1 + r.below(12) };
    d[i] = f32::NAN;
    d[i + 2] = d[i + 1] * r.between(1.0, 1.2);
}

/// A frequency to read heights at: of the profile, beside it, or any.
pub fn frequency(r: &mut Random, state: &State) -> f32 {
    let root = |i: usize| f32::from_bits(state[FNSQ + i]).abs().sqrt();
    let some = root(r.below(50));
    match r.below(8) {
        0 => some,
        1 => r.beside(some, 2),
        2 => some * r.between(0.5, 1.5),
        3 => r.wild(),
        4 => root(0) * r.between(1.0, 1.3),
        5 => zero(r),
        _ => r.between(0.0, 18.0),
    }
}

/// A height to read the density at: at a node, beside one, between two, or
/// any.
pub fn height(r: &mut Random, state: &State) -> f32 {
    let h = heights(state);
    let at = r.below(49);
    match r.below(9) {
        0 | 1 => h[at],
        2 => r.beside(h[at], 2),
        3 | 4 => h[at] + (h[at + 1] - h[at]) * r.between(0.0, 1.0),
        5 => r.pick(&[h[0], h[49], h[48]]),
        6 => r.wild(),
        7 => zero(r),
        _ => r.between(60.0, 500.0),
    }
}

/// Neighbouring heights made alike, to fall, infinite or no numbers.
pub fn bend_heights(r: &mut Random, state: &mut State) {
    let mut h = heights(state);
    for _ in 0..1 + r.below(4) {
        let at = r.below(49);
        match r.below(6) {
            0 | 1 => h[at + 1] = h[at],
            2 => h.swap(at, at + 1),
            3 => h[at..].reverse(),
            4 => h[at] = r.pick(&[f32::INFINITY, f32::NEG_INFINITY]),
            _ => h[at] = f32::NAN,
        }
    }
    state[HTR..HTR + 50].copy_from_slice(&bits(&h));
}

/// A path of plausible numbers: gcd, gcdkm, amind, ssn.
pub fn path(r: &mut Random) -> [f32; 4] {
    let gcdkm = r.tabled(50.0, 20000.0);
    let amind = r.pick(&[0.1, 3.0, 1.0, 5.0, 0.0]);
    [gcdkm / 6370.0, gcdkm, amind, r.tabled(0.0, 180.0)]
}

/// A path at the edges of its domain, or outside it.
fn edge_path(r: &mut Random) -> [f32; 4] {
    let [mut gcd, mut gcdkm, mut amind, mut ssn] = path(r);
    if r.once_in(2) {
        let edge = r.pick(&[0.0, 2000.0, 40000.0, 40100.0, 1e-20, 6370.0]);
        gcdkm = r.beside(edge, 2);
    }
    if r.once_in(3) {
        let edge = r.pick(&[0.0, 6.3, std::f32::consts::PI, 1e-20]);
        gcd = r.beside(edge, 2);
    }
    if r.once_in(2) {
        let edge = r.pick(&[90.0, 0.0, 89.99, -5.0, f32::NAN, f32::NEG_INFINITY, 85.0]);
        amind = r.beside(edge, 2);
    }
    if r.once_in(2) {
        let edge = r.pick(&[50.0, 100.0, f32::NAN, -1.0]);
        ssn = r.beside(edge, 1);
    }
    let mut path = [gcd, gcdkm, amind, ssn];
    match r.below(8) {
        0 => path[r.below(4)] = r.wild(),
        1 => path[r.below(4)] = zero(r),
        _ => {}
    }
    path
}

/// A path inside its domain or about its edges.
pub fn any_path(r: &mut Random) -> [f32; 4] {
    if r.once_in(2) {
        path(r)
    } else {
        edge_path(r)
    }
}

/// An Es row: three of `fs`, then `hs`.
pub fn es_row(r: &mut Random) -> [f32; 4] {
    let median = r.tabled(0.5, 8.0);
    let row = [median * 0.6, median, median * 1.5, 110.0];
    match r.below(8) {
        0 => [zero(r), zero(r), zero(r), r.pick(&[110.0, 0.0, -0.0])],
        1 => [row[0], row[1], row[2], r.between(0.0005, 0.1)],
        2 => [row[0], row[1], row[2], r.between(60.0, 200.0)],
        3 => [r.wild(), r.wild(), r.wild(), r.wild()],
        4 => [row[0], r.pick(&[-1.0, -0.0, f32::NAN]), row[2], 110.0],
        _ => row,
    }
}

/// Factors about one, or none.
pub fn deciles(r: &mut Random) -> Vec<u32> {
    if r.once_in(4) {
        return vec![0; DECILES];
    }
    let mut d: Vec<u32> = (0..DECILES).map(|_| r.tabled(0.5, 1.6).to_bits()).collect();
    match r.below(8) {
        0 => d[0] = r.wild().to_bits(),
        1 => put_zeros(r, &mut d[1..], 2),
        2 => d[0] = zero(r).to_bits(),
        _ => {}
    }
    d
}

/// A circuit MUF's arguments, all in their domains.
pub fn plain_hour(r: &mut Random, km: usize) -> Hour {
    let row = |r: &mut Random| {
        let median = r.tabled(0.5, 8.0);
        [median * 0.6, median, median * 1.5, 110.0]
    };
    Hour {
        es: (0..km).flat_map(|_| bits(&row(r))).collect(),
        deciles: deciles(r),
        clat: (0..km).map(|_| r.between(-1.4, 1.4).to_bits()).collect(),
        clck: (0..km).map(|_| r.tabled(0.0, 24.0).to_bits()).collect(),
        numbers: bits(&path(r)),
    }
}

/// A circuit MUF's arguments of every class.
pub fn hour(r: &mut Random) -> Hour {
    let rows = r.below(7);
    let mut es: Vec<u32> = (0..rows).flat_map(|_| bits(&es_row(r))).collect();
    if r.once_in(12) {
        es.extend((0..1 + r.below(3)).map(|_| 0x3f80_0000));
    }
    let mut deciles = deciles(r);
    if r.once_in(25) {
        deciles.resize(r.pick(&[0, 1, 575, 577, 600]), 0);
    }
    let (points, hours) = (list_length(r), list_length(r));
    Hour {
        es,
        deciles,
        clat: (0..points).map(|_| latitude(r).to_bits()).collect(),
        clck: (0..hours).map(|_| clock(r).to_bits()).collect(),
        numbers: bits(&any_path(r)),
    }
}

/// A nominal MUF's arguments of every class.
pub fn nominal(r: &mut Random) -> Nominal {
    let count = match r.below(12) {
        0 => r.pick(&[0, 6, 7]),
        _ => 1 + r.below(5),
    };
    let mut points: Vec<u32> = (0..count).flat_map(|_| bits(&point(r))).collect();
    if r.once_in(25) {
        points.truncate(points.len().saturating_sub(1 + r.below(8)));
    }
    let mut f2m3: Vec<u32> = (0..count).map(|_| factor(r).to_bits()).collect();
    if r.once_in(12) {
        f2m3.resize(r.below(8), 0);
    }
    let mut es: Vec<u32> = (0..count).flat_map(|_| bits(&es_row(r))).collect();
    if r.once_in(12) {
        es.extend((0..1 + r.below(3)).map(|_| 0x3f80_0000));
    }
    if r.once_in(3) {
        for list in [&mut points, &mut f2m3, &mut es] {
            if !list.is_empty() {
                spoil(r, list);
            }
        }
    }
    Nominal {
        points,
        f2m3,
        es,
        numbers: bits(&near_factors(r)),
    }
}

/// M(3000)F2, as the maps give it or not.
fn factor(r: &mut Random) -> f32 {
    match r.below(8) {
        0 => r.wild(),
        1 => r.pick(&[0.0, -0.0, 1.0]),
        _ => r.between(2.2, 4.2),
    }
}

/// A path, now and then where a distance factor changes: at 16 and 24
/// hundreds of miles.
fn near_factors(r: &mut Random) -> [f32; 2] {
    let [gcd, gcdkm, ..] = any_path(r);
    if r.once_in(8) {
        let edge = r.pick(&[2574.9553, 3862.4329]);
        let near = r.beside(edge, 8);
        return [near / 6370.0, near];
    }
    [gcd, gcdkm]
}

/// Mostly enough for every slot.
fn list_length(r: &mut Random) -> usize {
    if r.once_in(12) {
        r.below(3)
    } else {
        3 + r.below(3)
    }
}

pub fn latitude(r: &mut Random) -> f32 {
    match r.below(8) {
        0 => r.wild(),
        1 => r.pick(&[0.0, -0.0, 1.5707964, -1.5707964]),
        _ => r.between(-1.5, 1.5),
    }
}

/// A local time, or one at the edge of a time block.
pub fn clock(r: &mut Random) -> f32 {
    match r.below(8) {
        0 => r.wild(),
        1 => {
            let edges = [
                -6.2, -3.0, -2.2, 1.8, 5.8, 9.8, 13.8, 17.8, 21.8, 24.0, 25.8,
            ];
            let edge = r.pick(&edges);
            r.beside(edge, 2)
        }
        _ => r.tabled(0.0, 24.0),
    }
}

/// Numbers of `f2dis`: fmuf, ssn, clat, freq, abb.
pub fn spread(r: &mut Random) -> Vec<u32> {
    let fmuf = match r.below(6) {
        0 => r.wild(),
        1 => zero(r),
        _ => r.between(1.0, 40.0),
    };
    let ssn = if r.once_in(2) {
        let edge = r.pick(&[50.0, 100.0, f32::NAN]);
        r.beside(edge, 1)
    } else {
        r.between(0.0, 200.0)
    };
    let freq = match r.below(4) {
        0 => fmuf,
        1 => r.wild(),
        _ => fmuf * r.pick(&[0.9, 1.1]),
    };
    bits(&[fmuf, ssn, latitude(r), freq, clock(r)])
}

/// Four layer lines: those of an hour, about the same, and wild ones.
pub fn layers(r: &mut Random) -> Vec<u32> {
    let mut w = if r.once_in(3) {
        hour_layers(r)
    } else {
        plausible_layers(r)
    };
    match r.below(6) {
        0 | 1 => spoil(r, &mut w),
        2 => put_zeros(r, &mut w, 3),
        _ => {}
    }
    w
}

/// As the Rust's circuit MUF leaves them.
fn hour_layers(r: &mut Random) -> Vec<u32> {
    let state = slots(r);
    let call = plain_hour(r, state[KM] as usize);
    side::curmuf(&state, &call).2[KS + 1..].to_vec()
}

fn plausible_layers(r: &mut Random) -> Vec<u32> {
    let mut w = vec![0; LAYERS];
    for l in 0..4 {
        let ht = r.between(90.0, 350.0);
        let line = &mut w[LAYER * l..LAYER * (l + 1)];
        line[3] = (ht + r.between(0.0, 120.0)).to_bits();
        line[4] = ht.to_bits();
        line[HOPS] = r.below(5) as u32;
        for i in [0, 1, 2, 5, 6, 8, 9, 10] {
            line[i] = r.between(0.0, 30.0).to_bits();
        }
    }
    w
}

/// Thirty rows: as the Rust leaves them, or in disorder.
pub fn rows(r: &mut Random) -> Vec<u32> {
    let state = realistic(r);
    let mut w = side::genion(&state, r.below(3));
    match r.below(5) {
        0 => spoil(r, &mut w),
        1 => w.fill_with(|| r.wild().to_bits()),
        2 => bend_rows(r, &mut w),
        3 => put_zeros(r, &mut w, 3),
        _ => {}
    }
    w
}

/// Frequencies about the ends of i32 as kHz, heights about the Earth's centre
/// and its surface.
fn bend_rows(r: &mut Random, w: &mut [u32]) {
    for _ in 0..1 + r.below(6) {
        let fvert = r.pick(&[2147483.6, -2147483.6, 2147.4836, 1e-3, f32::NAN, -0.0]);
        let htrue = r.pick(&[-6370.0, -12740.0, 0.0, -0.0, 1.0, f32::INFINITY]);
        w[r.below(30)] = r.beside(fvert, 2).to_bits();
        w[TRUE + r.below(30)] = r.beside(htrue, 2).to_bits();
    }
}

/// A distance and least angle for `sang`.
pub fn scan(r: &mut Random) -> (f32, f32) {
    let gcdkm = match r.below(5) {
        0 => r.wild(),
        1 => {
            let edge = 2000.0 * (r.below(24) as f32 - 3.0);
            r.beside(edge, 2)
        }
        _ => r.between(0.0, 40100.0),
    };
    let amind = match r.below(5) {
        0 => r.wild(),
        1 => {
            let angle = r.pick(&super::voacap::ionogram::ANG);
            let less = r.pick(&[8.5, 10.0, 0.0]);
            r.beside(angle - less, 2)
        }
        _ => r.between(0.0, 95.0),
    };
    (gcdkm, amind)
}
