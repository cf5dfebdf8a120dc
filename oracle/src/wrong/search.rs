//! The search for hours that tell wrong edits from the right Rust: random hours,
//! hours changed in a few words, and hours at the edge of a comparison, found by
//! halving.

use super::{hours, made, noting, seeds, silent, with, Noted, COUNT};
use crate::circuit::{Circuit, POINT};
use crate::random::Random;
use crate::{files, float, programs};
use std::cmp::Reverse;
use std::collections::HashSet;

/// What the right Rust prints of a file.
pub fn right(file: &[u8]) -> String {
    made::programs::sheet(file)
}

/// The edited modules with none chosen are the routed ones.
pub fn sound(file: &[u8]) -> bool {
    right(file) == programs::sheet(file)
}

/// What an edit makes of a sheet.
#[derive(Clone, Copy, PartialEq, Eq, Debug)]
pub enum Shown {
    Told,
    Nothing,
    /// It panics or doesn't end, which no proved program does.
    Halts,
}

pub fn shown(file: &[u8], edit: usize, right: &str) -> Shown {
    match with(edit, || made::programs::sheet(file)) {
        None => Shown::Halts,
        Some(text) if text == right => Shown::Nothing,
        Some(_) => Shown::Told,
    }
}

/// An edit that was tried so often in vain is tried on now and then only,
const PATIENCE: u32 = 40;

/// but for none, those about a place, or all.
#[derive(Clone, Copy)]
pub enum Patience {
    None,
    About(usize),
    All,
}
const NEAR: usize = 60;

pub struct Search {
    pub told: Vec<bool>,
    /// How often an edit made a difference where it stands, and told nothing; how
    /// often of these it halted.
    pub tried: Vec<u32>,
    pub halted: Vec<u32>,
    /// Whether, of those often tried, it shows in answers that are not printed.
    unprinted: Vec<bool>,
    silent: Vec<bool>,
    /// Hours each of which tells an edit that those before it don't.
    pub kept: Vec<Vec<u8>>,
    /// Circuits in which some edit made a difference for the first time.
    pool: Vec<Circuit>,
    random: Random,
}

impl Search {
    pub fn new(seed: u64) -> Self {
        Search {
            told: vec![false; COUNT + 1],
            tried: vec![0; COUNT + 1],
            halted: vec![0; COUNT + 1],
            unprinted: vec![false; COUNT + 1],
            silent: (0..=COUNT)
                .map(|e| e > 0 && silent::why(e).is_some())
                .collect(),
            kept: Vec::new(),
            pool: Vec::new(),
            random: Random::new(seed),
        }
    }

    pub fn count(&self) -> usize {
        self.told.iter().filter(|t| **t).count()
    }

    fn open(&mut self, edit: usize, patience: Patience) -> bool {
        let tried = self.tried[edit];
        let halts = self.halted[edit] == tried;
        let near = match patience {
            Patience::None => false,
            Patience::About(place) => edit.abs_diff(place) < NEAR,
            Patience::All => true,
        };
        let patient = near && !halts && !self.unprinted[edit] || tried < PATIENCE;
        !self.told[edit] && (patient || self.random.once_in(tried as usize))
    }

    /// Tries an hour on the edits that it may tell and that none told before.
    pub fn hour(&mut self, file: &[u8], patience: Patience) -> Noted<String> {
        let noted = noting(|| right(file));
        let (mut new, mut first) = (false, false);
        for &edit in &noted.differing {
            first |= !self.told[edit] && self.tried[edit] == 0;
            if self.silent[edit] || !self.open(edit, patience) {
                continue;
            }
            match shown(file, edit, &noted.answer) {
                Shown::Told => {
                    self.told[edit] = true;
                    new = true;
                }
                shown => {
                    self.tried[edit] += 1;
                    self.halted[edit] += u32::from(shown == Shown::Halts);
                    if self.tried[edit] == PATIENCE {
                        self.unprinted[edit] = unprinted(file, edit);
                    }
                }
            }
        }
        if new {
            self.kept.push(file.to_vec());
        }
        if new || first {
            self.pool.extend(crate::circuit::read(file).map(|(c, _)| c));
        }
        noted
    }

    /// The circuits to search on from.
    pub fn seed(&mut self) {
        for circuit in seeds::circuits() {
            self.hour(&circuit.written(), Patience::All);
            self.pool.push(circuit);
        }
    }

    /// Random hours.
    fn draw(&mut self, hours: u64) {
        for _ in 0..hours {
            let file = files::any_hour(&mut self.random);
            if file.len() <= hours::MOST[0] {
                self.hour(&file, Patience::None);
            }
        }
    }

    /// A part of each kind of search.
    pub fn round(&mut self) {
        self.draw(50);
        self.change(300);
        self.edges(60);
    }

    /// Hours of the pool changed in a few words.
    fn change(&mut self, hours: u64) {
        for _ in 0..hours {
            let mut circuit = self.some();
            for _ in 0..1 + self.random.below(4) {
                changed(&mut self.random, &mut circuit);
            }
            self.hour(&circuit.written(), Patience::None);
        }
    }

    fn some(&mut self) -> Circuit {
        // the newest as often as all others
        let n = self.pool.len();
        let from = if self.random.once_in(2) {
            n - n.min(40)
        } else {
            0
        };
        let at = from + self.random.below(n - from);
        let mut circuit = self.pool[at].clone();
        if self.random.once_in(2) {
            circuit.points.truncate(1);
            circuit.km = 1;
        }
        circuit.deciles.fill(0);
        if self.random.once_in(8) {
            circuit.deciles[0] = r_one();
        }
        circuit
    }

    /// Every byte of record 0, of a point and of the first and last decile record
    /// set, next indices about the number of records, and lengths about the least
    /// and the greatest.
    pub fn bytes(&mut self) {
        let mut circuit = files::hour_circuit(&mut Random::new(3));
        circuit.points.truncate(1);
        circuit.km = 1;
        circuit.deciles.fill(r_one());
        let long = circuit.written();
        circuit.deciles.fill(0);
        let short = circuit.written();
        for file in [&short, &long] {
            for at in (0..128).chain(file.len() - 64..file.len()) {
                for to in [0, 1, 2, 3, 5, 6, file[at] + 1, (file.len() / 64) as u8] {
                    let mut other = file.clone();
                    other[at] = to;
                    self.hour(&other, Patience::All);
                }
            }
            for length in [0, 1, 64, 127, 129, 192, 4032, 4095, 4096, 4097, 4160] {
                let mut other = file.clone();
                other.resize(length, 0);
                self.hour(&other, Patience::All);
            }
            // a record more, on the chain or back to its beginning, or one less
            let last = file.len() - 64;
            for next in [file.len() / 64, 1, file.len() / 64 - 1] {
                let mut other = [&file[..], &file[last..]].concat();
                other[last + 2] = next as u8;
                self.hour(&other, Patience::All);
                other.truncate(file.len() - 64);
                other[last - 62] = 0;
                self.hour(&other, Patience::All);
            }
        }
    }

    /// Hours at the edge of a comparison: one word is moved between two values
    /// that differ in how often the comparison is made or holds.
    fn edges(&mut self, tries: u64) {
        for _ in 0..tries {
            let mut low = self.some();
            if self.random.once_in(2) {
                changed(&mut self.random, &mut low);
            }
            let at = self.random.below(words(&low));
            let mut high = low.clone();
            *word(&mut high, at) = other(&mut self.random, *word(&mut low, at));
            let (a, b) = (self.note(&low), self.note(&high));
            let places = differing(&a, &b);
            if places.is_empty() {
                continue;
            }
            let place = self.wanted(&places);
            self.halve(low, high, at, place);
        }
    }

    fn note(&mut self, circuit: &Circuit) -> Noted<String> {
        noting(|| right(&circuit.written()))
    }

    /// Of some places one with an edit that none told.
    fn wanted(&mut self, places: &[usize]) -> usize {
        let open: Vec<usize> = places
            .iter()
            .copied()
            .filter(|&p| {
                p == 0 || (p.saturating_sub(12)..(p + 4).min(COUNT)).any(|e| !self.told[e])
            })
            .collect();
        let of = if open.is_empty() { places } else { &open };
        of[self.random.below(of.len())]
    }

    fn halve(&mut self, mut low: Circuit, mut high: Circuit, at: usize, place: usize) {
        let rank = |c: &mut Circuit| float::rank(f32::from_bits(*word(c, at)));
        let goal = measure(&self.note(&low), place);
        let (mut a, mut b) = (rank(&mut low), rank(&mut high));
        while (a - b).abs() > 1 {
            let middle = (a + b) / 2;
            let mut between = low.clone();
            *word(&mut between, at) = float::at_rank(middle).to_bits();
            if measure(&self.note(&between), place) == goal {
                (low, a) = (between, middle);
            } else {
                (high, b) = (between, middle);
            }
        }
        self.hour(&low.written(), Patience::About(place));
        self.hour(&high.written(), Patience::About(place));
    }
}

/// A decile number above zero.
fn r_one() -> u32 {
    1.0f32.to_bits()
}

/// How often a comparison is made and holds; at place 0 what the sheet is, a refusal or not.
fn measure(noted: &Noted<String>, place: usize) -> u64 {
    if place > 0 {
        return u64::from(noted.held[place]);
    }
    let number = noted.answer.strip_prefix("refused ");
    number.map_or(0, |n| n.trim_end().parse().unwrap())
}

fn differing(a: &Noted<String>, b: &Noted<String>) -> Vec<usize> {
    (0..=COUNT)
        .filter(|&p| measure(a, p) != measure(b, p))
        .collect()
}

/// The numbers of a circuit that are moved: those of record 0 and of the points.
fn words(circuit: &Circuit) -> usize {
    4 + POINT * circuit.points.len()
}

fn word(circuit: &mut Circuit, at: usize) -> &mut u32 {
    match at.checked_sub(4) {
        None => &mut circuit.numbers[at],
        Some(i) => &mut circuit.points[i / POINT][i % POINT],
    }
}

/// Another value for a word that is no NaN.
fn other(r: &mut Random, bits: u32) -> u32 {
    let x = f32::from_bits(bits);
    let new = match r.below(6) {
        0 => x * r.between(0.0, 2.0),
        1 => x + r.between(-1.0, 1.0),
        2 => r.between(0.0, 20.0),
        3 => r.between(0.0, 500.0),
        4 => -x,
        _ => r.wild(),
    };
    if new.is_nan() {
        0
    } else {
        new.to_bits()
    }
}

/// Changes a circuit in one place.
fn changed(r: &mut Random, circuit: &mut Circuit) {
    let at = r.below(words(circuit));
    let old = f32::from_bits(*word(circuit, at));
    let from = r.below(words(circuit));
    let new = match r.below(15) {
        0 => old * r.between(0.5, 1.5),
        1 => r.beside(old, 3),
        2 => f32::from_bits(*word(circuit, from)),
        3 => r.edge(),
        4 => r.wild(),
        5 => r.pick(&[0.0, -0.0, f32::NAN, f32::INFINITY, f32::NEG_INFINITY]),
        6 => {
            // beside another number of the circuit, by what layers are held to
            let step = r.pick(&[0.2, 2.0, 0.01, 0.001, 0.1, 1.0, 0.00001, -0.2]);
            f32::from_bits(*word(circuit, from)) + step
        }
        7 => return path(r, circuit),
        8 => return scaled(r, circuit),
        9 => {
            circuit.shape ^= 1;
            return;
        }
        10 => return points(r, circuit),
        11 => old + r.between(-1.0, 1.0),
        12 => old.round(),
        13 => {
            circuit.deciles[0] ^= r_one();
            return;
        }
        _ => r.tabled(0.0, 20.0),
    };
    *word(circuit, at) = new.to_bits();
}

/// A path of any length, under a least angle up to the steepest.
fn path(r: &mut Random, circuit: &mut Circuit) {
    let gcdkm = match r.below(3) {
        0 => r.between(0.0, 40100.0),
        1 => r.between(0.0, 4000.0),
        _ => r.tabled(0.0, 100.0),
    };
    let gcd = if r.once_in(2) {
        gcdkm / 6370.0
    } else {
        r.between(0.0, 6.3)
    };
    circuit.numbers[0] = gcd.to_bits();
    circuit.numbers[1] = gcdkm.to_bits();
    let steepest = r.pick(&[5.0, 30.0, 89.9]);
    circuit.numbers[2] = r.between(0.0, steepest).to_bits();
}

/// The frequencies, or the thicknesses and heights, of a point times a number.
fn scaled(r: &mut Random, circuit: &mut Circuit) {
    let k = r.below(circuit.points.len());
    let by = r.pick(&[0.01, 0.1, 0.5, 2.0, 100.0, 1e-10, 1e10, -1.0]);
    let part = if r.once_in(2) { 0..3 } else { 3..9 };
    for w in &mut circuit.points[k][part] {
        *w = (f32::from_bits(*w) * by).to_bits();
    }
}

/// One point more or less, or one like another.
fn points(r: &mut Random, circuit: &mut Circuit) {
    let km = circuit.points.len();
    let (to, from) = (r.below(km), r.below(km));
    let point = circuit.points[from];
    match r.below(3) {
        0 if km < 5 => circuit.points.push(point),
        1 if km > 1 => {
            circuit.points.remove(to);
        }
        _ => circuit.points[to] = point,
    }
    circuit.km = circuit.points.len() as u32;
}

/// Whether an edit changes a word of the circuit MUF's answer or of the reflectrix,
/// printed or not.
pub fn unprinted(file: &[u8], edit: usize) -> bool {
    let right = answers(file);
    with(edit, || answers(file)).is_some_and(|words| words != right)
}

fn answers(file: &[u8]) -> Vec<u32> {
    use crate::words::{KFX, KS};
    let Ok((circuit, _)) = made::circuit::read(file) else {
        return Vec::new();
    };
    let (state, call) = (
        made::programs::slots(&circuit),
        made::programs::hour(&circuit),
    );
    if made::predict::curmuf(&state, &call).is_err() {
        return Vec::new();
    }
    let (_, mut all, hour) = made::side::curmuf(&state, &call);
    for k in 0..state[KFX] as usize {
        all.extend(made::side::sheet(&state, k, 40, &hour[KS + 1..]).2);
    }
    all.extend(hour);
    for word in &mut all {
        if float::is_nan(*word) {
            *word = float::NAN;
        }
    }
    all
}

/// Of some hours the fewest that tell as much, by taking again and again the one
/// that tells most of what is left, and of those that tell as many the shortest.
pub fn fewest(files: &[Vec<u8>]) -> Vec<Vec<u8>> {
    let (most, others) = needed(files);
    let mut told = told_by(&most, &HashSet::new());
    let with_told = |f: Vec<u8>| (told_by(&f, &told), f);
    let mut left: Vec<(HashSet<usize>, Vec<u8>)> = others.into_iter().map(with_told).collect();
    let mut chosen = vec![most];
    loop {
        for (more, _) in &mut left {
            more.retain(|e| !told.contains(e));
        }
        let worth = |(more, file): &(HashSet<usize>, Vec<u8>)| (more.len(), Reverse(file.len()));
        let best = (0..left.len()).max_by_key(|i| worth(&left[*i]));
        match best.map(|i| left.swap_remove(i)) {
            Some((more, file)) if !more.is_empty() => {
                told.extend(more);
                chosen.push(file);
            }
            _ => return chosen,
        }
    }
}

/// Of some hours those that tell something which none before them does, if the
/// short ones come first and of these the last: the one that tells most, and the
/// others.
fn needed(files: &[Vec<u8>]) -> (Vec<u8>, Vec<Vec<u8>>) {
    let mut order: Vec<&Vec<u8>> = files.iter().rev().collect();
    order.sort_by_key(|f| f.len() > LONG);
    let mut search = Search::new(1);
    let mut kept: Vec<(usize, Vec<u8>)> = Vec::new();
    for file in order {
        let before = search.count();
        search.hour(file, Patience::All);
        let new = search.count() - before;
        if new > 0 {
            kept.push((new, file.clone()));
        }
    }
    kept.sort_by_key(|(new, _)| Reverse(*new));
    let mut kept = kept.into_iter().map(|(_, file)| file);
    (kept.next().expect("an hour"), kept.collect())
}

/// Files longer than this have deciles.
const LONG: usize = 1000;

/// The edits that an hour tells, of those that are wanted.
fn told_by(file: &[u8], known: &HashSet<usize>) -> HashSet<usize> {
    let noted = noting(|| right(file));
    let tells = |e: &usize| !known.contains(e) && shown(file, *e, &noted.answer) == Shown::Told;
    noted.differing.into_iter().filter(tells).collect()
}
