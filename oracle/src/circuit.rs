//! A reader and a writer of circuit files, written from the paper.

/// Bytes of a record.
pub const RECORD: usize = 64;
/// Decile records of a chain that has any.
pub const DECILE_RECORDS: usize = 48;
/// Numbers in a point, in a decile record, and in all of these.
pub const POINT: usize = 15;
pub const TWELVE: usize = 12;
pub const DECILES: usize = 576;
/// Words of a circuit: km, shape, four numbers, five points, the deciles.
pub const WORDS: usize = 6 + 5 * POINT + DECILES;

/// A circuit, every number by its bits.
#[derive(Clone, Debug, PartialEq, Eq)]
pub struct Circuit {
    pub km: u32,
    pub shape: u32,
    /// gcd, gcdkm, amind, ssn.
    pub numbers: [u32; 4],
    /// fi, yi, hi, Es fs (three each), hs, clat, clck.
    pub points: Vec<[u32; POINT]>,
    pub deciles: Vec<u32>,
}

/// A record on the chain: its index, kind and next index.
#[derive(Clone, Copy, Debug, PartialEq, Eq)]
pub struct Step {
    pub record: usize,
    pub kind: u16,
    pub next: u16,
}

pub(crate) fn half(record: &[u8], at: usize) -> u16 {
    u16::from_le_bytes([record[at], record[at + 1]])
}

pub(crate) fn word(record: &[u8], at: usize) -> u32 {
    u32::from_le_bytes(record[at..at + 4].try_into().unwrap())
}

pub(crate) fn words<const N: usize>(record: &[u8], at: usize) -> [u32; N] {
    std::array::from_fn(|i| word(record, at + 4 * i))
}

pub(crate) fn zero(bytes: &[u8]) -> bool {
    bytes.iter().all(|b| *b == 0)
}

/// The circuit and its chain, or the refusal's number.
pub fn read(file: &[u8]) -> Result<(Circuit, Vec<Step>), u32> {
    if !file.len().is_multiple_of(RECORD) || !(128..=4096).contains(&file.len()) {
        return Err(1);
    }
    let records: Vec<&[u8]> = file.chunks_exact(RECORD).collect();
    let mut circuit = first_record(records[0]).ok_or(2u32)?;
    let mut chain = vec![step(&records, 0)];
    loop {
        let next = usize::from(chain.last().unwrap().next);
        if next == 0 {
            break;
        }
        if next >= records.len() || chain.iter().any(|s| s.record == next) {
            return Err(3);
        }
        circuit.take(records[next]).ok_or(4u32)?;
        chain.push(step(&records, next));
    }
    circuit.complete().ok_or(4u32)?;
    Ok((circuit, chain))
}

fn step(records: &[&[u8]], record: usize) -> Step {
    Step {
        record,
        kind: half(records[record], 0),
        next: half(records[record], 2),
    }
}

/// Record 0, if its kind, km, shape and zero bytes are right.
fn first_record(r: &[u8]) -> Option<Circuit> {
    let (km, shape) = (u32::from(r[4]), u32::from(r[5]));
    let right = half(r, 0) == 1
        && (1..=5).contains(&km)
        && shape <= 1
        && zero(&r[6..8])
        && zero(&r[24..64]);
    right.then(|| Circuit {
        km,
        shape,
        numbers: words(r, 8),
        points: Vec::new(),
        deciles: Vec::new(),
    })
}

impl Circuit {
    /// Takes the next record of the chain in, if it may stand there.
    fn take(&mut self, r: &[u8]) -> Option<()> {
        let kind = half(r, 0);
        if self.points.len() < self.km as usize {
            self.points.push((kind == 2).then(|| words(r, 4))?);
        } else {
            let fits = kind == 3 && zero(&r[52..64]) && self.deciles.len() < DECILES;
            self.deciles.extend(fits.then(|| words::<TWELVE>(r, 4))?);
        }
        Some(())
    }

    /// At the chain's end: all points, and no deciles or all.
    fn complete(&mut self) -> Option<()> {
        let points = self.points.len() == self.km as usize;
        let deciles = self.deciles.is_empty() || self.deciles.len() == DECILES;
        self.deciles.resize(DECILES, 0);
        (points && deciles).then_some(())
    }

    /// The file that the writer makes.
    pub fn written(&self) -> Vec<u8> {
        let decile_records = if zeros(&self.deciles) {
            0
        } else {
            DECILE_RECORDS
        };
        let last = self.points.len() + decile_records;
        let mut file = Vec::new();
        for n in 0..=last {
            let next = if n == last { 0 } else { n + 1 };
            file.extend(self.record(n, next));
        }
        file
    }

    /// The record at place `n` of the chain.
    pub fn record(&self, n: usize, next: usize) -> [u8; RECORD] {
        let km = self.points.len();
        let (kind, at, numbers): (u16, usize, &[u32]) = match n {
            0 => (1, 8, &self.numbers),
            _ if n <= km => (2, 4, &self.points[n - 1]),
            _ => (
                3,
                4,
                &self.deciles[TWELVE * (n - km - 1)..TWELVE * (n - km)],
            ),
        };
        let mut r = [0; RECORD];
        r[0..2].copy_from_slice(&kind.to_le_bytes());
        r[2..4].copy_from_slice(&(next as u16).to_le_bytes());
        for (i, number) in numbers.iter().enumerate() {
            r[at + 4 * i..at + 4 * i + 4].copy_from_slice(&number.to_le_bytes());
        }
        if n == 0 {
            r[4] = self.km as u8;
            r[5] = self.shape as u8;
        }
        r
    }

    /// The words that `port_read` gives: unused points are zero.
    pub fn to_words(&self) -> Vec<u32> {
        let mut w = vec![self.km, self.shape];
        w.extend(self.numbers);
        for k in 0..5 {
            w.extend(self.points.get(k).unwrap_or(&[0; POINT]));
        }
        w.extend(&self.deciles);
        w
    }

    /// The circuit of some words, if km and shape are right.
    pub fn of_words(w: &[u32]) -> Option<Circuit> {
        let (km, shape) = (w[0], w[1]);
        let right = (1..=5).contains(&km) && shape <= 1;
        right.then(|| Circuit {
            km,
            shape,
            numbers: w[2..6].try_into().unwrap(),
            points: (0..km as usize).map(|k| point(w, k)).collect(),
            deciles: w[6 + 5 * POINT..WORDS].to_vec(),
        })
    }
}

fn point(w: &[u32], k: usize) -> [u32; POINT] {
    let at = 6 + POINT * k;
    w[at..at + POINT].try_into().unwrap()
}

/// Whether all are +0.
pub fn zeros(words: &[u32]) -> bool {
    words.iter().all(|w| *w == 0)
}
