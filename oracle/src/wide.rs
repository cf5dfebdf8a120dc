//! A reader and a writer of the circuit files that carry F2M3, written from the
//! paper: records of 128 bytes, the first 64 as in the old form but for the
//! kind of record 0, F2M3 at byte 64 of a point, zeros after that.

use crate::circuit::{self, half, word, words, zero, Circuit, DECILES, TWELVE};

/// Bytes of a record.
pub const RECORD: usize = 128;
/// Words of a circuit and of F2M3 at five points.
pub const WORDS: usize = circuit::WORDS + 5;

/// A circuit and the F2M3 of each of its points, by its bits.
#[derive(Clone, Debug, PartialEq, Eq)]
pub struct Wide {
    pub circuit: Circuit,
    pub f2m3: Vec<u32>,
}

/// The circuit and its F2M3, or the refusal's number.
pub fn read(file: &[u8]) -> Result<Wide, u32> {
    if !file.len().is_multiple_of(RECORD) || !(256..=8192).contains(&file.len()) {
        return Err(1);
    }
    let records: Vec<&[u8]> = file.chunks_exact(RECORD).collect();
    let mut wide = first_record(records[0]).ok_or(2u32)?;
    let mut met = vec![0];
    loop {
        let next = usize::from(half(records[met[met.len() - 1]], 2));
        if next == 0 {
            break;
        }
        if next >= records.len() || met.contains(&next) {
            return Err(3);
        }
        wide.take(records[next]).ok_or(4u32)?;
        met.push(next);
    }
    wide.complete().ok_or(4u32)?;
    Ok(wide)
}

/// Record 0, if its kind, km, shape and zero bytes are right.
fn first_record(r: &[u8]) -> Option<Wide> {
    let (km, shape) = (u32::from(r[4]), u32::from(r[5]));
    let range = (1..=5).contains(&km) && shape <= 1;
    let right = half(r, 0) == 4 && range && zero(&r[6..8]) && zero(&r[24..RECORD]);
    right.then(|| Wide {
        circuit: Circuit {
            km,
            shape,
            numbers: words(r, 8),
            points: Vec::new(),
            deciles: Vec::new(),
        },
        f2m3: Vec::new(),
    })
}

impl Wide {
    /// A circuit whose F2M3 are +0.
    pub fn of(circuit: Circuit) -> Wide {
        let f2m3 = vec![0; circuit.points.len()];
        Wide { circuit, f2m3 }
    }

    /// Takes the next record of the chain in, if it may stand there.
    fn take(&mut self, r: &[u8]) -> Option<()> {
        let Wide { circuit, f2m3 } = self;
        if circuit.points.len() < circuit.km as usize {
            let fits = half(r, 0) == 2 && zero(&r[68..RECORD]);
            circuit.points.push(fits.then(|| words(r, 4))?);
            f2m3.push(word(r, 64));
        } else {
            let fits = half(r, 0) == 3 && zero(&r[52..RECORD]) && circuit.deciles.len() < DECILES;
            circuit.deciles.extend(fits.then(|| words::<TWELVE>(r, 4))?);
        }
        Some(())
    }

    /// At the chain's end: all points, and no deciles or all.
    fn complete(&mut self) -> Option<()> {
        let circuit = &mut self.circuit;
        let points = circuit.points.len() == circuit.km as usize;
        let deciles = [0, DECILES].contains(&circuit.deciles.len());
        circuit.deciles.resize(DECILES, 0);
        (points && deciles).then_some(())
    }

    /// The record at place `n` of the chain.
    pub fn record(&self, n: usize, next: usize) -> Vec<u8> {
        let mut r = self.circuit.record(n, next).to_vec();
        r.resize(RECORD, 0);
        if n == 0 {
            r[0] = 4;
        } else if n <= self.f2m3.len() {
            r[64..68].copy_from_slice(&self.f2m3[n - 1].to_le_bytes());
        }
        r
    }

    /// The file that the writer makes: one record for each of the old form's.
    pub fn written(&self) -> Vec<u8> {
        let count = self.circuit.written().len() / circuit::RECORD;
        let next = |n: usize| if n + 1 == count { 0 } else { n + 1 };
        (0..count).flat_map(|n| self.record(n, next(n))).collect()
    }

    /// The words that `port_read128` gives: unused points are zero.
    pub fn to_words(&self) -> Vec<u32> {
        let mut w = self.circuit.to_words();
        w.extend(&self.f2m3);
        w.resize(WORDS, 0);
        w
    }

    /// The circuit and F2M3 of some words, if km and shape are right.
    pub fn of_words(w: &[u32]) -> Option<Wide> {
        let circuit = Circuit::of_words(w)?;
        let f2m3 = w[circuit::WORDS..][..circuit.points.len()].to_vec();
        Some(Wide { circuit, f2m3 })
    }
}

#[cfg(test)]
mod tests {
    use super::*;
    use crate::files;
    use crate::random::Random;

    #[test]
    fn what_is_written_is_read() {
        let mut r = Random::new(7);
        for _ in 0..2000 {
            let wide = files::wide(&mut r);
            assert_eq!(read(&wide.written()).unwrap(), wide);
            assert_eq!(read(&files::permuted_wide(&mut r, &wide)).unwrap(), wide);
            assert_eq!(
                circuit::read(&wide.written()).unwrap_err(),
                old_refusal(&wide)
            );
        }
    }

    fn old_refusal(wide: &Wide) -> u32 {
        1 + u32::from(wide.written().len() <= 4096)
    }
}
