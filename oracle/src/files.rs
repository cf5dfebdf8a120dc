//! Circuit files of every kind: valid, permuted, with any bytes off the
//! chain, damaged, and random.

use crate::circuit::{zeros, Circuit, DECILES, DECILE_RECORDS, POINT, RECORD};
use crate::random::Random;
use crate::wide::{self, Wide};
use crate::{states, words};

/// Any bits; now and then an edge.
fn word(r: &mut Random) -> u32 {
    if r.once_in(3) {
        r.edge().to_bits()
    } else {
        r.word()
    }
}

/// A circuit of arbitrary numbers.
pub fn circuit(r: &mut Random) -> Circuit {
    let km = 1 + r.below(5);
    Circuit {
        km: km as u32,
        shape: r.below(2) as u32,
        numbers: std::array::from_fn(|_| word(r)),
        points: (0..km).map(|_| [(); POINT].map(|_| word(r))).collect(),
        deciles: deciles(r),
    }
}

/// All +0, all but one, or arbitrary.
fn deciles(r: &mut Random) -> Vec<u32> {
    let mut d = vec![0; DECILES];
    match r.below(4) {
        0 | 1 => {}
        2 => d[r.below(DECILES)] = r.pick(&[0x8000_0000, 1, 0x7fc0_0001]),
        _ => d = d.iter().map(|_| word(r)).collect(),
    }
    d
}

/// A file that holds the circuit, its chain in any order among records of
/// any bytes.
pub fn permuted(r: &mut Random, circuit: &Circuit) -> Vec<u8> {
    scattered(r, circuit, RECORD, |n, next| {
        circuit.record(n, next).to_vec()
    })
}

/// The records of a circuit's chain in any order among records of any bytes.
fn scattered(
    r: &mut Random,
    circuit: &Circuit,
    size: usize,
    record: impl Fn(usize, usize) -> Vec<u8>,
) -> Vec<u8> {
    let with_deciles = !zeros(&circuit.deciles) || r.once_in(4);
    let deciles = if with_deciles { DECILE_RECORDS } else { 0 };
    let chain = 1 + circuit.points.len() + deciles;
    let room = 2.max(chain) + r.below(65 - chain);
    let places = places(r, chain, room.min(64));
    let mut file: Vec<u8> = (0..room.min(64) * size).map(|_| r.word() as u8).collect();
    for (n, at) in places.iter().enumerate() {
        let next = places.get(n + 1).copied().unwrap_or(0);
        file[at * size..][..size].copy_from_slice(&record(n, next));
    }
    file
}

/// Where each record of the chain goes: 0 first, then any distinct places.
fn places(r: &mut Random, chain: usize, room: usize) -> Vec<usize> {
    let mut free: Vec<usize> = (1..room).collect();
    let mut places = vec![0];
    while places.len() < chain {
        let i = if r.once_in(2) { 0 } else { r.below(free.len()) };
        places.push(free.remove(i));
    }
    places
}

/// Changes a file with records of this size in one place.
pub fn damage(r: &mut Random, file: &mut Vec<u8>, size: usize) {
    let records = file.len() / size;
    if records == 0 {
        return;
    }
    let at = size * r.below(records);
    match r.below(8) {
        0 => file[at + r.below(size)] = r.word() as u8,
        1 => file[at + 2] = r.below(records + 2) as u8,
        2 => file[at + 2..at + 4].fill(0),
        3 => file[at + 3] ^= 1 << r.below(8),
        4 => file[at] = r.below(5) as u8,
        5 => file[at + 1] ^= 1 << r.below(8),
        6 => file[4 + r.below(4)] = r.below(8) as u8,
        _ => resize(r, file, size),
    }
}

/// Another length: whole records more or less, or odd ones.
fn resize(r: &mut Random, file: &mut Vec<u8>, size: usize) {
    let records = r.below(67) * size;
    let one = size - 1;
    let length = match r.below(4) {
        0 => records,
        1 => records + r.below(size),
        2 => file.len().saturating_sub(size),
        _ => {
            let edges = [one, one + size, one + 63 * size].map(|n| [n, n + 1, n + 2]);
            r.pick(&[&edges.concat()[..], &[0, 65 * size]].concat())
        }
    };
    file.resize(length, 0);
}

/// Few records of plausible kinds and next indices: chains of every shape.
pub fn tangle(r: &mut Random, size: usize, first: u8) -> Vec<u8> {
    let most = r.pick(&[5, 8, 63]);
    let records = 2 + r.below(most);
    let km = 1 + r.below(5);
    let mut file = vec![0; records * size];
    for n in 0..records {
        let at = n * size;
        let usual = if n == 0 { first } else { 2 + u8::from(n > km) };
        file[at] = if r.once_in(12) {
            r.below(5) as u8
        } else {
            usual
        };
        let straight = (n + 1) % records;
        file[at + 2] = if r.once_in(6) {
            r.below(records + 1)
        } else {
            straight
        } as u8;
        if r.once_in(40) {
            file[at + 52 + r.below(size - 52)] = 1;
        }
    }
    file[4] = km as u8;
    file[5] = r.below(2) as u8;
    file
}

/// A file of some class.
pub fn any(r: &mut Random) -> Vec<u8> {
    let circuit = circuit(r);
    match r.below(10) {
        0 => circuit.written(),
        1 | 2 => permuted(r, &circuit),
        3 => {
            let length = r.below(4200);
            (0..length).map(|_| r.word() as u8).collect()
        }
        4 | 5 => tangle(r, RECORD, 1),
        _ => {
            let mut file = if r.once_in(2) {
                circuit.written()
            } else {
                permuted(r, &circuit)
            };
            for _ in 0..1 + r.below(3) {
                damage(r, &mut file, RECORD);
            }
            file
        }
    }
}

/// A circuit and its F2M3: all +0, all but one, or arbitrary.
pub fn wide(r: &mut Random) -> Wide {
    let mut wide = Wide::of(circuit(r));
    let km = wide.f2m3.len();
    match r.below(4) {
        0 | 1 => {}
        2 => wide.f2m3[r.below(km)] = r.pick(&[0x8000_0000, 1, 0x7fc0_0001]),
        _ => wide.f2m3.fill_with(|| word(r)),
    }
    wide
}

/// A file that holds them, its chain in any order among records of any bytes.
pub fn permuted_wide(r: &mut Random, wide: &Wide) -> Vec<u8> {
    scattered(r, &wide.circuit, wide::RECORD, |n, next| {
        wide.record(n, next)
    })
}

/// A file that may carry F2M3, of some class; now and then one in the old form.
pub fn any_wide(r: &mut Random) -> Vec<u8> {
    let wide = wide(r);
    match r.below(12) {
        0 | 1 => wide.written(),
        2 | 3 => permuted_wide(r, &wide),
        4 => {
            let length = r.below(8400);
            (0..length).map(|_| r.word() as u8).collect()
        }
        5 | 6 => tangle(r, wide::RECORD, 4),
        7 => any(r),
        _ => {
            let mut file = if r.once_in(2) {
                wide.written()
            } else {
                permuted_wide(r, &wide)
            };
            for _ in 0..1 + r.below(3) {
                damage(r, &mut file, wide::RECORD);
            }
            file
        }
    }
}

/// A circuit whose numbers are those of an hour: realistic, now and then with
/// wild ones among them.
pub fn hour_circuit(r: &mut Random) -> Circuit {
    let km = 1 + r.below(5);
    let mut circuit = Circuit {
        km: km as u32,
        shape: r.below(2) as u32,
        numbers: states::any_path(r).map(f32::to_bits),
        points: (0..km).map(|_| point(r)).collect(),
        deciles: states::deciles(r),
    };
    let k = r.below(km);
    match r.below(6) {
        0 | 1 => states::spoil(r, &mut circuit.points[k]),
        2 => states::put_zeros(r, &mut circuit.points[k], 3),
        _ => {}
    }
    circuit
}

fn point(r: &mut Random) -> [u32; POINT] {
    let [layers, es] = [states::point(r).to_vec(), states::es_row(r).to_vec()];
    let place = vec![states::latitude(r), states::clock(r)];
    words::bits(&[layers, es, place].concat())
        .try_into()
        .unwrap()
}

/// A file for `sheet`: mostly a whole hour.
pub fn any_hour(r: &mut Random) -> Vec<u8> {
    let circuit = hour_circuit(r);
    match r.below(8) {
        0 => any(r),
        1 => {
            let mut file = circuit.written();
            damage(r, &mut file, RECORD);
            file
        }
        2 | 3 => permuted(r, &circuit),
        _ => circuit.written(),
    }
}

#[cfg(test)]
mod tests {
    use super::*;
    use crate::circuit::read;

    #[test]
    fn a_permuted_file_holds_its_circuit() {
        let mut r = Random::new(7);
        for _ in 0..2000 {
            let circuit = circuit(&mut r);
            let file = permuted(&mut r, &circuit);
            assert_eq!(read(&file).unwrap().0, circuit);
            assert_eq!(read(&circuit.written()).unwrap().0, circuit);
        }
    }
}
