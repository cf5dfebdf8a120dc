//! The files that the program `plot_trials` reads, each after its length, and
//! what it must print of them, from the description and the routed Rust.
//!
//! plot_trials files > ../crates/plot_trials/stdin
//! plot_trials > ../crates/plot_trials/stdout

use oracle::circuit::{Circuit, DECILES, POINT};
use oracle::{ours, programs};
use std::io::Write;

/// fi, yi, hi and Es fs, three each, hs, clat, clck.
const POINTS: [[f32; POINT]; 2] = [
    [
        3.0, 4.5, 8.25, 20.0, 40.0, 80.0, 110.0, 190.0, 290.0, 1.5, 3.0, 5.0, 110.0, 0.75, 12.0,
    ],
    [
        2.75, 0.0, 7.5, 20.0, 0.0, 75.0, 110.0, 0.0, 280.0, 0.5, 0.0, 0.0, 110.0, 0.9375, 13.5,
    ],
];
/// Places of a point's numbers.
const F2: usize = 2;
const F2_HEIGHT: usize = 8;

fn circuit(points: &[[f32; POINT]], gcdkm: f32) -> Circuit {
    Circuit {
        km: points.len() as u32,
        shape: 0,
        numbers: [gcdkm / 6370.0, gcdkm, 3.0, 100.0].map(f32::to_bits),
        points: points.iter().map(|p| p.map(f32::to_bits)).collect(),
        deciles: vec![0; DECILES],
    }
}

/// One point with F1, with some numbers replaced.
fn changed(changes: &[(usize, f32)]) -> Vec<u8> {
    let mut point = POINTS[0];
    for (place, number) in changes {
        point[*place] = *number;
    }
    circuit(&[point], 3185.0).written()
}

fn files() -> Vec<Vec<u8>> {
    vec![
        // no F1, on a short path
        circuit(&POINTS[1..], 300.0).written(),
        // the second slot has a point that is not there, and NaN rows
        circuit(&POINTS, 3185.0).written(),
        changed(&[(0, f32::NAN), (1, f32::NAN), (F2, f32::NAN)]),
        changed(&[(F2_HEIGHT, f32::INFINITY)]),
        // a MUF that is stars, and one of 0
        changed(&[(F2, 340.0)]),
        changed(&[(0, 0.0), (1, 0.0), (F2, 0.0)]),
        // refused 1 and 9
        vec![0; 127],
        circuit(&POINTS[..1], 41000.0).written(),
    ]
}

fn main() {
    ours::warn_of_stand_ins();
    let mut out = std::io::stdout().lock();
    let listed = std::env::args().nth(1).as_deref() == Some("files");
    for file in files() {
        let bytes = if listed {
            let length = (file.len() as u16).to_le_bytes();
            [&length[..], &file].concat()
        } else {
            programs::plot(&file).into()
        };
        out.write_all(&bytes).expect("written");
    }
}
