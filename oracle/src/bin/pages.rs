//! The files that the program `show_trials` prints the pages of, and those
//! pages, from the description and the routed Rust.
//!
//! pages stdin|stdout > ../crates/show_trials/stdin|stdout

use oracle::circuit::{Circuit, DECILES, POINT};
use oracle::{ours, page};
use std::io::Write;

/// fi, yi, hi and Es fs, three each, hs, clat, clck.
const DAY: [f32; POINT] = [
    3.5, 5.125, 9.75, 21.0, 43.0, 92.0, 112.0, 188.0, 305.0, 2.0, 3.5, 5.5, 108.0, 0.625, 11.0,
];
/// no F1, no Es
const NIGHT: [f32; POINT] = [
    0.75, 0.0, 3.875, 20.0, 0.0, 110.0, 110.0, 0.0, 340.0, 0.0, 0.0, 0.0, 110.0, -0.5, 1.5,
];
const PATH: [f32; 4] = [0.5, 3185.0, 3.0, 100.0];
const AMIND: usize = 2;
const CLCK: usize = 14;

fn circuit(points: &[[f32; POINT]], shape: u32, numbers: [f32; 4]) -> Circuit {
    Circuit {
        km: points.len() as u32,
        shape,
        numbers: numbers.map(f32::to_bits),
        points: points.iter().map(|p| p.map(f32::to_bits)).collect(),
        deciles: vec![0; DECILES],
    }
}

/// One point, with some of its numbers replaced.
fn changed(numbers: &[(usize, f32)]) -> Circuit {
    let mut point = DAY;
    for (place, number) in numbers {
        point[*place] = *number;
    }
    circuit(&[point], 0, PATH)
}

/// One point, with a number of the path replaced.
fn path(place: usize, number: f32) -> Vec<u8> {
    let mut numbers = PATH;
    numbers[place] = number;
    circuit(&[DAY], 0, numbers).written()
}

fn answered() -> Vec<Vec<u8>> {
    let mut long = circuit(&[DAY, DAY, NIGHT, NIGHT, DAY], 1, [1.4127, 9000.0, 3.0, 50.0]);
    long.deciles = vec![0.85f32.to_bits(); DECILES];
    let circuits = [
        circuit(&[DAY], 0, [0.0471, 300.0, 1.0, 20.0]),
        circuit(&[NIGHT], 0, PATH),
        circuit(&[DAY, NIGHT], 0, PATH),
        circuit(&[DAY, NIGHT, DAY], 1, PATH),
        long,
        changed(&[(1, f32::NAN)]),
        changed(&[(0, f32::NAN), (1, f32::NAN), (2, f32::NAN)]),
        changed(&[(0, -1.0), (1, 0.0), (2, -2.0)]),
        changed(&[(2, 1.0e6)]),
        changed(&[(2, 3.0e38)]),
        changed(&[(2, f32::INFINITY)]),
        changed(&[(8, 1.0e9)]),
    ];
    circuits.iter().map(Circuit::written).collect()
}

/// 1, 2, 3, 4, 7, 9, 11, 12
fn refused() -> Vec<Vec<u8>> {
    let file = circuit(&[DAY], 0, PATH).written();
    let byte = |at: usize, b: u8| {
        let mut file = file.clone();
        file[at] = b;
        file
    };
    let mut late = changed(&[(CLCK, -3.0)]);
    late.deciles = vec![0.85f32.to_bits(); DECILES];
    vec![
        file[..127].to_vec(),
        byte(5, 2),
        byte(2, 9),
        byte(64, 3),
        path(1, -2000.0),
        path(1, 41000.0),
        path(AMIND, 90.0),
        late.written(),
    ]
}

fn main() {
    ours::warn_of_stand_ins();
    let files = [answered(), refused()].concat();
    let made = |file: &Vec<u8>| match std::env::args().nth(1).as_deref() {
        Some("stdin") => [&(file.len() as u16).to_le_bytes(), &file[..]].concat(),
        Some("stdout") => page::page(file).into_bytes(),
        _ => panic!("pages stdin|stdout"),
    };
    let output: Vec<u8> = files.iter().flat_map(made).collect();
    std::io::stdout().write_all(&output).expect("written");
}
