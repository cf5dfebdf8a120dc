//! What the program `sheet_trials` must print: its files made again here, and
//! the sheet of each from the paper and the routed Rust.
//!
//! sheet_trials > ../crates/sheet_trials/stdout

use oracle::circuit::{Circuit, DECILES, POINT};
use oracle::{ours, programs};

const POINTS: [[f32; POINT]; 5] = [
    [
        3.0, 4.5, 8.25, 20.0, 40.0, 80.0, 110.0, 190.0, 290.0, 1.5, 3.0, 5.0, 110.0, 0.75, 12.0,
    ],
    [
        3.125, 4.75, 8.75, 20.0, 42.0, 85.0, 110.0, 195.0, 300.0, 1.25, 2.75, 4.75, 110.0, 0.8125,
        12.5,
    ],
    [
        3.25, 3.375, 9.25, 20.0, 44.0, 90.0, 110.0, 200.0, 310.0, 1.0, 2.5, 4.5, 105.0, 0.875, 13.0,
    ],
    [
        2.75, 0.0, 7.5, 20.0, 0.0, 75.0, 110.0, 0.0, 280.0, 0.5, 0.0, 0.0, 110.0, 0.9375, 13.5,
    ],
    [
        2.5, 4.0, 7.0, 20.0, 38.0, 70.0, 112.0, 185.0, 270.0, 1.75, 3.25, 5.25, 100.0, 1.0, 14.0,
    ],
];

/// A NaN with a payload.
const NAN: u32 = 0x7fc0_0001;
/// Places among the path's numbers, and among a point's.
const GCD: usize = 0;
const GCDKM: usize = 1;
const AMIND: usize = 2;
const HS: usize = 12;
const CLCK: usize = 14;

fn points(km: u32, shape: u32) -> Circuit {
    Circuit {
        km,
        shape,
        numbers: [0.5f32, 3185.0, 3.0, 100.0].map(f32::to_bits),
        points: POINTS[..km as usize]
            .iter()
            .map(|p| p.map(f32::to_bits))
            .collect(),
        deciles: vec![0; DECILES],
    }
}

fn with_deciles(mut circuit: Circuit) -> Circuit {
    circuit.deciles = vec![0.85f32.to_bits(); DECILES];
    circuit
}

/// One point, with a number of the path replaced.
fn path(place: usize, number: u32) -> Circuit {
    let mut circuit = points(1, 0);
    circuit.numbers[place] = number;
    circuit
}

/// One point, with some of its numbers replaced.
fn point(numbers: &[(usize, u32)]) -> Circuit {
    let mut circuit = points(1, 0);
    for (place, number) in numbers {
        circuit.points[0][*place] = *number;
    }
    circuit
}

fn frequencies(e: u32, f1: u32, f2: u32) -> Circuit {
    point(&[(0, e), (1, f1), (2, f2)])
}

fn print(name: &str, file: &[u8]) {
    print!("{name}\n{}", programs::sheet(file));
}

fn circuits() {
    print("one point", &points(1, 0).written());
    print("one point, shape 1", &points(1, 1).written());
    print("two points", &points(2, 0).written());
    print("three points, shape 1", &points(3, 1).written());
    print("four points, shape 1", &points(4, 1).written());
    print("five points", &points(5, 0).written());
    let five = with_deciles(points(5, 1)).written();
    print("five points and deciles, shape 1", &five);
}

fn file_refusals() {
    let file = points(1, 0).written();
    let with = |at: usize, byte: u8| {
        let mut other = file.clone();
        other[at] = byte;
        other
    };
    print("127 bytes", &file[..127]);
    print("no point", &with(4, 0));
    print("shape 2", &with(5, 2));
    print("past the last record", &with(2, 2));
    print("a point too few", &points(2, 0).written()[..128]);
    print("a decile record for a point", &with(64, 3));
}

fn path_refusals() {
    let number = |place, x: f32| path(place, x.to_bits()).written();
    print("gcdkm -2000", &number(GCDKM, -2000.0));
    print("gcdkm NaN, outside for both", &path(GCDKM, NAN).written());
    print("gcdkm 41000", &number(GCDKM, 41000.0));
    print("gcd NaN", &path(GCD, NAN).written());
    print("amind 91", &number(AMIND, 91.0));
    print("amind NaN", &path(AMIND, NAN).written());
}

fn hour_refusals() {
    let late = with_deciles(point(&[(CLCK, (-3.0f32).to_bits())]));
    let mut late_steep = late.clone();
    late_steep.numbers[AMIND] = 90.0f32.to_bits();
    let mut late_low = late.clone();
    late_low.points[0][HS] = 0;
    print("E hops", &path(AMIND, 90.0f32.to_bits()).written());
    print("E hops, and clck -3", &late_steep.written());
    print("clck -3", &late.written());
    print("clck -3, and Es hops", &late_low.written());
    print("Es hops", &point(&[(HS, 0)]).written());
}

fn nans() {
    print("F1 NaN", &point(&[(1, NAN)]).written());
    print("F2 NaN", &point(&[(2, NAN)]).written());
    print("E, F1 and F2 NaN", &frequencies(NAN, NAN, NAN).written());
}

fn calls() {
    let [zero, minus, one, two] = [0.0f32, -0.0, -1.0, -2.0].map(f32::to_bits);
    print("MUF 0", &frequencies(zero, zero, zero).written());
    print("MUF -0", &frequencies(minus, minus, minus).written());
    print("MUF below 0", &frequencies(one, zero, two).written());
    let edge = point(&[(2, 199.609375f32.to_bits())]);
    print("a MUF just below 634.8", &edge.written());
    print(
        "MUF above 1000",
        &point(&[(2, 340.0f32.to_bits())]).written(),
    );
}

fn main() {
    ours::warn_of_stand_ins();
    circuits();
    file_refusals();
    path_refusals();
    hour_refusals();
    nans();
    calls();
}
