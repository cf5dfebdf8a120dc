//! What the program `muf_records_trials` must print: its circuit MUFs made
//! again here, and the answer of each from the paper and the routed Rust.
//!
//! muf_records_trials > ../crates/muf_records_trials/stdout

use oracle::routed::side;
use oracle::words::*;
use oracle::{ours, predict, programs};

type Row = [f32; ES_ROW];

/// fi, yi, hi.
const LAYERS_AT: [f32; POINT] = [2.75, 5.25, 12.25, 30.0, 39.0, 96.0, 107.0, 185.0, 205.0];

/// Row 1 has the lowest MUF of the first three, and row 3 one that is lower
/// still.
const ES: [Row; 5] = [
    [5.0, 6.0, 7.0, 90.0],
    [1.0, 2.0, 3.5, 110.0],
    [2.0, 4.0, 6.0, 100.0],
    [0.5, 1.0, 1.5, 105.0],
    [4.0, 5.0, 8.0, 95.0],
];

/// Where the Es line stands in an hour, and the words of it that are printed:
/// both deciles and the virtual height.
const ES_LINE: usize = KS + 1 + 3 * LAYER;
const LOWER: usize = ES_LINE + 8;
const UPPER: usize = ES_LINE + 10;
const VIRTUAL: usize = ES_LINE + 3;
/// Places among an hour's numbers.
const ESMUF: usize = 3;
const ALLMUF: usize = 4;

/// So many points, alike, as `ionset` leaves them.
fn slots(km: usize) -> State {
    let point = bits(&LAYERS_AT);
    side::ionset(&side::from_layers(&point.repeat(km)))
}

fn call(es: &[Row; 5], gcdkm: f32) -> Hour {
    Hour {
        es: bits(es.as_flattened()),
        deciles: vec![0; DECILES],
        clat: bits(&[0.7; 5]),
        clck: bits(&[12.0; 5]),
        numbers: bits(&[gcdkm / 6370.0, gcdkm, 3.0, 60.0]),
    }
}

/// The refusal's number or 0, an hour and the rows; a refused call has an hour
/// of zeros, and its rows as they came.
fn answer(state: &State, call: &Hour) -> (u32, Vec<u32>, Vec<u32>) {
    match predict::curmuf(state, call) {
        Ok(()) => {
            let (_, rows, hour) = side::curmuf(state, call);
            (0, hour, rows)
        }
        Err(number) => (number, vec![0; HOUR], call.es.clone()),
    }
}

fn say(words: &[u32]) {
    for word in words {
        print!(" {}", programs::digits(*word));
    }
    println!();
}

fn print(name: &str, km: usize, es: &[Row; 5], gcdkm: f32) {
    let (number, hour, rows) = answer(&slots(km), &call(es, gcdkm));
    print!("{name} {number}");
    say(&[ALLMUF, ESMUF, LOWER, UPPER, VIRTUAL].map(|i| hour[i]));
    for row in rows.chunks_exact(ES_ROW) {
        print!("row");
        say(row);
    }
}

fn main() {
    ours::warn_of_stand_ins();
    print("three points", 3, &ES, 1600.0);
    print("one point", 1, &ES, 1600.0);
    print("five points", 5, &ES, 1600.0);
    print("too far", 3, &ES, 40200.0);
    let mut none = ES;
    none[0] = [0.0, 0.0, 0.0, 90.0];
    none[1] = [1.0, -2.0, 3.5, 110.0];
    none[2] = [2.0, 0.0, 6.0, 100.0];
    print("no row reflects", 3, &none, 1600.0);
    let mut low = ES;
    low[2] = [2.0, 4.0, 6.0, 0.001];
    print("too many hops at row 2", 3, &low, 1600.0);
    print("two points", 2, &low, 1600.0);
}
