//! `sheet` by the Rust as it stands, as a process of its own: what `bench`
//! holds the program `sheet` beside. Its elementary functions are Rust's own,
//! it refuses nothing after the file is read, and, having neither segments nor
//! marks, prints 0 and `none` for them.
//!
//! native_sheet < FILE

use oracle::circuit::{self, Circuit};
use oracle::programs;
use oracle::voacap::side;
use oracle::words::*;
use std::io::{Read, Write};

fn sheet(circuit: &Circuit) -> String {
    let layers = |p: &[u32; circuit::POINT]| p[..POINT].to_vec();
    let points: Vec<u32> = circuit.points.iter().flat_map(layers).collect();
    let mut state = side::from_layers(&points);
    state[IEDP] = if circuit.shape == 0 { -1i32 } else { 0 } as u32;
    let state = side::ionset(&state);
    let (_, _, hour) = side::curmuf(&state, &programs::hour(circuit));
    let [_, gcdkm, amind, _] = circuit.numbers.map(f32::from_bits);
    let nang = side::sang(gcdkm, amind) as usize;
    let mut text = programs::muf_lines(&hour);
    for k in 0..state[KFX] as usize {
        let (_, rows, _) = side::sheet(&state, k, nang, &hour[KS + 1..]);
        text += &programs::slot_lines(k, &rows);
        text += &programs::mark_lines(&[0; MARKS]);
    }
    text
}

fn main() {
    let mut file = Vec::new();
    std::io::stdin().read_to_end(&mut file).expect("the file");
    let text = match circuit::read(&file) {
        Ok((circuit, _)) => sheet(&circuit),
        Err(number) => format!("refused {number}\n"),
    };
    std::io::stdout()
        .write_all(text.as_bytes())
        .expect("written");
}
