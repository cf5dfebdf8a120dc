//! The five characters of the `call` figure against output.rs's own `f`, on
//! all 2^32 patterns or on some of them.
//!
//! figures [STRIDE] [FIRST] [LAST]: every pattern by default; the edges are
//! tried in any case.

use oracle::ours;
use oracle::random::EDGES;
use oracle::report::{argument, finish, Tally, Verdict};
use oracle::voacap::output::figure;

/// The last pattern that has a figure and the first that has stars, at both
/// ends; halves; -0 and what rounds to it; both infinities and NaNs.
const ENDS: [u32; 16] = [
    0x4479_fccc,
    0x4479_fccd,
    0xc2c7_e666,
    0xc2c7_e667,
    0x3f80_0000,
    0xbfa0_0000,
    0x3fa0_0000,
    0x8000_0000,
    0xbcf5_c28f,
    0xbd4c_cccd,
    0xbd4c_cccc,
    0x7f80_0000,
    0xff80_0000,
    0x7fc0_0000,
    0xffc0_0000,
    0x7f80_0001,
];

fn main() {
    let stride = argument(1, 1).max(1);
    let first = argument(2, 0);
    let last = argument(3, u64::from(u32::MAX));
    finish(&[on_patterns(stride, first, last)])
}

fn on_patterns(stride: u64, first: u64, last: u64) -> Verdict {
    if !ours::all_built(&["port_figure"]) {
        return Verdict::NotMade;
    }
    let mut tally = Tally::new("port_figure");
    for bits in ENDS.into_iter().chain(EDGES) {
        tally.case(0, differs(bits));
    }
    for bits in (first..=last).step_by(stride as usize) {
        tally.case(0, differs(bits as u32));
    }
    tally.done()
}

/// Ours, with the byte past it left, and `f`.
fn differs(bits: u32) -> Option<String> {
    let mut text = *b"??????";
    let answer = ours::port_figure(bits, &mut text);
    let wanted = figure(f32::from_bits(bits));
    let same = answer == 0 && text[..5] == *wanted.as_bytes() && text[5] == b'?';
    (!same).then(|| {
        let ours = String::from_utf8_lossy(&text);
        format!("of {bits:08x}: ours {answer} `{ours}`, theirs `{wanted}`")
    })
}
