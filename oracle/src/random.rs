//! A small generator of random numbers (splitmix64), and of floats of every
//! kind.

use crate::float;

pub struct Random(u64);

/// Numbers at which something may change.
pub const EDGES: [u32; 26] = [
    0x0000_0000, // zeros
    0x8000_0000,
    0x0000_0001, // subnormals
    0x8000_0001,
    0x0000_0002,
    0x007f_ffff,
    0x807f_ffff,
    0x0080_0000, // smallest normal
    0x8080_0000,
    0x3f7f_ffff, // about one
    0x3f80_0000,
    0x3f80_0001,
    0xbf80_0000,
    0x3e4c_cccd, // 0.2
    0x3f7f_f972, // 0.9999
    0x4000_0000,
    0xc000_0000,
    0x5f00_0000, // squares pass the range
    0x2000_0000,
    0x7f7f_ffff, // largest
    0xff7f_ffff,
    0x7f80_0000, // infinities
    0xff80_0000,
    0x7fc0_0000, // NaN, quiet, signalling and negative
    0x7f80_0001,
    0xffc0_1234,
];

impl Random {
    pub fn new(seed: u64) -> Self {
        Random(seed)
    }

    fn draw(&mut self) -> u64 {
        self.0 = self.0.wrapping_add(0x9e37_79b9_7f4a_7c15);
        let z = (self.0 ^ (self.0 >> 30)).wrapping_mul(0xbf58_476d_1ce4_e5b9);
        let z = (z ^ (z >> 27)).wrapping_mul(0x94d0_49bb_1331_11eb);
        z ^ (z >> 31)
    }

    pub fn word(&mut self) -> u32 {
        (self.draw() >> 32) as u32
    }

    /// 0 to n-1.
    pub fn below(&mut self, n: usize) -> usize {
        ((u128::from(self.draw()) * n as u128) >> 64) as usize
    }

    /// True once in n.
    pub fn once_in(&mut self, n: usize) -> bool {
        self.below(n) == 0
    }

    pub fn pick<T: Copy>(&mut self, of: &[T]) -> T {
        of[self.below(of.len())]
    }

    /// Evenly between two numbers.
    pub fn between(&mut self, low: f32, high: f32) -> f32 {
        let part = (self.draw() >> 40) as f32 / (1u32 << 24) as f32;
        low + (high - low) * part
    }

    /// A number of the kind a table holds: at most two decimals.
    pub fn tabled(&mut self, low: f32, high: f32) -> f32 {
        (self.between(low, high) * 100.0).round() / 100.0
    }

    pub fn edge(&mut self) -> f32 {
        f32::from_bits(self.pick(&EDGES))
    }

    /// Any pattern at all, each as likely.
    pub fn pattern(&mut self) -> f32 {
        f32::from_bits(self.word())
    }

    /// A number of any kind: an edge, any pattern, small or plausible.
    pub fn wild(&mut self) -> f32 {
        match self.below(8) {
            0 | 1 => self.edge(),
            2 => self.pattern(),
            3 => self.below(21) as f32 - 10.0,
            4 => self.near_edge(),
            5 => self.between(-2.0, 2.0),
            _ => self.between(0.0, 500.0),
        }
    }

    /// Within three places of an edge.
    fn near_edge(&mut self) -> f32 {
        let edge = self.edge();
        self.beside(edge, 3)
    }

    /// Within `places` of `x`.
    pub fn beside(&mut self, x: f32, places: usize) -> f32 {
        if x.is_nan() {
            return x;
        }
        let step = self.below(2 * places + 1) as i64 - places as i64;
        float::at_rank(float::rank(x) + step)
    }
}
