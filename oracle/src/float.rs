//! Floats by their bits.

/// The bit pattern that stands for every NaN.
pub const NAN: u32 = 0x7fc0_0000;

/// Whether the pattern is some NaN.
pub fn is_nan(bits: u32) -> bool {
    bits & 0x7fff_ffff > 0x7f80_0000
}

/// The paper's "same": equal bits, so -0 is not +0; any NaN like any other.
pub fn same(a: u32, b: u32) -> bool {
    a == b || is_nan(a) && is_nan(b)
}

/// The same of two numbers.
pub fn same_number(a: f32, b: f32) -> bool {
    same(a.to_bits(), b.to_bits())
}

/// The places of the infinities in the order of `rank`.
pub const LOWEST: i64 = -0x7f80_0001;
pub const HIGHEST: i64 = 0x7f80_0000;

/// The place of a number among all numbers in rising order, +0 at 0 and -0
/// just below it.
pub fn rank(x: f32) -> i64 {
    let bits = x.to_bits();
    let size = i64::from(bits & 0x7fff_ffff);
    if bits >> 31 == 1 {
        -1 - size
    } else {
        size
    }
}

/// The number at a place; past the ends an infinity.
pub fn at_rank(rank: i64) -> f32 {
    let rank = rank.clamp(LOWEST, HIGHEST);
    if rank < 0 {
        f32::from_bits((-1 - rank) as u32 | 1 << 31)
    } else {
        f32::from_bits(rank as u32)
    }
}

/// How many numbers apart two are, -0 and +0 being two; `None` if just one of
/// them is NaN.
pub fn distance(a: f32, b: f32) -> Option<u64> {
    match (a.is_nan(), b.is_nan()) {
        (true, true) => Some(0),
        (false, false) => Some((rank(a) - rank(b)).unsigned_abs()),
        _ => None,
    }
}

#[cfg(test)]
mod tests {
    use super::*;

    #[test]
    fn zeros_are_two_numbers() {
        assert!(!same_number(-0.0, 0.0));
        assert_eq!(distance(-0.0, 0.0), Some(1));
        assert_eq!(at_rank(rank(-0.0)).to_bits(), 1 << 31);
    }

    #[test]
    fn nans_are_alike() {
        assert!(same(NAN, 0xff80_0001));
        assert!(!same(NAN, 0x7f80_0000));
    }

    #[test]
    fn places_are_read_back() {
        for rank_wanted in [LOWEST, -2, -1, 0, 1, HIGHEST] {
            assert_eq!(rank(at_rank(rank_wanted)), rank_wanted);
        }
    }
}
