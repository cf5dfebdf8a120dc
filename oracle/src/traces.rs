//! Two traces held against one another and an ionogram as a trace, made from
//! the paper: a map from kHz to the two heights, and products in f64, which
//! holds them exactly (24 digits by 10).

use std::collections::BTreeMap;

pub const MOST: usize = 512;
pub const REFUSED: u32 = 18;

#[derive(Clone, Debug, Default)]
pub struct Trace {
    pub khz: Vec<u32>,
    pub height: Vec<u32>,
}

/// kHz, which of the three, difference.
pub type Line = (u32, u32, i64);

impl Trace {
    pub fn fit(&self) -> bool {
        self.khz.len() == self.height.len()
            && self.khz.len() <= MOST
            && self.khz.windows(2).all(|w| w[0] < w[1])
    }

    fn rows(&self) -> impl Iterator<Item = (u32, i64)> + '_ {
        let heights = self.height.iter().map(|h| i64::from(*h));
        self.khz.iter().copied().zip(heights)
    }
}

/// The lines, or the refusal's number; `room` is the shortest list lent.
pub fn lines(first: &Trace, second: &Trace, room: usize) -> Result<Vec<Line>, u32> {
    if !first.fit() || !second.fit() || room < first.khz.len() + second.khz.len() {
        return Err(REFUSED);
    }
    let mut heights: BTreeMap<u32, (Option<i64>, Option<i64>)> = BTreeMap::new();
    for (khz, height) in first.rows() {
        heights.entry(khz).or_default().0 = Some(height);
    }
    for (khz, height) in second.rows() {
        heights.entry(khz).or_default().1 = Some(height);
    }
    let line = |(khz, pair): (u32, (Option<i64>, Option<i64>))| match pair {
        (Some(a), Some(b)) => (khz, 0, a - b),
        (Some(_), None) => (khz, 1, 0),
        _ => (khz, 2, 0),
    };
    Ok(heights.into_iter().map(line).collect())
}

/// `factor` times the number, rounded, where that is a u32.
fn whole(x: f32, factor: f64) -> Option<u32> {
    let product = (f64::from(x) * factor).round_ties_even();
    let fit = x.is_finite() && x >= 0.0 && product <= f64::from(u32::MAX);
    fit.then_some(product as u32)
}

/// An ionogram's rows as a trace; `rows` are fvert, then hprim, thirty each.
pub fn of_rows(rows: &[u32]) -> Result<Trace, u32> {
    let column = |at: usize, factor: f64| -> Option<Vec<u32>> {
        let numbers = rows[at..at + 30].iter().map(|w| f32::from_bits(*w));
        numbers.map(|x| whole(x, factor)).collect()
    };
    let trace = Trace {
        khz: column(0, 1000.0).ok_or(REFUSED)?,
        height: column(30, 10.0).ok_or(REFUSED)?,
    };
    if trace.fit() {
        Ok(trace)
    } else {
        Err(REFUSED)
    }
}
