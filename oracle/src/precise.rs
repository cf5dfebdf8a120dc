//! The six elementary functions to about 2^-75: pairs of f64 that stand for
//! their sum, with power series. They check the f64 library functions that
//! the exhaustive runs are measured against.

use std::f64::consts;

/// The sum of two f64, the second below half a place of the first.
#[derive(Clone, Copy, Debug)]
pub struct Pair(pub f64, pub f64);

const ZERO: Pair = Pair(0.0, 0.0);
const ONE: Pair = Pair(1.0, 0.0);
/// ln 2 and half of pi, each in three parts.
const LN2: [f64; 3] = [
    consts::LN_2,
    2.319_046_813_846_299_6e-17,
    5.707_708_438_416_212e-34,
];
const HALF_PI: [f64; 3] = [
    consts::FRAC_PI_2,
    6.123_233_995_736_766e-17,
    -1.497_384_904_859_169_8e-33,
];

/// a + b, exactly.
fn two_sum(a: f64, b: f64) -> Pair {
    let sum = a + b;
    let part = sum - a;
    Pair(sum, (a - (sum - part)) + (b - part))
}

/// a * b, exactly.
fn two_product(a: f64, b: f64) -> Pair {
    let product = a * b;
    Pair(product, a.mul_add(b, -product))
}

impl Pair {
    pub fn of(x: f64) -> Self {
        Pair(x, 0.0)
    }

    fn plus(self, b: Pair) -> Pair {
        let high = two_sum(self.0, b.0);
        let low = two_sum(self.1, b.1);
        let high = two_sum(high.0, high.1 + low.0);
        two_sum(high.0, high.1 + low.1)
    }

    fn minus(self, b: Pair) -> Pair {
        self.plus(Pair(-b.0, -b.1))
    }

    fn times(self, b: Pair) -> Pair {
        let p = two_product(self.0, b.0);
        two_sum(p.0, p.1 + (self.0 * b.1 + self.1 * b.0))
    }

    fn over(self, b: Pair) -> Pair {
        let first = self.0 / b.0;
        let rest = self.minus(b.times(Pair::of(first)));
        let second = rest.0 / b.0;
        let rest = rest.minus(b.times(Pair::of(second)));
        two_sum(first, second).plus(Pair::of(rest.0 / b.0))
    }

    fn scaled(self, power: f64) -> Pair {
        Pair(self.0 * power, self.1 * power)
    }

    /// How far `x` lies from this, in units of `unit`.
    pub fn distance(self, x: f64, unit: f64) -> f64 {
        let d = self.minus(Pair::of(x));
        ((d.0 + d.1) / unit).abs()
    }
}

/// x - n times a constant in three parts.
fn reduced(x: f64, n: f64, parts: [f64; 3]) -> Pair {
    parts.iter().fold(Pair::of(x), |r, part| {
        let p = two_product(n, *part);
        r.minus(p)
    })
}

/// 1 + s x/1 + s x^2/(1 2) .. over the steps given by `divisors`.
fn series(first: Pair, factor: Pair, divisors: impl Iterator<Item = f64>) -> Pair {
    let mut term = first;
    let mut sum = first;
    for d in divisors {
        term = term.times(factor).over(Pair::of(d));
        sum = sum.plus(term);
    }
    sum
}

/// e^x; x within -700 to 700.
pub fn exp(x: f64) -> Pair {
    let n = (x / LN2[0]).round();
    let r = reduced(x, n, LN2).scaled(1.0 / 256.0);
    let small = series(ONE, r, (1..16).map(f64::from));
    let whole = (0..8).fold(small, |p, _| p.times(p));
    whole.scaled(2f64.powi(n as i32))
}

/// sin x and cos x; x within -10 to 10.
pub fn sin_cos(x: f64) -> (Pair, Pair) {
    let n = (x / HALF_PI[0]).round();
    let r = reduced(x, n, HALF_PI);
    let square = r.times(r).scaled(-1.0);
    let sin = series(r, square, (1..15).map(|k| f64::from(2 * k * (2 * k + 1))));
    let cos = series(ONE, square, (1..15).map(|k| f64::from((2 * k - 1) * 2 * k)));
    let minus = |p: Pair| ZERO.minus(p);
    match (n as i64).rem_euclid(4) {
        0 => (sin, cos),
        1 => (cos, minus(sin)),
        2 => (minus(sin), minus(cos)),
        _ => (minus(cos), sin),
    }
}

/// ln x for x above 0, by one Newton step from the library's.
pub fn ln(x: f64) -> Pair {
    let near = x.ln();
    let t = Pair::of(x).times(exp(-near)).minus(ONE);
    Pair::of(near).plus(t).minus(t.times(t).scaled(0.5))
}

/// arcsin x, by one step from the library's.
pub fn asin(x: f64) -> Pair {
    if x.abs() == 1.0 {
        return Pair(HALF_PI[0], HALF_PI[1]).scaled(x);
    }
    let near = x.asin();
    let (sin, cos) = sin_cos(near);
    let t = Pair::of(x).minus(sin).over(cos);
    let bend = t.times(t).times(sin).over(cos).scaled(0.5);
    Pair::of(near).plus(t).plus(bend)
}

/// arctan x, by one step from the library's: the tangent of what is missing
/// is (x cos - sin) / (cos + x sin).
pub fn atan(x: f64) -> Pair {
    let near = x.atan();
    let (sin, cos) = sin_cos(near);
    let x = Pair::of(x);
    let missing = x.times(cos).minus(sin).over(cos.plus(x.times(sin)));
    Pair::of(near).plus(missing)
}
