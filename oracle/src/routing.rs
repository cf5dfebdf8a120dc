//! Where the routed modules' calls go.

use crate::marks::Shapes;
use crate::ours;
use crate::words::MARKS;
use std::cell::{Cell, RefCell};

/// The six elementary functions.
pub trait Elementary {
    fn routed_exp(self) -> Self;
    fn routed_ln(self) -> Self;
    fn routed_sin(self) -> Self;
    fn routed_cos(self) -> Self;
    fn routed_asin(self) -> Self;
    fn routed_atan(self) -> Self;
}

impl Elementary for f32 {
    fn routed_exp(self) -> f32 {
        ours::scalar_exp(self)
    }
    fn routed_ln(self) -> f32 {
        ours::scalar_ln(self)
    }
    fn routed_sin(self) -> f32 {
        note_angle(self);
        ours::scalar_sin(self)
    }
    fn routed_cos(self) -> f32 {
        note_angle(self);
        ours::scalar_cos(self)
    }
    fn routed_asin(self) -> f32 {
        ours::scalar_asin(self)
    }
    fn routed_atan(self) -> f32 {
        ours::scalar_atan(self)
    }
}

/// Minimum and maximum; those of whole numbers are Rust's own.
pub trait Order {
    fn routed_min(self, other: Self) -> Self;
    fn routed_max(self, other: Self) -> Self;
}

impl Order for f32 {
    fn routed_min(self, other: f32) -> f32 {
        ours::scalar_min(self, other)
    }
    fn routed_max(self, other: f32) -> f32 {
        ours::scalar_max(self, other)
    }
}

impl Order for i32 {
    fn routed_min(self, other: i32) -> i32 {
        Ord::min(self, other)
    }
    fn routed_max(self, other: i32) -> i32 {
        Ord::max(self, other)
    }
}

/// The paper's minimum: a NaN operand is dropped, of two equal ones the first.
pub fn min_rule(a: f32, b: f32) -> f32 {
    if a.is_nan() || b < a {
        b
    } else {
        a
    }
}

/// The paper's maximum, alike.
pub fn max_rule(a: f32, b: f32) -> f32 {
    if a.is_nan() || b > a {
        b
    } else {
        a
    }
}

/// sin and cos take -4 to 4; outside a C caller gets NaN.
pub fn on_domain(x: f32, f: fn(f32) -> f32) -> f32 {
    if (-4.0..=4.0).contains(&x) {
        f(x)
    } else {
        f32::NAN
    }
}

thread_local! {
    static HOPS: RefCell<Vec<i32>> = const { RefCell::new(Vec::new()) };
    static OUTSIDE: Cell<u64> = const { Cell::new(0) };
}

thread_local! {
    static TRIED: Cell<u32> = const { Cell::new(0) };
    static FOUND: Cell<u32> = const { Cell::new(0) };
    static ROWS: Cell<[u32; 30]> = const { Cell::new([0; 30]) };
}

thread_local! {
    static WORKED: Cell<[bool; 5]> = const { Cell::new([false; 5]) };
    static SHAPES: RefCell<Vec<Shapes>> = const { RefCell::new(Vec::new()) };
}

/// Notes that a shape is worked out at a height.
pub fn worked(shape: usize, x: f32) -> f32 {
    let mut worked = WORKED.get();
    worked[shape] = true;
    WORKED.set(worked);
    x
}

/// Notes the five values there; the first is the one whose maximum is taken.
pub fn shapes(values: [f32; 5]) -> f32 {
    let noted = Shapes {
        worked: WORKED.replace([false; 5]),
        values,
    };
    SHAPES.with(|s| {
        let mut s = s.borrow_mut();
        if s.len() == MARKS {
            s.clear();
        }
        s.push(noted);
    });
    values[0]
}

/// The shapes at the heights of the last profile, none where it made none.
pub fn take_shapes() -> Vec<Shapes> {
    SHAPES.with(|s| std::mem::take(&mut *s.borrow_mut()))
}

/// Where a true height stands if nothing was sought.
const UNSOUGHT: u32 = 50;

/// Notes the segment that a scan tries; 49 where none held the read.
pub fn tried(ih: usize) -> usize {
    TRIED.set(ih as u32);
    ih
}

/// The segment at which the last scan ended.
pub fn last_tried() -> u32 {
    TRIED.get()
}

/// Notes that the last scan found a true height.
pub fn found(height: f32) -> f32 {
    FOUND.set(TRIED.get());
    height
}

/// Notes the segment that `xlin` tries; 49 where none held the number.
pub fn at(j: usize) -> usize {
    FOUND.set(j as u32);
    j
}

/// Notes that a true height was not sought.
pub fn unsought<T>(height: T) -> T {
    FOUND.set(UNSOUGHT);
    height
}

/// The segment of the last true height.
pub fn last_found() -> u32 {
    FOUND.get()
}

/// Notes the row that the last true height goes into.
pub fn row(i: usize, height: f32) -> f32 {
    let mut rows = ROWS.get();
    rows[i] = FOUND.get();
    ROWS.set(rows);
    height
}

/// Notes that the first rows have fixed heights.
pub fn fixed(heights: &[f32; 10]) -> &[f32; 10] {
    let mut rows = ROWS.get();
    rows[..10].fill(UNSOUGHT);
    ROWS.set(rows);
    heights
}

/// The segments of the last ionogram's thirty rows.
pub fn last_rows() -> [u32; 30] {
    ROWS.get()
}

/// Notes a hop count before its plus one.
pub fn hop(nhops: i32) -> i32 {
    HOPS.with(|h| h.borrow_mut().push(nhops));
    nhops
}

/// The hop counts noted since the last call of this.
pub fn take_hops() -> Vec<i32> {
    HOPS.with(|h| std::mem::take(&mut *h.borrow_mut()))
}

fn note_angle(x: f32) {
    if x.abs() > 4.0 {
        OUTSIDE.with(|n| n.set(n.get() + 1));
    }
}

/// How many arguments of sin and cos outside -4 to 4 came since the last call.
pub fn take_outside() -> u64 {
    OUTSIDE.with(|n| n.replace(0))
}
