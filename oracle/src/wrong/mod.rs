//! The Rust and the oracle's reading of the paper once more, with single wrong
//! edits in it, one of which can be chosen (build/wrong.rs makes them by rule).
//! With none chosen it is the right Rust; while noting, too, but it is noted
//! which edits would have made a difference where they stand.

pub mod hours;
pub mod search;
pub mod seeds;
pub mod silent;

/// The edited modules.
#[allow(dead_code, unused_imports, unused_parens, clippy::all)]
pub mod made {
    include!(concat!(env!("OUT_DIR"), "/wrong.rs"));
}

use std::ops::{Add, BitOr, Div, Mul, Sub};
use std::sync::atomic::{AtomicBool, AtomicU32, Ordering::Relaxed};

/// How many numbers edits have, from 1; some numbers have none.
pub const COUNT: usize = made::EDITS.len();

/// The edits.
pub fn all() -> impl Iterator<Item = usize> {
    (1..=COUNT).filter(|e| is_one(*e))
}

fn is_one(edit: usize) -> bool {
    !made::EDITS[edit - 1].1.is_empty()
}

/// Function, and what is wrong in it.
pub fn name(edit: usize) -> String {
    let (function, what) = made::EDITS[edit - 1];
    format!("{function}: {what}")
}

const NOTE: u32 = u32::MAX;
/// Comparisons after which a run counts as endless.
const FUEL: u32 = 4_000_000;

static CHOSEN: AtomicU32 = AtomicU32::new(0);
static LEFT: AtomicU32 = AtomicU32::new(0);
static DIFFERS: [AtomicBool; COUNT + 1] = [const { AtomicBool::new(false) }; COUNT + 1];
/// The operands of the last operation at each place.
static OPERANDS: [[AtomicU32; 2]; COUNT + 1] =
    [const { [const { AtomicU32::new(0) }; 2] }; COUNT + 1];
/// How often a comparison was made, and times 65536 how often it held.
static HELD: [AtomicU32; COUNT + 1] = [const { AtomicU32::new(0) }; COUNT + 1];

/// Runs `f` with an edit chosen, or none (0); no answer where it panics or does
/// not end, which no proved program does.
pub fn with<T>(edit: usize, f: impl FnOnce() -> T) -> Option<T> {
    LEFT.store(FUEL, Relaxed);
    CHOSEN.store(edit as u32, Relaxed);
    let answer = std::panic::catch_unwind(std::panic::AssertUnwindSafe(f)).ok();
    CHOSEN.store(0, Relaxed);
    answer
}

/// Keeps panics under a chosen edit quiet; all others are printed.
pub fn quiet() {
    let usual = std::panic::take_hook();
    std::panic::set_hook(Box::new(move |panic| {
        if matches!(CHOSEN.load(Relaxed), 0 | NOTE) {
            usual(panic);
        }
    }));
}

/// What was noted of a run.
pub struct Noted<T> {
    pub answer: T,
    /// The edits that make a difference where they stand.
    pub differing: Vec<usize>,
    /// How often each comparison was made and held, by the first edit of its place;
    /// of a minimum or maximum how often it was the second, of a truncation the sum.
    pub held: Vec<u32>,
}

/// Runs `f` right, and notes.
pub fn noting<T>(f: impl FnOnce() -> T) -> Noted<T> {
    for edit in 0..=COUNT {
        DIFFERS[edit].store(false, Relaxed);
        HELD[edit].store(0, Relaxed);
    }
    LEFT.store(FUEL, Relaxed);
    CHOSEN.store(NOTE, Relaxed);
    let answer = f();
    CHOSEN.store(0, Relaxed);
    Noted {
        answer,
        differing: all().filter(|e| DIFFERS[*e].load(Relaxed)).collect(),
        held: HELD.iter().map(|h| h.load(Relaxed)).collect(),
    }
}

/// Answers that may be wrong.
trait Answer: Copy {
    fn same(self, other: Self) -> bool;
}

impl Answer for f32 {
    fn same(self, other: f32) -> bool {
        crate::float::same_number(self, other)
    }
}

macro_rules! answers {
    ($($t:ty)*) => {$(
        impl Answer for $t {
            fn same(self, other: $t) -> bool {
                self == other
            }
        }
    )*};
}
answers!(bool i32 u8 u16 u32 usize);

/// The right answer, or one of the wrong ones, the first of which is edit `base`.
#[inline(always)]
fn pick<T: Answer, const N: usize>(base: u32, right: T, wrongs: impl FnOnce() -> [T; N]) -> T {
    let chosen = CHOSEN.load(Relaxed);
    if chosen == 0 || chosen != NOTE && chosen.wrapping_sub(base) >= N as u32 {
        return right;
    }
    picked(chosen, base, right, &wrongs())
}

#[cold]
fn picked<T: Answer>(chosen: u32, base: u32, right: T, wrongs: &[T]) -> T {
    if chosen != NOTE {
        return wrongs[(chosen - base) as usize];
    }
    for (i, wrong) in wrongs.iter().enumerate() {
        if !wrong.same(right) {
            DIFFERS[base as usize + i].store(true, Relaxed);
        }
    }
    right
}

/// The next number up; NaN stays.
fn up(x: f32) -> f32 {
    if x.is_nan() {
        x
    } else {
        crate::float::at_rank(crate::float::rank(x) + 1)
    }
}

pub fn kept(base: u32) -> bool {
    pick(base, true, || [false])
}

pub fn truth(base: u32, x: bool) -> bool {
    pick(base, x, || [!x])
}

pub fn number(base: u32, x: f32) -> f32 {
    pick(base, x, || [up(x), x * 1.01])
}

pub fn zero(base: u32) -> f32 {
    pick(base, 0.0, || [1.0])
}

pub fn minus(base: u32) -> f32 {
    pick(base, -1.0, || [1.0])
}

pub fn table<const N: usize>(base: u32, right: &[f32; N]) -> [f32; N] {
    let mut made = *right;
    // 64 places: what is less gets lost in the sums with 1
    for (i, x) in made.iter_mut().enumerate() {
        *x = pick(base + i as u32, *x, || [f32::from_bits(x.to_bits() + 64)]);
    }
    made
}

/// Whole numbers: one less and one more, of 0 one more.
pub trait Whole: Copy {
    fn wholes(self, base: u32) -> Self;
}

macro_rules! wholes {
    ($($t:ty)*) => {$(
        impl Whole for $t {
            fn wholes(self, base: u32) -> $t {
                if self == 0 {
                    pick(base, self, || [1])
                } else {
                    pick(base, self, || [self - 1, self + 1])
                }
            }
        }
    )*};
}
wholes!(i32 u8 u16 u32 usize);

pub fn whole<T: Whole>(base: u32, x: T) -> T {
    x.wholes(base)
}

pub fn index(base: u32, x: usize) -> usize {
    x.wholes(base)
}

/// Methods that may be wrong.
pub trait Methods {
    fn wrong(self, base: u32, f: fn(f32) -> f32) -> f32;
    fn wrong_min(self, base: u32, other: f32) -> f32;
    fn wrong_max(self, base: u32, other: f32) -> f32;
    fn truncated(self, base: u32) -> i32;
}

impl Methods for f32 {
    fn wrong(self, base: u32, f: fn(f32) -> f32) -> f32 {
        pick(base, f(self), || [self])
    }
    fn wrong_min(self, base: u32, b: f32) -> f32 {
        let (a, min, max) = (self, crate::routing::min_rule, crate::routing::max_rule);
        let kept = if a.is_nan() || b.is_nan() {
            f32::NAN
        } else {
            min(a, b)
        };
        count(base, u32::from(b < a));
        pick(base, min(a, b), || [max(a, b), a, kept, min(b, a)])
    }
    fn wrong_max(self, base: u32, b: f32) -> f32 {
        let (a, min, max) = (self, crate::routing::min_rule, crate::routing::max_rule);
        let kept = if a.is_nan() || b.is_nan() {
            f32::NAN
        } else {
            max(a, b)
        };
        count(base, u32::from(b > a));
        pick(base, max(a, b), || [min(a, b), a, kept, max(b, a)])
    }
    fn truncated(self, base: u32) -> i32 {
        count(base, self as u32);
        pick(base, self as i32, || [self.round() as i32])
    }
}

/// An operation's place, and the place of the one before it in a chain, or 0:
/// `a + At(..) + b` is `a + b`, right or wrong.
#[derive(Clone, Copy)]
pub struct At(pub u32, pub u32);

#[derive(Clone, Copy)]
pub struct Left<T>(T, At);

#[derive(Clone, Copy, PartialEq)]
enum Sign {
    Add,
    Sub,
    Mul,
    Div,
}

impl Sign {
    fn of(self, a: f32, b: f32) -> f32 {
        match self {
            Sign::Add => a + b,
            Sign::Sub => a - b,
            Sign::Mul => a * b,
            Sign::Div => a / b,
        }
    }

    /// The one that undoes it.
    fn other(self) -> Sign {
        match self {
            Sign::Add => Sign::Sub,
            Sign::Sub => Sign::Add,
            Sign::Mul => Sign::Div,
            Sign::Div => Sign::Mul,
        }
    }
}

/// Which sign stood at each place, by its first edit.
static SIGNS: [AtomicU32; COUNT + 1] = [const { AtomicU32::new(0) }; COUNT + 1];
const SIGN: [Sign; 4] = [Sign::Add, Sign::Sub, Sign::Mul, Sign::Div];

#[inline(always)]
fn worked(sign: Sign, Left(a, At(base, last)): Left<f32>, b: f32) -> f32 {
    let right = sign.of(a, b);
    let chosen = CHOSEN.load(Relaxed);
    if chosen == 0 {
        return right;
    }
    let place = base as usize;
    OPERANDS[place][0].store(a.to_bits(), Relaxed);
    OPERANDS[place][1].store(b.to_bits(), Relaxed);
    SIGNS[place].store(sign as u32, Relaxed);
    let other = sign.other().of(a, b);
    if last == 0 {
        return pick(base, right, || [other, up(right)]);
    }
    pick(base, right, || {
        [other, up(right), first(last as usize, sign, b)]
    })
}

/// The operation at `last` and this one, taken from the right.
fn first(last: usize, sign: Sign, c: f32) -> f32 {
    let [a, b] = [0, 1].map(|i| f32::from_bits(OPERANDS[last][i].load(Relaxed)));
    let before = SIGN[SIGNS[last].load(Relaxed) as usize];
    let sign = if matches!(before, Sign::Sub | Sign::Div) {
        sign.other()
    } else {
        sign
    };
    before.of(a, sign.of(b, c))
}

macro_rules! operation {
    ($name:ident $f:ident $right:ident $wrong:ident) => {
        impl $name<At> for f32 {
            type Output = Left<f32>;
            #[inline(always)]
            fn $f(self, at: At) -> Left<f32> {
                Left(self, at)
            }
        }
        impl $name<f32> for Left<f32> {
            type Output = f32;
            #[inline(always)]
            fn $f(self, b: f32) -> f32 {
                worked(Sign::$name, self, b)
            }
        }
        operation!($name $f $right $wrong; i32);
        operation!($name $f $right $wrong; u32);
        operation!($name $f $right $wrong; usize);
    };
    ($name:ident $f:ident $right:ident $wrong:ident; $t:ty) => {
        impl $name<At> for $t {
            type Output = Left<$t>;
            fn $f(self, at: At) -> Left<$t> {
                Left(self, at)
            }
        }
        impl $name<$t> for Left<$t> {
            type Output = $t;
            fn $f(self, b: $t) -> $t {
                let Left(a, At(base, _)) = self;
                pick(base, a.$right(b), || [a.$wrong(b)])
            }
        }
    };
}
operation!(Add add wrapping_add wrapping_sub);
operation!(Sub sub wrapping_sub wrapping_add);
operation!(Mul mul wrapping_mul wrapping_div);
operation!(Div div wrapping_div wrapping_mul);

/// A comparison's place: `a | lt(..) | b` is `a < b`, right or wrong.
#[derive(Clone, Copy)]
pub struct Than(u32, Order);

#[derive(Clone, Copy)]
enum Order {
    Lt,
    Le,
    Gt,
    Ge,
    Eq,
    Ne,
}

pub fn lt(base: u32) -> Than {
    Than(base, Order::Lt)
}
pub fn le(base: u32) -> Than {
    Than(base, Order::Le)
}
pub fn gt(base: u32) -> Than {
    Than(base, Order::Gt)
}
pub fn ge(base: u32) -> Than {
    Than(base, Order::Ge)
}
pub fn eq(base: u32) -> Than {
    Than(base, Order::Eq)
}
pub fn ne(base: u32) -> Than {
    Than(base, Order::Ne)
}

pub struct Compared<T>(T, Than);

fn count(base: u32, n: u32) {
    if CHOSEN.load(Relaxed) == NOTE {
        HELD[base as usize].fetch_add(n, Relaxed);
    }
}

/// Counts a comparison, and ends a run that does not end.
fn burn(base: u32, held: bool) {
    if CHOSEN.load(Relaxed) == 0 {
        return;
    }
    count(base, 1 + (u32::from(held) << 16));
    let left = LEFT.load(Relaxed);
    LEFT.store(left.wrapping_sub(1), Relaxed);
    assert!(left > 0, "a run that does not end");
}

/// With what holds of equal numbers, and of numbers without an order, turned.
fn compared<T: PartialOrd>(a: T, Than(base, order): Than, b: T, floats: bool) -> bool {
    let (less, equal, greater) = (a < b, a == b, a > b);
    let none = !less && !equal && !greater;
    let right = match order {
        Order::Lt => less,
        Order::Le => less || equal,
        Order::Gt => greater,
        Order::Ge => greater || equal,
        Order::Eq => equal,
        Order::Ne => !equal,
    };
    burn(base, right);
    if matches!(order, Order::Eq | Order::Ne) {
        return pick(base, right, || [true, false]);
    }
    let at_equals = if equal { !right } else { right };
    let at_none = if none { !right } else { right };
    if floats {
        pick(base, right, || [true, false, at_equals, at_none])
    } else {
        pick(base, right, || [true, false, at_equals])
    }
}

macro_rules! comparison {
    ($($t:ty, $floats:expr;)*) => {$(
        impl BitOr<Than> for $t {
            type Output = Compared<$t>;
            #[inline(always)]
            fn bitor(self, than: Than) -> Compared<$t> {
                Compared(self, than)
            }
        }
        impl BitOr<$t> for Compared<$t> {
            type Output = bool;
            #[inline(always)]
            fn bitor(self, b: $t) -> bool {
                compared(self.0, self.1, b, $floats)
            }
        }
    )*};
}
comparison!(f32, true; i32, false; u8, false; u16, false; u32, false; usize, false;);
