//! Calls of our exported functions, each made beside the routed Rust on the
//! same words.

pub mod heights;
pub mod ionogram;
pub mod muf;
pub mod slots;

use crate::float;
use crate::random::Random;
use crate::report::hex;
use crate::words::*;

/// Makes one call.
pub type Case = fn(&mut Random) -> Call;

/// Each comparison by its name, which is that of our function; where heights
/// are read, once more with the switch of the exact rule on.
pub const COMPARISONS: [(&str, Case); 25] = [
    ("rust_walk", heights::rust_walk),
    ("port_from_layers", slots::from_layers),
    ("port_ionset", slots::ionset),
    ("port_lecden", slots::lecden),
    ("port_owner", slots::owner),
    ("port_gethp", heights::gethp::<false>),
    ("port_gethp exact", heights::gethp::<true>),
    ("port_gethp_scan", heights::gethp_scan::<false>),
    ("port_gethp_scan exact", heights::gethp_scan::<true>),
    ("port_bendy", heights::bendy),
    ("port_pen", heights::pen),
    ("port_xlin", heights::xlin),
    ("port_f2dis", muf::f2dis),
    ("port_curmuf", muf::curmuf::<false>),
    ("port_curmuf exact", muf::curmuf::<true>),
    ("port_nommuf", muf::nommuf),
    ("port_sang", ionogram::sang),
    ("port_selmod", ionogram::selmod),
    ("port_genion", ionogram::genion::<false>),
    ("port_genion exact", ionogram::genion::<true>),
    ("port_fobby", ionogram::fobby),
    ("port_alosfv", ionogram::alosfv),
    ("port_sheet", ionogram::sheet::<false>),
    ("port_sheet exact", ionogram::sheet::<true>),
    ("port_reading", heights::reading),
];

/// What lent words hold before a call.
const MARK: u32 = 0xdead_beef;

/// A call that was made: what is wanted of it, and what came.
pub struct Call {
    pub answer: u32,
    pub wanted: u32,
    lent: Vec<Lent>,
    given: Vec<(&'static str, Vec<u32>)>,
}

/// A lent list after the call, and what it should hold.
struct Lent {
    name: &'static str,
    got: Vec<u32>,
    wanted: Vec<u32>,
    floats: Floats,
}

impl Call {
    /// The call and the routed Rust's answer as a list of words: the answer,
    /// the arguments' lists, then the lists lent as they are left.
    pub fn listed(&self) -> Vec<u32> {
        let mut words = vec![self.wanted, self.given.len() as u32];
        for (_, list) in &self.given {
            words.extend(packed(list));
        }
        words.push(self.lent.len() as u32);
        for lent in &self.lent {
            words.extend(packed(&lent.one_nan(self.wanted != 0)));
        }
        words
    }

    /// How many of the numbers that an answer should hold are +0, and -0.
    pub fn zeros(&self) -> [u64; 2] {
        if self.wanted != 0 {
            return [0, 0];
        }
        let lent = self.lent.iter();
        let numbers = lent.flat_map(|l| {
            let words = l.wanted.iter().enumerate();
            words.filter(|(i, _)| (l.floats)(*i)).map(|(_, w)| *w)
        });
        numbers.fold([0, 0], |[plus, minus], w| match w {
            0 => [plus + 1, minus],
            0x8000_0000 => [plus, minus + 1],
            _ => [plus, minus],
        })
    }

    /// What differs, with the arguments.
    pub fn differs(&self) -> Option<String> {
        let what = if self.answer != self.wanted {
            format!("answer {}, not {}", self.answer, self.wanted)
        } else {
            self.lent.iter().find_map(|l| l.differs(self.wanted != 0))?
        };
        let given = self.given.iter();
        let given = given.map(|(name, words)| format!("\n    {name}: {}", hex(words)));
        Some(what + &given.collect::<String>())
    }
}

impl Lent {
    /// Wanted is `before` with the words in front, unless the call is refused.
    fn new(
        name: &'static str,
        got: Vec<u32>,
        before: &[u32],
        words: Option<&[u32]>,
        floats: Floats,
    ) -> Self {
        let words = words.unwrap_or(&[]);
        let wanted = [words, &before[words.len()..]].concat();
        Lent {
            name,
            got,
            wanted,
            floats,
        }
    }

    /// What is wanted, every NaN that is written as one pattern.
    fn one_nan(&self, refused: bool) -> Vec<u32> {
        let written = |i: usize| !refused && (self.floats)(i);
        let words = self.wanted.iter().enumerate();
        words
            .map(|(i, w)| {
                if written(i) && float::is_nan(*w) {
                    float::NAN
                } else {
                    *w
                }
            })
            .collect()
    }

    /// After a refusal every bit is as it came.
    fn differs(&self, refused: bool) -> Option<String> {
        let floats = if refused { no_floats } else { self.floats };
        let i = difference(&self.got, &self.wanted, floats)?;
        let (got, wanted) = (self.got[i], self.wanted[i]);
        Some(format!(
            "{} word {i} is {got:08x}, not {wanted:08x}",
            self.name
        ))
    }
}

/// A list's length and its words; where all are alike, the length with the
/// top bit set and that word.
fn packed(list: &[u32]) -> Vec<u32> {
    let length = list.len() as u32;
    match list.first() {
        Some(word) if list.len() > 1 && list.iter().all(|w| w == word) => {
            vec![length | 1 << 31, *word]
        }
        _ => [&[length], list].concat(),
    }
}

/// A state and two more lists.
type Answered = (State, Vec<u32>, Vec<u32>);

/// The number of a refusal, or 0.
fn refusal<T>(wanted: &Result<T, u32>) -> u32 {
    wanted.as_ref().err().copied().unwrap_or(0)
}

/// Room for `n` words, now and then more or less.
fn room(r: &mut Random, n: usize) -> Vec<u32> {
    let length = match r.below(40) {
        0 => r.below(n),
        1 => n + 1 + r.below(4),
        _ => n,
    };
    vec![MARK; length]
}

/// The words, now and then with more behind them or some missing.
fn resized(r: &mut Random, words: &[u32]) -> Vec<u32> {
    let mut w = words.to_vec();
    match r.below(60) {
        0 => w.truncate(r.below(words.len())),
        1 => w.extend([MARK; 3]),
        _ => {}
    }
    w
}

/// A list shorter than its layout refuses 1, before all else.
fn long_enough(lists: &[(&[u32], usize)]) -> Result<(), u32> {
    if lists.iter().all(|(words, layout)| words.len() >= *layout) {
        Ok(())
    } else {
        Err(1)
    }
}

fn state_at(words: &[u32]) -> State {
    words[..STATE].try_into().unwrap()
}

/// A slot or layer number, mostly a right one.
fn number(r: &mut Random) -> u32 {
    match r.below(20) {
        0 => r.pick(&[3, 4, 5, 255, u32::MAX]),
        _ => r.below(3) as u32,
    }
}

/// A call that reads lists and answers `n` words.
fn answering(
    given: Vec<(&'static str, Vec<u32>)>,
    floats: Floats,
    mut out: Vec<u32>,
    wanted: Result<Vec<u32>, u32>,
    ours: impl FnOnce(&mut [u32]) -> u32,
) -> Call {
    let before = out.clone();
    Call {
        answer: ours(&mut out),
        wanted: refusal(&wanted),
        lent: vec![Lent::new(
            "out",
            out,
            &before,
            wanted.as_deref().ok(),
            floats,
        )],
        given,
    }
}
