//! The circuit file's reader and writer against those written from the
//! paper, in both forms: outcome, circuit, bytes written, bytes left.
//!
//! circuit [CASES] [SEED]: 10^6 cases by default.

use oracle::circuit::{self, Circuit};
use oracle::random::Random;
use oracle::report::{argument, finish, hex, Tally, Verdict};
use oracle::wide::{self, Wide};
use oracle::{files, ours, words};

/// What lent words and bytes hold before a call.
const MARK: u32 = 0xdead_beef;
const BYTE: u8 = 0xa5;

fn main() {
    let (cases, seed) = (argument(1, 1_000_000), argument(2, 1));
    let verdicts = [
        compare("port_read", cases, seed, old_read),
        compare("port_write", cases, seed, old_write),
        compare("port_read128", cases, seed, wide_read),
        compare("port_write128", cases, seed, wide_write),
    ];
    finish(&verdicts)
}

type Case = fn(&mut Random) -> (u32, Option<String>);

fn compare(name: &'static str, cases: u64, seed: u64, case: Case) -> Verdict {
    if !ours::all_built(&[name]) {
        return Verdict::NotMade;
    }
    let mut tally = Tally::new(name);
    let mut random = Random::new(seed);
    for _ in 0..cases {
        let (answer, differs) = case(&mut random);
        tally.case(answer, differs);
    }
    tally.done()
}

type Read = fn(&[u8], &mut [u32]) -> u32;
/// The number answered, and the word that has the length.
type Write = fn(&[u32], &mut [u8]) -> (u32, u32);

fn old_read(r: &mut Random) -> (u32, Option<String>) {
    let file = files::any(r);
    let expected = circuit::read(&file).map(|(circuit, _)| circuit.to_words());
    read_case(r, &file, circuit::WORDS, expected, ours::port_read)
}

fn wide_read(r: &mut Random) -> (u32, Option<String>) {
    let file = files::any_wide(r);
    let expected = wide::read(&file).map(|wide| wide.to_words());
    read_case(r, &file, wide::WORDS, expected, ours::port_read128)
}

/// One file; now and then with more or fewer words lent than it takes.
fn read_case(
    r: &mut Random,
    file: &[u8],
    count: usize,
    read: Result<Vec<u32>, u32>,
    ours: Read,
) -> (u32, Option<String>) {
    let room = match r.below(16) {
        0 => r.below(count),
        1 => count + 1 + r.below(20),
        _ => count,
    };
    let mut got = vec![MARK; room];
    let mut wanted = got.clone();
    let answer = ours(file, &mut got);
    let expected = if room < count {
        1
    } else {
        match read {
            Ok(words) => {
                wanted[..count].copy_from_slice(&words);
                0
            }
            Err(number) => number,
        }
    };
    let differs = if answer != expected {
        Some(format!("answer {answer}, not {expected}"))
    } else {
        words::difference(&got, &wanted, words::no_floats)
            .map(|i| format!("word {i} is {:08x}, not {:08x}", got[i], wanted[i]))
    };
    let shown = |what: String| format!("{what}\n    room {room}, file {}", bytes(file));
    (expected, differs.map(shown))
}

fn old_write(r: &mut Random) -> (u32, Option<String>) {
    let mut given = files::circuit(r).to_words();
    spoil(r, &mut given);
    let file = Circuit::of_words(&padded(&given)).map(|c| c.written());
    write_case(r, &given, circuit::WORDS, file, |words, file| {
        let mut length = [MARK];
        let number = ours::port_write(words, file, &mut length);
        (number, length[0])
    })
}

fn wide_write(r: &mut Random) -> (u32, Option<String>) {
    let mut given = files::wide(r).to_words();
    spoil(r, &mut given);
    if r.once_in(8) {
        given.resize(wide::WORDS, 0);
        given[circuit::WORDS..].fill_with(|| r.word());
    }
    let file = Wide::of_words(&padded(&given)).map(|w| w.written());
    write_case(r, &given, wide::WORDS, file, |words, file| {
        let mut length = [MARK];
        let number = ours::port_write128(words, file, &mut length);
        (number, length[0])
    })
}

/// Words that were cut off are looked at by no one.
fn padded(given: &[u32]) -> Vec<u32> {
    let mut w = given.to_vec();
    w.resize(given.len().max(wide::WORDS), 0);
    w
}

/// One circuit's words into some room.
fn write_case(
    r: &mut Random,
    given: &[u32],
    count: usize,
    file: Option<Vec<u8>>,
    ours: Write,
) -> (u32, Option<String>) {
    let (expected, written) = expected_write(r, given.len() < count, file);
    let (number, length) = expected;
    let mut got = vec![BYTE; length];
    let mut wanted = got.clone();
    wanted[..written.len()].copy_from_slice(&written);
    let (answer, said) = ours(given, &mut got);
    let wrote = if number == 0 {
        written.len() as u32
    } else {
        MARK
    };
    let differs = if answer != number {
        Some(format!("answer {answer}, not {number}"))
    } else if said != wrote {
        Some(format!("length {said}, not {wrote}"))
    } else {
        (0..length)
            .find(|&i| got[i] != wanted[i])
            .map(|i| format!("byte {i} is {:02x}, not {:02x}", got[i], wanted[i]))
    };
    let shown = |what: String| format!("{what}\n    room {length}, words {}", hex(given));
    (number, differs.map(shown))
}

/// Sometimes a wrong km or shape, any numbers in points that aren't used,
/// words past the layout, or too few.
fn spoil(r: &mut Random, w: &mut Vec<u32>) {
    match r.below(8) {
        0 => w[0] = r.pick(&[0, 6, 7, 255, 256, 257, u32::MAX]),
        1 => w[1] = r.pick(&[2, 3, 255, 256, u32::MAX]),
        2 => {
            let used = 6 + 15 * w[0] as usize;
            w[used..6 + 75].fill_with(|| r.word());
        }
        3 => w.extend([r.word(), r.word()]),
        4 if r.once_in(8) => w.truncate(r.below(w.len())),
        _ => {}
    }
}

/// The refusal's number or 0, the room lent, and the bytes written.
fn expected_write(r: &mut Random, short: bool, file: Option<Vec<u8>>) -> ((u32, usize), Vec<u8>) {
    let any_room = r.below(8400);
    if short {
        return ((1, any_room.max(8192)), Vec::new());
    }
    let Some(file) = file else {
        return ((2, any_room), Vec::new());
    };
    let room = match r.below(8) {
        0 => r.below(file.len()),
        1 => file.len() - 1,
        2 | 3 => file.len(),
        _ => file.len() + r.below(200),
    };
    if room < file.len() {
        ((1, room), Vec::new())
    } else {
        ((0, room), file)
    }
}

fn bytes(file: &[u8]) -> String {
    file.iter().map(|b| format!("{b:02x}")).collect()
}
