//! The export that puts the sheet of a file into lent bytes, against what the
//! paper and the routed Rust say that `sheet` prints.
//!
//! texts [FILES] [SEED]: 10^5 files by default, each called with enough room and
//! with too little.

use oracle::random::Random;
use oracle::report::{argument, finish, Tally, Verdict};
use oracle::{files, ours, programs};

/// The bytes that a caller lends.
const ROOM: usize = 8192;

fn main() {
    ours::warn_of_stand_ins();
    finish(&export())
}

fn export() -> Vec<Verdict> {
    if !ours::all_built(&["port_sheet_text"]) {
        return vec![Verdict::NotMade];
    }
    let mut whole = Tally::new("port_sheet_text");
    let mut short = Tally::new("port_sheet_text, too little room");
    let mut r = Random::new(argument(2, 1));
    for _ in 0..argument(1, 100_000) {
        let file = files::any_hour(&mut r);
        let wanted = programs::sheet_or_refusal(&file);
        let room = (r.pick(&[ROOM, ROOM, ROOM + 1, 2 * ROOM]), r.pick(&[1, 2]));
        let number = *wanted.as_ref().err().unwrap_or(&0);
        whole.case(number, call(&mut r, &file, room, &wanted));
        let room = r.pick(&[(ROOM - 1, 1), (ROOM, 0), (0, 0), (0, 1), (100, 2)]);
        short.case(1, call(&mut r, &file, room, &Err(1)));
    }
    vec![whole.done(), short.done()]
}

/// A call with so many bytes and words lent, and what differs: the answer, and
/// all that was lent.
fn call(
    r: &mut Random,
    file: &[u8],
    (bytes, words): (usize, usize),
    wanted: &Result<String, u32>,
) -> Option<String> {
    let mut left: Vec<u8> = (0..bytes).map(|_| r.word() as u8).collect();
    let mut count: Vec<u32> = (0..words).map(|_| r.word()).collect();
    let (mut out, mut length) = (left.clone(), count.clone());
    let number = ours::port_sheet_text(file, &mut out, &mut length);
    let answer = match wanted {
        Ok(sheet) => {
            left[..sheet.len()].copy_from_slice(sheet.as_bytes());
            count[0] = sheet.len() as u32;
            0
        }
        Err(number) => *number,
    };
    let same = number == answer && out == left && length == count;
    (!same).then(|| {
        let file: String = file.iter().map(|b| format!("{b:02x}")).collect();
        format!("{number} {length:?}, not {answer} {count:?}, {bytes} bytes lent\n    file {file}")
    })
}
