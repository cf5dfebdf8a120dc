//! Sheets marked, from the paper: a circuit file, its length before it, and a
//! sheet that some program made of it.

use crate::programs;
use crate::random::Random;

/// The bytes that a sheet may have.
pub const SHEET: usize = 49_152;

/// The number of the first line that isn't ours, a line with its line feed, or
/// 0 where the sheet is ours; or the refusal.
pub fn marked(input: &[u8]) -> Result<usize, u32> {
    let (length, rest) = input.split_first_chunk::<4>().ok_or(1u32)?;
    let length = u32::from_le_bytes(*length) as usize;
    let (file, sheet) = rest.split_at_checked(length).ok_or(1u32)?;
    let ours = programs::sheet_or_refusal(file)?;
    if sheet.len() > SHEET {
        return Err(20);
    }
    Ok(first_other(ours.as_bytes(), sheet))
}

fn first_other(ours: &[u8], theirs: &[u8]) -> usize {
    let (ours, theirs) = (lines(ours), lines(theirs));
    let places = 0..ours.len().max(theirs.len());
    let mut other = places.filter(|n| ours.get(*n) != theirs.get(*n));
    other.next().map_or(0, |n| n + 1)
}

fn lines(text: &[u8]) -> Vec<&[u8]> {
    text.split_inclusive(|b| *b == b'\n').collect()
}

/// What `mark` prints.
pub fn printed(input: &[u8]) -> String {
    match marked(input) {
        Ok(0) => "same\n".into(),
        Ok(line) => format!("differs {line}\n"),
        Err(number) => format!("refused {number}\n"),
    }
}

/// A file with its length before it, and a sheet.
pub fn input(file: &[u8], sheet: &[u8]) -> Vec<u8> {
    let length = (file.len() as u32).to_le_bytes();
    [&length[..], file, sheet].concat()
}

/// One byte of the sheet changed, dropped or added, anywhere.
pub fn one_byte(r: &mut Random, sheet: &mut Vec<u8>) {
    let at = r.below(sheet.len() + 1);
    let byte = match r.below(4) {
        0 => r.word() as u8,
        1 => r.pick(b"\n\r \0"),
        _ => r.pick(b"0123456789abcdef"),
    };
    match r.below(3) {
        0 if at < sheet.len() => sheet[at] = byte,
        1 if at < sheet.len() => drop(sheet.remove(at)),
        _ => sheet.insert(at, byte),
    }
}

/// A sheet as another program might make it.
pub fn altered(r: &mut Random, ours: &[u8]) -> Vec<u8> {
    let mut sheet = ours.to_vec();
    match r.below(16) {
        0 => {}
        1 => sheet.truncate(r.below(ours.len() + 1)),
        2 => {
            let lines = lines(ours);
            sheet = lines[..r.below(lines.len() + 1)].concat();
        }
        3 => drop(sheet.pop()),
        4 => sheet.extend(r.pick(&[&b"\n"[..], b" ", b"31 0\n", b"slot 3\n", b"\0"])),
        5 => sheet = carriage_returns(r, ours),
        6 => {
            let mut lines = lines(ours);
            let (a, b) = (r.below(lines.len()), r.below(lines.len()));
            lines.swap(a, b);
            sheet = lines.concat();
        }
        7 => {
            let mut lines = lines(ours);
            lines.remove(r.below(lines.len()));
            sheet = lines.concat();
        }
        8 => {
            let length = r.pick(&[SHEET - 1, SHEET, SHEET + 1, SHEET + 2, 60_000]);
            sheet.resize(length, r.pick(b"\n 0"));
        }
        _ => one_byte(r, &mut sheet),
    }
    sheet
}

/// Before every line feed, or before one.
fn carriage_returns(r: &mut Random, ours: &[u8]) -> Vec<u8> {
    let every = r.once_in(2);
    let chosen = r.below(lines(ours).len());
    let line = |(n, line): (usize, &&[u8])| match line.strip_suffix(b"\n") {
        Some(front) if every || n == chosen => [front, b"\r\n"].concat(),
        _ => line.to_vec(),
    };
    lines(ours).iter().enumerate().flat_map(line).collect()
}

/// An input that is cut short, or has another length.
pub fn damaged(r: &mut Random, input: &mut Vec<u8>) {
    match r.below(4) {
        0 => input.truncate(r.below(8)),
        1 => input.truncate(r.below(input.len() + 1)),
        2 => input[r.below(4)] = r.word() as u8,
        _ => {
            let rest = input.len() - 4;
            let lengths = [0, rest - 1, rest, rest + 1, 4096, 4097, 4160, usize::MAX];
            let length = r.pick(&lengths) as u32;
            input[..4].copy_from_slice(&length.to_le_bytes());
        }
    }
}

#[cfg(test)]
mod tests {
    use super::*;

    #[test]
    fn the_papers_cases() {
        let ours = b"a\nb\n";
        let theirs: [(&[u8], usize); 8] = [
            (b"a\nb\n", 0),
            (b"", 1),
            (b"a\n", 2),
            (b"a", 1),
            (b"a\nb", 2),
            (b"a\nb\n\n", 3),
            (b"a\r\nb\n", 1),
            (b"a\nc\n", 2),
        ];
        for (sheet, line) in theirs {
            assert_eq!(first_other(ours, sheet), line);
        }
    }
}
