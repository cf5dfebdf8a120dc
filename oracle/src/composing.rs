//! What `compose` writes of a text, made from the description of the syntax,
//! with Rust's own reader of decimals.

use crate::circuit::{Circuit, DECILES, POINT, TWELVE};

/// The longest text that is read.
pub const LONGEST: usize = 32_768;
const OVER: &str = "over 32768 bytes\n";

/// What can be wrong with a line or with the end of the text.
pub const WRONG: [&str; 16] = [
    "not path, point or deciles",
    "unknown field",
    "a field twice",
    "not a number",
    "a number is missing",
    "a field is missing",
    "a second path",
    "shape is not 0 or 1",
    "no path before it",
    "a point after deciles",
    "too many points",
    "no point before it",
    "too many deciles",
    "no path",
    "no point",
    "not 48 lines of deciles",
];

/// The fields of a line, each with how many numbers it has.
pub type Fields = [(&'static str, usize)];

pub const PATH_FIELDS: [(&str, usize); 5] = [
    ("shape", 1),
    ("gcd", 1),
    ("gcdkm", 1),
    ("amind", 1),
    ("ssn", 1),
];

pub const POINT_FIELDS: [(&str, usize); 7] = [
    ("fi", 3),
    ("yi", 3),
    ("hi", 3),
    ("fs", 3),
    ("hs", 1),
    ("clat", 1),
    ("clck", 1),
];

enum Line {
    Empty,
    Path(Vec<u32>),
    Point(Vec<u32>),
    Deciles(Vec<u32>),
}

/// The file, or what is wrong.
pub fn compose(text: &[u8]) -> Vec<u8> {
    if text.len() > LONGEST {
        return OVER.into();
    }
    match circuit(text) {
        Ok(circuit) => circuit.written(),
        Err((line, what)) => format!("line {line}: {what}\n").into(),
    }
}

/// 0 for a file, the place in `WRONG` from 1 on, 17 for a text too long.
pub fn number(output: &[u8]) -> u32 {
    let text = std::str::from_utf8(output).unwrap_or("");
    let ends = |what: &&str| text.starts_with("line ") && text.ends_with(&format!(": {what}\n"));
    match WRONG.iter().position(ends) {
        Some(place) => place as u32 + 1,
        None if text == OVER => 17,
        None => 0,
    }
}

/// The circuit, or the number of the first wrong line and what is wrong.
fn circuit(text: &[u8]) -> Result<Circuit, (usize, &'static str)> {
    let mut lines: Vec<&[u8]> = text.split(|b| *b == b'\n').collect();
    // Nothing after the last line feed is no line.
    if lines.last().is_some_and(|line| line.is_empty()) {
        lines.pop();
    }
    let mut path: Option<Vec<u32>> = None;
    let mut points: Vec<[u32; POINT]> = Vec::new();
    let mut deciles: Vec<u32> = Vec::new();
    for (i, line) in lines.iter().enumerate() {
        let at = |what| (i + 1, what);
        let wrong = |what| Err(at(what));
        match read_line(line).map_err(at)? {
            Line::Empty => {}
            Line::Path(_) if path.is_some() => return wrong("a second path"),
            Line::Path(p) if shape(p[0]).is_none() => return wrong("shape is not 0 or 1"),
            Line::Path(p) => path = Some(p),
            Line::Point(_) if path.is_none() => return wrong("no path before it"),
            Line::Point(_) if !deciles.is_empty() => return wrong("a point after deciles"),
            Line::Point(_) if points.len() == 5 => return wrong("too many points"),
            Line::Point(p) => points.push(p.try_into().unwrap()),
            Line::Deciles(_) if points.is_empty() => return wrong("no point before it"),
            Line::Deciles(_) if deciles.len() == DECILES => return wrong("too many deciles"),
            Line::Deciles(d) => deciles.extend(d),
        }
    }
    let end = |what| (lines.len() + 1, what);
    let path = path.ok_or(end("no path"))?;
    if points.is_empty() {
        return Err(end("no point"));
    }
    if !deciles.is_empty() && deciles.len() != DECILES {
        return Err(end("not 48 lines of deciles"));
    }
    deciles.resize(DECILES, 0);
    Ok(Circuit {
        km: points.len() as u32,
        shape: shape(path[0]).unwrap(),
        numbers: path[1..].try_into().unwrap(),
        points,
        deciles,
    })
}

/// +0 and 1 are shapes.
fn shape(bits: u32) -> Option<u32> {
    (0..2).find(|n| (*n as f32).to_bits() == bits)
}

fn read_line(line: &[u8]) -> Result<Line, &'static str> {
    let text = line.split(|b| *b == b'#').next().unwrap();
    let mut words = text
        .split(|b| b" \t\r".contains(b))
        .filter(|word| !word.is_empty());
    let line = match words.next() {
        None => Line::Empty,
        Some(b"path") => Line::Path(fields(&mut words, &PATH_FIELDS)?),
        Some(b"point") => Line::Point(fields(&mut words, &POINT_FIELDS)?),
        Some(b"deciles") => Line::Deciles(numbers(&mut words, TWELVE)?),
        Some(_) => return Err("not path, point or deciles"),
    };
    // After a line's numbers only names may follow, and deciles have none.
    words.next().map_or(Ok(line), |_| Err("unknown field"))
}

/// The numbers of all fields, in the order of the list.
fn fields<'a>(
    words: &mut impl Iterator<Item = &'a [u8]>,
    names: &Fields,
) -> Result<Vec<u32>, &'static str> {
    let mut given: Vec<Option<Vec<u32>>> = vec![None; names.len()];
    while let Some(word) = words.next() {
        let place = names.iter().position(|(name, _)| name.as_bytes() == word);
        let place = place.ok_or("unknown field")?;
        if given[place].is_some() {
            return Err("a field twice");
        }
        given[place] = Some(numbers(words, names[place].1)?);
    }
    let all: Option<Vec<Vec<u32>>> = given.into_iter().collect();
    all.map(|fields| fields.concat())
        .ok_or("a field is missing")
}

fn numbers<'a>(
    words: &mut impl Iterator<Item = &'a [u8]>,
    count: usize,
) -> Result<Vec<u32>, &'static str> {
    let mut number = || {
        let word = words.next().ok_or("a number is missing")?;
        decimal(word).ok_or("not a number")
    };
    (0..count).map(|_| number()).collect()
}

/// The bits of a decimal: one to nine digits, a sign or none, a point or none.
pub fn decimal(word: &[u8]) -> Option<u32> {
    let text = std::str::from_utf8(word).ok()?;
    let unsigned = text.strip_prefix(['+', '-']).unwrap_or(text);
    let digits = unsigned.bytes().filter(u8::is_ascii_digit).count();
    let points = unsigned.bytes().filter(|b| *b == b'.').count();
    let right = digits + points == unsigned.len() && points <= 1 && (1..=9).contains(&digits);
    right.then(|| text.parse::<f32>().expect("a decimal").to_bits())
}

#[cfg(test)]
mod tests {
    use super::*;

    #[test]
    fn decimals_as_written() {
        for (word, value) in [
            (".5", 0.5),
            ("5.", 5.0),
            ("-0", -0.0),
            ("+012345678", 12345678.0),
        ] {
            assert_eq!(decimal(word.as_bytes()), Some(f32::to_bits(value)));
        }
        for word in ["", ".", "-", "1e5", "inf", "--1", "1.2.3", "0.000000001"] {
            assert_eq!(decimal(word.as_bytes()), None);
        }
    }

    #[test]
    fn wrong_lines() {
        assert_eq!(compose(b""), b"line 1: no path\n");
        assert_eq!(
            compose(b"\n # x\r\nfoo"),
            b"line 3: not path, point or deciles\n"
        );
        assert_eq!(compose(b"path gcd 1 gcd 2\n"), b"line 1: a field twice\n");
        assert_eq!(number(b"line 1: a field twice\n"), 3);
    }
}
