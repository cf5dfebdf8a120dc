//! Decimals and texts of circuits at random, right and wrong.

use crate::composing::{Fields, LONGEST, PATH_FIELDS, POINT_FIELDS};
use crate::random::Random;

/// The whole number n over ten to the places, in one to nine digits.
fn written(random: &mut Random, n: u64, places: usize) -> String {
    let sign = random.pick(&["", "", "", "-", "-", "+"]);
    // Zeros in front, as many as there is room for.
    let least = n.to_string().len().max(places).max(1);
    let width = least + random.below(10 - least.min(9));
    let digits = format!("{n:0width$}");
    let digits = if width > 9 { n.to_string() } else { digits };
    let (whole, rest) = digits.split_at(digits.len() - places);
    let point = if places > 0 || random.once_in(8) {
        "."
    } else {
        ""
    };
    format!("{sign}{whole}{point}{rest}")
}

/// A decimal of any kind, or beside a tie or a power of two.
pub fn decimal(random: &mut Random) -> String {
    let (n, places) = match random.below(8) {
        0 => tie(random),
        1 => beside_power(random),
        2 => (random.pick(&[0, 1, 5, 999_999_999]), random.below(10)),
        3 => (random.below(2_000) as u64, random.below(3)),
        _ => any(random),
    };
    let fits = n.to_string().len().max(places) <= 9;
    if fits {
        written(random, n, places)
    } else {
        decimal(random)
    }
}

fn any(random: &mut Random) -> (u64, usize) {
    let digits = 1 + random.below(9);
    let n = random.below(10usize.pow(digits as u32)) as u64;
    (n, random.below(digits + 1))
}

/// On a tie between two f32 or one beside it: 25 digits, the last of them 1,
/// with up to four zeros behind them or up to two places.
fn tie(random: &mut Random) -> (u64, usize) {
    let odd = (1 << 24 | random.word() as u64 >> 8) | 1;
    let step = random.below(3) as u64;
    let (n, places) = match random.below(7) {
        5 => (odd * 5, 1),
        6 => (odd * 25, 2),
        zeros => (odd << zeros, 0),
    };
    (n + step - 1, places)
}

/// A power of two with all places that there is room for, or one beside it.
fn beside_power(random: &mut Random) -> (u64, usize) {
    let exponent = random.below(60) as i32 - 30;
    let places = random.below(10);
    let n = 2f64.powi(exponent) * 10f64.powi(places as i32);
    (
        (n as u64 + random.below(3) as u64).saturating_sub(1),
        places,
    )
}

/// A text with deciles of the most decimals, and the decimals in the order of
/// the file.
pub fn of_decimals(random: &mut Random) -> (String, Vec<String>) {
    let mut decimals: Vec<String> = Vec::new();
    let mut draw = |random: &mut Random| {
        decimals.push(decimal(random));
        decimals.last().unwrap().clone()
    };
    let mut text = String::from("path shape 0");
    for (name, _) in &PATH_FIELDS[1..] {
        text += &format!(" {name} {}", draw(random));
    }
    for _ in 0..5 {
        text += "\npoint";
        for (name, count) in POINT_FIELDS {
            text += &format!(" {name}");
            for _ in 0..count {
                text += &format!(" {}", draw(random));
            }
        }
    }
    for _ in 0..48 {
        text += "\ndeciles";
        for _ in 0..12 {
            text += &format!(" {}", draw(random));
        }
    }
    (text + "\n", decimals)
}

type Words = Vec<String>;

/// The first word, then fields in any order.
fn line(random: &mut Random, kind: &str, fields: &Fields) -> Words {
    let mut left: Vec<(&str, usize)> = fields.to_vec();
    let mut words = vec![kind.to_string()];
    while !left.is_empty() {
        let (name, count) = left.swap_remove(random.below(left.len()));
        words.push(name.into());
        for _ in 0..count {
            words.push(match name {
                "shape" if random.once_in(20) => {
                    random.pick(&["2", "-0", ".5", "1.0000001"]).into()
                }
                "shape" => random.pick(&["0", "1", "1.0", "+0", "01"]).into(),
                _ => decimal(random),
            });
        }
    }
    words
}

/// The lines of a right text.
fn lines(random: &mut Random) -> Vec<Words> {
    let mut lines = vec![line(random, "path", &PATH_FIELDS)];
    for _ in 0..1 + random.below(5) {
        lines.push(line(random, "point", &POINT_FIELDS));
    }
    for _ in 0..random.pick(&[0, 0, 48]) {
        let numbers = (0..12).map(|_| decimal(random));
        lines.push([vec!["deciles".into()], numbers.collect()].concat());
    }
    lines
}

const ODD_WORDS: [&str; 30] = [
    "path",
    "point",
    "deciles",
    "shape",
    "gcd",
    "gcdkm",
    "amind",
    "ssn",
    "fi",
    "yi",
    "hi",
    "fs",
    "hs",
    "clat",
    "clck",
    "Path",
    "gcdk",
    "fis",
    ".",
    "-",
    "+-1",
    "1e5",
    "1.2.3",
    "1234567890",
    "0.000000001",
    "inf",
    "2",
    "-0",
    "0x1",
    "#",
];

/// Does one thing to the lines that may make them wrong.
fn damage(random: &mut Random, lines: &mut Vec<Words>) {
    let at = random.below(lines.len());
    let word = random.below(lines[at].len().max(1));
    let empty = lines[at].is_empty();
    match random.below(9) {
        0 | 1 if !empty => lines[at][word] = random.pick(&ODD_WORDS).into(),
        2 => lines[at].insert(word, random.pick(&ODD_WORDS).into()),
        3 if !empty => drop(lines[at].remove(word)),
        4 => lines[at].truncate(word),
        5 => {
            let other = random.below(lines.len());
            lines.swap(at, other);
        }
        6 if lines.len() > 1 => drop(lines.remove(at)),
        7 => lines.insert(random.below(lines.len() + 1), lines[at].clone()),
        _ => more(random, lines),
    }
}

/// Points or deciles repeated, until there are too many; or a field again.
fn more(random: &mut Random, lines: &mut Vec<Words>) {
    let kind = random.pick(&["point", "deciles", "path"]);
    let Some(at) = lines
        .iter()
        .position(|l| l.first().is_some_and(|w| w == kind))
    else {
        return;
    };
    let again = lines[at].clone();
    if random.once_in(2) {
        lines[at].extend_from_slice(&again[1..]);
    } else {
        for _ in 0..random.pick(&[1, 1, 5]) {
            lines.insert(at, again.clone());
        }
    }
}

fn blanks(random: &mut Random) -> &'static str {
    random.pick(&[" ", " ", " ", " ", "  ", "\t", " \t ", "\r "])
}

/// The words with blanks between and comments behind, lines without a word
/// between them.
fn printed(random: &mut Random, lines: &[Words]) -> Vec<u8> {
    let mut text = String::new();
    for words in lines {
        while random.once_in(12) {
            text += random.pick(&["\n", "# path\n", " \t\r\n", "  #\n", "##point 1 2\r\n"]);
        }
        text += random.pick(&["", "", "", " ", "\t"]);
        text += &words.iter().fold(String::new(), |t, w| match t.is_empty() {
            true => w.clone(),
            false => t + blanks(random) + w,
        });
        text += random.pick(&["", "", "", " ", "\r", " # gcd 1", "#", "\t#\u{e9} x"]);
        text += "\n";
    }
    if random.once_in(4) {
        text.pop();
    }
    text.into()
}

/// A comment at the end, that the text is about as long as may be.
fn lengthened(random: &mut Random, text: &mut Vec<u8>) {
    let length = LONGEST + random.below(5) - 2;
    text.push(b'#');
    text.resize(length.max(text.len()), b'x');
}

/// A text at random: two in three have something done to them.
pub fn any_text(random: &mut Random) -> Vec<u8> {
    let mut lines = lines(random);
    for _ in 0..random.pick(&[0, 1, 1, 1, 2, 4]) {
        damage(random, &mut lines);
        if lines.is_empty() {
            break;
        }
    }
    let mut text = printed(random, &lines);
    if random.once_in(40) && !text.is_empty() {
        let at = random.below(text.len());
        text[at] = random.word() as u8;
    }
    if random.once_in(40) {
        text.truncate(random.below(text.len() + 1));
    }
    if random.once_in(40) {
        lengthened(random, &mut text);
    }
    text
}
