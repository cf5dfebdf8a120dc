//! What `show` prints of a file, from its description and the routed Rust: the
//! MUFs, then each slot's rows and the runs of its marks.

use crate::marks;
use crate::programs::{self, Numbers};
use crate::words::*;

/// The page, or the refusal and its reason.
pub fn page(file: &[u8]) -> String {
    match programs::numbers(file) {
        Ok(numbers) => page_of(&numbers),
        Err(number) => format!("refused {number}\n{}\n", reason(number)),
    }
}

/// README's words for the numbers that a circuit file is refused with.
fn reason(number: u32) -> &'static str {
    match number {
        1 => "the file's length is not a multiple of 64, or not 128 to 4096 bytes",
        2 => "record 0: kind, number of points, shape, or a byte that must be zero",
        3 => "a step of the chain leads past the last record, or to a record met before",
        4 => "a record has the wrong kind or a byte that must be zero, or the chain is too short or too long",
        7 => "the path length in kilometres is below 0, or not a number",
        9 => "path length outside 0 to 40100 km or 0 to 6.3 radians, or least takeoff angle above 90 degrees",
        11 => "a layer's hop count, before its plus one, is not 0 to 999",
        12 => "the first decile number is above 0 or not a number, and the clock at the controlling slot has no time block",
        _ => "no circuit file is refused with this number",
    }
}

/// The exact value to the nearest unit of the last place, a half to the even
/// digit, at the right of so many characters; stars where it is wider.
fn decimal(word: u32, width: usize, places: usize) -> String {
    let v = f32::from_bits(word);
    let text = format!("{:.places$}", v as f64);
    let nothing = text.bytes().all(|b| !(b'1'..=b'9').contains(&b));
    let text = match v.is_finite() && nothing {
        true => text.trim_start_matches('-'),
        false => &text,
    };
    let text = if v.is_nan() { "NaN" } else { text };
    match text.len() <= width {
        true => format!("{text:>width$}"),
        false => "*".repeat(width),
    }
}

fn page_of(numbers: &Numbers) -> String {
    let hour = &numbers.hour;
    let names = ["E", "F1", "F2", "sporadic E"];
    let lines = names.iter().zip(&hour[..4]);
    let mufs: String = lines
        .map(|(name, w)| format!("{name:<13}{}\n", decimal(*w, 10, 1)))
        .collect();
    let layer = ["E", "F1", "F2"][hour[MODMUF] as usize - 1];
    let circuit = decimal(hour[4], 10, 1);
    let slots: String = numbers
        .slots
        .iter()
        .enumerate()
        .map(|(k, (rows, marks))| slot(k, rows, marks))
        .collect();
    format!(
        "MUF                 MHz\n{mufs}circuit      {circuit}   by the {layer} layer, controlling slot {}\n{slots}\n\
         Segment n lies between heights n + 1 and n + 2 of the slot's profile;\n\
         top: no segment holds the true height; -: none was looked for.\n",
        hour[KS]
    )
}

fn slot(k: usize, rows: &[u32], marks: &[u32]) -> String {
    let rows: String = (0..30).map(|i| row(rows, i)).collect();
    let heading = "row      MHz   true km  virtual km       loss  segment";
    format!(
        "\nSlot {k}\n{heading}\n{rows}\nheights   shape\n{}",
        runs(marks)
    )
}

fn row(rows: &[u32], i: usize) -> String {
    let mhz = decimal(rows[i], 7, 2);
    let height = decimal(rows[TRUE + i], 8, 1);
    let range = decimal(rows[30 + i], 10, 1);
    let loss = decimal(rows[LOSSES + i], 9, 4);
    let segment = match rows[SEGMENT + i] {
        50 => "-".to_string(),
        49 => "top".to_string(),
        n => n.to_string(),
    };
    format!(
        "{:>3}  {mhz}  {height}  {range}  {loss}  {segment:>7}\n",
        i + 1
    )
}

/// A line for each run of one mark.
fn runs(marks: &[u32]) -> String {
    let mut text = String::new();
    let mut from = 0;
    while from < marks.len() {
        let mark = marks[from];
        let count = marks[from..].iter().take_while(|m| **m == mark).count();
        let (first, last) = (from + 1, from + count);
        text += &format!("{first:>2} to {last:>2}  {}\n", marks::name(mark));
        from += count;
    }
    text
}

#[cfg(test)]
mod tests {
    use super::*;

    #[test]
    fn numbers_are_rounded_and_kept_in_their_width() {
        let fields = [
            0.125f32,
            -0.001,
            -0.0,
            2.5,
            -1.375,
            99999.0,
            f32::NAN,
            f32::NEG_INFINITY,
        ];
        let wanted = [
            "   0.12", "   0.00", "   0.00", "   2.50", "  -1.38", "*******", "    NaN", "   -inf",
        ];
        assert_eq!(fields.map(|v| decimal(v.to_bits(), 7, 2)), wanted);
    }

    #[test]
    fn a_height_alone_is_a_run() {
        assert_eq!(
            runs(&[6, 2, 2, 5]),
            " 1 to  1  gap\n 2 to  3  E parabola\n 4 to  4  F2\n"
        );
    }
}
