//! What the programs print or write of a file, from the paper and the routed
//! Rust.

use crate::circuit::{self, Circuit};
use crate::float;
use crate::marks;
use crate::plot;
use crate::predict;
use crate::routed::side;
use crate::voacap::output::figure;
use crate::wide::{self, Wide};
use crate::words::*;

/// A refused file gives only its number.
fn or_refused(text: Result<String, u32>) -> String {
    text.unwrap_or_else(|number| format!("refused {number}\n"))
}

/// The circuit in the form that carries F2M3, F2M3 being +0.
pub fn widen(file: &[u8]) -> Vec<u8> {
    let turned = circuit::read(file).map(|(circuit, _)| Wide::of(circuit).written());
    turned.unwrap_or_else(|number| or_refused(Err(number)).into())
}

/// The circuit in the old form, unless an F2M3 is not +0.
pub fn narrow(file: &[u8]) -> Vec<u8> {
    let back = |wide: Wide| match circuit::zeros(&wide.f2m3) {
        true => Ok(wide.circuit.written()),
        false => Err(14),
    };
    let turned = wide::read(file).and_then(back);
    turned.unwrap_or_else(|number| or_refused(Err(number)).into())
}

/// Record, kind and next index for each step, then the count.
pub fn chain(file: &[u8]) -> String {
    or_refused(circuit::read(file).map(|(_, steps)| {
        let lines = steps
            .iter()
            .map(|s| format!("{} {} {}\n", s.record, s.kind, s.next));
        lines.collect::<String>() + &format!("end {}\n", steps.len())
    }))
}

/// The circuit MUF, and the rows and marks of each slot.
pub fn sheet(file: &[u8]) -> String {
    or_refused(sheet_or_refusal(file))
}

/// The sheet, or where it is turned away.
pub fn sheet_or_refusal(file: &[u8]) -> Result<String, u32> {
    circuit::read(file).and_then(|(circuit, _)| sheet_of(&circuit))
}

/// The numbers of a sheet: the hour's words, and of each slot its rows and marks.
pub struct Numbers {
    pub hour: Vec<u32>,
    pub slots: Vec<(Vec<u32>, Vec<u32>)>,
}

/// The numbers of a file's sheet, or where it is turned away.
pub fn numbers(file: &[u8]) -> Result<Numbers, u32> {
    circuit::read(file).and_then(|(circuit, _)| numbers_of(&circuit))
}

fn numbers_of(circuit: &Circuit) -> Result<Numbers, u32> {
    let [_, gcdkm, amind, _] = circuit.numbers.map(f32::from_bits);
    predict::sang(gcdkm)?;
    let (state, call) = (slots(circuit), hour(circuit));
    predict::curmuf(&state, &call)?;
    let (_, _, hour) = side::curmuf(&state, &call);
    let nang = side::sang(gcdkm, amind) as usize;
    let slot = |k: usize| {
        let (_, rows, _) = side::sheet(&state, k, nang, &hour[KS + 1..]);
        (rows.to_vec(), side::marks(&state, k).to_vec())
    };
    let slots = (0..state[KFX] as usize).map(slot).collect();
    Ok(Numbers {
        hour: hour.to_vec(),
        slots,
    })
}

fn sheet_of(circuit: &Circuit) -> Result<String, u32> {
    let numbers = numbers_of(circuit)?;
    let mut text = muf_lines(&numbers.hour);
    for (k, (rows, marks)) in numbers.slots.iter().enumerate() {
        text += &slot_lines(k, rows);
        text += &mark_lines(marks);
    }
    Ok(text)
}

/// The picture of a circuit's slots.
pub fn plot(file: &[u8]) -> String {
    or_refused(plot::plot_or_refusal(file))
}

/// The slots as `ionset` leaves them.
pub fn slots(circuit: &Circuit) -> State {
    let layers = |p: &[u32; circuit::POINT]| p[..POINT].to_vec();
    let points: Vec<u32> = circuit.points.iter().flat_map(layers).collect();
    let mut state = side::from_layers(&points);
    state[IEDP] = if circuit.shape == 0 { -1i32 } else { 0 } as u32;
    side::ionset(&state)
}

/// The circuit MUF's arguments.
pub fn hour(circuit: &Circuit) -> Hour {
    let points = &circuit.points;
    Hour {
        es: points.iter().flat_map(|p| p[9..13].to_vec()).collect(),
        deciles: circuit.deciles.clone(),
        clat: points.iter().map(|p| p[13]).collect(),
        clck: points.iter().map(|p| p[14]).collect(),
        numbers: circuit.numbers.to_vec(),
    }
}

/// Eight digits; every NaN alike.
pub fn digits(word: u32) -> String {
    let word = if float::is_nan(word) {
        float::NAN
    } else {
        word
    };
    format!("{word:08x}")
}

/// The lines of the circuit MUF and of its figure.
pub fn muf_lines(hour: &[u32]) -> String {
    let mufs: Vec<String> = hour[..5].iter().map(|w| digits(*w)).collect();
    let (mode, slot) = (hour[MODMUF], hour[KS]);
    let call = figure(f32::from_bits(hour[4]));
    format!("muf {} {mode} {slot}\ncall {call}\n", mufs.join(" "))
}

/// fvert, htrue, hprim, afac and segment of each row.
pub fn slot_lines(k: usize, rows: &[u32]) -> String {
    let line = |i: usize| {
        let fields = [0, TRUE, 30, LOSSES].map(|column| digits(rows[column + i]));
        format!("{} {} {}\n", i + 1, fields.join(" "), rows[SEGMENT + i])
    };
    format!("slot {k}\n") + &(0..30).map(line).collect::<String>()
}

/// Number and shape of each height.
pub fn mark_lines(marks: &[u32]) -> String {
    let line = |(i, m): (usize, &u32)| format!("{} {}\n", i + 1, marks::name(*m));
    marks.iter().enumerate().map(line).collect()
}

#[cfg(test)]
mod tests {
    use super::*;

    #[test]
    fn the_papers_chain() {
        let mut file = vec![0; 128];
        (file[0], file[2], file[4], file[64]) = (1, 1, 1, 2);
        assert_eq!(chain(&file), "0 1 1\n1 2 0\nend 2\n");
        file[2] = 2;
        assert_eq!(chain(&file), "refused 3\n");
    }

    #[test]
    fn the_call_figure_is_rounded() {
        let fields = [0.7, -0.0, 12.25, 12.35, 1000.0, -0.03, -1.25, f32::NAN].map(figure);
        let wanted = [
            "  0.7", "  0.0", " 12.2", " 12.4", "*****", "  0.0", " -1.2", "  NaN",
        ];
        assert_eq!(fields, wanted);
    }
}
