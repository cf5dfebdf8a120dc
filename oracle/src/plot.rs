//! What `plot` prints, from its description and the routed Rust: a picture of
//! 700 pixels with a panel for each slot, in units of a tenth of a pixel.

use crate::circuit::{self, Circuit};
use crate::marks;
use crate::predict;
use crate::programs::{hour, slots};
use crate::routed::side;
use crate::voacap::output::figure;
use crate::words::*;

/// An axis: its end in MHz or km, units for each of them, a tick's step.
struct Axis {
    end: u32,
    units: u32,
    step: u32,
}

const FREQUENCY: Axis = Axis {
    end: 30,
    units: 190,
    step: 5,
};
const HEIGHT: Axis = Axis {
    end: 600,
    units: 5,
    step: 100,
};
/// The frame's left edge, its top and its bottom.
const LEFT: u32 = 700;
const TOP: u32 = 500;
const BOTTOM: u32 = TOP + HEIGHT.end * HEIGHT.units;

/// The ids, forms and colours of the marks, by their numbers.
const MARKS: [(&str, &str); 7] = [
    (
        "none",
        "<path id='none' d='M-24 -24l48 48m0 -48l-48 48' stroke='#000' stroke-width='10'/>",
    ),
    (
        "tail",
        "<path id='tail' d='M0 -34l32 58h-64z' fill='#e69f00'/>",
    ),
    ("E", "<path id='E' d='M-26 -26h52v52h-52z' fill='#009e73'/>"),
    (
        "valley",
        "<path id='valley' d='M0 -36l36 36l-36 36l-36 -36z' fill='#56b4e9'/>",
    ),
    ("F1", "<path id='F1' d='M0 34l32 -58h-64z' fill='#cc79a7'/>"),
    ("F2", "<circle id='F2' r='28' fill='#0072b2'/>"),
    (
        "gap",
        "<circle id='gap' r='24' fill='#fff' stroke='#000' stroke-width='10'/>",
    ),
];

impl Axis {
    /// Where a number stands on the axis, by its exact value.
    fn place(&self, x: f32) -> Option<u32> {
        let product = (f64::from(x) * f64::from(self.units)).round_ties_even();
        let on = x >= 0.0 && product <= f64::from(self.end * self.units);
        on.then_some(product as u32)
    }

    /// The numbers of its ticks, and their places.
    fn ticks(&self) -> impl Iterator<Item = (u32, u32)> + '_ {
        (0..=self.end / self.step).map(|i| (i * self.step, i * self.step * self.units))
    }
}

fn point(f: f32, h: f32) -> Option<(u32, u32)> {
    let (x, y) = (FREQUENCY.place(f)?, HEIGHT.place(h)?);
    Some((LEFT + x, BOTTOM - y))
}

/// The line through the points of the rows, broken where a row has none.
fn line(f: &[f32], h: &[f32]) -> String {
    let mut data = String::new();
    let mut down = false;
    for (f, h) in f.iter().zip(h) {
        let at = point(*f, *h);
        if let Some((x, y)) = at {
            data += &format!("{}{x} {y}", if down { 'L' } else { 'M' });
        }
        down = at.is_some();
    }
    data
}

fn axes() -> String {
    let right = FREQUENCY.end * FREQUENCY.units;
    let mut text = format!(
        "<g id='axes'>\n<path class='frame' d='M{LEFT} {TOP}h{right}V{BOTTOM}h-{right}z'/>\n"
    );
    for (number, place) in FREQUENCY.ticks() {
        let x = LEFT + place;
        text += &format!("<path class='grid' d='M{x} {TOP}V{BOTTOM}'/><text class='m' x='{x}' y='3660'>{number}</text>\n");
    }
    for (number, place) in HEIGHT.ticks() {
        let y = BOTTOM - place;
        text += &format!("<path class='grid' d='M{LEFT} {y}h{right}'/><text class='e' x='650' y='{y}' dy='45'>{number}</text>\n");
    }
    text + "<text class='m' x='3550' y='3840'>frequency (MHz)</text>\n<text class='m' transform='translate(230 2000) rotate(-90)'>height (km)</text>\n</g>\n"
}

fn legend() -> String {
    let mut text = String::from("<text x='300' y='480'>Profile:</text>\n");
    let places = [1060, 1860, 2820, 3780, 4220, 4660];
    for (mark, x) in (1..).zip(places) {
        let (id, _) = MARKS[mark];
        let name = marks::name(mark as u32);
        text += &format!(
            "<use href='#{id}' x='{x}' y='440'/><text x='{}' y='480'>{name}</text>\n",
            x + 70
        );
    }
    text += "<text x='300' y='700'>Ionogram:</text>\n";
    text += "<path class='true' d='M1060 660h260'/><text x='1390' y='700'>true height</text>\n";
    text +=
        "<path class='virtual' d='M2340 660h260'/><text x='2670' y='700'>virtual height</text>\n";
    text += "<path class='muf' d='M3780 660h260'/><text x='4110' y='700'>circuit MUF</text>\n";
    text
}

fn head(slots: usize, call: &str) -> String {
    let height = 80 + 400 * slots;
    let mut text = format!("<svg xmlns='http://www.w3.org/2000/svg' width='700' height='{height}' viewBox='0 0 7000 {height}0'>\n");
    text += "<title>Profile and ionogram of a circuit's slots</title>\n";
    text += "<style>text{font:130px sans-serif}.b{font-weight:bold}.n{font-size:110px}.m{text-anchor:middle}.e{text-anchor:end}";
    text += "path{stroke-linejoin:round}.frame,.grid,.true,.virtual,.muf{fill:none;stroke:#000}.frame{stroke-width:10}";
    text += ".grid{stroke:#ccc;stroke-width:5}.true{stroke-width:15;marker:url(#dot)}";
    text += ".virtual{stroke:#d55e00;stroke-width:15;stroke-dasharray:50 30;marker:url(#cross)}";
    text += ".muf{stroke-width:15;stroke-dasharray:100 40 15 40}</style>\n";
    text += "<rect width='7000' height='100%' fill='#fff'/>\n<defs>\n";
    text += "<marker id='dot' markerUnits='userSpaceOnUse' markerWidth='60' markerHeight='60' viewBox='-30 -30 60 60'><circle r='15'/></marker>\n";
    text += "<marker id='cross' markerUnits='userSpaceOnUse' markerWidth='60' markerHeight='60' viewBox='-30 -30 60 60'>";
    text += "<path d='M-20 -20l40 40m0 -40l-40 40' stroke='#d55e00' stroke-width='12'/></marker>\n";
    for (_, form) in MARKS {
        text += &format!("{form}\n");
    }
    text += &axes();
    text += "</defs>\n";
    text += &format!("<text class='b' x='300' y='240'>Circuit MUF {call} MHz</text>\n");
    text += "<text class='n e' x='6400' y='240'>Not drawn: what is outside a frame, below zero or not a number.</text>\n";
    text + &legend()
}

/// What is drawn of a slot: its profile, rows and marks.
struct Slot {
    heights: [f32; 50],
    densities: [f32; 50],
    rows: Vec<f32>,
    marks: Vec<u32>,
}

fn panel(k: usize, slot: &Slot, muf: f32, controlling: bool) -> String {
    let top = 800 + 4000 * k;
    let named = if controlling { ", controlling" } else { "" };
    let mut text = format!("<g transform='translate(0 {top})'>\n<text class='b' x='700' y='200'>slot {k}{named}</text>\n");
    text += "<use href='#axes'/>\n";
    if let Some(x) = FREQUENCY.place(muf) {
        let (x, call) = (LEFT + x, figure(muf));
        text += &format!("<path class='muf' d='M{x} {TOP}V{BOTTOM}'/><text class='m' x='{x}' y='440'>MUF {call} MHz</text>\n");
    }
    let column = |from: usize| &slot.rows[from..from + 30];
    text += &format!(
        "<path class='virtual' d='{}'/>\n",
        line(column(0), column(30))
    );
    text += &format!(
        "<path class='true' d='{}'/>\n",
        line(column(0), column(TRUE))
    );
    for i in 0..50 {
        if let Some((x, y)) = point(slot.densities[i].sqrt(), slot.heights[i]) {
            let (id, _) = MARKS[slot.marks[i] as usize];
            text += &format!("<use href='#{id}' x='{x}' y='{y}'/>\n");
        }
    }
    text + "</g>\n"
}

fn plot_of(circuit: &Circuit) -> Result<String, u32> {
    let [_, gcdkm, amind, _] = circuit.numbers.map(f32::from_bits);
    predict::sang(gcdkm)?;
    let (state, call) = (slots(circuit), hour(circuit));
    predict::curmuf(&state, &call)?;
    let (_, _, hour) = side::curmuf(&state, &call);
    let nang = side::sang(gcdkm, amind) as usize;
    let muf = f32::from_bits(hour[4]);
    let count = state[KFX] as usize;
    let mut text = head(count, &figure(muf));
    for k in 0..count {
        let (after, rows, _) = side::sheet(&state, k, nang, &hour[KS + 1..]);
        let slot = Slot {
            heights: heights(&after),
            densities: densities(&after),
            rows: numbers(&rows),
            marks: side::marks(&state, k),
        };
        text += &panel(k, &slot, muf, hour[KS] as usize == k);
    }
    Ok(text + "</svg>\n")
}

/// The picture, or where the file is turned away.
pub fn plot_or_refusal(file: &[u8]) -> Result<String, u32> {
    circuit::read(file).and_then(|(circuit, _)| plot_of(&circuit))
}
