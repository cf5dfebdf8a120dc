//! `sang`, `selmod`, `genion`, `fobby`, `alosfv` and the slot sheet.

use super::*;
use crate::routed::side;
use crate::{ours, owner, predict, states};

fn angles(r: &mut Random) -> u32 {
    match r.below(20) {
        0 => r.pick(&[0, 41, 42, 1 << 31, u32::MAX]),
        1 | 2 => 40,
        _ => r.below(41) as u32,
    }
}

/// Cells for so many angles, now and then one too few, often some too many.
fn lent_cells(r: &mut Random, nang: u32) -> Vec<u32> {
    let exact = CELLS * (nang as usize).min(45);
    let length = match r.below(12) {
        0 => exact.saturating_sub(1),
        1 => r.below(exact + 1),
        2..=4 => exact + r.below(40),
        _ => exact,
    };
    if r.once_in(2) {
        return (0..length).map(|_| r.word()).collect();
    }
    vec![MARK; length]
}

/// Now and then a layer's height is that of a row, or beside it.
fn meet_rows(r: &mut Random, layers: &mut [u32], rows: &[u32]) {
    if r.once_in(2) {
        return;
    }
    for line in layers.chunks_exact_mut(LAYER) {
        let height = f32::from_bits(rows[TRUE + r.below(30)]);
        line[HEIGHT] = r.beside(height, 1).to_bits();
    }
}

pub fn sang(r: &mut Random) -> Call {
    let (gcdkm, amind) = states::scan(r);
    let out = room(r, 1);
    let wanted = long_enough(&[(&out, 1)])
        .and_then(|()| predict::sang(gcdkm))
        .map(|()| vec![side::sang(gcdkm, amind)]);
    let (gcdkm, amind) = (gcdkm.to_bits(), amind.to_bits());
    let lists = vec![("gcdkm, amind", vec![gcdkm, amind])];
    answering(lists, no_floats, out, wanted, |out| {
        ours::port_sang(gcdkm, amind, out)
    })
}

pub fn selmod(r: &mut Random) -> Call {
    let mut state = states::any(r);
    if r.once_in(2) {
        // F2s that differ by about 0.01.
        let f2 = f32::from_bits(state[FI + 2]);
        let other = f2 + r.pick(&[0.01, -0.01]);
        state[FI + 8] = r.beside(other, 2).to_bits();
    }
    let (given, out) = (resized(r, &state), room(r, 1));
    let wanted = long_enough(&[(&given, STATE), (&out, 1)]).map(|()| vec![side::selmod(&state)]);
    let lists = vec![("state", given.clone())];
    answering(lists, no_floats, out, wanted, |out| {
        ours::port_selmod(&given, out)
    })
}

/// Mostly of the slot that the profile was made for; with the switch of the
/// exact height rule off, or on.
pub fn genion<const EXACT: bool>(r: &mut Random) -> Call {
    let state = states::any(r);
    let state = states::switched(r, state, EXACT);
    let owner = state[OWNER];
    let k = if (1..=3).contains(&owner) && !r.once_in(5) {
        owner - 1
    } else {
        number(r)
    };
    let (given, out) = (resized(r, &state), room(r, ROWS));
    let wanted = long_enough(&[(&given, STATE), (&out, ROWS)])
        .and_then(|()| predict::slot(&[k]))
        .and_then(|()| owner::answers(&state, k))
        .map(|()| side::genion(&state, k as usize));
    let lists = vec![("state", given.clone()), ("k", vec![k])];
    answering(lists, row_floats, out, wanted, |out| {
        ours::port_genion(&given, k, out)
    })
}

pub fn fobby(r: &mut Random) -> Call {
    let rows = states::rows(r);
    let nang = angles(r);
    let cells = lent_cells(r, nang);
    let given = resized(r, &rows);
    let wanted = long_enough(&[(&given, ROWS)])
        .and_then(|()| predict::cells(nang, cells.len()))
        .map(|()| side::fobby(&rows, nang as usize));
    let lists = vec![("rows", given.clone()), ("nang", vec![nang])];
    answering(lists, no_floats, cells, wanted, |cells| {
        ours::port_fobby(&given, nang, cells)
    })
}

pub fn alosfv(r: &mut Random) -> Call {
    let state = states::any(r);
    let k = number(r);
    let (rows, mut layers) = (states::rows(r), states::layers(r));
    meet_rows(r, &mut layers, &rows);
    let (given, ion) = (resized(r, &state), resized(r, &rows));
    let lines = resized(r, &layers);
    let wanted = long_enough(&[(&given, STATE), (&ion, ROWS), (&lines, LAYERS)])
        .and_then(|()| predict::slot(&[k]))
        .map(|()| side::alosfv(&state, k as usize, &rows, &layers));
    let lists = vec![
        ("state", given.clone()),
        ("k", vec![k]),
        ("rows", ion.clone()),
        ("layers", lines.clone()),
    ];
    answering(lists, row_floats, ion, wanted, |ion| {
        ours::port_alosfv(&given, k, ion, &lines)
    })
}

/// With the switch of the exact height rule off, or on.
pub fn sheet<const EXACT: bool>(r: &mut Random) -> Call {
    let plain = r.once_in(3);
    let state = if plain {
        states::slots(r)
    } else {
        states::any(r)
    };
    let state = states::switched(r, state, EXACT);
    let (k, nang) = (number(r), angles(r));
    let mut layers = states::layers(r);
    if k < 3 {
        let (_, rows, _) = side::sheet(&state, k as usize, 0, &layers);
        meet_rows(r, &mut layers, &rows);
    }
    let (given, lines) = (resized(r, &state), resized(r, &layers));
    let (mut cells, mut out) = (lent_cells(r, nang), room(r, SHEET));
    let wanted = long_enough(&[(&given, STATE), (&lines, LAYERS), (&out, SHEET)])
        .and_then(|()| predict::slot(&[k]))
        .and_then(|()| predict::cells(nang, cells.len()))
        .map(|()| {
            let (after, rows, cells) = side::sheet(&state, k as usize, nang as usize, &layers);
            (after, [rows, side::marks(&state, k as usize)].concat(), cells)
        });
    let (cells_before, out_before) = (cells.clone(), out.clone());
    let mut got = given.clone();
    let answer = ours::port_sheet(&mut got, k, nang, &lines, &mut cells, &mut out);
    let part = |which: fn(&Answered) -> &[u32]| wanted.as_ref().ok().map(which);
    Call {
        answer,
        wanted: refusal(&wanted),
        lent: vec![
            Lent::new("rows, marks", out, &out_before, part(|w| &w.1), row_floats),
            Lent::new("cells", cells, &cells_before, part(|w| &w.2), no_floats),
            Lent::new("state", got, &given, part(|w| &w.0), state_floats),
        ],
        given: vec![
            ("state", given),
            ("k, nang", vec![k, nang]),
            ("layers", lines),
        ],
    }
}
