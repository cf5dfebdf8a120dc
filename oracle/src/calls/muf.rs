//! `f2dis`, `curmuf` and `nommuf`.

use super::*;
use crate::routed::side;
use crate::{ours, predict, routing, states};

pub fn f2dis(r: &mut Random) -> Call {
    let mut deciles = states::deciles(r);
    if r.once_in(25) {
        deciles.resize(r.pick(&[0, 575, 577, 1000]), MARK);
    }
    let given = states::spread(r);
    let (numbers, out) = (resized(r, &given), room(r, 1));
    let wanted = long_enough(&[(&numbers, 5), (&out, 1)])
        .and_then(|()| predict::f2dis(&deciles, &numbers))
        .map(|()| vec![side::f2dis(&deciles, &numbers)]);
    let lists = vec![("deciles", deciles.clone()), ("numbers", numbers.clone())];
    answering(lists, all_floats, out, wanted, |out| {
        ours::port_f2dis(&deciles, &numbers, out)
    })
}

/// With the switch of the exact height rule off, or on.
pub fn curmuf<const EXACT: bool>(r: &mut Random) -> Call {
    let plain = r.once_in(3);
    let state = if plain {
        states::slots(r)
    } else {
        states::any(r)
    };
    let state = states::switched(r, state, EXACT);
    let mut hour = states::hour(r);
    if r.once_in(6) {
        many_hops(r, &state, &mut hour);
    }
    hour.numbers = resized(r, &hour.numbers);
    curmuf_call(resized(r, &state), hour, room(r, HOUR))
}

/// So steep and so far that some layer needs about a thousand hops.
fn many_hops(r: &mut Random, state: &State, hour: &mut Hour) {
    let far = 40_000.0;
    let amind = r.between(75.0, 89.97);
    let path = |gcdkm: f32| bits(&[gcdkm / 6370.0, gcdkm, amind, 100.0]);
    hour.numbers = path(far);
    let counts = predict::hop_counts(state, hour);
    let hops = r.pick(&counts) as f32;
    if hops > 1000.0 {
        let near = far * r.between(998.0, 1002.0) / hops;
        hour.numbers = path(near);
    }
}

/// Of a row only the lower decile is ever written; all else keeps its bits.
fn lower_deciles(i: usize) -> bool {
    i % ES_ROW == 0
}

fn curmuf_call(given: Vec<u32>, hour: Hour, mut out: Vec<u32>) -> Call {
    let wanted = long_enough(&[(&given, STATE), (&hour.numbers, 4), (&out, HOUR)])
        .and_then(|()| rust_hour(&state_at(&given), &hour));
    let before = out.clone();
    let (mut state, mut es) = (given.clone(), hour.es.clone());
    let answer = ours::port_curmuf(
        &mut state,
        &mut es,
        &hour.deciles,
        &hour.clat,
        &hour.clck,
        &hour.numbers,
        &mut out,
    );
    let part = |which: fn(&Answered) -> &[u32]| wanted.as_ref().ok().map(which);
    Call {
        answer,
        wanted: refusal(&wanted),
        lent: vec![
            Lent::new("hour", out, &before, part(|w| &w.2), hour_floats),
            Lent::new("state", state, &given, part(|w| &w.0), state_floats),
            Lent::new("es", es, &hour.es, part(|w| &w.1), lower_deciles),
        ],
        given: vec![
            ("state", given),
            ("es", hour.es),
            ("deciles", hour.deciles),
            ("clat", hour.clat),
            ("clck", hour.clck),
            ("numbers", hour.numbers),
        ],
    }
}

pub fn nommuf(r: &mut Random) -> Call {
    let mut given = states::nominal(r);
    given.numbers = resized(r, &given.numbers);
    if r.once_in(30) {
        given.es.truncate(r.below(given.es.len() + 1));
    }
    let out = room(r, HOUR);
    let rows = ES_ROW * (given.points.len() / POINT);
    let wanted = long_enough(&[(&given.numbers, 2), (&out, HOUR), (&given.es, rows)])
        .and_then(|()| predict::nommuf(&given))
        .map(|()| rust_nominal(&given));
    let Nominal {
        points,
        f2m3,
        es,
        numbers,
    } = given;
    let lists = vec![
        ("points", points.clone()),
        ("f2m3", f2m3.clone()),
        ("es", es.clone()),
        ("numbers", numbers.clone()),
    ];
    answering(lists, hour_floats, out, wanted, |out| {
        ours::port_nommuf(&points, &f2m3, &es, &numbers, out)
    })
}

/// The routed Rust's nominal hour, with no angle outside -4 to 4 either.
fn rust_nominal(given: &Nominal) -> Vec<u32> {
    routing::take_outside();
    let hour = side::nommuf(given);
    assert_eq!(routing::take_outside(), 0, "an angle outside -4 to 4");
    hour
}

/// The routed Rust's hour: no angle of sin or cos may leave -4 to 4, since
/// the MUF never refuses 13.
fn rust_hour(state: &State, hour: &Hour) -> Result<Answered, u32> {
    predict::curmuf(state, hour)?;
    routing::take_outside();
    let answered = side::curmuf(state, hour);
    assert_eq!(routing::take_outside(), 0, "an angle outside -4 to 4");
    Ok(answered)
}
