//! `gethp` by the walk and by scans, a density read by a scan, `bendy`, `pen`, `xlin`.

use super::*;
use crate::routed::side;
use crate::{ours, predict, states};

type Gethp = fn(&[u32], u32, &mut [u32]) -> u32;

/// Both heights, the cursor and the segment: by the exact rule or not; by the walk where
/// the heights
/// rise, or always by scans.
fn heights_read(r: &mut Random, exact: bool, walks: bool, ours: Gethp) -> Call {
    let state = states::any(r);
    let state = states::switched(r, state, exact);
    let fxx = states::frequency(r, &state);
    let (given, out) = (resized(r, &state), room(r, 4));
    let wanted = long_enough(&[(&given, STATE), (&out, 4)]).map(|()| {
        let [hp, ht, segment] = side::gethp(&state, fxx, walks && rises(&state));
        let cursor = if walks {
            predict::cursor(&state, fxx)
        } else {
            0
        };
        vec![hp, ht, cursor, segment]
    });
    let fxx = fxx.to_bits();
    let lists = vec![("state", given.clone()), ("fxx", vec![fxx])];
    answering(lists, |i| i < 2, out, wanted, |out| ours(&given, fxx, out))
}

pub fn gethp<const EXACT: bool>(r: &mut Random) -> Call {
    heights_read(r, EXACT, true, ours::port_gethp)
}

pub fn gethp_scan<const EXACT: bool>(r: &mut Random) -> Call {
    heights_read(r, EXACT, false, ours::port_gethp_scan)
}

/// Rust's walk against Rust's scans, by bits: a frequency's heights, and a
/// density read with its segment.
pub fn rust_walk(r: &mut Random) -> Call {
    let mut state = states::any(r);
    while !rises(&state) {
        state = states::any(r);
    }
    // With the switch on it has no walk where the exact rule runs.
    state[EXACT] = 0;
    let fxx = states::frequency(r, &state);
    let zi = states::height(r, &state);
    let both = |h: [u32; 3], d: [u32; 2]| vec![h[0], h[1], d[0], h[2], d[1]];
    let walked = both(side::gethp(&state, fxx, true), side::walked(&state, zi));
    let scanned = both(side::gethp(&state, fxx, false), side::reading(&state, zi));
    let lists = vec![
        ("state", state.to_vec()),
        ("fxx, zi", vec![fxx.to_bits(), zi.to_bits()]),
    ];
    answering(lists, |i| i < 3, vec![MARK; 5], Ok(scanned), |out| {
        out.copy_from_slice(&walked);
        0
    })
}

/// The kind, the density, whose NaN is the one pattern, and the segment: the
/// index that the routed Rust notes, and the first that holds the read.
pub fn reading(r: &mut Random) -> Call {
    let mut state = states::any(r);
    if r.once_in(3) {
        states::bend_heights(r, &mut state);
    }
    let zi = states::height(r, &state);
    let (given, out) = (resized(r, &state), room(r, 3));
    let wanted = long_enough(&[(&given, STATE), (&out, 3)]).map(|()| {
        let [density, noted] = side::reading(&state, zi);
        let (kind, segment) = predict::kind(&state, zi);
        assert_eq!(noted, segment, "the Rust's segment is not the paper's");
        let one_nan = if float::is_nan(density) {
            float::NAN
        } else {
            density
        };
        vec![kind, one_nan, segment]
    });
    let zi = zi.to_bits();
    let lists = vec![("state", given.clone()), ("zi", vec![zi])];
    answering(lists, no_floats, out, wanted, |out| {
        ours::port_reading(&given, zi, out)
    })
}

type Parabola = fn(&[u32], u32, u32, u32, &mut [u32]) -> u32;

fn parabola(r: &mut Random, rust: fn(&State, usize, usize, f32) -> u32, ours: Parabola) -> Call {
    let state = states::any(r);
    let (i, k) = (number(r), number(r));
    let f = states::frequency(r, &state);
    let (given, out) = (resized(r, &state), room(r, 1));
    let wanted = long_enough(&[(&given, STATE), (&out, 1)])
        .and_then(|()| predict::slot(&[i, k]))
        .map(|()| vec![rust(&state, i as usize, k as usize, f)]);
    let f = f.to_bits();
    let lists = vec![("state", given.clone()), ("i, k, f", vec![i, k, f])];
    answering(lists, all_floats, out, wanted, |out| {
        ours(&given, i, k, f, out)
    })
}

pub fn bendy(r: &mut Random) -> Call {
    parabola(r, side::bendy, ours::port_bendy)
}

pub fn pen(r: &mut Random) -> Call {
    parabola(r, side::pen, ours::port_pen)
}

pub fn xlin(r: &mut Random) -> Call {
    let (xs, ys) = (states::heights_of(r), states::heights_of(r));
    let x = match r.below(4) {
        0 => r.pick(&xs),
        1 => {
            let some = r.pick(&xs);
            r.beside(some, 1)
        }
        2 => r.wild(),
        _ => r.between(0.0, 1.0) * (xs[49] - xs[0]) + xs[0],
    };
    let (xn, yn) = (resized(r, &bits(&xs)), resized(r, &bits(&ys)));
    let out = room(r, 2);
    let wanted = long_enough(&[(&xn, 50), (&yn, 50), (&out, 2)])
        .map(|()| side::xlin(x, &xs, &ys).to_vec());
    let lists = vec![
        ("x", vec![x.to_bits()]),
        ("xn", xn.clone()),
        ("yn", yn.clone()),
    ];
    answering(lists, |i| i < 1, out, wanted, |out| {
        ours::port_xlin(x.to_bits(), &xn, &yn, out)
    })
}
