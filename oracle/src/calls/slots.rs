//! `from_layers`, `ionset`, `lecden`, and whose profile a state has.

use super::*;
use crate::routed::side;
use crate::{ours, owner, predict, states};

pub fn from_layers(r: &mut Random) -> Call {
    let mut points = states::points(r);
    match r.below(12) {
        0 => points.resize(r.pick(&[0, 1, 8, 10, 44, 46, 54, 63]), MARK),
        1 => points.extend(std::array::from_fn::<u32, POINT, _>(|_| r.word())),
        _ => {}
    }
    let mut state = room(r, STATE);
    let before = state.clone();
    let count = points.len() / POINT;
    let wanted = long_enough(&[(&state, STATE)]).and_then(|()| {
        let right = points.len().is_multiple_of(POINT) && (1..=5).contains(&count);
        right.then(|| side::from_layers(&points)).ok_or(5)
    });
    Call {
        answer: ours::port_from_layers(&points, &mut state),
        wanted: refusal(&wanted),
        lent: vec![changed(state, &before, &wanted)],
        given: vec![("points", points)],
    }
}

fn changed(got: Vec<u32>, before: &[u32], wanted: &Result<State, u32>) -> Lent {
    let words = wanted.as_ref().ok().map(|s| &s[..]);
    Lent::new("state", got, before, words, state_floats)
}

/// A call that changes a state: what it asks of the state, what the Rust makes
/// of it, what ours does.
fn on_state(
    given: Vec<u32>,
    check: impl FnOnce(&State) -> Result<(), u32>,
    rust: impl FnOnce(&State) -> State,
    ours: impl FnOnce(&mut [u32]) -> u32,
) -> Call {
    let wanted = long_enough(&[(&given, STATE)]).and_then(|()| {
        let state = state_at(&given);
        check(&state).map(|()| rust(&state))
    });
    let mut got = given.clone();
    Call {
        answer: ours(&mut got),
        wanted: refusal(&wanted),
        lent: vec![changed(got, &given, &wanted)],
        given: vec![("state", given)],
    }
}

pub fn ionset(r: &mut Random) -> Call {
    let state = states::any(r);
    let counted = |s: &State| {
        let right = (1..=5).contains(&s[KM]);
        right.then_some(()).ok_or(5)
    };
    on_state(resized(r, &state), counted, side::ionset, ours::port_ionset)
}

pub fn lecden(r: &mut Random) -> Call {
    let state = states::any(r);
    let k = number(r);
    let mut call = on_state(
        resized(r, &state),
        |_| predict::slot(&[k]),
        |s| side::lecden(s, k as usize),
        |s| ours::port_lecden(s, k),
    );
    call.given.push(("k", vec![k]));
    call
}

/// Whose profile it is: the request's words, since the Rust has nothing like it.
pub fn owner(r: &mut Random) -> Call {
    let state = states::any(r);
    let (given, out) = (resized(r, &state), room(r, 2));
    let wanted = long_enough(&[(&given, STATE), (&out, 2)]).map(|()| owner::pair(&state));
    let lists = vec![("state", given.clone())];
    answering(lists, no_floats, out, wanted, |out| {
        ours::port_owner(&given, out)
    })
}
