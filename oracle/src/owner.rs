//! Whose profile a state has, from the request's words: the Rust has no such
//! field and answers regardless.

use crate::words::*;

/// Words of a state's owner: 1 to 3 are slots 0 to 2.
pub const NOBODY: u32 = 0;
pub const SUPPLIED: u32 = 4;

pub fn of_slot(k: usize) -> u32 {
    k as u32 + 1
}

/// The owner as it is held: a word that is no owner is none.
pub fn held(state: &[u32]) -> u32 {
    let word = state[OWNER];
    if word <= SUPPLIED {
        word
    } else {
        NOBODY
    }
}

fn supplied(state: &[u32]) -> bool {
    state[IELECT] != 0
}

/// The owner that counts.
pub fn counts(state: &[u32]) -> u32 {
    match (supplied(state), held(state)) {
        (true, _) => SUPPLIED,
        (false, SUPPLIED) => NOBODY,
        (false, word) => word,
    }
}

/// 19 unless the profile is slot k's or supplied.
pub fn answers(state: &[u32], k: u32) -> Result<(), u32> {
    let owner = counts(state);
    if owner == SUPPLIED || owner == k + 1 {
        Ok(())
    } else {
        Err(19)
    }
}

/// What an answered call leaves that makes `owner` the owner: while `ielect`
/// is set no call changes it.
pub fn left(before: &[u32], owner: u32) -> u32 {
    if supplied(before) {
        held(before)
    } else {
        owner
    }
}

/// Number and slot, as `port_owner` answers them.
pub fn pair(state: &[u32]) -> Vec<u32> {
    match counts(state) {
        NOBODY => vec![0, 0],
        SUPPLIED => vec![2, 0],
        slot => vec![1, slot - 1],
    }
}
