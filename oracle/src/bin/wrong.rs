//! Wrong edits of the Rust, and the stored hours that tell them: the counterpart
//! of edits that must fail, for an error that stands alike in code and definition,
//! which no proof can see. Lists of hours are as `vectors` replays them.
//!
//! wrong < LIST: how many edits the hours of a list tell, and those that they
//! don't, by the reason.
//! wrong find [ROUNDS] [SEED] < LIST > LIST: these hours, and others found that
//! tell more.
//! wrong fewest < LIST > LIST: the fewest of them that tell as much, with some of
//! each refusal, and what `sheet` prints of each by the paper and the routed Rust.
//! wrong count < LIST: how many hours a list has.

use oracle::wrong::search::{self, Patience, Search};
use oracle::wrong::{self, hours, silent};
use std::collections::BTreeMap;
use std::io::{self, Write};

/// Numbers of refusals that a file can reach.
const REFUSALS: [u32; 8] = [1, 2, 3, 4, 7, 9, 11, 12];
/// How many hours of each are kept at least.
const OF_EACH: usize = 3;

fn number(place: usize, default: u64) -> u64 {
    let given = std::env::args().nth(place);
    given.map_or(default, |n| n.parse().expect("a number"))
}

fn main() -> io::Result<()> {
    oracle::ours::warn_of_stand_ins();
    wrong::quiet();
    let files = hours::files(io::stdin().lock())?;
    assert!(files.iter().all(|f| search::sound(f)), "the edited modules");
    let list = match std::env::args().nth(1).as_deref() {
        None => return Ok(report(&files)),
        Some("count") => return Ok(println!("{}", files.len())),
        Some("find") => return find(files),
        Some("fewest") => fewest(&files),
        Some(word) => panic!("no {word}: find, fewest or nothing"),
    };
    hours::write(io::stdout().lock(), &list)
}

/// Writes what it finds as it goes, so that it can be stopped.
fn find(files: Vec<Vec<u8>>) -> io::Result<()> {
    let mut out = io::stdout().lock();
    hours::write(&mut out, &files)?;
    let mut search = Search::new(number(3, 1));
    for file in &files {
        search.hour(file, Patience::None);
    }
    let mut written = search.kept.len();
    for round in 0..=number(2, 100) {
        if round == 0 {
            search.seed();
            search.bytes();
        } else {
            search.round();
        }
        hours::write(&mut out, &search.kept[written..])?;
        out.flush()?;
        written = search.kept.len();
        said(written, &search);
    }
    Ok(())
}

fn said(hours: usize, search: &Search) {
    let all = wrong::all().count();
    eprintln!("{hours} hours tell {} of {all} edits", search.count());
}

fn fewest(files: &[Vec<u8>]) -> Vec<Vec<u8>> {
    let mut chosen = search::fewest(files);
    for wanted in REFUSALS {
        let is = |f: &&Vec<u8>| search::right(f) == format!("refused {wanted}\n");
        let have = chosen.iter().filter(is).count();
        let more = files.iter().filter(is).filter(|f| !chosen.contains(f));
        let more: Vec<Vec<u8>> = more.take(OF_EACH.saturating_sub(have)).cloned().collect();
        chosen.extend(more);
    }
    eprintln!("{} hours are enough", chosen.len());
    chosen
}

/// The edits that are not told, by the reason.
fn report(files: &[Vec<u8>]) {
    let mut search = Search::new(1);
    for file in files {
        search.hour(file, Patience::All);
    }
    said(files.len(), &search);
    let mut why: BTreeMap<String, Vec<String>> = BTreeMap::new();
    for edit in wrong::all().filter(|e| !search.told[*e]) {
        let reason = silent::reason(edit, &search);
        why.entry(reason).or_default().push(wrong::name(edit));
    }
    for (reason, edits) in why {
        println!("{} {reason}", edits.len());
        for edit in edits {
            println!("    {edit}");
        }
    }
}
