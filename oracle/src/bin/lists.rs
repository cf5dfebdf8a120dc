//! Lists of calls on one state, each given the state that the one before
//! returned, against the same calls alone on what `ionset` answered, ours and the
//! routed Rust's: answers, lent words, Es records, slots, profile and all else, as
//! the paper's demand on lists says.
//!
//! lists [CASES] [SEED]: 10^5 lists by default.

use oracle::random::Random;
use oracle::report::{argument, finish, hex, Tally, Verdict};
use oracle::routed::side;
use oracle::words::*;
use oracle::{ours, owner, predict, states};

/// A circuit MUF, a slot sheet or a nominal MUF, with arguments of its own.
enum Call {
    Muf(Hour),
    Sheet {
        k: u32,
        nang: u32,
        layers: Vec<u32>,
        lent: usize,
    },
    Nominal(Nominal),
}

/// A call's answer, what it wrote, and the state that it returned. What is
/// written is two lists: Es records and the hour, or cells and the slot's sheet.
struct Done {
    answer: u32,
    wrote: [Vec<u32>; 2],
    state: State,
}

/// What lent words hold before a call.
const MARK: u32 = 0xdead_beef;

impl Call {
    fn on(&self, state: &State) -> Done {
        let mut state = *state;
        let (answer, wrote) = match self {
            Call::Muf(hour) => {
                let (mut es, mut out) = (hour.es.clone(), vec![MARK; HOUR]);
                let answer = ours::port_curmuf(
                    &mut state,
                    &mut es,
                    &hour.deciles,
                    &hour.clat,
                    &hour.clck,
                    &hour.numbers,
                    &mut out,
                );
                (answer, [es, out])
            }
            Call::Sheet {
                k,
                nang,
                layers,
                lent,
            } => {
                let (mut cells, mut out) = (vec![MARK; *lent], vec![MARK; SHEET]);
                let answer = ours::port_sheet(&mut state, *k, *nang, layers, &mut cells, &mut out);
                (answer, [cells, out])
            }
            Call::Nominal(n) => {
                let mut out = vec![MARK; HOUR];
                let answer = ours::port_nommuf(&n.points, &n.f2m3, &n.es, &n.numbers, &mut out);
                (answer, [Vec::new(), out])
            }
        };
        Done {
            answer,
            wrote,
            state,
        }
    }

    /// The same by the routed Rust, the refusals by the paper.
    fn by_the_rust(&self, state: &State) -> Done {
        let answered = match self {
            Call::Muf(hour) => predict::curmuf(state, hour).map(|()| {
                let (after, es, out) = side::curmuf(state, hour);
                ([es, out], after)
            }),
            Call::Sheet {
                k,
                nang,
                layers,
                lent,
            } => predict::slot(&[*k])
                .and_then(|()| predict::cells(*nang, *lent))
                .map(|()| {
                    let (k, nang) = (*k as usize, *nang as usize);
                    let (after, rows, cells) = side::sheet(state, k, nang, layers);
                    ([cells, [rows, side::marks(state, k)].concat()], after)
                }),
            Call::Nominal(n) => {
                predict::nommuf(n).map(|()| ([Vec::new(), side::nommuf(n)], *state))
            }
        };
        match answered {
            Ok((wrote, state)) => Done {
                answer: 0,
                wrote,
                state,
            },
            Err(answer) => Done {
                answer,
                wrote: self.lent(),
                state: *state,
            },
        }
    }

    /// What is lent, as it is before the call.
    fn lent(&self) -> [Vec<u32>; 2] {
        match self {
            Call::Muf(hour) => [hour.es.clone(), vec![MARK; HOUR]],
            Call::Sheet { lent, .. } => [vec![MARK; *lent], vec![MARK; SHEET]],
            Call::Nominal(_) => [Vec::new(), vec![MARK; HOUR]],
        }
    }

    /// Which of the words written are floats.
    fn floats(&self) -> [Floats; 2] {
        match self {
            // of an Es record only the lower decile is ever written
            Call::Muf(_) => [|i| i % ES_ROW == 0, hour_floats],
            Call::Sheet { .. } => [no_floats, row_floats],
            Call::Nominal(_) => [no_floats, hour_floats],
        }
    }

    fn same(&self, a: &Done, b: &Done) -> bool {
        let floats = self.floats();
        let wrote = |i: usize| difference(&a.wrote[i], &b.wrote[i], floats[i]).is_none();
        a.answer == b.answer && wrote(0) && wrote(1)
    }

    /// The slot that this is the own call of: an answered sheet's, or the
    /// controlling one of a MUF that got past 9 and its count of deciles. A
    /// nominal MUF has none.
    fn own(&self, first: &State) -> Option<usize> {
        match self {
            Call::Muf(hour) => predict::picks(first, hour),
            Call::Sheet { k, nang, lent, .. } => {
                let good = predict::slot(&[*k]).and_then(|()| predict::cells(*nang, *lent));
                good.ok().map(|()| *k as usize)
            }
            Call::Nominal(_) => None,
        }
    }
}

/// Calls in any order of which no two are the own call of one slot, and at
/// most one is a MUF.
fn calls(r: &mut Random, first: &State) -> Vec<Call> {
    let mut list: Vec<Call> = Vec::new();
    let mut taken = [false; 3];
    let mut muf = false;
    for _ in 0..r.below(8) {
        let call = any_call(r);
        let own = call.own(first);
        let is_muf = matches!(call, Call::Muf(_));
        if own.is_some_and(|k| taken[k]) || is_muf && muf {
            continue;
        }
        if let Some(k) = own {
            taken[k] = true;
        }
        muf |= is_muf;
        list.push(call);
    }
    list
}

fn any_call(r: &mut Random) -> Call {
    if r.once_in(3) {
        return Call::Muf(states::hour(r));
    }
    if r.once_in(4) {
        return Call::Nominal(states::nominal(r));
    }
    let nang = r.pick(&[0, 1, 9, 40, 41]);
    Call::Sheet {
        k: r.pick(&[0, 0, 1, 1, 2, 2, 3]),
        nang,
        layers: states::layers(r),
        lent: (CELLS * nang as usize).saturating_sub(usize::from(r.once_in(6))),
    }
}

/// What the state should be after the whole list.
fn state_after(first: &State, list: &[Call], alone: &[Done]) -> State {
    let mut state = *first;
    for (call, done) in list.iter().zip(alone) {
        if let Some(k) = call.own(first) {
            take_slot(&mut state, &done.state, k);
        }
        let prepares = !matches!(call, Call::Nominal(_));
        if prepares && done.answer == 0 && first[IELECT] == 0 {
            state[HTR..=RISES].copy_from_slice(&done.state[HTR..=RISES]);
            state[OWNER] = call.own(first).map_or(owner::NOBODY, owner::of_slot);
        }
    }
    state
}

/// Nine layer numbers and `fsecv` of a slot.
fn take_slot(state: &mut State, from: &State, k: usize) {
    for table in [FI, YI, HI] {
        let row = table + 3 * k..table + 3 * k + 3;
        state[row.clone()].copy_from_slice(&from[row]);
    }
    state[FSECV + k] = from[FSECV + k];
}

/// What `ionset` answers of some state.
fn first_state(r: &mut Random) -> State {
    loop {
        let state = states::any(r);
        if (1..=5).contains(&state[KM]) {
            return side::ionset(&state);
        }
    }
}

/// How many calls of each kind were answered and refused.
#[derive(Default)]
struct Counts {
    mufs: [u64; 2],
    sheets: [u64; 2],
    nominals: [u64; 2],
    /// Lists with the switch of the exact height rule off, and on.
    settings: [u64; 2],
    /// Es records that a MUF was lent, and those of them that it rewrote.
    records: [u64; 2],
}

impl Counts {
    fn add(&mut self, call: &Call, done: &Done) {
        let kind = match call {
            Call::Muf(_) => &mut self.mufs,
            Call::Sheet { .. } => &mut self.sheets,
            Call::Nominal(_) => &mut self.nominals,
        };
        kind[usize::from(done.answer != 0)] += 1;
        if let Call::Muf(hour) = call {
            let rows = hour
                .es
                .chunks_exact(ES_ROW)
                .zip(done.wrote[0].chunks_exact(ES_ROW));
            self.records[0] += rows.len() as u64;
            self.records[1] += rows.filter(|(before, after)| before != after).count() as u64;
        }
    }
}

fn case(r: &mut Random, counts: &mut Counts) -> Option<String> {
    let first = first_state(r);
    let list = calls(r, &first);
    counts.settings[usize::from(first[EXACT] != 0)] += 1;
    let alone: Vec<Done> = list.iter().map(|c| c.on(&first)).collect();
    let rust: Vec<Done> = list.iter().map(|c| c.by_the_rust(&first)).collect();
    for (call, done) in list.iter().zip(&rust) {
        counts.add(call, done);
    }
    let mut state = first;
    for (n, call) in list.iter().enumerate() {
        let done = call.on(&state);
        state = done.state;
        if !call.same(&done, &alone[n]) {
            return Some(format!("call {n} is not as alone\n    {}", hex(&first)));
        }
        if !call.same(&done, &rust[n]) {
            return Some(format!("call {n} is not the Rust's\n    {}", hex(&first)));
        }
    }
    let wanted = state_after(&first, &list, &rust);
    difference(&state, &wanted, state_floats).map(|i| {
        format!(
            "state word {i} after {} calls\n    {}",
            list.len(),
            hex(&first)
        )
    })
}

fn main() {
    if !ours::all_built(&["port_curmuf", "port_sheet", "port_nommuf"]) {
        finish(&[Verdict::NotMade]);
    }
    let mut tally = Tally::new("lists");
    let mut random = Random::new(argument(2, 1));
    let mut counts = Counts::default();
    for _ in 0..argument(1, 100_000) {
        tally.case(0, case(&mut random, &mut counts));
    }
    let verdict = tally.done();
    let Counts {
        mufs,
        sheets,
        nominals,
        settings,
        records,
    } = counts;
    println!("  MUFs answered {}, refused {}", mufs[0], mufs[1]);
    println!("  sheets answered {}, refused {}", sheets[0], sheets[1]);
    println!(
        "  nominal MUFs answered {}, refused {}",
        nominals[0], nominals[1]
    );
    println!("  Es records lent {}, rewritten {}", records[0], records[1]);
    println!("  exact rule off {}, on {}", settings[0], settings[1]);
    finish(&[verdict])
}
