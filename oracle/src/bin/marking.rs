//! Sheets marked: the export and the program against a comparison by lines
//! made from the paper, on what the routed Rust prints.
//!
//! marking [CALLS] [RUNS] [SEED]: 10^6 calls of the export, and 10^5 runs of the
//! program on sheets with one byte changed, dropped or added, by default.
//! marking sample < FILE: the file with its sheet, as `mark` takes them.

use oracle::marking::{altered, damaged, input, marked, one_byte, printed};
use oracle::random::Random;
use oracle::report::{argument, finish, Tally, Verdict};
use oracle::{files, ours, programs};
use std::io::{Read, Write};
use std::path::{Path, PathBuf};
use std::process::{Command, Stdio};

/// How many sheets are tried of a circuit.
const OF_ONE: u64 = 10;

fn main() {
    ours::warn_of_stand_ins();
    if std::env::args().nth(1).as_deref() == Some("sample") {
        return sample();
    }
    finish(&[export(), program()])
}

fn sample() {
    let mut file = Vec::new();
    std::io::stdin().read_to_end(&mut file).expect("the file");
    let given = input(&file, programs::sheet(&file).as_bytes());
    std::io::stdout().write_all(&given).expect("written");
}

fn export() -> Verdict {
    if !ours::all_built(&["port_mark"]) {
        return Verdict::NotMade;
    }
    let mut tally = Tally::new("port_mark");
    let mut r = Random::new(argument(3, 1));
    let calls = argument(1, 1_000_000);
    let mut met = Met::default();
    while met.cases < calls {
        let file = files::any_hour(&mut r);
        let text = programs::sheet(&file);
        for _ in 0..OF_ONE {
            let mut given = input(&file, &altered(&mut r, text.as_bytes()));
            if r.once_in(24) {
                damaged(&mut r, &mut given);
            }
            let wanted = marked(&given);
            met.count(&wanted);
            tally.case(wanted.err().unwrap_or(0), call(&mut r, &given, wanted));
        }
    }
    println!("  {met}");
    tally.done()
}

/// A call with no, one or more words lent, and what differs.
fn call(r: &mut Random, given: &[u8], wanted: Result<usize, u32>) -> Option<String> {
    let before: Vec<u32> = (0..r.pick(&[1, 1, 1, 1, 1, 1, 2, 0]))
        .map(|_| r.word())
        .collect();
    let mut lent = before.clone();
    let number = ours::port_mark(given, &mut lent);
    let mut left = before.clone();
    let answer = match (wanted, left.first_mut()) {
        (_, None) => 1,
        (Ok(line), Some(word)) => {
            *word = line as u32;
            0
        }
        (Err(number), _) => number,
    };
    let same = number == answer && lent == left;
    (!same).then(|| {
        let bytes: String = given.iter().map(|b| format!("{b:02x}")).collect();
        format!("{number} {lent:?}, not {answer} {left:?}\n    input {bytes}")
    })
}

fn program() -> Verdict {
    let path = Path::new(env!("CARGO_MANIFEST_DIR")).join("../target/bin/mark");
    if !path.exists() {
        println!(
            "**** NOT COMPARED: THE PROGRAM {} IS NOT BUILT ****",
            path.display()
        );
        return Verdict::NotMade;
    }
    let mut tally = Tally::new("mark");
    let mut r = Random::new(argument(3, 1));
    let runs = argument(2, 100_000);
    let mut met = Met::default();
    while met.cases < runs {
        let file = files::any_hour(&mut r);
        let text = programs::sheet(&file);
        for _ in 0..OF_ONE {
            let mut sheet = text.clone().into_bytes();
            one_byte(&mut r, &mut sheet);
            let given = input(&file, &sheet);
            let (wanted, got) = (marked(&given), run(&path, &given));
            met.count(&wanted);
            let differs = (got != printed(&given).as_bytes()).then(|| {
                let got = String::from_utf8_lossy(&got).into_owned();
                let bytes: String = given.iter().map(|b| format!("{b:02x}")).collect();
                format!("`{got}`, not `{}`\n    input {bytes}", printed(&given))
            });
            tally.case(wanted.err().unwrap_or(0), differs);
        }
    }
    println!("  {met}");
    tally.done()
}

fn run(program: &PathBuf, given: &[u8]) -> Vec<u8> {
    let mut child = Command::new(program)
        .stdin(Stdio::piped())
        .stdout(Stdio::piped())
        .spawn()
        .expect("the program starts");
    // It need not read what decides nothing.
    let _ = child.stdin.take().unwrap().write_all(given);
    child.wait_with_output().expect("the program ends").stdout
}

/// How many sheets were the same, and how many differed in which lines.
#[derive(Default)]
struct Met {
    cases: u64,
    same: u64,
    first: u64,
    later: u64,
    largest: usize,
}

impl Met {
    fn count(&mut self, wanted: &Result<usize, u32>) {
        self.cases += 1;
        match wanted {
            Ok(0) => self.same += 1,
            Ok(1) => self.first += 1,
            Ok(line) => {
                self.later += 1;
                self.largest = self.largest.max(*line);
            }
            Err(_) => {}
        }
    }
}

impl std::fmt::Display for Met {
    fn fmt(&self, f: &mut std::fmt::Formatter) -> std::fmt::Result {
        let Met {
            same,
            first,
            later,
            largest,
            ..
        } = self;
        write!(
            f,
            "same {same}, line 1 {first}, a later line {later} (the last {largest})"
        )
    }
}
