//! The programs, run on files, against what the paper and the routed Rust say
//! that they print or write; `widen` and `narrow` also one after the other.
//!
//! programs [CASES] [SEED] [NAME..]: 10^4 files for each by default.

use oracle::random::Random;
use oracle::report::{argument, finish, Tally, Verdict};
use oracle::{files, ours, page, programs};
use std::io::Write;
use std::path::{Path, PathBuf};
use std::process::{Command, Stdio};

type Expected = fn(&[u8]) -> Vec<u8>;
type File = fn(&mut Random) -> Vec<u8>;

/// The name, the programs of the pipe, what is expected, and the files.
struct Line(&'static str, &'static [&'static str], Expected, File);

const LINES: [Line; 8] = [
    Line(
        "chain",
        &["chain"],
        |f| programs::chain(f).into(),
        files::any,
    ),
    Line(
        "sheet",
        &["sheet"],
        |f| programs::sheet(f).into(),
        files::any_hour,
    ),
    Line("show", &["show"], |f| page::page(f).into(), files::any_hour),
    Line(
        "plot",
        &["plot"],
        |f| programs::plot(f).into(),
        files::any_hour,
    ),
    Line("widen", &["widen"], programs::widen, files::any),
    Line("narrow", &["narrow"], programs::narrow, files::any_wide),
    Line(
        "widen|narrow",
        &["widen", "narrow"],
        |f| programs::narrow(&programs::widen(f)),
        files::any,
    ),
    Line(
        "narrow|widen",
        &["narrow", "widen"],
        |f| programs::widen(&programs::narrow(f)),
        files::any_wide,
    ),
];

/// Where `tools/build` writes a program.
fn path(name: &str) -> PathBuf {
    Path::new(env!("CARGO_MANIFEST_DIR"))
        .join("../target/bin")
        .join(name)
}

/// What the program writes on this input.
fn run(program: &Path, input: &[u8]) -> Vec<u8> {
    let mut child = Command::new(program)
        .stdin(Stdio::piped())
        .stdout(Stdio::piped())
        .spawn()
        .expect("the program starts");
    // A program may refuse without reading all.
    let _ = child.stdin.take().unwrap().write_all(input);
    child.wait_with_output().expect("the program ends").stdout
}

fn compare(line: &Line) -> Verdict {
    let Line(name, pipe, expected, file) = line;
    let pipe: Vec<PathBuf> = pipe.iter().map(|name| path(name)).collect();
    if let Some(missing) = pipe.iter().find(|p| !p.exists()) {
        let missing = missing.display();
        println!("**** NOT COMPARED: THE PROGRAM {missing} IS NOT BUILT ****");
        return Verdict::NotMade;
    }
    let mut tally = Tally::new(name);
    let mut random = Random::new(argument(2, 1));
    for _ in 0..argument(1, 10_000) {
        let input = file(&mut random);
        let wanted = expected(&input);
        let got = pipe.iter().fold(input.clone(), |given, p| run(p, &given));
        tally.case(refusal(&wanted), differs(&input, &got, &wanted));
    }
    tally.done()
}

fn refusal(output: &[u8]) -> u32 {
    let text = std::str::from_utf8(output).unwrap_or("");
    let number = text.strip_prefix("refused ");
    let line = number.and_then(|n| n.lines().next());
    line.map_or(0, |n| n.parse().unwrap())
}

fn differs(input: &[u8], got: &[u8], wanted: &[u8]) -> Option<String> {
    if got == wanted {
        return None;
    }
    let text = |b: &[u8]| String::from_utf8_lossy(b).into_owned();
    let (a, b) = (text(got), text(wanted));
    let lines = a.lines().zip(b.lines()).enumerate();
    let other = lines
        .filter(|(_, (a, b))| a != b)
        .map(|(i, (a, b))| format!("line {}: `{a}`, not `{b}`", i + 1));
    let first = other.take(1).next();
    let what = first.unwrap_or_else(|| format!("`{a}`, not `{b}`"));
    let bytes: String = input.iter().map(|b| format!("{b:02x}")).collect();
    Some(format!("{what}\n    file {bytes}"))
}

fn main() {
    let named: Vec<String> = std::env::args().skip(3).collect();
    ours::warn_of_stand_ins();
    let verdicts: Vec<Verdict> = LINES
        .iter()
        .filter(|line| named.is_empty() || named.iter().any(|n| n == line.0))
        .map(compare)
        .collect();
    finish(&verdicts)
}
