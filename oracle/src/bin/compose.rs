//! The program `compose`: decimals against Rust's own reader of them, and
//! texts, right and wrong, against what the description says of them.
//!
//! compose [DECIMALS] [TEXTS] [SEED]: 10^6 and 10^5 by default.

use oracle::random::Random;
use oracle::report::{argument, finish, Tally, Verdict};
use oracle::{circuit, composing, texts};
use std::io::Write;
use std::path::{Path, PathBuf};
use std::process::{Command, Stdio};

/// Where `tools/build` writes the program.
fn program() -> PathBuf {
    Path::new(env!("CARGO_MANIFEST_DIR")).join("../target/bin/compose")
}

fn run(input: &[u8]) -> Vec<u8> {
    let mut child = Command::new(program())
        .stdin(Stdio::piped())
        .stdout(Stdio::piped())
        .spawn()
        .expect("the program starts");
    // It may stop before it has read all.
    let _ = child.stdin.take().unwrap().write_all(input);
    child.wait_with_output().expect("the program ends").stdout
}

/// The numbers of a file in its order, the shape left out.
fn numbers(file: &[u8]) -> Vec<u32> {
    circuit::read(file).map_or(Vec::new(), |(c, _)| {
        [&c.numbers[..], &c.points.concat(), &c.deciles].concat()
    })
}

/// Whether a decimal is halfway between two f32, as far as an f64 can tell.
fn halfway(word: &str) -> bool {
    let bits = word.parse::<f64>().expect("a decimal").to_bits();
    bits % (1 << 29) == 1 << 28
}

/// Each decimal of texts with as many as there can be.
fn decimals(random: &mut Random) -> Verdict {
    let mut tally = Tally::new("decimals");
    let (mut tried, mut ties) = (0, 0);
    while tried < argument(1, 1_000_000) {
        let (text, decimals) = texts::of_decimals(random);
        let got = numbers(&run(text.as_bytes()));
        for (i, word) in decimals.iter().enumerate() {
            let wanted = word.parse::<f32>().expect("a decimal").to_bits();
            let got = got.get(i).copied();
            let other = || format!("{word} gives {got:08x?}, not {wanted:08x}");
            tally.zeros([u64::from(wanted == 0), u64::from(wanted == 1 << 31)]);
            tally.case(0, (got != Some(wanted)).then(other));
        }
        tried += decimals.len() as u64;
        ties += decimals.iter().filter(|word| halfway(word)).count();
    }
    println!("  halfway between two f32: {ties}");
    tally.done()
}

/// All that is written of a text.
fn whole(random: &mut Random) -> Verdict {
    let mut tally = Tally::new("texts");
    for _ in 0..argument(2, 100_000) {
        let text = texts::any_text(random);
        let (got, wanted) = (run(&text), composing::compose(&text));
        let shown = |b: &[u8]| String::from_utf8_lossy(&b[..b.len().min(200)]).into_owned();
        let other = || {
            format!(
                "`{}`, not `{}`, of\n{}",
                shown(&got),
                shown(&wanted),
                shown(&text)
            )
        };
        tally.case(composing::number(&wanted), (got != wanted).then(other));
    }
    tally.done()
}

fn main() {
    if !program().exists() {
        println!("**** NOT COMPARED: THE PROGRAM compose IS NOT BUILT ****");
        finish(&[Verdict::NotMade]);
    }
    let random = &mut Random::new(argument(3, 1));
    finish(&[decimals(random), whole(random)])
}
