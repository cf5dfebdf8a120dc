//! What a program prints or writes of the file on standard input, from
//! the paper and the routed Rust: the stored outputs of the programs come from
//! here.
//!
//! expected chain|sheet|show|plot|widen|narrow|mark < FILE

use oracle::{marking, ours, page, programs};
use std::io::{Read, Write};

fn main() {
    ours::warn_of_stand_ins();
    let mut file = Vec::new();
    std::io::stdin().read_to_end(&mut file).expect("the file");
    let output = match std::env::args().nth(1).as_deref() {
        Some("chain") => programs::chain(&file).into(),
        Some("sheet") => programs::sheet(&file).into(),
        Some("show") => page::page(&file).into(),
        Some("widen") => programs::widen(&file),
        Some("narrow") => programs::narrow(&file),
        Some("plot") => programs::plot(&file).into(),
        Some("mark") => marking::printed(&file).into(),
        _ => panic!("expected chain|sheet|show|plot|widen|narrow|mark < FILE"),
    };
    std::io::stdout().write_all(&output).expect("written");
}
