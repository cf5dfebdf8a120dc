//! What the oracle's programs share: the Rust modules in two builds, our
//! exported functions, and the generators and reports of the comparisons.

pub mod calls;
pub mod circuit;
pub mod composing;
pub mod files;
pub mod float;
pub mod marking;
pub mod marks;
pub mod ours;
pub mod owner;
pub mod page;
pub mod plot;
pub mod precise;
pub mod predict;
pub mod programs;
pub mod random;
pub mod report;
pub mod routed;
pub mod routing;
pub mod states;
pub mod texts;
pub mod traces;
pub mod voacap;
pub mod wide;
pub mod words;
pub mod wrong;

include!(concat!(env!("OUT_DIR"), "/perf.rs"));
