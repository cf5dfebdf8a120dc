//! Prepares what the oracle is made of, all of it into OUT_DIR:
//! the Rust modules as they stand, the same with their elementary functions
//! routed to ours, these with wrong edits to choose from, and a wrapper for each function that our static libraries
//! export.

mod exports;
mod modules;
mod routing;
mod tokens;
mod wrong;

use std::path::PathBuf;
use std::{env, fs};

fn main() {
    println!("cargo:rerun-if-changed=build");
    println!("cargo:rerun-if-env-changed=HFCAST_SRC");
    let out = PathBuf::from(env::var("OUT_DIR").unwrap());
    let source = modules::Source::open(&source_folder());
    write(&out, "perf.rs", &source.perf());
    write(&out, "voacap.rs", &source.native());
    write(&out, "routed.rs", &source.routed());
    write(&out, "wrong.rs", &source.wrong(&here().join("src")));
    write(&out, "exports.rs", &exports::wrappers(&library_folder()));
}

fn write(out: &std::path::Path, name: &str, text: &str) {
    fs::write(out.join(name), text).expect("OUT_DIR takes the generated file");
}

fn here() -> PathBuf {
    PathBuf::from(env::var("CARGO_MANIFEST_DIR").unwrap())
}

/// The folder of the Rust source: HFCAST_SRC, or `shared/docs/src` beside
/// the repository.
fn source_folder() -> PathBuf {
    let default = here().join("../../shared/docs/src");
    let folder = env::var_os("HFCAST_SRC").map_or(default, PathBuf::from);
    let inner = folder.join("src");
    if inner.join("voacap/muf.rs").exists() {
        inner
    } else {
        folder
    }
}

/// Where `tools/build` writes the libraries.
fn library_folder() -> PathBuf {
    here().join("../target/staticlib")
}
