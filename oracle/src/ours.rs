//! Our exported functions, words in and words out.

include!(concat!(env!("OUT_DIR"), "/exports.rs"));

/// Whether some library has the function.
pub fn has(name: &str) -> bool {
    !MISSING.contains(&name)
}

/// Prints which of `names` no library has, lest they pass for compared; answers
/// whether all are there.
pub fn all_built(names: &[&str]) -> bool {
    let missing: Vec<&&str> = names.iter().filter(|n| !has(n)).collect();
    for name in &missing {
        println!("**** NOT COMPARED: {name} IS IN NO STATIC LIBRARY ****");
    }
    missing.is_empty()
}

/// The scalar functions that the routed modules call.
const ROUTES: [&str; 8] = [
    "scalar_exp",
    "scalar_ln",
    "scalar_sin",
    "scalar_cos",
    "scalar_asin",
    "scalar_atan",
    "scalar_min",
    "scalar_max",
];

/// Prints which routes end in a stand-in: there the routed Rust does not call
/// ours.
pub fn warn_of_stand_ins() {
    for name in ROUTES.iter().filter(|n| !has(n)) {
        println!("**** {name} IS NOT BUILT: THE ROUTED RUST CALLS A STAND-IN ****");
    }
}
