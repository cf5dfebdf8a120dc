//! Why an edit is not told.

use super::name;
use super::search::{unprinted, Search};

/// Edits that no sheet can show, by the beginning of their names after the
/// function's, and why.
const SILENT: &[(&str, &[&str], &str)] = &[
    ("muf::ionset", &["> 1 at equals"], NO_F1),
    ("muf::lecden", &["> 2 at equals", "> 5 ", "1 37 and"], NO_F1),
    ("muf::curmuf", &["> 1 at equals"], NO_F1),
    (
        "muf::lecden",
        &["max 6 NaN"],
        "the D-E tail and E are worked out at different heights",
    ),
    ("muf::lecden", &["store 53 "], SCANS),
    ("muf::rises_throughout", &["< 1 never"], SCANS),
    ("muf::hop_geometry", &["max 1 the second"], ZERO_ANGLE),
    ("muf::curmuf", &["max 6 the second"], ZERO_ANGLE),
    ("muf::curmuf", &["0.0 3 ", "0.0 4 "], GIVEN),
    ("muf::curmuf", &["== 1 never"], "there is one slot"),
    (
        "muf::curmuf",
        &["1000.0 1 "],
        "a sporadic E of 1,000 MHz and more counts as none",
    ),
    (
        "muf::curmuf",
        &[
            "0.9 1 ", "1.1 1 ", "* 30 ", "* 31 ", "max 3 ", "max 4 ", "0.1 4 ", "- 39 ", "0.1 5 ",
            "- 40 ", "+ 28 ", "+ 29 ", "/ 32 ", "2.0 4 ", "* 60 ", "* 61 ", "- 41 ", "< 7 ",
            "< 8 ", "min 1 ", "max 7 ", "max 8 ", "max 11 ", "max 12 ",
        ],
        "deviations and deciles are not printed",
    ),
    (
        "predict::curmuf",
        &["check 2 ", "10 1 "],
        "a file has 576 deciles or none, and a place at each point",
    ),
    (
        "circuit::take",
        &["< 2 always", "< 2 at equals", "DECILES 1 "],
        "the end of the chain refuses it too",
    ),
    (
        "muf::from_layers",
        &["0 1 "],
        "ionset sets the number of slots",
    ),
    (
        "muf::from_layers",
        &["0.0 4 ", "0.0 5 ", "false 1 "],
        "lecden writes the profile before it is read",
    ),
    ("muf::from_layers", &["0.0 6 "], NOT_READ),
    (
        "muf::ionset",
        &["store 29 ", "store 30 ", "0.0 2 ", "0.0 3 "],
        "height and thickness of an F1 that is not there are not read",
    ),
    (
        "muf::lecden",
        &["0.0 1 ", "> 1 always", "> 1 at equals", "> 1 at NaN"],
        "the valley's slope is read only where it has a height",
    ),
    (
        "muf::lecden",
        &["false 1 ", "0.0 2 ", "0.0 3 ", "0.0 4 "],
        GIVEN,
    ),
    (
        "muf::lecden",
        &["store 4 ", "store 11 "],
        "the flag is down already",
    ),
    (
        "muf::lecden",
        &[
            "store 6 ",
            "minus 1 ",
            "1.0 8 ",
            "store 13 ",
            "minus 2 ",
            "1.0 11 ",
            "store 15 ",
            "sqrt 4 ",
        ],
        NOT_READ,
    ),
    (
        "muf::lecden",
        &["store 34 "],
        "the bottom of F2 is that already",
    ),
    (
        "muf::lecden",
        &[
            "< 4 never",
            "< 4 at NaN",
            "store 47 ",
            "* 27 ",
            "* 28 ",
            "* 29 ",
            "- 51 ",
            "exp 2 ",
        ],
        "the test around it excludes the case",
    ),
    (
        "muf::lecden",
        &[
            "max 6 the second",
            "max 7 the second",
            "max 8 the second",
            "max 9 the second",
        ],
        "the sign of a density of zero reaches no row",
    ),
    ("muf::gethp_densities", &["0.0 1 "], GIVEN),
    (
        "muf::gethp",
        &["> 1 ", "0 5 ", "0 6 ", "+ 1 ", "+ 2 "],
        "the programs run with the exact height rule off",
    ),
    (
        "muf::gethp",
        &["* 3 is /", "* 3 taken first"],
        "it is times one",
    ),
    ("muf::gethp", &["0.0 1 "], GIVEN),
    (
        "muf::curmuf",
        &["as i32 1 ", "as i32 2 ", "as i32 3 ", "as i32 5 "],
        "a count of hops is whole",
    ),
    (
        "muf::curmuf",
        &["0.0 1 ", "0.0 8 ", "0.0 9 ", "0.0 10 "],
        GIVEN,
    ),
    ("muf::curmuf", &["store 22 "], "the line is zeros already"),
    (
        "ionogram::genion",
        &["0.0 1 ", "0.0 2 ", "0.0 3 ", "0.0 4 "],
        GIVEN,
    ),
    ("ionogram::alosfv", &["0.0 6 "], GIVEN),
    (
        "ionogram::alosfv",
        &[
            "store 1 ",
            "store 5 ",
            "store 6 ",
            "store 9 ",
            "store 10 ",
            "store 15 ",
            "store 16 ",
        ],
        "the factor is zero already",
    ),
    (
        "ionogram::alosfv",
        &[
            "12 3 and", "12 4 and", "12 7 and", "12 8 and", "22 3 and", "22 4 and",
        ],
        "the cusp's last row is zero before and after",
    ),
    (
        "ionogram::alosfv",
        &[
            "10.0 3 ",
            "10.0 5 ",
            "10.0 8 ",
            "max 4 left",
            "max 4 NaN",
            "max 8 left",
            "max 8 NaN",
        ],
        FLOOR,
    ),
    ("ionogram::alosfv", &["max 14 left", "max 14 NaN"], FLOOR),
    (
        "circuit::read",
        &["128 1 less 1", "4096 1 and 1"],
        "not a multiple of a record's length",
    ),
    ("muf::lecden", &["- 2 a place up"], ROOT),
    ("ionogram::genion", &["- 1 a place up"], ROOT),
    (
        "muf::lecden",
        &[
            "< 3 at NaN",
            ">= 2 at NaN",
            "<= 2 at NaN",
            "<= 3 at NaN",
            "<= 5 at NaN",
        ],
        "where a NaN is compared the shape is NaN or not above zero: the maximum drops it",
    ),
    (
        "muf::lecden",
        &["min 2 the second", "max 3 the second"],
        "of two equal zeros neither is negative",
    ),
    (
        "muf::lecden",
        &[">= 1 at equals"],
        "it stores what is there already",
    ),
    ("muf::lecden", &["min 3 NaN"], NO_NAN),
    (
        "muf::lecden",
        &["max 5 the second"],
        "only a difference is made of it",
    ),
    ("muf::profile_interpolate", &["49 1 and"], LEAVES),
    ("muf::profile_interpolate", &["<= 1 at equals"], ALIKE),
    ("muf::rising_interpolate", &["49 1 and", "49 2 and"], LEAVES),
    (
        "muf::rising_interpolate",
        &["49 1 less"],
        "at the top and above it the density is no less than the one sought, or the height is infinite",
    ),
    ("muf::rising_interpolate", &[">= 1 at NaN"], NAN_HEIGHT),
    ("muf::rises_throughout", &["0 1 ", "1 1 less"], SCANS),
    (
        "muf::rises_throughout",
        &["< 1 at equals"],
        "equal heights have equal densities",
    ),
    ("muf::rises_throughout", &["49 1 and", "1 1 and"], LEAVES),
    ("muf::rises_throughout", &["49 1 less"], LAST_FALLS),
    (
        "muf::gethp_densities",
        &["<= 1 at NaN", "<= 2 at NaN", ">= 1 at NaN"],
        NAN_HEIGHT,
    ),
    (
        "muf::gethp_densities",
        &["- 4 is", "<= 2 never", "<= 2 at equals"],
        "of a rising profile only the first height is read at the floor: the walk reads the same there",
    ),
    (
        "muf::gethp_densities",
        &[
            ">= 1 always",
            ">= 1 at equals",
            "0 12 ",
            "20 4 less",
            "0 13 ",
            "0 14 ",
            "20 5 less",
            "1 2 less",
        ],
        "on a rising profile no true height is below the first, and NaN stays NaN",
    ),
    (
        "muf::curmuf",
        &["< 1 at equals"],
        "the test before it takes equals",
    ),
    (
        "muf::curmuf",
        &["< 2 at NaN"],
        "a distance that is NaN is refused",
    ),
    (
        "muf::curmuf",
        &[">= 1 at NaN"],
        "a sporadic E that is NaN is not taken",
    ),
    (
        "muf::curmuf",
        &["/ 23 taken"],
        "it differs at subnormal angles only, where the ray is vertical or there is none",
    ),
    (
        "ionogram::alosfv",
        &["max 5 NaN", "max 9 NaN", "max 13 NaN", "max 15 NaN"],
        NO_NAN,
    ),
    ("sigdis::xlin", &["- 2 is", "1 1 less"], LEAVES),
    ("sigdis::xlin", &["<= 1 at equals"], ALIKE),
    (
        "sigdis::xlin",
        &[
            "- 11 is",
            "+ 6 is",
            "> 2 always",
            "> 2 at equals",
            "> 2 at NaN",
        ],
        "what a falling step holds is its first number, above those beside it",
    ),
    (
        "circuit::read",
        &["RECORD 2 less", ">= 1 at equals"],
        LEAVES,
    ),
    (
        "predict::curmuf",
        &["2 2 less"],
        "the hops of F2 were let through before",
    ),
    (
        "marks::mark",
        &["5 1 and"],
        "a density that is not zero is that of a shape",
    ),
    ("programs::slots", &["0 2 "], "only its sign is read"),
    (
        "programs::hour",
        &["13 2 "],
        "deviations and deciles are not printed",
    ),
];

const ROOT: &str = "the root of the constant a place up is the same";
const ALIKE: &str = "both branches interpolate alike";
const LEAVES: &str = "where it makes a difference it leaves its array";
const NAN_HEIGHT: &str = "where the true height is NaN the virtual one is, whatever is read";
const NO_NAN: &str = "it gets no NaN";
const NOT_READ: &str = "fsecv is neither read nor printed";
const NO_F1: &str = "an F1 of zero is none: what is worked out of it is not read, or zero";
const SCANS: &str = "scans read what the walk reads";
const ZERO_ANGLE: &str = "neither a cosine nor a difference sees the sign of an angle of zero";
const FLOOR: &str = "the floor of the factor hides it";
/// Heights rise up to the 49th, `a`, and fall to the last, `b`. The walk and a scan part
/// only at a read of exactly `a`, where the scan gives its density, the walk that of `b`.
/// Reads reach 0.99912 of the true height over 70 km, so that one must be above `a` by
/// 0.00088 of `a` over 70 km; all of these are over 71 km.
///
/// - Interpolation passes a step's upper end by so much only where its product is rounded
///   up to a multiple of the least number, 2^-149. With k of them sought over the step's
///   lower density, of m, on T km: the product is at most k T + 1/2, k is below m, so it
///   passes by (1/2 - T) / m at most, and by 1/12 km where k T is above 1/2. So m is at
///   most 568, and the step ends 1/12 km below `a` or less.
/// - Such densities are below 2^-116. An F1 that is kept makes those of E, or those of F1
///   and F2 where they are not zero, far greater: there is none.
/// - The last steps, of F2, are at most 16 places of their height, or `a` would not pass
///   `b`: too short. So the step ends at the height `c` where these begin or below it, and
///   that is above E's peak.
/// - Its upper density, above the one sought, is not E's, which falls there. Nor the
///   valley's, which is at most 0.961 of E's greatest and 1.5 of the least numbers more:
///   the one sought is above the density read at E's peak, 0.961 of E's greatest less half
///   of one at least, or its height would be found there, and the upper one is more yet.
/// - So it is F2's. A step is rounded to its double at most, or heights would not rise, and
///   there is one fewer before `a` than up to `b`: `a` is no farther above the peak `b` than
///   `c` is below it. So F2's density is above the one sought at `a` and at `b`, and both
///   are cut at 0.9999.
const LAST_FALLS: &str = "a read of the height before the last, if that is lower, is of a density above the one sought, as the last height's is";
const GIVEN: &str = "it is given a value before it is read";

/// Why no sheet can show an edit, if none can.
pub fn why(edit: usize) -> Option<&'static str> {
    let name = name(edit);
    let (function, what) = name.split_once(": ").unwrap();
    let is = |begins: &[&str]| begins.iter().any(|b| what.starts_with(b));
    let found = SILENT
        .iter()
        .find(|(f, begins, _)| *f == function && is(begins));
    found.map(|(_, _, why)| *why)
}

pub fn reason(edit: usize, search: &Search) -> String {
    if let Some(why) = why(edit) {
        return format!("can't show: {why}");
    }
    let (tried, halted) = (search.tried[edit], search.halted[edit]);
    if tried == 0 {
        return "make no difference where they stand, in any hour".to_string();
    }
    if tried == halted {
        return "leave their array, or do not end".to_string();
    }
    if search.kept.iter().any(|file| unprinted(file, edit)) {
        "show in answers that the sheet doesn't print".to_string()
    } else {
        "are not told".to_string()
    }
}
