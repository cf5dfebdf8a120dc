//! Wrappers for what our static libraries export. A function that no built
//! library has gets a stand-in and is listed as missing, so that the programs
//! can say so and run the rest.

use std::fs;
use std::path::Path;

/// library, function, arguments, result, and what stands in for it.
struct Export(
    &'static str,
    &'static str,
    &'static [Kind],
    &'static str,
    &'static str,
);

/// How an argument crosses the C boundary.
#[derive(Clone, Copy)]
enum Kind {
    Number,
    Word,
    Words,
    /// f32 there, words here.
    Floats,
    Lent,
    Bytes,
    LentBytes,
    LentSigned,
    /// i32 there, compared as words here.
    LentCells,
}
use Kind::*;

const NONE: &str = "unreachable!(\"not built\")";

const EXPORTS: [Export; 41] = [
    Export(
        "port_figures",
        "port_figure",
        &[Word, LentBytes],
        "u32",
        NONE,
    ),
    Export("scalar_c", "scalar_sqrt", &[Number], "f32", "a0.sqrt()"),
    Export(
        "scalar_c",
        "scalar_min",
        &[Number, Number],
        "f32",
        "crate::routing::min_rule(a0, a1)",
    ),
    Export(
        "scalar_c",
        "scalar_max",
        &[Number, Number],
        "f32",
        "crate::routing::max_rule(a0, a1)",
    ),
    Export("scalar_c", "scalar_trunc", &[Number], "i32", "a0 as i32"),
    Export("scalar_c", "scalar_exp", &[Number], "f32", "a0.exp()"),
    Export("scalar_c", "scalar_ln", &[Number], "f32", "a0.ln()"),
    Export(
        "scalar_c",
        "scalar_sin",
        &[Number],
        "f32",
        "crate::routing::on_domain(a0, f32::sin)",
    ),
    Export(
        "scalar_c",
        "scalar_cos",
        &[Number],
        "f32",
        "crate::routing::on_domain(a0, f32::cos)",
    ),
    Export("scalar_c", "scalar_asin", &[Number], "f32", "a0.asin()"),
    Export("scalar_c", "scalar_atan", &[Number], "f32", "a0.atan()"),
    Export("port_circuit", "port_read", &[Bytes, Lent], "u32", NONE),
    Export(
        "port_circuit",
        "port_write",
        &[Words, LentBytes, Lent],
        "u32",
        NONE,
    ),
    Export("port_wide", "port_read128", &[Bytes, Lent], "u32", NONE),
    Export(
        "port_wide",
        "port_write128",
        &[Words, LentBytes, Lent],
        "u32",
        NONE,
    ),
    Export(
        "port_layers",
        "port_from_layers",
        &[Words, Lent],
        "u32",
        NONE,
    ),
    Export("port_layers", "port_ionset", &[Lent], "u32", NONE),
    Export("port_layers", "port_lecden", &[Lent, Word], "u32", NONE),
    Export("port_layers", "port_owner", &[Words, Lent], "u32", NONE),
    Export(
        "port_heights",
        "port_gethp",
        &[Words, Word, Lent],
        "u32",
        NONE,
    ),
    Export(
        "port_heights",
        "port_gethp_scan",
        &[Words, Word, Lent],
        "u32",
        NONE,
    ),
    Export(
        "port_heights",
        "port_reading",
        &[Words, Word, Lent],
        "u32",
        NONE,
    ),
    Export(
        "port_heights",
        "port_bendy",
        &[Words, Word, Word, Word, Lent],
        "u32",
        NONE,
    ),
    Export(
        "port_heights",
        "port_pen",
        &[Words, Word, Word, Word, Lent],
        "u32",
        NONE,
    ),
    Export(
        "port_heights",
        "port_xlin",
        &[Word, Words, Words, Lent],
        "u32",
        NONE,
    ),
    Export(
        "port_muf",
        "port_f2dis",
        &[Floats, Words, Lent],
        "u32",
        NONE,
    ),
    Export(
        "port_muf",
        "port_curmuf",
        &[Lent, Lent, Floats, Words, Words, Words, Lent],
        "u32",
        NONE,
    ),
    Export(
        "port_nominal",
        "port_nommuf",
        &[Words, Words, Words, Words, Lent],
        "u32",
        NONE,
    ),
    Export(
        "port_ionogram",
        "port_sang",
        &[Word, Word, Lent],
        "u32",
        NONE,
    ),
    Export("port_ionogram", "port_selmod", &[Words, Lent], "u32", NONE),
    Export(
        "port_ionogram",
        "port_genion",
        &[Words, Word, Lent],
        "u32",
        NONE,
    ),
    Export(
        "port_ionogram",
        "port_fobby",
        &[Words, Word, LentCells],
        "u32",
        NONE,
    ),
    Export(
        "port_ionogram",
        "port_alosfv",
        &[Words, Word, Lent, Words],
        "u32",
        NONE,
    ),
    Export(
        "port_ionogram",
        "port_sheet",
        &[Lent, Word, Word, Words, LentCells, Lent],
        "u32",
        NONE,
    ),
    Export(
        "port_tariff",
        "port_price",
        &[Word, Words, Words, Word, Lent],
        "u32",
        NONE,
    ),
    Export("port_totals", "port_total", &[Words, Lent], "u32", NONE),
    Export(
        "port_totals",
        "port_total_last",
        &[Words, Lent],
        "u32",
        NONE,
    ),
    Export(
        "port_traces",
        "port_compare",
        &[Words, Words, Words, Words, Lent, Lent, LentSigned, Lent],
        "u32",
        NONE,
    ),
    Export(
        "port_traces",
        "port_trace",
        &[Words, Lent, Lent],
        "u32",
        NONE,
    ),
    Export("port_mark", "port_mark", &[Bytes, Lent], "u32", NONE),
    Export(
        "port_text",
        "port_sheet_text",
        &[Bytes, LentBytes, Lent],
        "u32",
        NONE,
    ),
];

/// The text of all wrappers, and the linker's instructions.
pub fn wrappers(folder: &Path) -> String {
    println!("cargo:rerun-if-changed={}", folder.display());
    println!("cargo:rustc-link-search=native={}", folder.display());
    let mut linked: Vec<&str> = Vec::new();
    let mut missing: Vec<&str> = Vec::new();
    let mut text = String::new();
    for export in &EXPORTS {
        let built = exports(folder, export);
        if built && !linked.contains(&export.0) {
            println!("cargo:rustc-link-lib=static={}", export.0);
            linked.push(export.0);
        }
        if !built {
            missing.push(export.1);
        }
        text += &wrapper(export, built);
    }
    text + &format!("/// What no library has.\npub const MISSING: &[&str] = &{missing:?};\n")
}

/// Whether the library is there and its index has the function.
fn exports(folder: &Path, export: &Export) -> bool {
    let path = folder.join(format!("lib{}.a", export.0));
    println!("cargo:rerun-if-changed={}", path.display());
    fs::read(&path).is_ok_and(|archive| index(&archive).iter().any(|n| n == export.1))
}

/// The names in an archive's index, its first member: after the archive's
/// mark (8 bytes) and the member's header (60) come a count, so many offsets
/// and the names, each ended by a zero byte.
fn index(archive: &[u8]) -> Vec<String> {
    let word = |at: usize| archive[at..at + 4].try_into().map(u32::from_be_bytes);
    let count = word(68).unwrap() as usize;
    let names = archive[72 + 4 * count..].split(|b| *b == 0).take(count);
    names
        .map(|n| String::from_utf8_lossy(n).into_owned())
        .collect()
}

fn wrapper(export: &Export, built: bool) -> String {
    let Export(_, name, kinds, result, stand_in) = export;
    let kinds = || kinds.iter().enumerate();
    let safe = joined(kinds().map(|(i, k)| format!("a{i}: {}", k.safe())));
    if !built {
        return format!(
            "#[allow(unused_variables)]\npub fn {name}({safe}) -> {result} {{ {stand_in} }}\n"
        );
    }
    let foreign = joined(kinds().map(|(i, k)| k.foreign(i)));
    let passed = joined(kinds().map(|(i, k)| k.passed(i)));
    format!(
        "#[inline]\npub fn {name}({safe}) -> {result} {{\n    \
         extern \"C\" {{ fn {name}({foreign}) -> {result}; }}\n    \
         unsafe {{ {name}({passed}) }}\n}}\n"
    )
}

fn joined(parts: impl Iterator<Item = String>) -> String {
    parts.collect::<Vec<_>>().join(", ")
}

impl Kind {
    fn safe(self) -> &'static str {
        match self {
            Number => "f32",
            Word => "u32",
            Words | Floats => "&[u32]",
            Lent | LentCells => "&mut [u32]",
            Bytes => "&[u8]",
            LentBytes => "&mut [u8]",
            LentSigned => "&mut [i64]",
        }
    }

    /// A slice is a pointer and a length.
    fn foreign(self, i: usize) -> String {
        match self {
            Number => format!("a{i}: f32"),
            Word => format!("a{i}: u32"),
            Words => format!("a{i}: *const u32, n{i}: usize"),
            Floats => format!("a{i}: *const f32, n{i}: usize"),
            Lent => format!("a{i}: *mut u32, n{i}: usize"),
            Bytes => format!("a{i}: *const u8, n{i}: usize"),
            LentBytes => format!("a{i}: *mut u8, n{i}: usize"),
            LentSigned => format!("a{i}: *mut i64, n{i}: usize"),
            LentCells => format!("a{i}: *mut i32, n{i}: usize"),
        }
    }

    fn passed(self, i: usize) -> String {
        match self {
            Number | Word => format!("a{i}"),
            Words | Bytes => format!("a{i}.as_ptr(), a{i}.len()"),
            Floats => format!("a{i}.as_ptr().cast(), a{i}.len()"),
            Lent | LentBytes | LentSigned => format!("a{i}.as_mut_ptr(), a{i}.len()"),
            LentCells => format!("a{i}.as_mut_ptr().cast(), a{i}.len()"),
        }
    }
}
