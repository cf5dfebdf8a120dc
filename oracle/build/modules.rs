//! The Rust's files, and the two sets of modules made of them.

use crate::routing;
use crate::wrong::{edited, Edits, Part};
use std::fs;
use std::path::Path;

/// What the generated modules need of the Rust's files.
pub struct Source {
    perf: String,
    fastmath: String,
    constants: String,
    layers: String,
    xlin: String,
    figure: String,
    muf: String,
    ionogram: String,
}

/// Private items of muf.rs that the comparisons reach.
const REACH: &str = "
/// Access to what is private here.
pub mod reach {
    use super::*;
    pub const NODES: [R; 20] = XT;
    pub fn profile_interpolate(from: &[R; 50], to: &[R; 50], probe: R) -> R {
        super::profile_interpolate(from, to, probe)
    }
    pub fn rising_interpolate(from: &[R; 50], to: &[R; 50], probe: R, ih: &mut usize) -> R {
        super::rising_interpolate(from, to, probe, ih)
    }
    pub fn rises_throughout(a: &[R; 50]) -> bool {
        super::rises_throughout(a)
    }
    pub fn gethp_densities(s: &IonoState, ht: R, fr: R) -> [[R; 2]; 20] {
        super::gethp_densities(s, ht, fr)
    }
}
";

/// The `call` figure by output.rs's own `f`.
const FIGURE: &str = "
pub fn figure(muf: R) -> String {
    f(muf, 5, 1)
}
";

/// What is edited of each text: the functions whose answers reach a sheet.
const MUF: Part = Part {
    name: "muf",
    functions: &[
        "from_layers",
        "ionset",
        "lecden",
        "profile_interpolate",
        "rising_interpolate",
        "rises_throughout",
        "bendy",
        "pen",
        "gethp_densities",
        "gethp",
        "hop_geometry",
        "curmuf",
    ],
    numbers: &[
        "D2R", "R2D", "PIO2", "RZ", "TWDIV", "XNPL", "FQDEL", "AE", "A1", "A2", "DZF", "BEX",
    ],
    wholes: &["NPL", "NFQ"],
    tables: &[("XT", 20), ("WT", 20)],
    floats: true,
};
const IONOGRAM: Part = Part {
    name: "ionogram",
    functions: &["genion", "alosfv"],
    numbers: &[],
    wholes: &[],
    tables: &[("HTE", 10), ("HPE", 10)],
    floats: true,
};
const XLIN: Part = Part {
    name: "sigdis",
    functions: &["xlin"],
    numbers: &[],
    wholes: &[],
    tables: &[],
    floats: true,
};

/// The oracle's own reading of the paper.
const fn own(name: &'static str, functions: &'static [&'static str]) -> Part {
    Part {
        name,
        functions,
        numbers: &[],
        wholes: &["RECORD", "DECILES"],
        tables: &[],
        floats: false,
    }
}
const CIRCUIT: Part = own("circuit", &["read", "first_record", "take", "complete"]);
const PREDICT: Part = own(
    "predict",
    &["sang", "domain", "time_block", "hops", "curmuf"],
);
const MARKS: Part = own("marks", &["mark", "makes"]);
const PROGRAMS: Part = own("programs", &["sheet_of", "slots", "hour"]);
const WHOLE: Part = own("", &[]);

impl Source {
    /// Reads the files below `folder`; cuts the items that are needed out of
    /// those that can't be compiled whole.
    pub fn open(folder: &Path) -> Self {
        let read = |name: &str| read(&folder.join(name));
        let ionosphere = read("voacap/ionosphere.rs");
        Source {
            perf: read("perf.rs"),
            fastmath: read("voacap/fastmath.rs"),
            constants: constants(&read("voacap/constants.rs")),
            layers: item(&ionosphere, "pub struct LayerParams")
                + &item(&ionosphere, "pub struct EsParams"),
            xlin: item(&read("voacap/sigdis.rs"), "pub fn xlin"),
            figure: item(&read("voacap/output.rs"), "pub(crate) fn f("),
            muf: read("voacap/muf.rs"),
            ionogram: read("voacap/ionogram.rs"),
        }
    }

    /// The timers, whole: they stay off.
    pub fn perf(&self) -> String {
        module("perf", &self.perf)
    }

    /// The modules as they stand, with Rust's own functions.
    pub fn native(&self) -> String {
        [
            module("con", &self.constants),
            module("fastmath", &self.fastmath),
            module("ionosphere", &with_r(&self.layers)),
            module("sigdis", &with_r(&self.xlin)),
            module("output", &(with_r(&self.figure) + FIGURE)),
            module("muf", &(self.muf.clone() + REACH)),
            module("ionogram", &self.ionogram),
        ]
        .concat()
    }

    /// The modules with their elementary functions routed to ours, and the
    /// segments of searches noted.
    pub fn routed(&self) -> String {
        routing::all_found(&[&self.muf, &self.ionogram, &self.xlin]);
        let muf = routing::routed("muf.rs", &self.muf);
        let ionogram = routing::routed("ionogram.rs", &self.ionogram);
        let xlin = routing::routed("sigdis.rs", &self.xlin);
        [
            "pub use crate::voacap::{con, ionosphere};\n".to_string(),
            module("sigdis", &with_r(&xlin)),
            module("muf", &(muf + ROUTES + REACH)),
            module("ionogram", &(ionogram + ROUTES)),
        ]
        .concat()
    }

    /// The routed modules and the oracle's own, with wrong edits to choose from,
    /// and the list of these.
    pub fn wrong(&self, own: &Path) -> String {
        let mut edits = Edits::default();
        let mut rust = |name: &str, text: &str, part: &Part| {
            edited(&routing::routed(name, text), part, &mut edits)
        };
        let muf = rust("muf.rs", &self.muf, &MUF) + REACH;
        let ionogram = rust("ionogram.rs", &self.ionogram, &IONOGRAM);
        let xlin = rust("sigdis.rs", &self.xlin, &XLIN);
        let mut text = [
            "pub use crate::voacap::{con, ionosphere};\n".to_string(),
            module("sigdis", &(with_r(&xlin) + METHODS)),
            module("muf", &(muf + METHODS + ROUTES)),
            module("ionogram", &(ionogram + METHODS + ROUTES)),
            "mod noted { pub use super::routing::*; }\n".to_string(),
        ]
        .concat();
        let parts = [
            ("circuit", CIRCUIT),
            ("predict", PREDICT),
            ("marks", MARKS),
            ("programs", PROGRAMS),
            ("wide", WHOLE),
            ("routing", WHOLE),
            ("side", WHOLE),
        ];
        for (name, part) in &parts {
            let whole = read(&own.join(format!("{name}.rs")));
            let body = whole.split("#[cfg(test)]").next().unwrap();
            text += &module(name, &(edited(body, part, &mut edits) + METHODS));
        }
        for (name, _) in &parts {
            text = text.replace(
                &format!("crate::{name}"),
                &format!("crate::wrong::made::{name}"),
            );
        }
        text = text.replace("crate::routed::", "crate::wrong::made::");
        let list: String = edits.list.iter().map(|e| format!("    {e:?},\n")).collect();
        text + &format!("/// Function, and what is wrong in it.\npub const EDITS: &[(&str, &str)] = &[\n{list}];\n")
    }
}

/// Where routed methods come from.
const ROUTES: &str = "\nuse crate::routing::{Elementary, Order};\n";

/// Where wrong methods come from.
const METHODS: &str = "\nuse crate::wrong::Methods;\n";

fn read(path: &Path) -> String {
    println!("cargo:rerun-if-changed={}", path.display());
    fs::read_to_string(path).unwrap_or_else(|e| {
        panic!(
            "{}: {e}; set HFCAST_SRC to the folder of the Rust source",
            path.display()
        )
    })
}

fn module(name: &str, body: &str) -> String {
    format!("pub mod {name} {{\n{body}\n}}\n")
}

fn with_r(body: &str) -> String {
    format!("use super::con::R;\n{body}")
}

/// The number type and the constants: one line each in constants.rs.
fn constants(text: &str) -> String {
    text.lines()
        .filter(|l| l.starts_with("pub type R") || l.starts_with("pub const"))
        .flat_map(|l| [l, "\n"])
        .collect()
}

/// The item that begins with `head`, with the attributes above it, to the
/// brace that closes it at the start of a line.
fn item(text: &str, head: &str) -> String {
    let lines: Vec<&str> = text.lines().collect();
    let at = lines
        .iter()
        .position(|l| l.starts_with(head))
        .unwrap_or_else(|| panic!("no `{head}` in the Rust source"));
    let above = lines[..at].iter().rev();
    let first = at - above.take_while(|l| l.starts_with("#[")).count();
    let last = at + lines[at..].iter().position(|l| *l == "}").unwrap();
    lines[first..=last].join("\n") + "\n"
}
