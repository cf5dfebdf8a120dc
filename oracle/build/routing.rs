//! The one edit of the Rust's text: elementary functions, minimum and maximum
//! become calls of ours, and each hop count is noted down as it is made, as is
//! the segment at which a search stands, and at each height of a profile which
//! shapes were worked out and their values. The edit is undone again and must
//! give the original back, letter for letter.

/// What is replaced, and by what.
const EDITS: [(&str, &str); 26] = [
    (".exp()", ".routed_exp()"),
    (".ln()", ".routed_ln()"),
    (".sin()", ".routed_sin()"),
    (".cos()", ".routed_cos()"),
    (".asin()", ".routed_asin()"),
    (".atan()", ".routed_atan()"),
    (".min(", ".routed_min("),
    (".max(", ".routed_max("),
    ("(nhops + 1)", "(crate::routing::hop(nhops) + 1)"),
    // the segments that a scan tries, and its end
    (
        "from[ih] - from[ih + 1]",
        "from[crate::routing::tried(ih)] - from[ih + 1]",
    ),
    (
        "\n    to[49]\n}",
        "\n    to[crate::routing::tried(49)]\n}",
    ),
    // the segment of the true height: `gethp` and its first test
    (
        "let mut ht = profile_interpolate(&s.fnsq, &s.htr, fr);",
        "let mut ht = crate::routing::found(profile_interpolate(&s.fnsq, &s.htr, fr));",
    ),
    (
        "return (s.htr[0], s.htr[0]);",
        "return crate::routing::unsought((s.htr[0], s.htr[0]));",
    ),
    // `xlin`, its first test and its end
    (
        "xn[j] - xn[j + 1]",
        "xn[crate::routing::at(j)] - xn[j + 1]",
    ),
    ("return yn[0];", "return crate::routing::unsought(yn[0]);"),
    (
        "\n    yn[N - 1]\n}",
        "\n    yn[crate::routing::at(N - 1)]\n}",
    ),
    // the row that a true height goes into
    (
        "ion.htrue[i] = ht;",
        "ion.htrue[i] = crate::routing::row(i, ht);",
    ),
    (
        "ion.htrue[i] = xlin(fn_, &s.fnsq, &s.htr);",
        "ion.htrue[i] = crate::routing::row(i, xlin(fn_, &s.fnsq, &s.htr));",
    ),
    (
        "ion.htrue[..10].copy_from_slice(&HTE);",
        "ion.htrue[..10].copy_from_slice(crate::routing::fixed(&HTE));",
    ),
    // the shapes that `lecden` works out at a height, and their five values
    ("fnd = fce", "fnd = crate::routing::worked(0, fce)"),
    ("fne = fce", "fne = crate::routing::worked(1, fce)"),
    ("fnval = fup", "fnval = crate::routing::worked(2, fup)"),
    ("fn1 = s1", "fn1 = crate::routing::worked(3, s1)"),
    ("fn1 = fc1", "fn1 = crate::routing::worked(3, fc1)"),
    ("fn2 = fc2", "fn2 = crate::routing::worked(4, fc2)"),
    (
        "s.fnsq[ih] = fnd",
        "s.fnsq[ih] = crate::routing::shapes([fnd, fne, fnval, fn1, fn2])",
    ),
];

/// Every edit finds its place in the texts.
pub fn all_found(texts: &[&str]) {
    for (old, _) in EDITS {
        let found = texts.iter().any(|t| t.contains(old));
        assert!(found, "no {old} in the Rust source");
    }
}

/// Functions that are routed nowhere, so must not be there.
const ABSENT: [&str; 7] = [
    ".tan()",
    ".acos()",
    ".atan2(",
    ".exp2()",
    ".powf(",
    ".log10()",
    ".sin_cos()",
];

/// `text` with every edit made.
pub fn routed(name: &str, text: &str) -> String {
    for word in ABSENT {
        assert!(
            !text.contains(word),
            "{name} calls {word}, which has no route"
        );
    }
    for (_, new) in EDITS {
        assert!(!text.contains(new), "{name} already has {new}");
    }
    let edited = replaced(text, |e| e);
    for (old, _) in EDITS {
        assert!(!edited.contains(old), "{name}: a {old} was left");
    }
    let undone = replaced(&edited, |(old, new)| (new, old));
    assert!(
        undone == text,
        "{name}: the edit undone is not the original"
    );
    edited
}

type Edit = (&'static str, &'static str);

fn replaced(text: &str, way: fn(Edit) -> Edit) -> String {
    EDITS.iter().fold(text.to_string(), |t, e| {
        let (from, to) = way(*e);
        t.replace(from, to)
    })
}
