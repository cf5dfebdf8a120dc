//! Single wrong edits, made by rule from the tokens of a text: each place that
//! can be wrong becomes a call of `crate::wrong`, which answers as the text says
//! unless one of the place's edits is chosen. So one build has all of them, and
//! no wrong text is stored.
//!
//! The rules lean on the layout of rustfmt: an operator of two operands has a
//! blank on both sides, a minus of one operand has none after it.

use crate::tokens::{tokens, Kind, Token};
use std::collections::BTreeMap;

/// The edits of all texts so far: function and what is wrong. An edit without a
/// text is none: it would be another one once more, or nothing.
#[derive(Default)]
pub struct Edits {
    pub list: Vec<(String, String)>,
}

/// What is edited of a text.
pub struct Part {
    /// The text's name, and the functions.
    pub name: &'static str,
    pub functions: &'static [&'static str],
    /// Named numbers that count as a literal each time that they stand there.
    pub numbers: &'static [&'static str],
    pub wholes: &'static [&'static str],
    /// Named tables and their lengths: each number of theirs can be wrong.
    pub tables: &'static [(&'static str, usize)],
    /// Whether an operation is of floats unless the tokens say otherwise.
    pub floats: bool,
}

/// Names that are first given a value in a branch, so must be given one.
const LATE: [&str; 4] = ["f1muf", "del", "hpx2", "hpy2"];

/// `text` with the edits of some functions in it.
pub fn edited(text: &str, part: &Part, edits: &mut Edits) -> String {
    let (list, end) = tokens(text);
    let mut out = String::new();
    let mut at = 0;
    while at < list.len() {
        let named = at > 0 && list[at - 1].is("fn");
        if named && part.functions.contains(&list[at].text.as_str()) {
            let body = body(&list, at);
            for t in &list[at..=body.0] {
                out += &(t.before.clone() + &t.text);
            }
            out += &Function::of(&list[body.0 + 1..body.1], &list[at].text, part, edits).made();
            at = body.1;
            continue;
        }
        out += &(list[at].before.clone() + &list[at].text);
        at += 1;
    }
    out + &end
}

/// The braces of the function whose name stands at a place.
fn body(list: &[Token], name: usize) -> (usize, usize) {
    let mut open = name;
    while !list[open].is("{") {
        open += 1;
    }
    (open, closing(list, open))
}

fn opens(t: &Token) -> bool {
    t.is("(") || t.is("[") || t.is("{")
}

fn closes(t: &Token) -> bool {
    t.is(")") || t.is("]") || t.is("}")
}

/// Where what is opened at a place closes.
fn closing(list: &[Token], open: usize) -> usize {
    let mut depth = 0;
    for (i, t) in list.iter().enumerate().skip(open) {
        depth += i32::from(opens(t)) - i32::from(closes(t));
        if depth == 0 {
            return i;
        }
    }
    panic!("a bracket that doesn't close")
}

/// Brackets that are open at a place.
#[derive(Default)]
struct Open {
    bracket: String,
    /// Whether these are brackets of an index.
    index: bool,
    /// Whether a semicolon stood in square brackets: a length follows.
    length: bool,
    /// The sum and the product that the next operation would go on with.
    sum: u32,
    product: u32,
}

struct Function<'a> {
    list: &'a [Token],
    name: &'a str,
    part: &'a Part,
    edits: &'a mut Edits,
    out: String,
    stack: Vec<Open>,
    /// How many of each sign there were.
    met: BTreeMap<String, u32>,
    /// Where a statement that may be left out ends.
    ends: Vec<usize>,
    /// Whether this is the head of a `for`.
    head: bool,
}

impl<'a> Function<'a> {
    fn of(list: &'a [Token], name: &'a str, part: &'a Part, edits: &'a mut Edits) -> Self {
        let body = Open {
            bracket: "{".to_string(),
            ..Open::default()
        };
        Function {
            list,
            name,
            part,
            edits,
            out: String::new(),
            stack: vec![body],
            met: BTreeMap::new(),
            ends: Vec::new(),
            head: false,
        }
    }

    /// Notes the edits of a place; answers the number of the first.
    fn place(&mut self, sign: &str, wrongs: &[&str]) -> u32 {
        let met = self.met.entry(sign.to_string()).or_default();
        *met += 1;
        let first = self.edits.list.len() as u32 + 1;
        for wrong in wrongs {
            let what = match *wrong {
                "" => String::new(),
                _ => format!("{sign} {met} {wrong}"),
            };
            let function = format!("{}::{}", self.part.name, self.name);
            self.edits.list.push((function, what));
        }
        first
    }

    fn made(mut self) -> String {
        let mut at = 0;
        while at < self.list.len() {
            if self.begins(at) {
                self.statement(at);
            }
            self.out += &self.list[at].before;
            at = self.token(at);
            while self.ends.last().is_some_and(|e| *e < at) {
                self.ends.pop();
                self.out += " }";
            }
        }
        self.out
    }

    fn back(&self, at: usize) -> Option<&'a Token> {
        at.checked_sub(1).map(|i| &self.list[i])
    }

    /// Whether a statement may begin here.
    fn begins(&self, at: usize) -> bool {
        let here = self.stack.last().is_some_and(|o| o.bracket == "{");
        here && self
            .back(at)
            .is_none_or(|t| t.is(";") || t.is("{") || t.is("}"))
    }

    /// A store, or a check that may refuse, can be left out.
    fn statement(&mut self, at: usize) {
        let first = &self.list[at];
        let keyword = [
            "let", "return", "if", "for", "while", "loop", "break", "else",
        ];
        let open = first.kind == Kind::Name && !keyword.contains(&first.text.as_str());
        if !open && !first.is("*") {
            return;
        }
        let (mut depth, mut store, mut end) = (0, None, None);
        for (i, t) in self.list.iter().enumerate().skip(at) {
            if depth == 0 && store.is_none() && (t.is("{") || t.is(",")) {
                return;
            }
            if depth == 0 && ["=", "+=", "-=", "*="].iter().any(|s| t.is(s)) {
                store = store.or(Some(i));
            }
            if depth == 0 && t.is(";") {
                end = Some(i);
                break;
            }
            depth += i32::from(opens(t)) - i32::from(closes(t));
            if depth < 0 {
                return;
            }
        }
        let Some(end) = end else { return };
        let what = match store {
            Some(_) if LATE.contains(&first.text.as_str()) => return,
            Some(_) => "store",
            None if self.list[end - 1].is("?") => "check",
            None => return,
        };
        let base = self.place(what, &["left out"]);
        self.out += &format!(" if crate::wrong::kept({base}) {{");
        self.ends.push(end);
    }

    /// Writes the token at a place, edited; answers the next place.
    fn token(&mut self, at: usize) -> usize {
        let t = &self.list[at];
        match t.kind {
            Kind::Float => self.float(at),
            Kind::Whole => self.whole(at),
            Kind::Name => return self.named(at),
            Kind::Quoted => self.out += &t.text,
            Kind::Sign => return self.sign(at),
        }
        at + 1
    }

    fn compares(t: &Token) -> bool {
        ["<", "<=", ">", ">=", "==", "!="].iter().any(|s| t.is(s))
    }

    fn float(&mut self, at: usize) {
        let text = &self.list[at].text;
        let zero = text.parse::<f64>().expect("a number") == 0.0;
        if zero && self.back(at).is_some_and(Self::compares) {
            self.out += text;
        } else if zero {
            let base = self.place(text, &["is 1"]);
            self.out += &format!("crate::wrong::zero({base})");
        } else {
            let base = self.place(text, &["a place up", "a hundredth up"]);
            self.out += &format!("crate::wrong::number({base}, {text})");
        }
    }

    /// Whether a whole number may not be edited: a length, a pattern, a field, a
    /// number that routing put there, or one whose type the edit would hide.
    fn fixed(&self, at: usize) -> bool {
        let next = self.list.get(at + 1);
        let after = |s: &str| next.is_some_and(|t| t.is(s));
        let behind = |s: &str| self.back(at).is_some_and(|t| t.is(s));
        let noted = at >= 2 && behind("(") && self.list[at - 2].is("worked");
        let first = (0..at)
            .rev()
            .find(|&i| self.list[i].is(";") || self.list[i].is("{") || self.list[i].is("}"));
        let start = first.map_or(0, |i| i + 1);
        let given = behind("=") && self.list[start].is("let");
        let length = self.stack.last().is_some_and(|o| o.length);
        length
            || after("=>")
            || after("|")
            || behind(".")
            || behind("|")
            || behind("-") && !self.list[at - 1].spaced
            || noted
            || given
    }

    fn whole(&mut self, at: usize) {
        let text = &self.list[at].text;
        if self.fixed(at) {
            self.out += text;
            return;
        }
        let digits: String = text.chars().take_while(char::is_ascii_digit).collect();
        let wrongs: &[&str] = if digits == "0" {
            &["is 1"]
        } else {
            &["less 1", "and 1"]
        };
        let base = self.place(text, wrongs);
        let name = if self.is_index(at) { "index" } else { "whole" };
        self.out += &format!("crate::wrong::{name}({base}, {text})");
    }

    /// Whether a whole number is an index or an end of a loop.
    fn is_index(&self, at: usize) -> bool {
        let range = |i: Option<&Token>| i.is_some_and(|t| t.is("..") || t.is("..="));
        let ranged = range(self.back(at)) || range(self.list.get(at + 1));
        let contained = (at..self.list.len().min(at + 5)).any(|i| {
            self.list[i].is(")") && self.list.get(i + 2).is_some_and(|t| t.is("contains"))
        });
        self.head || self.stack.last().is_some_and(|o| o.index) || ranged && !contained
    }

    /// A name, where it is a method that can be wrong, a number or a table.
    fn named(&mut self, at: usize) -> usize {
        let text = self.list[at].text.as_str();
        let method = self.back(at).is_some_and(|t| t.is("."));
        match text {
            "true" | "false" => {
                let base = self.place(text, &["not so"]);
                self.out += &format!("crate::wrong::truth({base}, {text})");
            }
            "routed_min" | "routed_max" if method => {
                let sign = &text[7..];
                // of two equal numbers only zeros differ
                let limit = &self.list[at + 2..at + 4];
                let limit = limit.iter().any(|t| t.kind == Kind::Float && !t.is("0.0"));
                let second = if limit { "" } else { "the second of equals" };
                let wrongs = ["the other", "left out", "NaN kept", second];
                let base = self.place(sign, &wrongs);
                self.out += &format!("wrong_{sign}({base}, ");
                self.stack.push(Open {
                    bracket: "(".to_string(),
                    ..Open::default()
                });
                return at + 2;
            }
            "sqrt" | "abs" if method => return self.function(at, "f32::"),
            _ if method && text.starts_with("routed_") => {
                return self.function(at, "crate::wrong::made::routing::Elementary::");
            }
            "as" if self.list[at + 1].is("i32") => {
                let base = self.place("as i32", &["rounded"]);
                self.out = self.out.trim_end().to_string();
                self.out += &format!(".truncated({base})");
                return at + 2;
            }
            "for" => {
                self.head = true;
                self.out += text;
            }
            "return" | "else" | "if" | "in" => {
                self.new_chain();
                self.out += text;
            }
            _ if method => self.out += text,
            _ if self.part.numbers.contains(&text) => {
                let base = self.place(text, &["a place up", "a hundredth up"]);
                self.out += &format!("crate::wrong::number({base}, {text})");
            }
            _ if self.part.wholes.contains(&text) => {
                let base = self.place(text, &["less 1", "and 1"]);
                self.out += &format!("crate::wrong::whole({base}, {text})");
            }
            _ => match self.part.tables.iter().find(|(name, _)| *name == text) {
                Some((_, length)) => {
                    let wrongs: Vec<String> =
                        (0..*length).map(|i| format!("at {i} wrong")).collect();
                    let wrongs: Vec<&str> = wrongs.iter().map(String::as_str).collect();
                    let base = self.place(text, &wrongs);
                    self.out += &format!("crate::wrong::table({base}, &{text})");
                }
                None => self.out += text,
            },
        }
        at + 1
    }

    /// A function of one number can be left out.
    fn function(&mut self, at: usize, path: &str) -> usize {
        let text = &self.list[at].text;
        let base = self.place(text.trim_start_matches("routed_"), &["left out"]);
        self.out += &format!("wrong({base}, {path}{text})");
        at + 3
    }

    fn new_chain(&mut self) {
        if let Some(open) = self.stack.last_mut() {
            (open.sum, open.product) = (0, 0);
        }
    }

    fn sign(&mut self, at: usize) -> usize {
        let t = &self.list[at];
        let before = !t.before.is_empty();
        let two = before && t.spaced;
        let text = t.text.as_str();
        match text {
            "+" | "-" | "*" | "/" if two => self.operation(at),
            "-" if !t.spaced && self.list[at + 1].kind != Kind::Whole => {
                let base = self.place("minus", &["left out"]);
                self.out += &format!("crate::wrong::minus({base}) * ");
            }
            _ if Self::compares(t) && two => self.comparison(at),
            _ => {
                self.bracket(at);
                self.out += text;
            }
        }
        at + 1
    }

    fn bracket(&mut self, at: usize) {
        let t = &self.list[at];
        if opens(t) {
            if t.is("{") {
                self.head = false;
            }
            let valued = self.back(at).is_some_and(|b| {
                b.is("]") || b.is(")") || b.kind == Kind::Name && !b.is("in") && !b.is("return")
            });
            self.stack.push(Open {
                bracket: t.text.clone(),
                index: t.is("[") && valued,
                ..Open::default()
            });
        } else if closes(t) {
            self.stack.pop();
            if t.is("}") {
                self.new_chain();
            }
        } else if t.is(";") {
            let open = self.stack.last_mut().unwrap();
            open.length |= open.bracket == "[";
            self.new_chain();
        } else if !t.is(".") && !t.is("&") && !t.is("*") && !t.is("?") && !t.is("::") {
            self.new_chain();
        }
    }

    /// Whether the operands at a place are floats.
    fn of_floats(&self, at: usize) -> bool {
        let right = &self.list[at + 1];
        let counts = ["NFQ", "ntry", "ih", "kr", "ib", "iedp", "km", "kfx"];
        let whole = |t: &Token| t.kind == Kind::Whole || counts.contains(&t.text.as_str());
        let left = self.back(at).unwrap();
        let indexed = self.stack.last().is_some_and(|o| o.index);
        if right.kind == Kind::Float || left.kind == Kind::Float {
            return true;
        }
        self.part.floats && !indexed && !whole(right) && !whole(left)
    }

    /// Another operation, the result a place up, and, where an operation of the
    /// same rank went before it, the two taken from the right.
    fn operation(&mut self, at: usize) {
        let text = self.list[at].text.clone();
        let sum = text == "+" || text == "-";
        let floats = self.of_floats(at);
        let open = self.stack.last_mut().unwrap();
        let last = if sum { open.sum } else { open.product };
        let other = match text.as_str() {
            "+" => "is -",
            "-" => "is +",
            "*" => "is /",
            _ => "is *",
        };
        let wrongs: &[&str] = match (floats, last) {
            (false, _) => &[other],
            (_, 0) => &[other, "a place up"],
            _ => &[other, "a place up", "taken first"],
        };
        let base = self.place(&text, wrongs);
        let open = self.stack.last_mut().unwrap();
        let mine = if floats { base } else { 0 };
        if sum {
            (open.sum, open.product) = (mine, 0);
        } else {
            open.product = mine;
        }
        let last = if floats { last } else { 0 };
        self.out += &format!("{text} crate::wrong::At({base}, {last}) {text}");
    }

    fn comparison(&mut self, at: usize) {
        let text = self.list[at].text.clone();
        let floats = self.of_floats(at);
        let order = text != "==" && text != "!=";
        let wrongs: &[&str] = match (order, floats) {
            (false, _) => &["always", "never"],
            (_, false) => &["always", "never", "at equals"],
            _ => &["always", "never", "at equals", "at NaN"],
        };
        let base = self.place(&text, wrongs);
        // a difference that is held to zero: a place up is what "at equals" is
        let open = self.stack.last().unwrap();
        let zero = self.list[at + 1].kind == Kind::Float && self.list[at + 1].is("0.0");
        let last = if open.product > 0 { 0 } else { open.sum };
        if floats && zero && last > 0 {
            self.edits.list[last as usize].1.clear();
        }
        self.new_chain();
        let name = match text.as_str() {
            "<" => "lt",
            "<=" => "le",
            ">" => "gt",
            ">=" => "ge",
            "==" => "eq",
            _ => "ne",
        };
        self.out += &format!("| crate::wrong::{name}({base}) |");
    }
}
