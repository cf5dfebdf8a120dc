//! The tokens of a Rust text, with the blanks and comments before each.

#[derive(Clone, Copy, PartialEq, Eq, Debug)]
pub enum Kind {
    Name,
    Whole,
    Float,
    /// A string, a character or a lifetime.
    Quoted,
    Sign,
}

#[derive(Clone, Debug)]
pub struct Token {
    /// Blanks and comments before it.
    pub before: String,
    pub text: String,
    pub kind: Kind,
    /// Whether a blank stands after it.
    pub spaced: bool,
}

impl Token {
    pub fn is(&self, text: &str) -> bool {
        self.text == text && self.kind != Kind::Quoted
    }
}

/// Signs of more than one character, longest first.
const LONG: [&str; 15] = [
    "..=", "..", "->", "=>", "==", "!=", "<=", ">=", "&&", "||", "+=", "-=", "*=", "/=", "::",
];

/// The tokens, and what stands after the last.
pub fn tokens(text: &str) -> (Vec<Token>, String) {
    let mut list: Vec<Token> = Vec::new();
    let mut rest = text;
    loop {
        let blank = blank_length(rest);
        let before = &rest[..blank];
        if let Some(last) = list.last_mut() {
            last.spaced = blank > 0;
        }
        rest = &rest[blank..];
        if rest.is_empty() {
            return (list, before.to_string());
        }
        let (kind, length) = first(rest);
        list.push(Token {
            before: before.to_string(),
            text: rest[..length].to_string(),
            kind,
            spaced: false,
        });
        rest = &rest[length..];
    }
}

fn blank_length(text: &str) -> usize {
    let mut at = 0;
    loop {
        let rest = &text[at..];
        let blanks = rest.len() - rest.trim_start().len();
        at += blanks;
        if !text[at..].starts_with("//") {
            return at;
        }
        at += text[at..].find('\n').unwrap_or(text.len() - at);
    }
}

fn first(text: &str) -> (Kind, usize) {
    let c = text.chars().next().unwrap();
    if c.is_ascii_digit() {
        return number(text);
    }
    if c.is_alphabetic() || c == '_' {
        return (Kind::Name, run(text, 0, word));
    }
    if c == '"' {
        return (Kind::Quoted, quoted(text, '"'));
    }
    if c == '\'' {
        let name = run(text, 1, word);
        let lifetime = name > 1 && !text[name..].starts_with('\'');
        let length = if lifetime { name } else { quoted(text, '\'') };
        return (Kind::Quoted, length);
    }
    let long = LONG.iter().find(|s| text.starts_with(**s));
    (Kind::Sign, long.map_or(c.len_utf8(), |s| s.len()))
}

fn word(c: char) -> bool {
    c.is_alphanumeric() || c == '_'
}

/// Where the characters of a class, from a place on, end.
fn run(text: &str, from: usize, class: fn(char) -> bool) -> usize {
    let rest = &text[from..];
    from + rest.find(|c| !class(c)).unwrap_or(rest.len())
}

/// Digits, a point only where a digit follows it.
fn number(text: &str) -> (Kind, usize) {
    let whole = run(text, 0, word);
    let rest = text[whole..].as_bytes();
    if rest.first() == Some(&b'.') && rest.get(1).is_some_and(u8::is_ascii_digit) {
        (Kind::Float, run(text, whole + 1, word))
    } else {
        (Kind::Whole, whole)
    }
}

fn quoted(text: &str, end: char) -> usize {
    let mut escaped = false;
    for (at, c) in text.char_indices().skip(1) {
        if c == end && !escaped {
            return at + 1;
        }
        escaped = c == '\\' && !escaped;
    }
    panic!("a quote that doesn't end")
}
