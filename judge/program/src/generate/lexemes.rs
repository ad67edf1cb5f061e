//! Sources for the lexer alone.

use super::{Lines, damage, rng::Rng, words};
use crate::{hex, readings};

pub const PUNCTUATION: [&str; 35] = [
    "||", "??", "&&", "|", "^", "&", "==", "!=", "<", ">", "<=", ">=", "<<", ">>", "+", "-", "*",
    "/", "%", "!", "~", "[", "]", "(", ")", "{", "}", ":", ";", ".", "...", ",", "$", "=", "?",
];

pub const KEYWORDS: [&str; 18] = [
    "tailstrict", "local", "importstr", "importbin", "import", "if", "then", "else", "function",
    "error", "in", "null", "true", "false", "self", "super", "for", "assert",
];

const NUMBERS: [&str; 18] = [
    "0", "1", "10", "1_0", "1_00_0", "0.5", "1.25", "1.2_5", "1e5", "1E+5", "1e-5", "1.5e1_0",
    "1.x", "1ex", "1e+x", "0e0", "9_9.9_9e9_9", "1e-x",
];

const OTHERS: [&str; 26] = [
    "a", "_", "x1", "a_B9", "\"a\"", "'a'", "\"\\\"\"", "'\\''", "\"a", "'a", "@\"a\"", "@'a'",
    "@\"\"\"\"", "@'a", "@\"a", "@ab", "|||\n a\n|||", "|||", "// a\n", "# a\n", "/* a */", "/**/",
    "/*/", "/* a", " ", "\r\n",
];

/// White space that no rule of its own takes, and characters that only look like it.
const BLANKS: [char; 36] = [
    '\t', '\n', '\u{b}', '\u{c}', '\r', ' ', '\u{85}', '\u{a0}', '\u{1680}', '\u{2000}',
    '\u{2001}', '\u{2002}', '\u{2003}', '\u{2004}', '\u{2005}', '\u{2006}', '\u{2007}', '\u{2008}',
    '\u{2009}', '\u{200a}', '\u{2028}', '\u{2029}', '\u{202f}', '\u{205f}', '\u{3000}', '\u{8}',
    '\u{e}', '\u{1c}', '\u{1f}', '\u{84}', '\u{86}', '\u{180e}', '\u{200b}', '\u{2060}',
    '\u{3001}', '\u{feff}',
];

fn pieces() -> Vec<&'static str> {
    [&PUNCTUATION[..], &KEYWORDS, &NUMBERS, &OTHERS].concat()
}

pub fn fixed(lines: &mut Lines) {
    let mut source = |text: &str| lines.push(hex::encode(text.as_bytes()));
    source("");
    for &(_, notation, _) in readings::all() {
        source(&readings::expand(notation));
    }
    for c in ('\0'..='\x7f').chain(BLANKS).chain("é€\u{ffff}\u{10000}😀\u{10ffff}".chars()) {
        source(&format!("{c}"));
    }
    for piece in pieces() {
        source(piece);
    }
    for blank in BLANKS {
        source(&format!("@{blank}"));
        source(&format!("@a{blank}"));
        source(&format!("@ab{blank}x"));
        source(&format!("1{blank}"));
    }
    for keyword in KEYWORDS {
        source(&keyword[..keyword.len() - 1]);
        source(&keyword.to_uppercase());
        for after in ["x", "1", "_", "é", "(", ".", "\""] {
            source(&format!("{keyword}{after}"));
            source(&format!("{after}{keyword}"));
        }
    }
    for first in PUNCTUATION {
        for second in PUNCTUATION {
            source(&format!("{first}{second}"));
        }
    }
    for text in words(&["0", "1", "_", ".", "e", "+", "x"], 3) {
        source(&text);
        source(&format!("1{text}"));
        source(&format!("10.5{text}"));
    }
    for text in words(&["\"", "'", "\\", "@", "a"], 4) {
        source(&text);
    }
    for text in words(&["/", "*", "a", "\n", "\r", "#"], 3) {
        source(&text);
    }
    for text in words(&["/", "*", "a"], 4) {
        source(&format!("/*{text}"));
    }
}

pub fn random(rng: &mut Rng) -> String {
    let pieces = pieces();
    let mut text = String::new();
    for _ in 0..2 + rng.below(5) {
        text.push_str(rng.pick(&pieces));
        if rng.once_in(2) {
            text.push_str(rng.pick(&[" ", "\n", "\t", "\r\n"]));
        }
        if rng.once_in(12) {
            text.push(rng.scalar());
        }
    }
    if rng.once_in(3) {
        let extra = ['\\', '"', '\'', '@', '|', '/', '*', '.', 'e', '_', '1', '\n', '\r', 'é'];
        text = damage::characters(rng, &text, &extra);
    }
    hex::encode(text.as_bytes())
}
