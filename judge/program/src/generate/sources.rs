//! Whole sources with settings and output lengths.

use super::{
    Lines, damage, grammar,
    lexemes::{KEYWORDS, PUNCTUATION},
    rng::Rng,
};
use crate::{hex, reader, readings};

/// Room that `readtree` lends.
const ROOM: u64 = 65_536;

pub fn line(setting: u64, room: u64, source: &[u8]) -> String {
    format!("{setting} {room} {}", hex::encode(source))
}

/// Lexemes of every sort that the parser tells apart, for sources made of nothing else.
pub const LEXEMES: [&str; 30] = [
    "a", "1", "\"a\"", "null", "+", "==", "-", "??", "(", ")", "[", "]", "{", "}", ":", ";", ".",
    "...", ",", "=", "?", "if", "then", "else", "for", "in", "local", "assert", "function",
    "error",
];

pub fn fixed(lines: &mut Lines) {
    for &(setting, notation, _) in readings::all() {
        let source = readings::expand(notation);
        lines.push(line(setting, ROOM, source.as_bytes()));
        // Every setting reads every reading that isn't long.
        for setting in (0..reader::SETTINGS).filter(|_| source.len() < 24) {
            lines.push(line(setting, 256, source.as_bytes()));
        }
    }
    rooms(lines);
    limits(lines);
    no_utf8(lines);
    for lexeme in PUNCTUATION.into_iter().chain(KEYWORDS).chain(LEXEMES) {
        for setting in [0, 7, 15] {
            lines.push(line(setting, 64, lexeme.as_bytes()));
        }
    }
    for first in LEXEMES {
        for second in LEXEMES {
            lines.push(line(7, 64, format!("{first} {second}").as_bytes()));
            lines.push(line(15, 64, format!("- {first} {second}").as_bytes()));
        }
    }
}

/// Output lengths around what is needed.
fn rooms(lines: &mut Lines) {
    let trees = [
        "1", "null", "\"a\"", "-a*b", "[]", "{}", "[1,2]", "{a:1}", "a.b.c", "f(1,x=2)", "a[1:2]",
        "local f(x)=x;f", "if a then b", "\"\"", "|||\n a\n|||", "\"\\u20ac\"", "assert a:b;c",
    ];
    for tree in trees {
        let need = reader::answer(0, ROOM, tree.as_bytes()).length as u64;
        for room in [0, 1, 2, 3, need / 2, need - 1, need, need + 1, ROOM] {
            lines.push(line(0, room, tree.as_bytes()));
        }
    }
}

/// Settings, lengths and images at and beyond their ends.
fn limits(lines: &mut Lines) {
    for setting in [16, 17, 24, 31, 255, 256, 271, 1 << 16, 1 << 32, (1 << 32) + 8, u64::MAX] {
        lines.push(line(setting, 64, b"1"));
        lines.push(line(setting, 0, b"\xff"));
    }
    let blanks = " ".repeat(reader::SOURCE_LIMIT - 1);
    lines.push(line(0, 64, format!("{blanks}1").as_bytes()));
    lines.push(line(0, 64, format!("{blanks} 1").as_bytes()));
    // Images far longer than their sources, and one byte too long.
    let chain = readings::expand("a⟦32499×.b⟧");
    lines.push(line(0, ROOM, chain.as_bytes()));
    let chain = readings::expand("a⟦5041×.b⟧");
    let need = reader::answer(0, 0, chain.as_bytes()).length as u64;
    lines.push(line(0, need - 1, chain.as_bytes()));
    // A fault comes before the want of room.
    lines.push(line(0, 0, b"[1,2,3"));
}

/// Each way not to be UTF-8, behind nothing, in a literal, and behind a fault of another sort.
fn no_utf8(lines: &mut Lines) {
    let faults: [&[u8]; 24] = [
        b"\x80", b"\xbf", b"\xc0\x80", b"\xc1\xbf", b"\xc2", b"\xc2A", b"\xc3\xa9\xa9",
        b"\xe0\x80\x80", b"\xe0\x9f\xbf", b"\xe2\x82", b"\xe2\x82A", b"\xe2A", b"\xed\xa0\x80",
        b"\xed\xbf\xbf", b"\xf0\x80\x80\x80", b"\xf0\x8f\xbf\xbf", b"\xf0\x9f\x98",
        b"\xf0\x9f\x98A", b"\xf4\x90\x80\x80", b"\xf5\x80\x80\x80", b"\xf8\x88\x80\x80\x80",
        b"\xfe", b"\xff", b"\xc3\xa9\xff",
    ];
    lines.push(line(0, 64, b"\"\xff"));
    lines.push(line(0, 64, b"ab\xe2\x82\xac\xe2\x82"));
    for fault in faults {
        for (before, after) in [("", ""), ("1", ""), ("\"a", "\""), ("'é€😀", "'"), (") \"", "")]
        {
            let source = [before.as_bytes(), fault, after.as_bytes()].concat();
            lines.push(line(0, 64, &source));
        }
    }
}

pub fn random(rng: &mut Rng) -> String {
    let written = rng.below(reader::SETTINGS as usize) as u64;
    let mut source = match rng.below(128) {
        0 => deep(rng),
        1..16 => soup(rng),
        _ => {
            let size = rng.pick(&[1, 2, 2, 3, 3, 4, 5, 8]);
            grammar::source(rng, written, size)
        }
    };
    if rng.once_in(3) {
        let extra = [
            '(', ')', '[', ']', '{', '}', ',', ':', ';', '.', '=', '?', '"', '\'', '\\', '@', '|',
            '/', '*', '#', '+', '-', 'a', '1', 'e', '_', ' ', '\n', '\r', 'é',
        ];
        source = damage::characters(rng, &source, &extra);
    }
    let mut bytes = source.into_bytes();
    if rng.once_in(24) {
        damage::bytes(rng, &mut bytes);
    }
    // Mostly the setting it was written for.
    let any = rng.below(reader::SETTINGS as usize) as u64;
    let setting = if rng.once_in(3) { any } else { written };
    let need = reader::answer(setting, 0, &bytes).length as u64;
    let room = match rng.below(8) {
        0 => rng.below(need as usize + 1) as u64,
        1 => need.saturating_sub(1),
        2 => need + 1,
        3 => need + rng.below(100) as u64,
        _ => need,
    };
    line(setting, room, &bytes)
}

fn soup(rng: &mut Rng) -> String {
    let lexemes: Vec<&str> = (0..=rng.below(6)).map(|_| rng.pick(&LEXEMES)).collect();
    grammar::join(rng, &lexemes)
}

/// Phrases one inside the other to about the depth limit.
fn deep(rng: &mut Rng) -> String {
    const AROUND: [(&str, &str); 12] = [
        ("(", ")"),
        ("[", "]"),
        ("[1,", "]"),
        ("-", ""),
        ("1+(", ")"),
        ("{a:", "}"),
        ("{[", "]:1}"),
        ("a[", "]"),
        ("f(a=", ")"),
        ("error ", ""),
        ("if ", " then 1"),
        ("local a=", ";1"),
    ];
    const PATTERNS: [(&str, &str); 3] = [("[", "]"), ("{a:", "}"), ("[...,", "]")];
    let depth = 196 + rng.below(8);
    let (outside, patterns) = if rng.once_in(3) {
        let outside = rng.below(depth);
        (outside, depth - outside)
    } else {
        (depth, 0)
    };
    let common = rng.pick(&AROUND);
    let mut before = String::new();
    let mut after = Vec::new();
    for at in 0..outside + patterns {
        let (open, close) = match at {
            _ if at >= outside => rng.pick(&PATTERNS),
            _ if rng.once_in(20) => rng.pick(&AROUND),
            _ => common,
        };
        if at == outside {
            before.push_str("local ");
            after.push("=1;2");
        }
        before.push_str(open);
        after.push(close);
    }
    before.push_str(rng.pick(&["a", "a", "1", "[]", "{}", "?", "", "-1", "a=1"]));
    after.iter().rev().for_each(|close| before.push_str(close));
    before
}
