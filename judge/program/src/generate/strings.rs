//! Insides of literals, bytes that may be UTF-8, and code points.

use super::{Lines, damage, rng::Rng, soup, words};
use crate::hex;

fn line(mode: char, bytes: &[u8]) -> String {
    format!("{mode} {}", hex::encode(bytes))
}

pub fn fixed(lines: &mut Lines) {
    escapes(lines);
    surrogates(lines);
    verbatim(lines);
    utf8(lines);
    code_points(lines);
}

/// Where the lengths of UTF-8, the halves and the range of `u16` begin and end.
const EDGES: [u32; 13] =
    [0, 0x1f, 0x7f, 0x80, 0x7ff, 0x800, 0xd7ff, 0xd800, 0xdbff, 0xdc00, 0xdfff, 0xe000, 0xffff];

/// What stands for a hex digit and isn't one: neighbours of the digits in ASCII and others.
const NO_DIGITS: [&str; 12] = ["g", "G", "/", ":", "@", "`", " ", "+", "-", "\\", "é", "１"];

fn escapes(lines: &mut Lines) {
    let mut quoted = |text: &str| lines.push(line('q', text.as_bytes()));
    quoted("");
    for c in ('\0'..='\x7f').chain("é\u{7ff}\u{800}\u{ffff}\u{10000}\u{10ffff}".chars()) {
        quoted(&format!("{c}"));
        quoted(&format!("\\{c}"));
        quoted(&format!("a\\{c}b"));
    }
    for value in 0..=0xff {
        quoted(&format!("\\x{value:02x}"));
        quoted(&format!("\\x{value:02X}z"));
    }
    for edge in EDGES {
        for value in [edge.saturating_sub(1), edge, (edge + 1).min(0xffff)] {
            quoted(&format!("\\u{value:04x}"));
            quoted(&format!("\\u{value:04X}z"));
        }
    }
    for (letter, digits) in [("u", "12aF"), ("x", "9c")] {
        for at in 0..digits.len() {
            quoted(&format!("\\{letter}{}", &digits[..at]));
            for bad in NO_DIGITS {
                quoted(&format!("\\{letter}{}{bad}{}", &digits[..at], &digits[at + 1..]));
                quoted(&format!("\\{letter}{}{bad}", &digits[..at]));
            }
        }
    }
    for text in words(&["\\", "u", "x", "n", "\"", "'", "0", "d", "8", "é"], 3) {
        quoted(&text);
    }
}

fn surrogates(lines: &mut Lines) {
    let mut quoted = |text: &str| lines.push(line('q', text.as_bytes()));
    for high in ["d800", "D83D", "dbff", "DBFF"] {
        for low in ["dc00", "DE00", "dfff", "DFFF", "dbff", "e000", "0041", "d800", "DBFF"] {
            for between in ["\\u", "", "\\U", "u", "\\", "\\\\u", "\\n\\u", "x\\u", " \\u", "\\x"] {
                quoted(&format!("\\u{high}{between}{low}"));
            }
            quoted(&format!("a\\u{high}\\u{low}b"));
        }
    }
    let pair = "\\ud83d\\ude00";
    for end in 0..=pair.len() {
        quoted(&pair[..end]);
        quoted(&format!("a{}b", &pair[..end]));
    }
    for at in 8..pair.len() {
        for bad in NO_DIGITS {
            quoted(&format!("{}{bad}{}", &pair[..at], &pair[at + 1..]));
        }
    }
}

/// The lexer ends a literal at a single quote, so the insides hold its quote doubled only.
fn verbatim(lines: &mut Lines) {
    for text in words(&["\"\"", "a", "'", "\\", "é", "\n"], 3) {
        lines.push(line('d', text.as_bytes()));
    }
    for text in words(&["''", "a", "\"", "\\", "é", "\n"], 3) {
        lines.push(line('s', text.as_bytes()));
    }
}

fn utf8(lines: &mut Lines) {
    let edges = [0x00, 0x41, 0x7f, 0x80, 0x8f, 0x90, 0x9f, 0xa0, 0xbf, 0xc0, 0xff];
    let leads = [0xc2, 0xdf, 0xe0, 0xe1, 0xec, 0xed, 0xee, 0xef, 0xf0, 0xf1, 0xf3, 0xf4, 0xf5];
    let mut bytes = |bytes: &[u8]| lines.push(line('u', bytes));
    bytes(&[]);
    for first in 0..=0xff {
        bytes(&[first]);
    }
    for first in (0x80..=0xff).step_by(0x10).chain([0xbf, 0xc1, 0xf7, 0xf8, 0xff]).chain(leads) {
        for second in edges {
            bytes(&[first, second]);
        }
    }
    for first in leads {
        for second in [0x80, 0x8f, 0x90, 0x9f, 0xa0, 0xbf] {
            for third in [0x7f, 0x80, 0xbf, 0xc0] {
                bytes(&[first, second, third]);
            }
            for fourth in [0x7f, 0x80, 0xbf, 0xc0] {
                bytes(&[first, second, 0x80, fourth]);
                bytes(&[0x61, first, second, 0xbf, fourth, 0x62]);
            }
        }
    }
    // Characters of each length cut short behind good ones, and a second fault behind the first.
    for good in ["", "a", "é", "€", "\u{1f600}"] {
        for cut in ["é", "€", "\u{1f600}"] {
            for end in 0..=cut.len() {
                for after in [&[][..], b"z", b"\xff", b"\xc3\xa9"] {
                    bytes(&[good.as_bytes(), &cut.as_bytes()[..end], after].concat());
                }
            }
        }
    }
}

fn code_points(lines: &mut Lines) {
    let above = [0xfdcf, 0xfffe, 0x1_0000, 0x1_f600, 0x10_0000, 0x10_ffff, 0x11_0000, 0x1f_ffff];
    for edge in EDGES.into_iter().chain(above).chain([0x20_0000, 0x8000_0000, 0xffff_ffff]) {
        for value in [edge.saturating_sub(1), edge, edge.saturating_add(1)] {
            lines.push(format!("c {value:x}"));
        }
    }
}

pub fn random(rng: &mut Rng) -> String {
    match rng.below(8) {
        0..4 => line('q', quoted(rng).as_bytes()),
        4 => line('d', soup(rng, &["\"\"", "a", "'", "\\", "é", "\n", "|||", "😀"], 8).as_bytes()),
        5 => line('s', soup(rng, &["''", "a", "\"", "\\", "é", "\r", "//", "😀"], 8).as_bytes()),
        6 => line('u', &maybe_utf8(rng)),
        _ => format!("c {:x}", rng.scalar() as u32 ^ (rng.below(2) << 16) as u32),
    }
}

fn quoted(rng: &mut Rng) -> String {
    let mut text = String::new();
    for _ in 0..=rng.below(4) {
        match rng.below(6) {
            0 => text.push(rng.scalar()),
            1 => text.push_str(rng.pick(&["a", "mass", " ", "\n", "\"", "'", "/"])),
            2 => {
                text.push_str(rng.pick(&["\\\\", "\\\"", "\\'", "\\b", "\\f", "\\n", "\\r", "\\t"]))
            }
            3 => text.push_str(&format!("\\x{:02x}", rng.below(0x100))),
            4 => text.push_str(&format!("\\u{:04x}", rng.below(0x1_0000))),
            _ => {
                let (high, low) = (rng.below(0x400), rng.below(0x400));
                text.push_str(&format!("\\u{:04X}\\u{:04X}", 0xd800 + high, 0xdc00 + low));
            }
        }
    }
    if rng.once_in(3) {
        text = damage::characters(rng, &text, &['\\', 'u', 'x', 'd', '0', 'g', '/', 'é']);
    }
    text
}

fn maybe_utf8(rng: &mut Rng) -> Vec<u8> {
    let text: String = (0..=rng.below(5)).map(|_| rng.scalar()).collect();
    let mut bytes = text.into_bytes();
    for _ in 0..rng.below(3) {
        damage::bytes(rng, &mut bytes);
    }
    bytes
}
