//! Stations' texts: the suite, texts written along RFC 8259's grammar, and damaged ones.

use super::{Lines, damage, numbers, rng::Rng, soup, words};
use crate::{hex, json, readings, suite};

/// Room that `readjson` lends.
const ROOM: u64 = 65_536;

fn line(room: u64, text: &[u8]) -> String {
    format!("json {room} {}", hex::encode(text))
}

/// What texts are made of: every byte that a JSON text tells apart.
const PIECES: [&str; 24] = [
    "{", "}", "[", "]", ",", ":", "\"", "\\", "/", "-", "+", ".", "0", "1", "e", "E", "t", "f",
    "n", "u", "D", " ", "\n", "\0",
];

pub fn fixed(lines: &mut Lines) {
    for (text, _) in suite::all() {
        lines.push(line(ROOM, &text));
    }
    // Every suite's text that isn't long, within an array and as a field.
    for (text, _) in suite::all().filter(|(text, _)| text.len() < 24) {
        lines.push(line(256, &[b"[0,", &text[..], b"]"].concat()));
        lines.push(line(256, &[b"{\"a\":", &text[..], b"}"].concat()));
    }
    rooms(lines);
    cuts(lines);
    for text in words(&PIECES, 2) {
        lines.push(line(64, text.as_bytes()));
    }
    for unit in 0..=0xff {
        lines.push(line(64, format!("\"\\u{unit:02x}00\"").as_bytes()));
        lines.push(line(64, format!("\"\\ud8{unit:02X}\\u{unit:02x}ff\"").as_bytes()));
        lines.push(line(64, format!("\"\\u00{unit:02x}\"").as_bytes()));
        lines.push(line(64, &[b'"', b'\\', unit as u8, b'"']));
        lines.push(line(64, &[b'"', unit as u8, b'"']));
        lines.push(line(64, &[unit as u8, b'1']));
        lines.push(line(64, &[b'1', unit as u8]));
    }
}

/// Output lengths around what is needed.
fn rooms(lines: &mut Lines) {
    for text in [
        "1", "null", "true", "-1", "\"\"", "\"a\"", "[]", "{}", "[1,2]", "{\"a\":1}",
        "\"\\u20ac\"", "[\"ab\",\"c\"]", "{\"a\":{\"b\":-1.5}}",
    ] {
        let need = json::answer(ROOM, text.as_bytes()).length as u64;
        for room in (0..=need + 1).chain([ROOM]) {
            lines.push(line(room, text.as_bytes()));
        }
    }
    // A fault comes before the want of room.
    for text in ["[1,2,3", "[1,2,3,]", "[1e999]", "[1,\"\\x\"]"] {
        lines.push(line(0, text.as_bytes()));
    }
    // The longest images for their texts, and one byte too short.
    for notation in ["[⟦2000×-1,⟧-1]", "[⟦2000×{},⟧{}]", "{⟦1000×\"\":0,⟧\"\":0}"] {
        let text = readings::expand(notation);
        let need = json::answer(0, text.as_bytes()).length as u64;
        lines.push(line(need, text.as_bytes()));
        lines.push(line(need - 1, text.as_bytes()));
    }
}

/// A text of every sort, cut at every byte.
fn cuts(lines: &mut Lines) {
    let text = "{ \"é\\u00e9\\ud83d\\ude00\\/\" : [ -0.5e-07 , true,false ,null ] }\n";
    for end in 0..=text.len() {
        lines.push(line(256, &text.as_bytes()[..end]));
    }
}

pub fn random(rng: &mut Rng) -> String {
    let mut text = match rng.below(64) {
        0 => deep(rng),
        1..5 => soup(rng, &PIECES, 8),
        5..12 => {
            let sign = rng.pick(&["", "-", "[", "[1,-", "{\"a\":", " "]);
            let behind = rng.pick(&["", "", "]", "}", ",", "x", ".", "e", " ", "\n1"]);
            format!("{sign}{}{behind}", numbers::literal(rng))
        }
        _ => {
            let mut left = rng.pick(&[1, 2, 3, 5, 8, 16, 40]);
            let mut text = blanks(rng);
            value(rng, &mut left, &mut text);
            text + &blanks(rng)
        }
    };
    if rng.once_in(2) {
        let extra = [
            '{', '}', '[', ']', ',', ':', '"', '\\', '/', '-', '+', '.', '0', '1', '9', 'e', 'E',
            'u', 'D', 'd', '8', 'c', 't', 'n', 'x', '\'', ' ', '\n', '\t', '\r', '\0', '\x1f',
            '\x7f', '\u{feff}', '\u{a0}', 'é', '😀',
        ];
        text = damage::characters(rng, &text, &extra);
    }
    let mut bytes = text.into_bytes();
    if rng.once_in(24) {
        damage::bytes(rng, &mut bytes);
    }
    if rng.once_in(96) {
        bytes = recoded(rng, &bytes);
    }
    let need = json::answer(0, &bytes).length as u64;
    let room = match rng.below(8) {
        0 => rng.below(need as usize + 1) as u64,
        1 => need.saturating_sub(1),
        2 => need + 1,
        3 => need + rng.below(100) as u64,
        _ => need,
    };
    line(room, &bytes)
}

/// In UTF-16, or behind a mark of the encoding.
fn recoded(rng: &mut Rng, bytes: &[u8]) -> Vec<u8> {
    let text = String::from_utf8_lossy(bytes);
    let units = text.encode_utf16();
    match rng.below(4) {
        0 => units.flat_map(u16::to_le_bytes).collect(),
        1 => units.flat_map(u16::to_be_bytes).collect(),
        2 => [b"\xef\xbb\xbf", bytes].concat(),
        _ => [b"\xff\xfe", bytes].concat(),
    }
}

fn blanks(rng: &mut Rng) -> String {
    if rng.once_in(4) { soup(rng, &[" ", "\t", "\n", "\r"], 3) } else { String::new() }
}

/// A value with about so many others inside.
fn value(rng: &mut Rng, left: &mut usize, text: &mut String) {
    *left = left.saturating_sub(1);
    if *left == 0 || rng.once_in(4) {
        text.push_str(&leaf(rng));
        return;
    }
    let is_object = rng.once_in(2);
    text.push(if is_object { '{' } else { '[' });
    text.push_str(&blanks(rng));
    for at in 0..rng.below(5) {
        if at > 0 {
            *text += &format!(",{}", blanks(rng));
        }
        if is_object {
            *text += &format!("{}{}:{}", string(rng), blanks(rng), blanks(rng));
        }
        value(rng, left, text);
        text.push_str(&blanks(rng));
    }
    text.push(if is_object { '}' } else { ']' });
}

fn leaf(rng: &mut Rng) -> String {
    match rng.below(8) {
        0 => rng.pick(&["null", "true", "false"]).to_owned(),
        1..5 => number(rng),
        _ => string(rng),
    }
}

fn number(rng: &mut Rng) -> String {
    if rng.once_in(16) {
        return numbers::literal(rng);
    }
    let sign = rng.pick(&["", "", "-"]);
    let whole = rng.pick(&["0", "0", "1", "12", "907", "1000000", "9007199254740993"]);
    let fraction = rng.pick(&["", "", "", ".0", ".25", ".000"]);
    let exponent = rng.pick(&["", "", "", "e5", "E+29", "e-3", "e00", "e309", "E-999", "e307"]);
    format!("{sign}{whole}{fraction}{exponent}")
}

/// Characters, escapes and halves of pairs, good or bad.
fn string(rng: &mut Rng) -> String {
    const ESCAPES: [&str; 24] = [
        "\\\"", "\\\\", "\\/", "\\b", "\\f", "\\n", "\\r", "\\t", "\\u0041", "\\u00e9", "\\u20AC",
        "\\uD83D\\uDE00", "\\udbff\\udfff", "\\ud7ff", "\\uE000", "\\uffff", "\\u0000", "\\u001f",
        "\\/\\/", "é", "€", "😀", "\u{7f}", "\u{2028}",
    ];
    const BAD: [&str; 16] = [
        "\\x41", "\\'", "\\uD800", "\\uDC00", "\\uD800\\u0041", "\\uD800\\uD800", "\\u12", "\\u",
        "\\", "\n", "\t", "\0", "\x1f", "\"", "\\ud83d\\n", "\\U0041",
    ];
    let mut text = "\"".to_owned();
    for _ in 0..rng.pick(&[0, 1, 1, 2, 3, 5]) {
        match rng.below(8) {
            0..3 => text.push_str(rng.pick(&["a", "mass", "depth", " ", "/", "'", "0"])),
            3..7 => text.push_str(rng.pick(&ESCAPES)),
            _ if rng.once_in(6) => text.push_str(rng.pick(&BAD)),
            _ => match rng.scalar() {
                c if c < ' ' || c == '"' || c == '\\' => text.push('_'),
                c => text.push(c),
            },
        }
    }
    text + "\""
}

/// Values one inside the other to about the depth limit.
fn deep(rng: &mut Rng) -> String {
    const AROUND: [(&str, &str); 6] = [
        ("[", "]"),
        ("{\"a\":", "}"),
        ("[0,", "]"),
        ("[[],", "]"),
        ("{\"a\":{},\"b\":", "}"),
        ("[ ", " ]"),
    ];
    let common = rng.pick(&AROUND);
    let mut before = String::new();
    let mut after = Vec::new();
    for _ in 0..196 + rng.below(8) {
        let (open, close) = if rng.once_in(20) { rng.pick(&AROUND) } else { common };
        before.push_str(open);
        after.push(close);
    }
    let inside = [
        "", "", "0", "-1", "-", "-x", "[]", "{}", "\"\"", "tx", "null", "x", "1e999", "-1e999",
        "\"", " 1",
    ];
    before.push_str(rng.pick(&inside));
    after.iter().rev().for_each(|close| before.push_str(close));
    before
}
