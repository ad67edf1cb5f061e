//! The importer's suite, the Rust's reader of Jsonnet beside it, and the place of number 19 by its
//! own words.

use std::collections::BTreeMap;

use judge::{
    generate, hex,
    json::{self, NOT_JSON},
    reader, stack,
    suite::{self, Want},
};

const ROOM: u64 = 1 << 20;

/// Texts of the generator.
fn generated(seed: u64, count: usize) -> Vec<Vec<u8>> {
    let lines = generate::lines("json", seed, count).expect("texts can be generated");
    let text = |line: &String| hex::decode(line.split(' ').nth(2).expect("a text")).expect("hex");
    lines.iter().map(text).collect()
}

#[test]
fn written_down() {
    for (text, want) in suite::all() {
        let answer = json::answer(ROOM, &text);
        let shown = String::from_utf8_lossy(&text[..text.len().min(60)]);
        assert_eq!((answer.detail, answer.image.len()), (0, answer.length), "{shown}");
        let (number, start, end) = match want {
            Want::Tree => (0, 0, 0),
            Want::Image(image) => {
                assert_eq!(hex::encode(&answer.image), image, "{shown}");
                (0, 0, 0)
            }
            Want::Not(place) => (NOT_JSON, place, place),
            Want::No(number, start, end) => (number, start, end),
        };
        assert_eq!((answer.number, answer.start, answer.end), (number, start, end), "{shown}");
    }
}

/// Every number that the importer gives comes up, and no other.
#[test]
fn numbers() {
    let mut count = BTreeMap::new();
    for line in generate::lines("json", 3, 50_000).expect("texts can be generated") {
        let answer = json::line(&line).expect("a generated line is well formed");
        let number = answer.split(' ').next().expect("a number").to_owned();
        *count.entry(number.parse::<u16>().expect("a number")).or_insert(0) += 1;
    }
    assert!(count.keys().eq(&[0, 2, 3, 11, 12, 17, 19]), "{count:?}");
}

/// What the importer accepts the Rust reads under setting 0, to the same image, unless a string
/// has `\/`; that it refuses.
#[test]
fn both_readers() {
    stack::large(|| {
        let suite = suite::all().map(|(text, _)| text);
        let (mut same, mut slashes) = (0, 0);
        for text in suite.chain(generated(9, 60_000)) {
            let imported = json::answer(ROOM, &text);
            if imported.number != 0 {
                continue;
            }
            let read = reader::answer(0, ROOM, &text);
            if has_slash(&text) {
                assert_eq!(read.number, 9, "{}", String::from_utf8_lossy(&text));
                slashes += 1;
            } else {
                assert_eq!(imported, read, "{}", String::from_utf8_lossy(&text));
                same += 1;
            }
        }
        assert!(same > 10_000 && slashes > 1_000, "{same} {slashes}");
    });
}

/// Whether a backslash that begins an escape stands before `/`.
fn has_slash(text: &[u8]) -> bool {
    let mut at = 0;
    while at + 1 < text.len() {
        match &text[at..at + 2] {
            b"\\/" => return true,
            [b'\\', _] => at += 2,
            _ => at += 1,
        }
    }
    false
}

/// Whether some text that begins so is JSON: ends of strings, escapes, numbers and words are tried,
/// and then whatever closes what is open.
fn begins_a_text(beginning: &str) -> bool {
    const ENDS: [&str; 30] = [
        "", "0", "\"", "\":0", "\"\":0", "n\"", "n\":0", "u0000\"", "0000\"", "000\"", "00\"",
        "0\"", "000\":0", "00\":0", "0\":0", "0000\":0", "\\uDC00\"", "uDC00\"", "DC00\"", "C00\"",
        "\\uDC00\":0", "uDC00\":0", "DC00\":0", "C00\":0", ":0", "rue", "alse", "ull", "ue", "lse",
    ];
    const MORE: [&str; 12] = [
        "e", "se", "ll", "l", "00\\uDC00\"", "0\\uDC00\"", "00\\uDC00\":0", "0\\uDC00\":0",
        "800\\uDC00\"", "800\\uDC00\":0", "000\"", "000\":0",
    ];
    let closes = closes(beginning);
    ENDS.iter().chain(&MORE).any(|end| {
        let answer = json::answer(ROOM, format!("{beginning}{end}{closes}").as_bytes());
        // limits are no part of what JSON is
        matches!(answer.number, 0 | 2 | 11 | 17)
    })
}

/// What closes the brackets that are open outside strings, the innermost first.
fn closes(beginning: &str) -> String {
    let mut open = Vec::new();
    let (mut in_string, mut escaped) = (false, false);
    for c in beginning.chars() {
        match c {
            _ if escaped => escaped = false,
            '\\' if in_string => escaped = true,
            '"' => in_string = !in_string,
            '[' if !in_string => open.push(']'),
            '{' if !in_string => open.push('}'),
            ']' | '}' if !in_string => drop(open.pop()),
            _ => (),
        }
    }
    open.iter().rev().collect()
}

/// "the first byte where no JSON text continues": what stands before it some text begins with, and
/// with the next character none.
#[test]
fn place_of_19() {
    let suite = suite::all().map(|(text, _)| text);
    let mut seen = 0;
    for text in suite.chain(generated(11, 30_000)).filter(|text| text.len() < 2_000) {
        let answer = json::answer(ROOM, &text);
        if answer.number != NOT_JSON {
            continue;
        }
        let text = String::from_utf8(text).expect("number 3 comes first");
        let place = answer.start as usize;
        assert!(begins_a_text(&text[..place]), "{text:?} {place}");
        if let Some(next) = text[place..].chars().next() {
            let further = &text[..place + next.len_utf8()];
            assert!(!begins_a_text(further), "{text:?} {place}");
        }
        seen += 1;
    }
    assert!(seen > 8_000, "{seen}");
}
