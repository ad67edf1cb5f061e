//! The patch puts numbers in place of messages and counts depth.
//! In all else the Rust without it must answer alike.

use jrsonnet_lexer::SyntaxKind;
use judge::{generate, hex, reader, stack};

/// How the Rust's message for a refusal begins.
fn message(number: u16, detail: u16) -> String {
    let kind = || SyntaxKind::from_raw(detail);
    match (number, detail) {
        (4, _) => kind().error_description().expect("a bad lexeme").to_owned(),
        (5, 1) => "expected end of file, got".to_owned(),
        (5, _) => format!("expected {}", kind().display_name()),
        (6, 1) => "expected field name, got".to_owned(),
        (6, 2) => "expected destructure pattern, got".to_owned(),
        (7, 0) => "unexpected ".to_owned(),
        (8, 1) => "positional argument after named argument".to_owned(),
        (8, 2) => "object comprehension can only contain one field".to_owned(),
        (8, 3) => "asserts are unsupported in object comprehension".to_owned(),
        (8, 4) => "missing object comprehension field".to_owned(),
        (9, _) => "invalid string escape".to_owned(),
        (10, 0) => "invalid string block".to_owned(),
        (17, 0) => "invalid number value: ".to_owned(),
        _ => panic!("no message for {number} with {detail}"),
    }
}

fn compare(setting: u64, complaint: fn(&str) -> Option<(String, u32, u32)>) {
    let mut compared = 0;
    for line in generate::lines("sources", setting, 50_000).expect("sources can be generated") {
        let source = line.rsplit(' ').next().expect("a line ends in its source");
        let Ok(source) = hex::decode_text(source) else {
            continue;
        };
        let answer = reader::answer(setting, u64::MAX, source.as_bytes());
        let complaint = complaint(&source);
        if matches!(answer.number, 2 | 11) {
            continue;
        }
        compared += 1;
        match complaint {
            None => assert_eq!(answer.number, 0, "{source}"),
            Some((text, start, end)) => {
                assert_eq!((answer.start, answer.end), (start, end), "{source}: {text}");
                let begins = message(answer.number, answer.detail);
                assert!(text.starts_with(&begins), "{source}: {text}, but {answer}");
            }
        }
    }
    assert!(compared > 40_000, "only {compared} sources were compared");
}

#[test]
fn without_features() {
    stack::large(|| compare(0, unpatched0::complaint));
}

#[test]
fn with_all_features() {
    stack::large(|| compare(7, unpatched7::complaint));
}
