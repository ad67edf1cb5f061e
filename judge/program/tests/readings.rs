//! Every answer that document 01 and the notes on its reading write down.

use judge::{
    layers,
    reader::{self, Answer},
    readings::{self, Reading, Want},
    stack,
};

/// More than any image here needs.
const ROOM: u64 = 1 << 20;

fn refused(number: u16, start: u32, end: u32, detail: u16) -> Answer {
    Answer { number, start, end, detail, ..Answer::default() }
}

/// The records of an image: tag and payload.
fn records(image: &[u8]) -> Vec<(u8, &[u8])> {
    let mut records = Vec::new();
    let mut rest = image;
    while let [tag, high, low, after @ ..] = rest {
        let (payload, next) = after.split_at(usize::from(u16::from_be_bytes([*high, *low])));
        records.push((*tag, payload));
        rest = next;
    }
    assert!(rest.is_empty(), "a record is cut short");
    records
}

fn agrees(want: Want, answer: &Answer) -> bool {
    if let Want::Refused(number, start, end, detail) = want {
        return *answer == refused(number, start, end, detail);
    }
    if answer.number != 0 || answer.length != answer.image.len() {
        return false;
    }
    let records = records(&answer.image);
    match want {
        Want::Refused(..) => false,
        Want::Tree => true,
        Want::Text(text) => records == [(5, text.as_bytes())],
        Want::Number(text) => records == [(4, text.as_bytes())],
        Want::Records(tag, payloads) => {
            let found = records.iter().filter(|record| record.0 == tag).map(|record| record.1);
            found.eq(payloads.iter().copied())
        }
    }
}

fn check(list: &[Reading]) {
    let mut differences = 0;
    for &(setting, notation, want) in list {
        let answer = reader::answer(setting, ROOM, readings::expand(notation).as_bytes());
        if !agrees(want, &answer) {
            eprintln!("setting {setting}, {notation:?}: wanted {want:?}, got {answer}");
            differences += 1;
        }
    }
    assert_eq!(differences, 0, "of {} answers", list.len());
}

#[test]
fn document() {
    check(readings::DOCUMENT);
}

#[test]
fn silent_places() {
    check(readings::SILENT);
}

#[test]
fn traps() {
    check(readings::TRAPS);
}

#[test]
fn escapes() {
    check(readings::ESCAPES);
}

#[test]
fn large() {
    check(readings::LARGE);
}

#[test]
fn signs() {
    check(readings::SIGNS);
}

/// Whole images as document 01 prints them.
#[test]
fn images() {
    let image = |source: &str| reader::answer(0, ROOM, source.as_bytes()).to_string();
    assert_eq!(image("1"), "0 0 0 0 4 04000131");
    assert_eq!(image("-a*b"), "0 0 0 0 28 060005000100026106000500030004620d000500000200030c000101");
}

/// The records with their spans blotted out.
fn shape(setting: u64, source: &str) -> Vec<(u8, Vec<u8>)> {
    let answer = reader::answer(setting, ROOM, source.as_bytes());
    assert_eq!(answer.number, 0, "{source}: {answer}");
    let mut shape = Vec::new();
    for (tag, payload) in records(&answer.image) {
        let spans = match tag {
            6 | 17 | 18 | 20 | 21 | 22 | 25 | 31 | 32 | 34 => 0..4,
            1 | 13 | 16 => 1..5,
            23 => 1..13,
            29 => 2..6,
            _ => 0..0,
        };
        let mut payload = payload.to_vec();
        payload[spans].fill(0);
        shape.push((tag, payload));
    }
    shape
}

/// Sources that are read as if the parentheses stood there.
#[test]
fn shapes() {
    for (setting, source, parenthesised) in [
        (0, "a-b-c", "(a-b)-c"),
        (0, "-a*b", "-(a*b)"),
        (0, "a*-b*c", "a*(-(b*c))"),
        (0, "-a+b", "(-a)+b"),
        (8, "-a*b", "(-a)*b"),
        (8, "~mask * n", "(~mask) * n"),
        (8, "a*-b*c", "(a*(-b))*c"),
        (8, "- -a*b", "(-(-a))*b"),
        (8, "-a+b", "(-a)+b"),
        (8, "!a==b", "(!a)==b"),
        (8, "!a in b", "(!a)in b"),
        (8, "-a.b", "-(a.b)"),
        (8, "-f(x)", "-(f(x))"),
        (8, "-a[0]", "-(a[0])"),
        (8, "-a{}", "-(a{})"),
        (12, "-a?.b*c", "(-(a?.b))*c"),
        (8, "-if a then b else c*d", "-(if a then b else (c*d))"),
        (8, "-local x=1;x*y", "-(local x=1;(x*y))"),
        (8, "-function(x)x*y", "-(function(x)(x*y))"),
        (8, "-error a*b", "-(error (a*b))"),
        (0, "!a==b", "(!a)==b"),
        (0, "a in b in c", "(a in b)in c"),
        (0, "a<b<c", "(a<b)<c"),
        (4, "a||b??c||d", "((a||b)??c)||d"),
        (0, "function(x)x(1)", "function(x)(x(1))"),
        (0, "if a then if b then c else d", "if a then (if b then c else d)"),
        (0, "import \"a\"+b", "import (\"a\"+b)"),
        (0, "a[:]", "a[::]"),
        (0, "a[1:]", "a[1::]"),
    ] {
        assert_eq!(shape(setting, source), shape(setting, parenthesised), "{source}");
    }
    for (source, other) in [("(a.b).c", "a.b.c"), ("-a*b", "(-a)*b"), ("a-b-c", "a-(b-c)")] {
        assert_ne!(shape(0, source), shape(0, other), "{source}");
    }
}

/// Members keep their source order, whatever their sort.
#[test]
fn members_in_order() {
    let tags = |source| shape(0, source).iter().map(|record| record.0).collect::<Vec<_>>();
    assert_eq!(tags("{a:1,local b=2,assert c}"), [5, 4, 31, 25, 4, 24, 6, 32, 9]);
    assert_eq!(tags("{assert c,local b=2,a:1}"), [6, 32, 25, 4, 24, 5, 4, 31, 9]);
    assert_eq!(
        tags("{local z=1,[a]:1,local w=2 for a in b}"),
        [25, 4, 24, 6, 4, 31, 25, 4, 24, 25, 6, 33, 10]
    );
}

/// Where the reading of lexemes falls back to a shorter match, and what comes behind it.
#[test]
fn lexemes() {
    for (source, lexemes) in [
        ("1.", "37:0:1 31:1:2"),
        ("1e+|||", "40:0:4 2:4:6"),
        ("1_x", "37:0:1 55:1:3"),
        ("..", "31:0:1 31:1:2"),
        ("/**", "19:0:1 18:1:2 18:2:3"),
        ("/****", "61:0:4 18:4:5"),
        ("/* a *", "61:0:5 18:5:6"),
        ("\"abc\\", "42:0:4 85:4:5"),
        ("@a b", "85:0:1 55:1:2 56:2:3 55:3:4"),
        ("|||\n  a\n||||", "50:0:11 5:11:12"),
        ("// a\r1", "57:0:4 56:4:5 37:5:6"),
    ] {
        assert_eq!(layers::lexeme_list(source), lexemes, "{source:?}");
    }
}

/// Numbers 1, 2, 3 and 12, and which of two faults is told.
#[test]
fn order() {
    let number = |number| refused(number, 0, 0, 0);
    let long = [b' '; reader::SOURCE_LIMIT + 1];
    assert_eq!(reader::answer(16, 0, &long), number(1));
    assert_eq!(reader::answer(u64::MAX, 4, b"1"), number(1));
    assert_eq!(reader::answer(15, 0, &[0xff; reader::SOURCE_LIMIT + 1]), number(2));
    assert_eq!(reader::answer(0, 0, &long[1..]), number(7));
    assert_eq!(reader::answer(0, 0, b"\"\xff"), refused(3, 1, 1, 0));
    assert_eq!(reader::answer(0, 0, b"ab\xe2\x82\xac\xe2\x82"), refused(3, 5, 5, 0));
    assert_eq!(reader::answer(0, 0, b"[1,2,3"), refused(5, 6, 6, 24));
    assert_eq!(reader::answer(0, 3, b"1"), Answer { length: 4, ..number(12) });
    assert_eq!(reader::answer(0, 4, b"1").number, 0);
    let chain = readings::expand("a⟦32499×.b⟧");
    assert_eq!(
        reader::answer(0, 65_536, chain.as_bytes()),
        Answer { length: 422_495, ..number(12) }
    );
}

/// The longest left chain makes the deepest tree.
#[test]
fn deepest_tree() {
    let source = readings::expand("1⟦32499×+1⟧");
    let answer = stack::large(move || reader::answer(0, ROOM, source.as_bytes()));
    assert_eq!((answer.number, answer.length), (0, 32_500 * 4 + 32_499 * 8));
}
