//! Images: of generated sources, and damaged in every way that the reader of images tells apart.

use super::{Lines, damage, grammar, rng::Rng};
use crate::{hex, reader, written};

/// Records with their payloads, which damage keeps whole.
type Records = Vec<(u8, Vec<u8>)>;

fn split(image: &[u8]) -> Records {
    let mut records = Vec::new();
    let mut rest = image;
    while let [tag, high, low, after @ ..] = rest {
        let (payload, behind) = after.split_at(usize::from(*high) << 8 | usize::from(*low));
        records.push((*tag, payload.to_vec()));
        rest = behind;
    }
    records
}

fn joined(records: &[(u8, Vec<u8>)]) -> Vec<u8> {
    let mut image = Vec::new();
    for (tag, payload) in records {
        image.push(*tag);
        image.extend((payload.len() as u16).to_be_bytes());
        image.extend(payload);
    }
    image
}

fn line(image: &[u8]) -> String {
    format!("back {}", hex::encode(image))
}

/// The image of a source that is read under every switch.
fn of(source: &str) -> Vec<u8> {
    let answer = reader::answer(7, u64::MAX, source.as_bytes());
    assert_eq!(answer.number, 0, "{source}: {answer}");
    answer.image
}

/// A short source for each record and each of its forms.
const SHORT: [&str; 64] = [
    "self", "super", "$", "null", "true", "1.5E-3", "''", "'é'", "a", "[]", "[1,2]",
    "[a for a in b]", "[a for a in b if c for d in e]", "[a for [k]: v in o]",
    "[a for [k]:: [v] in o]", "{}", "{a:1}", "{'if':1}", "{a+:1}", "{a::1}", "{a():1}",
    "{a(b,c=1):1}", "{[a]:1}", "{[a]+:::1}", "{['a']:1}", "{local a=1}", "{assert a}",
    "{assert a:b}", "{a:1,local b=2,assert c}", "{[a]:1 for a in b}",
    "{local c=1,[a]:1,local d=2 for a in b if c}", "a{}", "a{[b]:1 for b in c}", "(a{}){}",
    "-a", "a+b", "a??b", "a in b", "a+b*c", "assert a;b", "assert a:b;c", "local ;a",
    "local a=1;b", "local a(b)=1,c()=2;d", "local ?=1;a", "local [a,...b,c]=1;d",
    "local [a,...,c]=1;d", "local [...b]=1;c", "local {a,b:[c],d=1,e:f=2,...g}=1;h",
    "local {...}=1;h", "import a", "importstr 'a'", "importbin a+b", "error a", "a(1,b=2)",
    "a(1,2,b=3,b=4) tailstrict", "a.b.c", "(a.b).c", "a?.b?.['if']", "function()1",
    "function(a,b=1)a", "if a then b", "if a then b else c", "a[:]",
];

pub fn fixed(lines: &mut Lines) {
    for (image, _) in written::BACK {
        lines.push(format!("back {image}"));
    }
    for source in SHORT {
        lines.push(line(&of(source)));
    }
    for bits in 0..8usize {
        let part = |bit: usize, text| if bits & bit == 0 { "" } else { text };
        let source = format!("a[{}:{}:{}]", part(1, "b"), part(2, "c"), part(4, "d"));
        lines.push(line(&of(&source)));
    }
    // Every tag with a short payload behind two roots.
    for tag in (0..=37).chain([255]) {
        for length in [0, 1, 2, 3, 4, 5, 6, 9, 10, 13] {
            let record = joined(&[(2, vec![]), (26, vec![]), (tag, vec![0; length])]);
            lines.push(line(&record));
        }
    }
    for (tag, before) in [(4, 0), (5, 0), (6, 4), (19, 0), (25, 4)] {
        for text in TEXTS {
            let payload = [&vec![0; before][..], text].concat();
            lines.push(line(&joined(&[(2, vec![]), (tag, payload.clone())])));
            lines.push(line(&joined(&[(tag, payload)])));
        }
    }
}

/// Names, numbers and strings, and what is none.
const TEXTS: [&[u8]; 50] = [
    b"", b"a", b"_", b"a1", b"1a", b"std", b"if", b"i", b"iff", b"tailstrict", b"importbin",
    b"import", b"importstr", b"assert", b"super", b"self", b"a b", b"a-b", b"\xc3\xa9", b"A_9z",
    b"0", b"00", b"01", b"10", b"1_0", b"-1", b"+1", b"1.", b".5", b"0.50", b"1.5e", b"1e+",
    b"1E+05", b"1e-99999", b"1e308", b"1e309", b"1.7976931348623158e308", b"1.7976931348623159e308",
    b"1e999", b"0e99999", b"1ee5", b"1.2.3", b"0x1", b"\xff",
    b"\xed\xa0\x80", b"\xc0\x80", b"\xf0\x9f\x98\x80", b"\xf4\x90\x80\x80", b"\xe2\x82", b"\0",
];

/// One operand under so many signs.
fn deep(signs: usize) -> Records {
    let mut records = vec![(2, vec![])];
    records.extend(std::iter::repeat_n((12, vec![1]), signs));
    records
}

/// An image that some source under some setting has.
fn good(rng: &mut Rng) -> Records {
    loop {
        let setting = rng.below(reader::SETTINGS as usize) as u64;
        let size = rng.pick(&[1, 1, 2, 2, 3, 3, 4, 5, 8]);
        let source = grammar::source(rng, setting, size);
        let answer = reader::answer(setting, u64::MAX, source.as_bytes());
        if answer.number == 0 {
            return split(&answer.image);
        }
    }
}

pub fn random(rng: &mut Rng) -> String {
    let mut records = good(rng);
    if rng.once_in(6) {
        anew(rng, &mut records);
    }
    if rng.once_in(6) {
        old(&mut records);
    }
    let times = rng.pick(&[0, 1, 1, 1, 1, 2, 3]);
    for _ in 0..times {
        whole(rng, &mut records);
    }
    let mut image = joined(&records);
    if rng.once_in(6) {
        damage::bytes(rng, &mut image);
    }
    line(&image)
}

/// An image with one damage.
pub fn damaged(rng: &mut Rng, image: &[u8]) -> Vec<u8> {
    let mut records = split(image);
    whole(rng, &mut records);
    let mut image = joined(&records);
    if rng.once_in(6) {
        damage::bytes(rng, &mut image);
    }
    image
}

/// Where the spans of a payload stand.
fn spans(tag: u8, length: usize) -> &'static [usize] {
    match tag {
        6 | 17 | 18 | 20 | 21 | 22 | 25 | 31 | 32 | 34 => &[0],
        1 | 16 => &[1],
        13 if length == 5 => &[1],
        23 => &[1, 5, 9],
        29 => &[2],
        _ => &[],
    }
}

/// Other spans, from anywhere; absent ones stay.
fn anew(rng: &mut Rng, records: &mut Records) {
    for (tag, payload) in records {
        for &at in spans(*tag, payload.len()) {
            let mut ends: [u16; 2] = std::array::from_fn(|_| {
                let any = rng.below(65_536) as u16;
                rng.pick(&[0, 1, 255, 256, 257, 65_280, 65_535, any])
            });
            let is_absent = payload[at..at + 4] == [0; 4];
            if !is_absent {
                ends.sort();
                payload[at..at + 2].copy_from_slice(&ends[0].to_be_bytes());
                payload[at + 2..at + 4].copy_from_slice(&ends[1].to_be_bytes());
            }
        }
    }
}

/// Infix records as they were before request 8.
fn old(records: &mut Records) {
    for (tag, payload) in records {
        if *tag == 13 {
            payload.truncate(1);
        }
    }
}

/// One damage that leaves records whole.
fn whole(rng: &mut Rng, records: &mut Records) {
    if records.is_empty() {
        return records.push((rng.below(37) as u8, vec![]));
    }
    let at = rng.below(records.len());
    let other = rng.below(records.len());
    match rng.below(14) {
        0 => drop(records.remove(at)),
        1 => records.insert(other, records[at].clone()),
        2 => records.swap(at, other),
        3 if at > 0 => records.swap(at, at - 1),
        4 => {
            let more = good(rng);
            records.splice(at..at, more);
        }
        5 => {
            let more = good(rng);
            records[at] = more[rng.below(more.len())].clone();
        }
        6 => {
            let any = rng.below(36) as u8;
            records[at].0 = rng.pick(&[0, 9, 10, 25, 36, 255, any, any, any]);
        }
        7 => text(rng, &mut records[at]),
        8 => match rng.below(3) {
            0 => records[at].1.push(rng.pick(&[0, 1, b'a', b'_', b'0', 0xff])),
            1 => drop(records[at].1.pop()),
            _ => drop(records.drain(at..)),
        },
        9 => mixed(rng, records),
        10 => span(rng, &mut records[at]),
        _ => field(rng, &mut records[at]),
    }
}

/// Another name, number or string.
fn text(rng: &mut Rng, record: &mut (u8, Vec<u8>)) {
    let before = match record.0 {
        4 | 5 | 19 => 0,
        6 | 25 => 4,
        27 => 5,
        28 => 3,
        29 => 6,
        35 => 1,
        _ => return field(rng, record),
    };
    record.1.truncate(before);
    record.1.extend(rng.pick(&TEXTS));
}

/// One infix record of the other kind.
fn mixed(rng: &mut Rng, records: &mut Records) {
    let infix: Vec<usize> = (0..records.len()).filter(|&at| records[at].0 == 13).collect();
    if !infix.is_empty() {
        let payload = &mut records[rng.pick(&infix)].1;
        let length = if payload.len() == 1 { 5 } else { 1 };
        payload.resize(length, 0);
    }
}

/// A span backward, shifted, empty, or where there should be none.
fn span(rng: &mut Rng, (tag, payload): &mut (u8, Vec<u8>)) {
    let places = spans(*tag, payload.len());
    if places.is_empty() {
        return;
    }
    let Some(bytes) = payload.get_mut(rng.pick(places)..).and_then(|b| b.get_mut(..4)) else {
        return;
    };
    match rng.below(4) {
        0 => bytes.swap(0, 2),
        1 => bytes.swap(1, 3),
        2 => bytes.fill(0),
        _ => bytes[rng.below(4)] = rng.pick(&[0, 1, 2, 255]),
    }
}

/// A flag, an enum byte or a count: one byte of what stands before the text, mostly by one.
fn field(rng: &mut Rng, (_, payload): &mut (u8, Vec<u8>)) {
    let most = payload.len().min(13);
    if most > 0 {
        let at = rng.below(most);
        payload[at] = match rng.below(4) {
            0 => payload[at].wrapping_add(1),
            1 => payload[at].wrapping_sub(1),
            2 => rng.pick(&[0, 1, 2, 3, 4, 7, 8, 18, 19, 20]),
            _ => rng.below(256) as u8,
        };
    }
}

/// Images beyond 65,535 bytes and deep ones, whole and damaged.
pub fn long(lines: &mut Lines) {
    let text = |length: usize| (5, vec![b'a'; length]);
    let name = |length: usize| (6, [vec![0; 4], vec![b'a'; length]].concat());
    let count = |tag: u8, n: usize| (tag, (n as u16).to_be_bytes().to_vec());
    let row = |record: (u8, Vec<u8>), n: usize| vec![record; n];
    let mut images = vec![
        deep(30_000),
        vec![text(65_535)],
        vec![name(65_531)],
        [row(text(65_535), 3), vec![count(7, 3)]].concat(),
        [row((2, vec![]), 65_535), vec![count(7, 65_535)]].concat(),
        [row((2, vec![]), 65_535), vec![count(7, 65_534)]].concat(),
        [row((2, vec![]), 65_534), vec![count(7, 65_535)]].concat(),
        // Two counts whose sum has no two bytes.
        [
            row((2, vec![]), 40_001),
            row2((2, vec![]), (19, b"a".to_vec()), 30_000),
            vec![(18, vec![0, 0, 0, 0, 0, 0x9c, 0x40, 0x75, 0x30])],
        ]
        .concat(),
        [
            row((26, vec![]), 70_000),
            vec![(27, vec![0x9c, 0x40, 1, 0x75, 0x30]), (2, vec![]), (24, vec![0, 0, 0])],
            vec![(2, vec![]), count(15, 1)],
        ]
        .concat(),
        [row((26, vec![]), 4_464), vec![(27, vec![0x9c, 0x40, 1, 0x75, 0x30])]].concat(),
        // An infix record of the other kind behind many bytes.
        [
            vec![(2, vec![])],
            row2((2, vec![]), (13, vec![3]), 20_000),
            vec![(2, vec![]), (13, vec![3, 0, 0, 0, 1])],
        ]
        .concat(),
    ];
    let extended = row2((9, vec![0, 0]), (11, vec![]), 20_000);
    images.push([vec![(2, vec![])], extended].concat());
    let parts = row2((5, b"b".to_vec()), (20, vec![0, 0, 0, 0, 0, 0]), 20_000);
    let first = vec![(2, vec![]), (2, vec![]), (20, vec![0, 0, 0, 0, 1, 0])];
    images.push([first, parts].concat());
    for records in images {
        lines.push(line(&joined(&records)));
        let last = records.len() - 1;
        lines.push(line(&joined(&records[..last])));
        lines.push(line(&joined(&records[1..])));
        lines.push(line(&joined(&[&records[..], &[(2, vec![])]].concat())));
        lines.push(line(&joined(&[&[(26, vec![])], &records[1..]].concat())));
    }
}

/// Two records, so many times over.
fn row2(first: (u8, Vec<u8>), second: (u8, Vec<u8>), times: usize) -> Records {
    std::iter::repeat_n([first, second], times).flatten().collect()
}
