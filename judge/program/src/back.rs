//! Request 1: an image read back, from document 02 and the notes on its reading alone. Records are
//! cut off from the start; each takes the last open roots as its children and is a root itself.

use std::fmt;

use crate::{doubles, hex};

/// What a later request says of images.
#[derive(Clone, Copy)]
pub struct Landed {
    /// Request 12: null-safe parts and `??` records are counted.
    pub retired: bool,
}

/// What the reader of images follows today.
pub const TODAY: Landed = Landed { retired: false };

/// A refusal: 13 to 16 and the offset of the record.
#[derive(Clone, Copy, Debug, PartialEq, Eq)]
pub struct Refused {
    pub number: u16,
    pub offset: usize,
}

/// A record with its payload taken apart.
#[derive(Debug, Default)]
pub struct Record<'i> {
    pub tag: u8,
    pub offset: usize,
    /// Flags and enum bytes, in order.
    pub bytes: Vec<u8>,
    pub counts: Vec<usize>,
    pub spans: Vec<(u16, u16)>,
    /// A name or a text, to the payload's end.
    pub text: &'i [u8],
    /// Places in the list of records.
    pub children: Vec<usize>,
}

/// A part of a payload: a byte below a number, two bytes that count, a span, a text.
#[derive(Clone, Copy)]
enum Part {
    Below(u8),
    Count,
    Span,
    Text,
}

use Part::{Below, Count, Span, Text};

const FLAG: Part = Below(2);

/// The payload's parts; no record has another tag. An infix record of one byte is from before
/// request 8.
fn parts(tag: u8, length: usize) -> Option<&'static [Part]> {
    Some(match tag {
        1 | 16 => &[Below(3), Span],
        2 | 11 | 14 | 26 | 33 => &[],
        3 | 30 => &[FLAG],
        4 | 5 | 19 => &[Text],
        6 | 25 => &[Span, Text],
        7 | 8 | 9 | 15 => &[Count],
        10 => &[Count, Count],
        12 => &[Below(4)],
        13 if length == 1 => &[Below(20)],
        13 => &[Below(20), Span],
        17 | 34 => &[Span],
        18 => &[Span, FLAG, Count, Count],
        20 => &[Span, FLAG, FLAG],
        21 => &[Span, Count],
        22 | 32 => &[Span, FLAG],
        23 => &[Below(8), Span, Span, Span],
        24 => &[FLAG, Count],
        27 => &[Count, Below(3), Count, Text],
        28 => &[Count, Below(3), Text],
        29 => &[FLAG, FLAG, Span, Text],
        31 => &[Span, FLAG, FLAG, FLAG, Count, Below(3)],
        35 => &[Below(3), Text],
        _ => return None,
    })
}

/// The record at an offset and the bytes behind it, or 13 or 14.
fn cut(image: &[u8], offset: usize) -> Result<(Record<'_>, &[u8]), u16> {
    let tag = image[offset];
    parts(tag, 0).ok_or(13u16)?;
    let header = image.get(offset + 1..offset + 3).ok_or(14u16)?;
    let length = usize::from(header[0]) << 8 | usize::from(header[1]);
    let (mut payload, behind) = image[offset + 3..].split_at_checked(length).ok_or(14u16)?;
    let two = |bytes: &[u8]| u16::from(bytes[0]) << 8 | u16::from(bytes[1]);
    let mut record = Record { tag, offset, ..Record::default() };
    for &part in parts(tag, length).expect("the tag is known") {
        let size = match part {
            Below(_) => 1,
            Count => 2,
            Span => 4,
            Text => payload.len(),
        };
        let (bytes, left) = payload.split_at_checked(size).ok_or(14u16)?;
        match part {
            Below(limit) if bytes[0] >= limit => return Err(14),
            Below(_) => record.bytes.push(bytes[0]),
            Count => record.counts.push(two(bytes).into()),
            Span => record.spans.push((two(bytes), two(&bytes[2..]))),
            Text => record.text = bytes,
        }
        payload = left;
    }
    if !payload.is_empty() { Err(14) } else { Ok((record, behind)) }
}

/// What a child may be: one of these tags.
type Sort = &'static [u8];

const EXPRESSION: Sort =
    &[1, 2, 3, 4, 5, 6, 7, 8, 9, 10, 11, 12, 13, 14, 15, 16, 17, 18, 20, 21, 22, 23];
const STRING: Sort = &[5];
const BRACES: Sort = &[9, 10];
const NAMED: Sort = &[19];
const BIND: Sort = &[24];
const NAME: Sort = &[25];
const PATTERN: Sort = &[25, 26, 27, 28];
const PATTERN_FIELD: Sort = &[29];
const PARAMETER: Sort = &[30];
const MEMBER: Sort = &[24, 31, 32];
const BIND_OR_FIELD: Sort = &[24, 31];
const ASSERT: Sort = &[32];
const CLAUSE: Sort = &[33, 34, 35];

/// The children that a record's own bytes ask for.
fn wanted(Record { tag, bytes, counts, .. }: &Record) -> Vec<(Sort, usize)> {
    let byte = |at: usize| usize::from(bytes[at]);
    match tag {
        7 => vec![(EXPRESSION, counts[0])],
        8 => vec![(EXPRESSION, 1), (CLAUSE, counts[0])],
        9 => vec![(MEMBER, counts[0])],
        10 => vec![(BIND_OR_FIELD, counts[0]), (CLAUSE, counts[1])],
        11 => vec![(EXPRESSION, 1), (BRACES, 1)],
        12 | 16 | 17 | 19 | 34 => vec![(EXPRESSION, 1)],
        13 | 20 => vec![(EXPRESSION, 2)],
        14 => vec![(ASSERT, 1), (EXPRESSION, 1)],
        15 => vec![(BIND, counts[0]), (EXPRESSION, 1)],
        18 => vec![(EXPRESSION, 1 + counts[0]), (NAMED, counts[1])],
        21 => vec![(PARAMETER, counts[0]), (EXPRESSION, 1)],
        22 => vec![(EXPRESSION, 2 + byte(0))],
        23 => vec![(EXPRESSION, 1 + bytes[0].count_ones() as usize)],
        24 => {
            let first = if bytes[0] == 1 { NAME } else { PATTERN };
            vec![(first, 1), (PARAMETER, counts[0]), (EXPRESSION, 1)]
        }
        27 => vec![(PATTERN, counts[0] + counts[1])],
        28 => vec![(PATTERN_FIELD, counts[0])],
        29 => vec![(PATTERN, byte(0)), (EXPRESSION, byte(1))],
        30 => vec![(PATTERN, 1), (EXPRESSION, byte(0))],
        31 => {
            let name = if bytes[0] == 1 { EXPRESSION } else { STRING };
            vec![(name, 1), (PARAMETER, counts[0]), (EXPRESSION, 1)]
        }
        32 => vec![(EXPRESSION, 1 + byte(0))],
        33 | 35 => vec![(PATTERN, 1), (EXPRESSION, 1)],
        _ => vec![],
    }
}

/// Whether all spans run forward, and absent ones are 0.
fn spans_are_right(Record { tag, bytes, spans, .. }: &Record) -> bool {
    let present = |at: usize| match tag {
        23 => bytes[0] >> at & 1 == 1,
        29 => bytes[1] == 1,
        _ => true,
    };
    let right = |(at, &(start, end)): (usize, &(u16, u16))| {
        if present(at) { start <= end } else { (start, end) == (0, 0) }
    };
    spans.iter().enumerate().all(right)
}

const KEYWORDS: [&str; 18] = [
    "tailstrict", "local", "importstr", "importbin", "import", "if", "then", "else", "function",
    "error", "in", "null", "true", "false", "self", "super", "for", "assert",
];

fn is_name(text: &[u8]) -> bool {
    let starts = |byte: u8| byte.is_ascii_alphabetic() || byte == b'_';
    text.first().is_some_and(|&byte| starts(byte))
        && text.iter().all(|&byte| starts(byte) || byte.is_ascii_digit())
        && !KEYWORDS.iter().any(|keyword| keyword.as_bytes() == text)
}

/// `(0|[1-9][0-9]*)(\.[0-9]+)?([eE][+-]?[0-9]+)?`
fn is_numeral(text: &str) -> bool {
    let digits = |text: &str| !text.is_empty() && text.bytes().all(|byte| byte.is_ascii_digit());
    let (mantissa, exponent) = text.split_once(['e', 'E']).unwrap_or((text, "0"));
    let (whole, fraction) = mantissa.split_once('.').unwrap_or((mantissa, "0"));
    let exponent = exponent.strip_prefix(['+', '-']).unwrap_or(exponent);
    let leading = whole.starts_with('0') && whole != "0";
    digits(whole) && !leading && digits(fraction) && digits(exponent)
}

/// Request 2: a literal too large for a double is no number.
fn text_is_right(Record { tag, bytes, text, .. }: &Record) -> bool {
    let number = |text| is_numeral(text) && !doubles::too_large(text);
    let rest = |byte| if byte == 2 { is_name(text) } else { text.is_empty() };
    match tag {
        4 => std::str::from_utf8(text).is_ok_and(number),
        5 => std::str::from_utf8(text).is_ok(),
        6 | 19 | 25 | 29 | 35 => is_name(text),
        27 | 28 => rest(bytes[0]),
        _ => true,
    }
}

/// What relates fields to each other or to the children's tags.
fn shape_is_right(record: &Record, tags: &[u8]) -> bool {
    let Record { bytes, counts, .. } = record;
    let clauses = |from: usize| matches!(tags.get(from), Some(33 | 35));
    match record.tag {
        8 => clauses(1),
        10 => {
            let members = &tags[..counts[0]];
            members.iter().filter(|&&tag| tag == 31).count() == 1 && clauses(counts[0])
        }
        20 => bytes[0] == 1 || tags[0] == 20,
        24 => bytes[0] == 1 || counts[0] == 0,
        27 => bytes[0] > 0 || counts[1] == 0,
        31 => {
            let [_, plus, method, _] = bytes[..] else { unreachable!("four bytes") };
            if method == 1 { plus == 0 } else { counts[0] == 0 }
        }
        _ => true,
    }
}

/// Whether no derivation gives this record over children with these tags.
fn is_underivable(record: &Record, tags: &[u8]) -> bool {
    let mut kinds = wanted(record).into_iter().flat_map(|(sort, n)| std::iter::repeat_n(sort, n));
    let sorts_are_right = tags.iter().all(|tag| kinds.next().is_some_and(|sort| sort.contains(tag)));
    !(sorts_are_right
        && spans_are_right(record)
        && text_is_right(record)
        && shape_is_right(record, tags))
}

/// The records of an image that is one tree.
pub fn read(image: &[u8]) -> Result<Vec<Record<'_>>, Refused> {
    let mut records: Vec<Record> = Vec::new();
    let mut roots: Vec<usize> = Vec::new();
    let mut infix = None;
    let mut behind = image;
    while !behind.is_empty() {
        let offset = image.len() - behind.len();
        let refused = |number| Refused { number, offset };
        let (mut record, after) = cut(image, offset).map_err(refused)?;
        if record.tag == 13 && *infix.get_or_insert(record.spans.len()) != record.spans.len() {
            return Err(refused(14));
        }
        let count = wanted(&record).iter().map(|&(_, n)| n).sum();
        let first = roots.len().checked_sub(count).ok_or(refused(15))?;
        record.children = roots.split_off(first);
        let tags: Vec<u8> = record.children.iter().map(|&child| records[child].tag).collect();
        if is_underivable(&record, &tags) {
            return Err(refused(16));
        }
        roots.push(records.len());
        records.push(record);
        behind = after;
    }
    match roots[..] {
        [root] if EXPRESSION.contains(&records[root].tag) => Ok(records),
        [root] => Err(Refused { number: 16, offset: records[root].offset }),
        _ => Err(Refused { number: 15, offset: image.len() }),
    }
}

/// `NUMBER OFFSET RECORDS PARTS COALESCES`.
#[derive(Clone, Copy, Debug, Default, PartialEq, Eq)]
pub struct Answer {
    pub number: u16,
    pub offset: usize,
    pub records: usize,
    pub parts: usize,
    pub coalesces: usize,
}

impl fmt::Display for Answer {
    fn fmt(&self, f: &mut fmt::Formatter<'_>) -> fmt::Result {
        let Self { number, offset, records, parts, coalesces } = self;
        write!(f, "{number} {offset} {records} {parts} {coalesces}")
    }
}

pub fn answer(image: &[u8], landed: Landed) -> Answer {
    match read(image) {
        Err(Refused { number, offset }) => Answer { number, offset, ..Answer::default() },
        Ok(records) => {
            let count = |tag: u8, at: usize, byte: u8| {
                let retired = |record: &&Record| record.tag == tag && record.bytes[at] == byte;
                if landed.retired { records.iter().filter(retired).count() } else { 0 }
            };
            let (parts, coalesces) = (count(20, 1, 1), count(13, 0, 18));
            Answer { records: records.len(), parts, coalesces, ..Answer::default() }
        }
    }
}

/// A line `back HEXIMAGE`.
pub fn line(line: &str) -> Result<String, String> {
    let image = line.strip_prefix("back ").ok_or_else(|| format!("not `back HEXIMAGE`: {line}"))?;
    Ok(answer(&hex::decode(image)?, TODAY).to_string())
}
