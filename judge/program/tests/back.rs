//! The reader of images: all that is written down about it, and the images that the Rust's trees
//! have.

use std::fs;

use judge::{
    back::{self, Landed},
    doubles, generate, hex, reader, stack, written,
};

const BEFORE: Landed = Landed { retired: false };
const AFTER: Landed = Landed { retired: true };

fn answer(image: &str, landed: Landed) -> String {
    back::answer(&hex::decode(image).expect("hex"), landed).to_string()
}

#[test]
fn written_down() {
    for (image, want) in written::BACK {
        for landed in [BEFORE, AFTER] {
            assert_eq!(answer(image, landed), format!("{want} 0 0"), "{image}");
        }
    }
}

/// C1: a literal too large is refused.
#[test]
fn too_large() {
    assert_eq!(answer("0400053165333038", BEFORE), "0 0 1 0 0");
    assert_eq!(answer("0400053165333039", BEFORE), "16 0 0 0 0");
    let limit: String = doubles::LIMIT.iter().map(|digit| digit.to_string()).collect();
    assert_eq!(limit.len(), 309);
    assert!(limit.starts_with("1797693134862315807937289714053034150799"));
    assert!(limit.ends_with("42880177904174497792"));
    let below = format!("{}1", &limit[..308]);
    for (literal, large) in [
        (limit.clone(), true),
        (below.clone(), false),
        (format!("{below}.999"), false),
        (format!("{limit}.0"), true),
        (format!("{limit}0e-1"), true),
        (format!("{below}9e-1"), false),
        (format!("0.000{limit}e312"), true),
        (format!("0.000{below}e312"), false),
        ("1.7976931348623158e308".to_owned(), false),
        ("1.7976931348623159e308".to_owned(), true),
        ("1e18446744073709551616".to_owned(), true),
        ("1e-18446744073709551616".to_owned(), false),
        ("0.000e99999999999999999999".to_owned(), false),
        ("1e+0000309".to_owned(), true),
        ("1e+0000308".to_owned(), false),
        (format!("0.{}1e{}", "0".repeat(9_999), 10_308), false),
        (format!("0.{}1e{}", "0".repeat(9_999), 10_309), true),
    ] {
        assert_eq!(doubles::too_large(&literal), large, "{literal}");
        // Rust's own doubles round to infinity from there on.
        let double: f64 = literal.parse().expect("a literal");
        assert_eq!(double.is_infinite(), large, "{literal}");
    }
}

/// F1: what request 12 counts.
#[test]
fn retired() {
    let part = "02000005000161140006000000000101";
    assert_eq!(answer(part, BEFORE), "0 0 3 0 0");
    assert_eq!(answer(part, AFTER), "0 0 3 1 0");
    for infix in ["0d000112", "0d00051200000001"] {
        assert_eq!(answer(&format!("020000020000{infix}"), AFTER), "0 0 3 0 1");
    }
}

/// Records one after the other.
fn image(records: &[(u8, &[u8])]) -> Vec<u8> {
    let mut image = Vec::new();
    for &(tag, payload) in records {
        image.push(tag);
        image.extend((payload.len() as u16).to_be_bytes());
        image.extend(payload);
    }
    image
}

const NULL: (u8, &[u8]) = (2, &[]);
const SKIP: (u8, &[u8]) = (26, &[]);
const STRING: (u8, &[u8]) = (5, b"if");
const NAME: (u8, &[u8]) = (25, &[0, 0, 0, 0, b'a']);
const NO_MEMBERS: (u8, &[u8]) = (9, &[0, 0]);
const FIRST: (u8, &[u8]) = (20, &[0, 0, 0, 0, 1, 0]);
const LATER: (u8, &[u8]) = (20, &[0, 0, 0, 0, 0, 0]);
const BIND: (u8, &[u8]) = (24, &[0, 0, 0]);
const FUNCTION_BIND: (u8, &[u8]) = (24, &[1, 0, 0]);
const FIELD: (u8, &[u8]) = (31, &[0, 0, 0, 0, 0, 0, 0, 0, 0, 0]);
const ASSERT: (u8, &[u8]) = (32, &[0, 0, 0, 0, 0]);
const FOR: (u8, &[u8]) = (33, &[]);
const IF: (u8, &[u8]) = (34, &[0, 0, 0, 0]);

/// The number that these records get, which is told of the last one.
fn number(records: &[(u8, &[u8])]) -> u16 {
    let image = image(records);
    let answer = back::answer(&image, BEFORE);
    let last = image.len() - 3 - records.last().map_or(0, |record| record.1.len());
    assert!(answer.number == 0 || answer.offset == last, "{records:?}: {answer}");
    answer.number
}

/// Section H: what a second reader is likely to get wrong, a case or more for each.
#[test]
fn likely_mistakes() {
    // First-of-run 0 looks at the first child alone; 1 may stand over a part.
    assert_eq!(number(&[NULL, NULL, FIRST, NULL, LATER]), 0);
    assert_eq!(number(&[NULL, NULL, FIRST, NULL, FIRST]), 0);
    assert_eq!(number(&[NULL, NULL, NULL, FIRST, LATER]), 16);
    assert_eq!(number(&[NULL, NULL, FIRST, (12, &[0]), NULL, LATER]), 16);
    // What is extended by: 9 or 10 itself.
    assert_eq!(number(&[NULL, NO_MEMBERS, (11, &[])]), 0);
    assert_eq!(number(&[NULL, NULL, (11, &[])]), 16);
    assert_eq!(number(&[NULL, NULL, NO_MEMBERS, (11, &[]), (11, &[])]), 16);
    assert_eq!(number(&[NO_MEMBERS, NULL, (11, &[])]), 16);
    // A named argument is no expression, and comes after the unnamed.
    let call = |unnamed: u8, named: u8| vec![0, 0, 0, 0, 0, 0, unnamed, 0, named];
    assert_eq!(number(&[NULL, NULL, (19, b"a"), (18, &call(0, 1))]), 0);
    assert_eq!(number(&[NULL, NULL, (19, b"a"), (18, &call(1, 0))]), 16);
    assert_eq!(number(&[NULL, NULL, (19, b"a"), NULL, (18, &call(1, 1))]), 16);
    assert_eq!(number(&[NULL, NULL, (19, b"a"), NULL, (19, b"a"), (18, &call(0, 2))]), 0);
    // A function's name is a name.
    let local = (15, &[0, 1][..]);
    assert_eq!(number(&[NAME, NULL, FUNCTION_BIND, NULL, local]), 0);
    assert_eq!(number(&[SKIP, NULL, BIND, NULL, local]), 0);
    assert_eq!(number(&[SKIP, NULL, FUNCTION_BIND]), 16);
    assert_eq!(number(&[(27, &[0, 0, 0, 0, 0]), NULL, FUNCTION_BIND]), 16);
    assert_eq!(number(&[NULL, (15, &[0, 0])]), 0);
    // Plus or method.
    let object = (9, &[0, 1][..]);
    assert_eq!(number(&[STRING, NULL, (31, &[0, 0, 0, 0, 0, 1, 0, 0, 0, 0]), object]), 0);
    assert_eq!(number(&[STRING, NULL, (31, &[0, 0, 0, 0, 0, 0, 1, 0, 0, 0]), object]), 0);
    assert_eq!(number(&[STRING, NULL, (31, &[0, 0, 0, 0, 0, 1, 1, 0, 0, 0])]), 16);
    assert_eq!(number(&[NULL, NULL, (31, &[0, 0, 0, 0, 1, 0, 0, 0, 0, 0]), object]), 0);
    assert_eq!(number(&[NULL, NULL, FIELD]), 16);
    // An object comprehension: one field, locals on either side, no assert, an iteration first.
    let comprehension = |members: u8, clauses: u8| vec![0, members, 0, clauses];
    let bind = [SKIP, NULL, BIND];
    let field = [STRING, NULL, FIELD];
    let each = [SKIP, NULL, FOR];
    let last = |members: u8, clauses: u8, before: &[&[(u8, &[u8])]]| {
        let payload = comprehension(members, clauses);
        let mut records = before.concat();
        records.push((10, &payload));
        number(&records)
    };
    assert_eq!(last(1, 1, &[&field, &each]), 0);
    assert_eq!(last(3, 1, &[&bind, &field, &bind, &each]), 0);
    assert_eq!(last(2, 1, &[&field, &field, &each]), 16);
    assert_eq!(last(1, 1, &[&bind, &each]), 16);
    assert_eq!(last(2, 1, &[&field, &[NULL, ASSERT], &each]), 16);
    assert_eq!(last(1, 2, &[&field, &each, &[NULL, IF]]), 0);
    assert_eq!(last(1, 2, &[&field, &[NULL, IF], &each]), 16);
    assert_eq!(last(1, 0, &[&field]), 16);
    assert_eq!(number(&[NULL, NULL, IF, (8, &[0, 1])]), 16);
    assert_eq!(number(&[NULL, SKIP, NULL, FOR, NULL, IF, (8, &[0, 2])]), 0);
    // A slice's spans: present ones may be 0, absent ones are.
    let slice = |bits: u8, span: [u8; 4]| [&[bits][..], &span, &[0; 8]].concat();
    assert_eq!(number(&[NULL, NULL, (23, &slice(1, [0, 0, 0, 0]))]), 0);
    assert_eq!(number(&[NULL, NULL, (23, &slice(1, [0, 1, 0, 0]))]), 16);
    assert_eq!(number(&[NULL, NULL, (23, &slice(2, [0, 3, 0, 3]))]), 16);
    // Names: keywords are none, and nothing is asked of strings in their place.
    let variable = |name: &str| number(&[(6, &[&[0; 4][..], name.as_bytes()].concat())]);
    for keyword in ["importbin", "tailstrict", "if", "self", "assert"] {
        assert_eq!(variable(keyword), 16, "{keyword}");
    }
    for name in ["std", "importbi", "If", "_", "a0"] {
        assert_eq!(variable(name), 0, "{name}");
    }
    assert_eq!(number(&[NULL, STRING, FIRST]), 0);
    // Texts.
    for text in ["\u{0}", "", "é€😀"] {
        assert_eq!(number(&[(5, text.as_bytes())]), 0);
    }
    for text in [&[0xed, 0xa0, 0x80][..], &[0xc0, 0x80], &[0xf4, 0x90, 0x80, 0x80], &[0xe2, 0x82]] {
        assert_eq!(number(&[(5, text)]), 16);
    }
    for (text, want) in [
        ("1_0", 16), ("01", 16), ("1.", 16), ("-1", 16), (".5", 16), ("1e", 16), ("1e+", 16),
        ("1e+-1", 16), ("1E+05", 0), ("1e-99999", 0), ("0", 0), ("0.00", 0), ("10.50e0", 0),
    ] {
        assert_eq!(number(&[(4, text.as_bytes())]), want, "{text}");
    }
    // A wrong flag comes before missing children.
    assert_eq!(number(&[(22, &[0, 0, 0, 0, 2])]), 14);
    assert_eq!(number(&[(12, &[4])]), 14);
}

/// Every image that the judge writes is read back, with all its records.
#[test]
fn images_of_trees() {
    let path = format!("{}/../../vectors/sources.txt", env!("CARGO_MANIFEST_DIR"));
    let list = fs::read_to_string(path).expect("the list can be read");
    let mut lines: Vec<String> = list.lines().map(str::to_owned).collect();
    lines.extend(generate::lines("sources", 6, 50_000).expect("sources can be generated"));
    stack::large(move || {
        let mut read = 0;
        for line in lines {
            let fields: Vec<&str> = line.split(' ').collect();
            let setting = fields[0].parse().expect("a setting");
            let source = hex::decode(fields[2]).expect("hex");
            let image = reader::answer(setting, u64::MAX, &source);
            if image.number == 0 {
                let answer = back::answer(&image.image, BEFORE);
                assert_eq!(answer.number, 0, "{line}: {answer}");
                read += 1;
            }
        }
        assert!(read > 20_000, "{read}");
    });
}

/// Of the generated images each number has its share.
#[test]
fn every_number() {
    let mut of = [0; 17];
    for line in generate::lines("back", 6, 50_000).expect("images can be generated") {
        let answer = back::line(&line).expect("a generated line is well formed");
        let number: usize = answer.split(' ').next().expect("a number").parse().expect("a number");
        of[number] += 1;
    }
    assert!([0, 13, 14, 15, 16].into_iter().all(|number| of[number] > 500), "{of:?}");
}

/// Images beyond 65,535 bytes, and deep ones.
#[test]
fn long() {
    let answers: Vec<back::Answer> = generate::long()
        .iter()
        .map(|line| back::answer(&hex::decode(&line[5..]).expect("hex"), BEFORE))
        .collect();
    let number = |number: u16| answers.iter().filter(|answer| answer.number == number).count();
    assert!(number(0) >= 8 && number(15) >= 8 && number(16) >= 5, "{answers:?}");
    assert!(answers.iter().any(|answer| answer.number == 0 && answer.records > 90_000));
    assert!(answers.iter().any(|answer| answer.number == 14 && answer.offset > 65_535));
}
