//! Parts of the judge's lists of answers (vectors/sources.txt, vectors/json.txt, vectors/back.txt), and what the types promise beside them.
use matigelo::{
    back, json, links_for, mass, read, read_to_vec, BadImage, Fault, Listing, Raises, Refusal, Why,
};
use std::error::Error;

fn bytes(hex: &str) -> Vec<u8> {
    if hex == "-" {
        return Vec::new();
    }
    (0..hex.len() / 2).map(|i| u8::from_str_radix(&hex[2 * i..2 * i + 2], 16).unwrap()).collect()
}

fn list(name: &str) -> String {
    let name = format!("{}/../../vectors/{name}", env!("CARGO_MANIFEST_DIR"));
    std::fs::read_to_string(&name).unwrap_or_else(|e| panic!("{name}: {e}"))
}

#[test]
fn answers_are_the_judges() {
    let list = list("sources.txt");
    let mut seen = 0;
    // every third line, so that this stays quick; the gate replays all of them
    for line in list.lines().step_by(3) {
        let words: Vec<&str> = line.split(' ').collect();
        let setting: u64 = words[0].parse().unwrap();
        let numbers: Vec<u64> = words[3..8].iter().map(|w| w.parse().unwrap()).collect();
        let mut output = vec![0xAA; words[1].parse().unwrap()];
        let length = agreed(&numbers, words[8], read(setting, &bytes(words[2]), &mut output), line);
        assert!(output[length..].iter().all(|b| *b == 0), "zeros behind the image: {line}");
        seen += 1;
    }
    assert!(seen > 2_000, "only {seen} lines");
}

/// Holds an answer to the judge's five numbers and image; the image's length.
fn agreed(numbers: &[u64], image: &str, answer: Result<&[u8], Refusal>, line: &str) -> usize {
    match answer {
        Ok(read) => {
            assert_eq!((numbers[0], read), (0, &bytes(image)[..]), "{line}");
            read.len()
        }
        Err(r) => {
            let told = [
                r.why.number(),
                r.place.start as u64,
                r.place.end as u64,
                r.detail,
                r.needed as u64,
            ];
            assert_eq!(told[..], numbers[..], "{line}");
            0
        }
    }
}

#[test]
fn texts_are_the_judges() {
    let list = list("json.txt");
    let mut seen = 0;
    for line in list.lines() {
        let words: Vec<&str> = line.split(' ').collect();
        let numbers: Vec<u64> = words[3..8].iter().map(|w| w.parse().unwrap()).collect();
        let mut output = vec![0xAA; words[1].parse().unwrap()];
        let length = agreed(&numbers, words[8], json(&bytes(words[2]), &mut output), line);
        assert!(output[length..].iter().all(|b| *b == 0), "zeros behind the image: {line}");
        seen += 1;
    }
    assert!(seen > 4_000, "only {seen} lines");
}

#[test]
fn nothing_in_and_no_room() {
    assert_eq!(read(0, &[], &mut []).unwrap_err().why, Why::Expression);
    let refusal = read(0, b"1", &mut []).unwrap_err();
    assert_eq!((refusal.why, refusal.needed), (Why::Room, 4));
    assert_eq!(read_to_vec(0, b"1").unwrap(), [4, 0, 1, b'1']);
    assert_eq!(read_to_vec(0, &vec![b' '; 65_001]).unwrap_err().why, Why::Long);
    assert_eq!(json(&[], &mut []).unwrap_err().why, Why::NotJson);
    assert_eq!(json(b"1", &mut []).unwrap_err().needed, 4);
}

#[test]
fn a_refusal_is_an_error() {
    let refusal: Box<dyn Error> = Box::new(read_to_vec(16, b"1").unwrap_err());
    assert_eq!(refusal.to_string(), "the setting is above 15");
    assert_eq!(
        read_to_vec(0, b"1 2").unwrap_err().to_string(),
        "another kind of lexeme is wanted, at bytes 2 to 3"
    );
}

#[test]
fn several_threads_at_once() {
    let readers: Vec<_> = (0..4)
        .map(|i| {
            std::thread::spawn(move || {
                (0..200).all(|_| read_to_vec(0, format!("[{i}, a.b(c)]").as_bytes()).is_ok())
            })
        })
        .collect();
    assert!(readers.into_iter().all(|r| r.join().unwrap()));
}

#[test]
fn images_are_the_judges() {
    let list = list("back.txt");
    let mut seen = 0;
    for line in list.lines() {
        let words: Vec<&str> = line.split(' ').collect();
        let image = bytes(words[1]);
        let numbers: Vec<u64> = words[2..5].iter().map(|w| w.parse().unwrap()).collect();
        let mut links = vec![usize::MAX; links_for(image.len()) + 3];
        let told = match back(&image, &mut links) {
            Ok(records) => [0, 0, records.len() as u64],
            Err(bad) => [bad.fault.number(), bad.offset as u64, 0],
        };
        assert_eq!(told[..], numbers[..], "{line}");
        let used = 2 * told[2] as usize;
        assert!(links[used..].iter().all(|n| *n == 0), "zeros behind the links: {line}");
        seen += 1;
    }
    assert!(seen > 1_000, "only {seen} lines");
}

#[test]
fn children_by_the_links() {
    let image = read_to_vec(0, b"[a.b, -c]").unwrap();
    let mut links = vec![0; links_for(image.len())];
    let records = back(&image, &mut links).unwrap();
    let tags =
        |r: usize| -> Vec<u8> { records.children(r).map(|c| image[records.offset(c)]).collect() };
    // the last child first
    assert_eq!(tags(records.root()), [12, 20]);
    assert_eq!(tags(records.children(records.root()).nth(1).unwrap()), [5, 6]);
    assert!(tags(0).is_empty());
}

#[test]
fn a_bad_image_is_an_error() {
    let mut links = [7; 4];
    let bad: Box<dyn Error> = Box::new(back(&[2, 0, 0, 255], &mut links).unwrap_err());
    assert_eq!(bad.to_string(), "no record has this tag, at byte 3");
    assert_eq!(links, [0; 4]);
    let short = back(&[2, 0, 0], &mut [1]).unwrap_err();
    assert_eq!(short, BadImage { fault: Fault::Short, offset: 0, needed: 2 });
    assert_eq!(back(&[], &mut []).unwrap_err().fault, Fault::Children);
}

#[test]
fn the_planners_list() {
    let image = read_to_vec(0, b"[{mass+:1},{[a]+:1}]").unwrap();
    let mut links = vec![0; links_for(image.len())];
    let mut list = [7; 9];
    let listings: Vec<Listing> = mass(&image, &mut links, &mut list).unwrap().collect();
    assert_eq!(
        listings.iter().map(|l| (l.raises, l.place.clone())).collect::<Vec<_>>(),
        [(Raises::Mass, 2..6), (Raises::Undecided, 0..0)]
    );
    assert!(listings.iter().all(|l| image[l.offset] == 9));
    let short = mass(&image, &mut links, &mut list[..7]).map(|_| ()).unwrap_err();
    assert_eq!(short, BadImage { fault: Fault::ListShort, offset: 0, needed: 2 });
}
