//! The lists kept for the replay programs are what the judge answers, and what was said of all
//! answers holds for a run of generated inputs.

use std::{collections::BTreeSet, fs};

use judge::{back, generate, json, layers, mass, night, reader, stack};

/// Compares a list whose input is the first `words` words of each line.
fn check(name: &str, words: usize, answer: fn(&str) -> Result<String, String>) {
    let path = format!("{}/../../vectors/{name}.txt", env!("CARGO_MANIFEST_DIR"));
    let list = fs::read_to_string(path).expect("the list can be read");
    for line in list.lines() {
        let (split, _) = line.match_indices(' ').nth(words - 1).expect("an answer follows");
        assert_eq!(answer(&line[..split]).as_deref(), Ok(&line[split + 1..]), "{}", &line[..split]);
    }
    let lines: BTreeSet<&str> = list.lines().collect();
    assert_eq!(lines.len(), list.lines().count(), "a line comes twice");
}

#[test]
fn strings() {
    check("strings", 2, layers::strings);
}

#[test]
fn blocks() {
    check("blocks", 1, layers::blocks);
}

#[test]
fn lexemes() {
    check("lexemes", 1, layers::lexemes);
}

#[test]
fn sources() {
    stack::large(|| check("sources", 3, reader::line));
}

#[test]
fn nights() {
    stack::large(|| check("night", 7, night::line));
}

#[test]
fn images() {
    check("back", 2, back::line);
}

#[test]
fn masses() {
    check("mass", 3, mass::line);
}

#[test]
fn texts() {
    check("json", 3, json::line);
}

/// Only closers and the like are ever wanted, number 10 never comes, and neither do some kinds.
#[test]
fn what_never_occurs() {
    let mut numbers = BTreeSet::new();
    let mut wanted = BTreeSet::new();
    for line in generate::lines("sources", 5, 50_000).expect("sources can be generated") {
        let answer = reader::line(&line).expect("a generated line is well formed");
        let fields: Vec<u64> = answer.split(' ').take(4).flat_map(str::parse).collect();
        numbers.insert(fields[0]);
        if fields[0] == 5 {
            wanted.insert(fields[3]);
        }
    }
    assert!(numbers.into_iter().eq((0..=12).filter(|&number| number != 10).chain([17])));
    assert!(wanted.into_iter().eq([1, 24, 25, 26, 28, 29, 30, 31, 35, 55, 72, 76]));

    let mut kinds = BTreeSet::new();
    for line in generate::lines("lexemes", 5, 50_000).expect("sources can be generated") {
        let answer = layers::lexemes(&line).expect("a generated line is well formed");
        let lexemes = answer.split(' ').filter(|&lexeme| lexeme != "-");
        kinds.extend(lexemes.flat_map(|lexeme| lexeme.split(':').next().map(str::to_owned)));
    }
    let never = [0, 1, 62, 63, 64, 65, 77];
    let lexed = (0..=85).filter(|kind| !never.contains(kind)).map(|kind: u32| kind.to_string());
    assert_eq!(kinds, lexed.collect());
}
