//! Inputs for the judge, the same for the same seed: first the fixed ones of a layer, in order,
//! then random ones until there are enough. No line comes twice.

mod blocks;
mod damage;
mod grammar;
mod images;
mod json;
mod lexemes;
mod mass;
mod nights;
mod numbers;
mod rng;
mod sources;
mod strings;

use std::collections::HashSet;

use rng::Rng;

pub use sources::LEXEMES;

/// Lines in order, each once.
#[derive(Default)]
pub struct Lines {
    seen: HashSet<String>,
    list: Vec<String>,
}

impl Lines {
    fn push(&mut self, line: String) {
        if self.seen.insert(line.clone()) {
            self.list.push(line);
        }
    }
}

/// Lines for the reader of images that are too long to keep.
pub fn long() -> Vec<String> {
    let mut lines = Lines::default();
    images::long(&mut lines);
    lines.list
}

/// Adds the fixed lines of a layer; makes one random line for it.
type Layer = (fn(&mut Lines), fn(&mut Rng) -> String);

/// Input lines for the layer `what`: all fixed ones, and random ones if that is less than `count`.
pub fn lines(what: &str, seed: u64, count: usize) -> Result<Vec<String>, String> {
    let (fixed, random): Layer = match what {
        "strings" => (strings::fixed, strings::random),
        "blocks" => (blocks::fixed, blocks::random),
        "lexemes" => (lexemes::fixed, lexemes::random),
        "sources" => (sources::fixed, sources::random),
        "night" => (nights::fixed, nights::random),
        "numbers" => (numbers::fixed, numbers::random),
        "back" => (images::fixed, images::random),
        "mass" => (mass::fixed, mass::random),
        "json" => (json::fixed, json::random),
        _ => return Err(format!("nothing to generate for {what}")),
    };
    let mut lines = Lines::default();
    fixed(&mut lines);
    let mut rng = Rng::new(seed);
    while lines.list.len() < count {
        lines.push(random(&mut rng));
    }
    Ok(lines.list)
}

/// All texts made of up to `length` of the `pieces`, short ones first.
fn words(pieces: &[&str], length: usize) -> Vec<String> {
    let mut all = vec![String::new()];
    let mut from = 0;
    for _ in 0..length {
        let end = all.len();
        for at in from..end {
            for piece in pieces {
                all.push(format!("{}{piece}", all[at]));
            }
        }
        from = end;
    }
    all
}

/// Up to `most` of the `pieces` at random.
fn soup(rng: &mut Rng, pieces: &[&str], most: usize) -> String {
    let count = rng.below(most + 1);
    (0..count).map(|_| rng.pick(pieces)).collect()
}
