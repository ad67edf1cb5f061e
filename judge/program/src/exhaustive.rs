//! All short inputs: too many to keep, so the sums of their answers are kept.

use crate::{generate::LEXEMES, layers, reader};

/// With four characters these reach every rule but the longer keywords.
const CHARACTERS: [char; 46] = [
    '|', '?', '&', '^', '=', '!', '<', '>', '+', '-', '*', '/', '%', '~', '[', ']', '(', ')', '{',
    '}', ':', ';', '.', ',', '$', '0', '1', 'e', '_', '"', '\'', '\\', '@', 'i', 'f', 'n', 'o',
    'r', ' ', '\t', '\n', '\r', '#', 'é', '\u{2028}', '😀',
];

/// The most characters in a source for the lexer.
const MOST_CHARACTERS: u32 = 4;

/// The most lexemes in a source for the parser.
const MOST_LEXEMES: u32 = 3;

/// Room for the image of any source here.
const ROOM: u64 = 65_536;

/// Both layers: what the inputs are made of, then for each length the number of inputs and the
/// sum of their answer lines, line feeds included. The last part of an input runs fastest.
pub fn lines() -> Vec<String> {
    let points: Vec<String> = CHARACTERS.iter().map(|&c| format!("{:x}", u32::from(c))).collect();
    let mut lines = vec![format!("lexemes of {}", points.join(" "))];
    for length in 0..=MOST_CHARACTERS {
        let inputs = sequences(&CHARACTERS, length);
        let answers = inputs.map(|chars| layers::lexeme_list(&String::from_iter(chars)));
        lines.push(format!("lexemes {length} {}", count_and_sum(answers)));
    }
    lines.push(format!("sources of {}", LEXEMES.join(" ")));
    for setting in 0..reader::SETTINGS {
        for length in 0..=MOST_LEXEMES {
            let inputs = sequences(&LEXEMES, length).map(|lexemes| lexemes.join(" "));
            let answers =
                inputs.map(|source| reader::answer(setting, ROOM, source.as_bytes()).to_string());
            lines.push(format!("sources {setting} {length} {}", count_and_sum(answers)));
        }
    }
    lines
}

/// All sequences of `length` of the `parts`, in order.
fn sequences<T: Copy>(parts: &[T], length: u32) -> impl Iterator<Item = Vec<T>> {
    let part = |number: usize, place| parts[number / parts.len().pow(place) % parts.len()];
    (0..parts.len().pow(length))
        .map(move |number| (0..length).rev().map(|place| part(number, place)).collect())
}

fn count_and_sum(answers: impl Iterator<Item = String>) -> String {
    let mut count = 0;
    let mut sum = FNV_START;
    for answer in answers {
        count += 1;
        sum = fnv(fnv(sum, answer.as_bytes()), b"\n");
    }
    format!("{count} {sum:016x}")
}

const FNV_START: u64 = 0xcbf2_9ce4_8422_2325;

/// FNV-1a with 64 bits, carried on from `sum`.
fn fnv(sum: u64, bytes: &[u8]) -> u64 {
    bytes.iter().fold(sum, |sum, &byte| (sum ^ u64::from(byte)).wrapping_mul(0x100_0000_01b3))
}

#[cfg(test)]
mod tests {
    use super::{FNV_START, fnv, sequences};

    #[test]
    fn published_sums() {
        assert_eq!(fnv(FNV_START, b"a"), 0xaf63_dc4c_8601_ec8c);
        assert_eq!(fnv(FNV_START, b"foobar"), 0x8594_4171_f739_67e8);
    }

    #[test]
    fn last_part_runs_fastest() {
        let all: Vec<Vec<u8>> = sequences(b"xyz", 2).collect();
        assert_eq!(all.concat(), b"xxxyxzyxyyyzzxzyzz");
    }
}
