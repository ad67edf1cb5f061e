//! Damaged copies of good texts.

use super::rng::Rng;

/// One character deleted, put in, replaced, or all after it cut off.
pub fn characters(rng: &mut Rng, text: &str, extra: &[char]) -> String {
    let mut chars: Vec<char> = text.chars().collect();
    let at = rng.below(chars.len() + 1);
    let new = rng.pick(extra);
    match rng.below(4) {
        0 => chars.truncate(at),
        1 => chars.insert(at, new),
        _ if at == chars.len() => chars.push(new),
        2 => chars[at] = new,
        _ => drop(chars.remove(at)),
    }
    chars.into_iter().collect()
}

/// One byte deleted, put in, replaced, or all after it cut off: mostly no UTF-8 any more.
pub fn bytes(rng: &mut Rng, bytes: &mut Vec<u8>) {
    let at = rng.below(bytes.len() + 1);
    let new = rng.below(256) as u8;
    match rng.below(4) {
        0 => bytes.truncate(at),
        1 => bytes.insert(at, new),
        _ if at == bytes.len() => bytes.push(new),
        2 => bytes[at] = new,
        _ => drop(bytes.remove(at)),
    }
}
