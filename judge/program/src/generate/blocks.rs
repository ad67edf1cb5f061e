//! Text blocks, good and bad.

use super::{Lines, damage, rng::Rng, words};
use crate::{hex, readings};

/// Cut at every byte, these meet every place where a block can break off.
const SAMPLES: [&str; 8] = [
    "|||\n  a\n  b\n|||",
    "|||-\n  mass\n  depth\n|||;",
    "||| \t\r\n\n\n \tx\n\n \t  y\r\n\t|||,",
    "|||-\r\n\ta\r\n\t\r\n\n\t b\n \t |||\n",
    "|||x\n  a\n|||b",
    "|||\nx\n|||b",
    "|||\n  a\n b\n|||c|||",
    "|||\n é\n ||\n |||\n||||||",
];

pub fn fixed(lines: &mut Lines) {
    let mut block = |text: &str| lines.push(hex::encode(text.as_bytes()));
    for &(_, source, _) in readings::all() {
        if source.starts_with("|||") {
            block(source);
        }
    }
    block("|||\n  a\n  b\n|||");
    for sample in SAMPLES {
        for end in 3..=sample.len() {
            if sample.is_char_boundary(end) {
                block(&sample[..end]);
            }
        }
    }
    for head in words(&["-", " ", "\t", "\r", "\n", "a", "|", "é"], 3) {
        block(&format!("|||{head}"));
    }
    let pieces = [" ", "\t", "a", "\n", "\r", "|||"];
    for body in words(&pieces, 4) {
        block(&format!("|||\n{body}"));
    }
    for body in words(&pieces, 3) {
        block(&format!("|||\n  a{body}"));
        block(&format!("|||-\n\ta\n{body}"));
    }
}

pub fn random(rng: &mut Rng) -> String {
    let mut text = good(rng);
    for _ in 0..rng.below(3) {
        text = damage::characters(rng, &text[3..], &['|', '\n', '\r', '\t', ' ', 'a', '-', 'é']);
        text.insert_str(0, "|||");
    }
    hex::encode(text.as_bytes())
}

fn good(rng: &mut Rng) -> String {
    let indent = rng.pick(&[" ", "  ", "\t", " \t", "\t ", "   "]);
    let end = rng.pick(&["\n", "\n", "\r\n"]);
    let mut text = format!(
        "|||{}{}\n",
        rng.pick(&["", "-"]),
        rng.pick(&["", "", "", " ", "\t", "\r", " \r", "\r\r"]),
    );
    for _ in 0..=rng.below(4) {
        if rng.once_in(4) {
            text.push('\n');
        }
        text.push_str(indent);
        text.push_str(rng.pick(&["", "a", "é", " a", "\tb", "||", "|||", "-", "a b", "\"", "😀"]));
        text.push_str(end);
    }
    // As many blanks as the indent would be content, so the closer has fewer or others.
    let closer = rng.pick(&["", "", " ", "\t", "  \t", "\t\t "]);
    if !closer.starts_with(indent) {
        text.push_str(closer);
    }
    text.push_str("|||");
    text.push_str(rng.pick(&["", "", ";", "|", " |||", "\n", "a", "é"]));
    text
}
