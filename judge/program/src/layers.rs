//! The layers under the parser, each answering one line with one line.

use jrsonnet_lexer::{SyntaxKind, lex, unescape};

use crate::hex;

/// `q`, `d`, `s`, `u` and `c` lines.
pub fn strings(line: &str) -> Result<String, String> {
    let (mode, input) = line.split_once(' ').ok_or_else(|| format!("no mode: {line}"))?;
    let decoded = match mode {
        "q" => {
            let inner = hex::decode_text(input)?;
            let decoded = unescape(&inner);
            if decoded.is_none() {
                return Ok(format!("refused {}", setting0::bad_escape(&inner)));
            }
            decoded
        }
        "d" => literal_text(&format!("@\"{}\"", hex::decode_text(input)?)),
        "s" => literal_text(&format!("@'{}'", hex::decode_text(input)?)),
        "u" => return Ok(valid_up_to(&hex::decode(input)?).to_string()),
        "c" => {
            let number = u64::from_str_radix(input, 16).map_err(|e| format!("{input}: {e}"))?;
            u32::try_from(number).ok().and_then(char::from_u32).map(String::from)
        }
        _ => return Err(format!("unknown mode: {mode}")),
    };
    Ok(decoded.map_or_else(|| "refused".to_owned(), |text| hex::encode(text.as_bytes())))
}

/// The text of a source that is one string literal: the Rust decodes it in its parser.
fn literal_text(literal: &str) -> Option<String> {
    let image = setting0::read(literal, false).ok()?;
    let (header, text) = image.split_at(3);
    let length = u16::from_be_bytes([header[1], header[2]]);
    let is_one_string = header[0] == 5 && text.len() == usize::from(length);
    is_one_string.then(|| String::from_utf8(text.to_vec()).expect("a string is UTF-8"))
}

fn valid_up_to(bytes: &[u8]) -> usize {
    match std::str::from_utf8(bytes) {
        Ok(text) => text.len(),
        Err(fault) => fault.valid_up_to(),
    }
}

/// A text that starts with `|||`: kind, end and decoded text of its first lexeme.
pub fn blocks(line: &str) -> Result<String, String> {
    let text = hex::decode_text(line)?;
    let lexemes = lex(&text);
    let block = lexemes.first().filter(|_| text.starts_with("|||"));
    let block = block.ok_or_else(|| format!("no block: {line}"))?;
    let decoded = if block.kind == SyntaxKind::STRING_BLOCK {
        literal_text(block.text).expect("a good block decodes")
    } else {
        String::new()
    };
    let kind = block.kind.into_raw();
    Ok(format!("{kind} {} {}", block.range.1, hex::encode(decoded.as_bytes())))
}

/// A source: all its lexemes.
pub fn lexemes(line: &str) -> Result<String, String> {
    Ok(lexeme_list(&hex::decode_text(line)?))
}

pub fn lexeme_list(source: &str) -> String {
    let list: Vec<String> = lex(source)
        .iter()
        .map(|l| format!("{}:{}:{}", l.kind.into_raw(), l.range.0, l.range.1))
        .collect();
    if list.is_empty() { "-".to_owned() } else { list.join(" ") }
}
