//! Request 2's limit: which literals are too large for a double.

use std::sync::LazyLock;

/// Whether the value of a literal `(0|[1-9][0-9]*)(\.[0-9]+)?([eE][+-]?[0-9]+)?` is at least
/// 2^1024 - 2^970, compared digit by digit.
pub fn too_large(literal: &str) -> bool {
    let (mantissa, exponent) = literal.split_once(['e', 'E']).unwrap_or((literal, "0"));
    let (whole, fraction) = mantissa.split_once('.').unwrap_or((mantissa, ""));
    let digits = format!("{whole}{fraction}");
    let significant = digits.trim_start_matches('0');
    if significant.is_empty() {
        return false;
    }
    // 0.DIGITS times ten to this power is the value.
    let leading = digits.len() - significant.len();
    let Some(exponent) = small(exponent) else {
        return !exponent.starts_with('-');
    };
    let power = exponent + whole.len() as i64 - leading as i64;
    let limit = &*LIMIT;
    if power != limit.len() as i64 {
        return power > limit.len() as i64;
    }
    let value = significant.bytes().map(|digit| digit - b'0').chain(std::iter::repeat(0));
    value.take(limit.len()).ge(limit.iter().copied())
}

/// An exponent, unless it outweighs all digits that a literal can have.
fn small(exponent: &str) -> Option<i64> {
    let digits = exponent.trim_start_matches(['+', '-']).trim_start_matches('0');
    if digits.len() > 15 {
        return None;
    }
    let value = digits.bytes().fold(0, |value, digit| 10 * value + i64::from(digit - b'0'));
    Some(if exponent.starts_with('-') { -value } else { value })
}

/// The digits of 2^1024 - 2^970 = 2^970 * (2^54 - 1), found once: every number of an image is held
/// to them.
pub static LIMIT: LazyLock<Vec<u8>> = LazyLock::new(|| {
    let mut digits: Vec<u8> = ((1u64 << 54) - 1).to_string().bytes().map(|b| b - b'0').collect();
    for _ in 0..970 {
        let mut carry = 0;
        for digit in digits.iter_mut().rev() {
            let doubled = 2 * *digit + carry;
            *digit = doubled % 10;
            carry = doubled / 10;
        }
        if carry > 0 {
            digits.insert(0, carry);
        }
    }
    digits
});
