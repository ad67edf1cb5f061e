//! Number literals around the first value that a double does not hold.

use super::{Lines, rng::Rng, sources::line};

/// 2^1024 - 2^970
const LIMIT: &str = "\
    17976931348623158079372897140530341507993413271003782693617377898044496829276475\
    09466490179775872070963302864166928879109465555478519404026306574886715058206819\
    08902000708383676273854845817711531764475730270069855571366959622842914819860834\
    936475292719074168444365510704342711559699508093042880177904174497792";

pub fn fixed(_: &mut Lines) {}

pub fn random(rng: &mut Rng) -> String {
    let literal = literal(rng);
    let literal = if rng.once_in(4) { grouped(rng, &literal) } else { literal };
    let source = match rng.below(12) {
        0 => format!("-{literal}"),
        1 => format!("[1,{literal} ,2]"),
        2 => format!("{{a:{literal}}}"),
        3 => format!("{literal} 2"),
        4 => format!("{{{literal}:1}}"),
        _ => literal,
    };
    line(0, 4096, source.as_bytes())
}

/// Digits, a point somewhere, and an exponent that takes the digits back to about the limit's size.
pub fn literal(rng: &mut Rng) -> String {
    let digits = digits(rng);
    let size = match rng.below(8) {
        0 => 308,
        1 => 310,
        2 => rng.below(700) as i64,
        _ => 309,
    };
    let most = if rng.once_in(30) { 2000 } else { 40 };
    let point = match rng.below(4) {
        0 => digits.len() as i64,
        1 => -(rng.below(most) as i64),
        2 => (digits.len() + rng.below(most)) as i64,
        _ => rng.below(digits.len() + 1) as i64,
    };
    if rng.once_in(24) {
        let huge = rng.pick(&["18446744073709551", "4294967", "65", "999999999999999999999999"]);
        format!("{}e{}{huge}{}", placed(&digits, point), rng.pick(&["", "+", "-"]), rng.below(2000))
    } else {
        format!("{}{}", placed(&digits, point), exponent(rng, size - point))
    }
}

fn digits(rng: &mut Rng) -> String {
    let mut digits = match rng.below(8) {
        0 => LIMIT.to_owned(),
        1 => format!("{}1", &LIMIT[..308]),
        2 => (0..=rng.below(40)).map(|_| rng.pick(&['0', '1', '5', '9'])).collect(),
        3 => "0".repeat(1 + rng.below(20)),
        4 => {
            let same = rng.below(309);
            let tail: String = (0..rng.below(30)).map(|_| rng.pick(&['0', '4', '9'])).collect();
            format!("{}{tail}", &LIMIT[..=same])
        }
        // one digit is another
        _ => {
            let at = rng.below(309);
            let digit = rng.pick(&['0', '1', '2', '3', '4', '5', '6', '7', '8', '9']);
            format!("{}{digit}{}", &LIMIT[..at], &LIMIT[at + 1..])
        }
    };
    if rng.once_in(3) {
        digits.push_str(&"0".repeat(rng.below(60)));
    }
    if rng.once_in(6) {
        digits.push(rng.pick(&['1', '9']));
    }
    digits
}

/// With so many digits before the point, and no leading zero.
fn placed(digits: &str, point: i64) -> String {
    let significant = digits.trim_start_matches('0');
    if point <= 0 || significant.len() < digits.len() {
        return format!("0.{}{digits}", "0".repeat(point.min(0).unsigned_abs() as usize));
    }
    let point = point as usize;
    if digits.len() <= point {
        return format!("{digits}{}", "0".repeat(point - digits.len()));
    }
    format!("{}.{}", &digits[..point], &digits[point..])
}

fn exponent(rng: &mut Rng, power: i64) -> String {
    if power == 0 && rng.once_in(2) {
        return String::new();
    }
    let sign = if power < 0 { "-" } else { rng.pick(&["", "", "+"]) };
    let zeros = if rng.once_in(8) { rng.below(60) } else { 0 };
    format!("{}{sign}{}{}", rng.pick(&["e", "E"]), "0".repeat(zeros), power.unsigned_abs())
}

/// With `_` between digits.
fn grouped(rng: &mut Rng, text: &str) -> String {
    let mut grouped = String::new();
    let mut digit = false;
    for c in text.chars() {
        if digit && c.is_ascii_digit() && rng.once_in(9) {
            grouped.push('_');
        }
        digit = c.is_ascii_digit();
        grouped.push(c);
    }
    grouped
}
