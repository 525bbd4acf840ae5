//! Numbers as strings of decimal digits. A lexeme is cut at its letters; nothing is computed before it is known to fit.

use crate::Number;

/// The meaning of a number the grammar allows; None where 01's range does not hold it (refusal 6).
pub fn meaning(lexeme: &[u8]) -> Option<Number> {
    let text = std::str::from_utf8(lexeme).expect("ASCII");
    let minus = text.starts_with('-');
    let plain = text.trim_start_matches(['+', '-']);
    match plain {
        "NaN" => Some(Number::NaN),
        "Infinity" => Some(Number::Infinite { minus }),
        _ => match plain.strip_prefix("0x").or(plain.strip_prefix("0X")) {
            Some(digits) => hex(minus, digits),
            None => decimal(minus, plain),
        },
    }
}

/// 01: "A hex number must itself be below 2^64."
fn hex(minus: bool, digits: &str) -> Option<Number> {
    let significant = digits.trim_start_matches('0');
    let value = match significant.len() {
        0 => 0,
        1..=16 => u64::from_str_radix(significant, 16).ok()?,
        _ => return None,
    };
    normal(minus, &value.to_string(), 0)
}

fn decimal(minus: bool, plain: &str) -> Option<Number> {
    let (mantissa, exponent) = plain.split_once(['e', 'E']).unwrap_or((plain, "0"));
    let (whole, fraction) = mantissa.split_once('.').unwrap_or((mantissa, ""));
    let power = exponent_value(exponent) - fraction.len() as i128;
    normal(minus, &format!("{whole}{fraction}"), power)
}

/// The exponent; one of more than 30 digits is as good as any other: no text is long enough to make up for it.
fn exponent_value(exponent: &str) -> i128 {
    let digits = exponent.trim_start_matches(['+', '-']).trim_start_matches('0');
    let size = match digits.len() {
        0 => 0,
        1..=30 => digits.parse().expect("at most 30 digits"),
        _ => 10i128.pow(30),
    };
    if exponent.starts_with('-') {
        -size
    } else {
        size
    }
}

/// 01: "The coefficient is below 2^64 and doesn't end in the digit 0; the power lies from -9,999 to 9,999; nothing is
/// rounded. Zero has coefficient 0 and power 0; minus zero is apart from zero."
fn normal(minus: bool, digits: &str, power: i128) -> Option<Number> {
    let significant = digits.trim_start_matches('0');
    let coefficient = significant.trim_end_matches('0');
    if coefficient.is_empty() {
        return Some(Number::Finite { minus, coefficient: 0, power: 0 });
    }
    let power = power + (significant.len() - coefficient.len()) as i128;
    if !(-9_999..=9_999).contains(&power) || !below_two_to_64(coefficient) {
        return None;
    }
    Some(Number::Finite { minus, coefficient: coefficient.parse().ok()?, power: power as i32 })
}

/// Compares decimal digits, which have no leading zeros, with those of 2^64.
fn below_two_to_64(digits: &str) -> bool {
    let bound = "18446744073709551616";
    (digits.len(), digits) < (bound.len(), bound)
}
