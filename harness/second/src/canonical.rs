//! The canonical text of a meaning.

use crate::time::{date_text, offset_text, time_text};
use crate::{Number, Refusal, Value};

/// 01, Canonical text, of any meaning (also one whose text is over the limit).
pub fn canonical(value: &Value) -> Vec<u8> {
    let mut out = Vec::new();
    write(value, &mut out);
    out
}

/// "JSON text is the same where 11 doesn't apply."
pub fn json(value: &Value) -> Result<Vec<u8>, Refusal> {
    match no_json(value) {
        Some(index) => Err(Refusal { number: 11, place: index }),
        None => Ok(canonical(value)),
    }
}

/// The index of the first record with no JSON form: non-finite, binary, time.
pub fn no_json(value: &Value) -> Option<u64> {
    search(value, &mut 0)
}

/// Looks through `value`, whose record is number `index`; `index` moves on past its records.
fn search(value: &Value, index: &mut u64) -> Option<u64> {
    let own = *index;
    *index += 1;
    match value {
        Value::Null | Value::Bool(_) | Value::String(_) | Value::Number(Number::Finite { .. }) => None,
        Value::Array(values) => values.iter().find_map(|v| search(v, index)),
        Value::Object(members) => members.iter().find_map(|(_, v)| {
            *index += 1;
            search(v, index)
        }),
        _ => Some(own),
    }
}

fn write(value: &Value, out: &mut Vec<u8>) {
    match value {
        Value::Null => out.extend(b"null"),
        Value::Bool(b) => out.extend(b.to_string().bytes()),
        Value::Number(n) => out.extend(number(n).bytes()),
        Value::String(s) => quoted(s, out),
        Value::Binary(b) => binary(b, out),
        Value::LocalDate(d) => out.extend(date_text(d).bytes()),
        Value::LocalTime(t) => out.extend(time_text(*t).bytes()),
        Value::LocalDateTime(d, t) => out.extend(format!("{}T{}", date_text(d), time_text(*t)).bytes()),
        Value::OffsetDateTime(d, t, o) => {
            out.extend(format!("{}T{}{}", date_text(d), time_text(*t), offset_text(*o)).bytes());
        }
        Value::Array(values) => list(b"[]", values, out, write),
        Value::Object(members) => list(b"{}", members, out, |(key, v), out| {
            quoted(key, out);
            out.push(b':');
            write(v, out);
        }),
    }
}

fn list<T>(brackets: &[u8; 2], elements: &[T], out: &mut Vec<u8>, one: impl Fn(&T, &mut Vec<u8>)) {
    out.push(brackets[0]);
    for (i, element) in elements.iter().enumerate() {
        if i > 0 {
            out.push(b',');
        }
        one(element, out);
    }
    out.push(brackets[1]);
}

/// "Numbers: minus if set, coefficient", and 02, ticket 6, on the power.
fn number(n: &Number) -> String {
    match n {
        Number::NaN => "NaN".to_string(),
        Number::Infinite { minus: false } => "Infinity".to_string(),
        Number::Infinite { minus: true } => "-Infinity".to_string(),
        Number::Finite { minus, coefficient, power } => {
            let sign = if *minus { "-" } else { "" };
            format!("{sign}{}", finite(coefficient.to_string(), i64::from(*power)))
        }
    }
}

/// 02, ticket 6: "Where p is 0 or more and d + p is at most 20, write the digits and p zeros. Where p is from -20 to -1, write
/// the digits with the last -p of them after a decimal point, with `0.` and zeros in front where needed. Otherwise keep the
/// `e` form."
fn finite(mut digits: String, p: i64) -> String {
    if p >= 0 && digits.len() as i64 + p <= 20 {
        return digits + &"0".repeat(p as usize);
    }
    if (-20..=-1).contains(&p) {
        let behind = -p as usize;
        while digits.len() <= behind {
            digits.insert(0, '0');
        }
        digits.insert(digits.len() - behind, '.');
        return digits;
    }
    format!("{digits}e{p}")
}

fn quoted(s: &str, out: &mut Vec<u8>) {
    out.push(b'"');
    for b in s.bytes() {
        match b {
            b'"' => out.extend(b"\\\""),
            b'\\' => out.extend(b"\\\\"),
            0x08 => out.extend(b"\\b"),
            0x0C => out.extend(b"\\f"),
            0x0A => out.extend(b"\\n"),
            0x0D => out.extend(b"\\r"),
            0x09 => out.extend(b"\\t"),
            0..=0x1F => out.extend(format!("\\u00{b:02x}").bytes()),
            _ => out.push(b),
        }
    }
    out.push(b'"');
}

fn binary(bytes: &[u8], out: &mut Vec<u8>) {
    out.push(b'$');
    for b in bytes {
        for digit in [b >> 4, b & 15] {
            out.push(b"0123456789abcdef"[digit as usize]);
        }
    }
}
