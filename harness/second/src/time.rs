//! Time values, cut out of their text by position and sign.

use crate::{Date, Value};

const SECOND: u64 = 1_000_000_000;
pub const DAY: u64 = 86_400 * SECOND;

/// The meaning of a time value the grammar allows; None where a field is out of range (refusal 5).
pub fn meaning(lexeme: &[u8]) -> Option<Value> {
    let text = std::str::from_utf8(lexeme).expect("ASCII");
    if text.as_bytes()[2] == b':' {
        return Some(Value::LocalTime(time_of_day(text)?));
    }
    let date = local_date(&text[..10])?;
    if text.len() == 10 {
        return Some(Value::LocalDate(date));
    }
    let rest = &text[11..];
    match rest.find(['Z', 'z', '+', '-']) {
        None => Some(Value::LocalDateTime(date, time_of_day(rest)?)),
        Some(at) => Some(Value::OffsetDateTime(date, time_of_day(&rest[..at])?, offset(&rest[at..])?)),
    }
}

fn local_date(text: &str) -> Option<Date> {
    let fields: Vec<u64> = text.split('-').map(|f| f.parse().expect("digits")).collect();
    let [year, month, day] = fields[..] else { unreachable!("three fields") };
    is_date(year, month, day).then_some(Date { year: year as u16, month: month as u8, day: day as u8 })
}

/// 01: "years 0000 to 9999, leap years as RFC 3339 Appendix C".
pub fn is_date(year: u64, month: u64, day: u64) -> bool {
    let leap = year % 4 == 0 && (year % 100 != 0 || year % 400 == 0);
    let days = match month {
        2 if leap => 29,
        2 => 28,
        4 | 6 | 9 | 11 => 30,
        1..=12 => 31,
        _ => 0,
    };
    year <= 9_999 && (1..=days).contains(&day)
}

/// 01: "hours 0 to 23, minutes and seconds 0 to 59 (no leap seconds). Fraction digits after the ninth are cut off."
fn time_of_day(text: &str) -> Option<u64> {
    let (clock, fraction) = text.split_once('.').unwrap_or((text, ""));
    let fields: Vec<u64> = clock.split(':').map(|f| f.parse().expect("digits")).collect();
    let [hour, minute, second] = fields[..] else { unreachable!("three fields") };
    let nanoseconds: u64 = format!("{fraction:0<9}")[..9].parse().expect("digits");
    (hour < 24 && minute < 60 && second < 60).then_some(((hour * 60 + minute) * 60 + second) * SECOND + nanoseconds)
}

/// An offset in minutes: its hour and minute are judged as those of a time are.
fn offset(text: &str) -> Option<i16> {
    if text == "Z" || text == "z" {
        return Some(0);
    }
    let (hour, minute) = text[1..].split_once(':').expect("hh:mm");
    let (hour, minute): (i16, i16) = (hour.parse().expect("digits"), minute.parse().expect("digits"));
    let size = hour * 60 + minute;
    (hour < 24 && minute < 60).then_some(if text.starts_with('-') { -size } else { size })
}

pub fn date_text(d: &Date) -> String {
    format!("{:04}-{:02}-{:02}", d.year, d.month, d.day)
}

/// 01, Canonical text: "fraction only if not 0, without closing zeros".
pub fn time_text(time: u64) -> String {
    let (seconds, nanoseconds) = (time / SECOND, time % SECOND);
    let clock = format!("{:02}:{:02}:{:02}", seconds / 3600, seconds / 60 % 60, seconds % 60);
    if nanoseconds == 0 {
        return clock;
    }
    let digits = format!("{nanoseconds:09}");
    format!("{clock}.{}", digits.trim_end_matches('0'))
}

/// 01, Canonical text: "offset 0 as `Z`, otherwise sign and hh:mm".
pub fn offset_text(offset: i16) -> String {
    let size = offset.unsigned_abs();
    let sign = if offset < 0 { '-' } else { '+' };
    match offset {
        0 => "Z".to_string(),
        _ => format!("{sign}{:02}:{:02}", size / 60, size % 60),
    }
}
