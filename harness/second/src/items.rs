//! The items as 002 prints them, changed where 01 decides otherwise, and one table for each thing the parser may expect.

use crate::automaton::{byte, opt, range, some, space_before_digit, star, times, word, Rx, Table};
use std::sync::OnceLock;

/// 01: "An item is a bracket, sign of punctuation, word, key identifier, number, time value, string part or binary part."
/// Layout goes through the same tables.
#[derive(Clone, Copy, PartialEq, Eq, Debug)]
pub enum Item {
    Layout,
    BeginArray,
    EndArray,
    BeginObject,
    EndObject,
    Comma,
    Colon,
    Plus,
    Word,
    Number,
    Time,
    StringPart,
    BinaryPart,
    Identifier,
}

use Item::*;

/// What may stand next. The last part of each name says what is open around it.
#[derive(Clone, Copy, PartialEq, Eq, Debug)]
pub enum Expect {
    Value,
    ValueOrEnd,
    AfterValueAlone,
    AfterValueInArray,
    AfterValueInObject,
    AfterPartAlone,
    AfterPartInArray,
    AfterPartInObject,
    KeyOrEnd,
    AfterIdentifier,
    AfterKeyPart,
    KeyPart,
    StringPart,
    BinaryPart,
}

const ALL: [Expect; 14] = [
    Expect::Value,
    Expect::ValueOrEnd,
    Expect::AfterValueAlone,
    Expect::AfterValueInArray,
    Expect::AfterValueInObject,
    Expect::AfterPartAlone,
    Expect::AfterPartInArray,
    Expect::AfterPartInObject,
    Expect::KeyOrEnd,
    Expect::AfterIdentifier,
    Expect::AfterKeyPart,
    Expect::KeyPart,
    Expect::StringPart,
    Expect::BinaryPart,
];

const VALUE: [Item; 7] = [BeginArray, BeginObject, Word, Number, Time, StringPart, BinaryPart];

/// The items that may stand where `expect` is; layout may always.
fn allowed(expect: Expect) -> Vec<Item> {
    let mut items = match expect {
        Expect::Value => VALUE.to_vec(),
        Expect::ValueOrEnd => [&VALUE[..], &[EndArray]].concat(),
        Expect::AfterValueAlone => vec![],
        Expect::AfterValueInArray => vec![Comma, EndArray],
        Expect::AfterValueInObject => vec![Comma, EndObject],
        Expect::AfterPartAlone => vec![Plus],
        Expect::AfterPartInArray => vec![Plus, Comma, EndArray],
        Expect::AfterPartInObject => vec![Plus, Comma, EndObject],
        Expect::KeyOrEnd => vec![StringPart, Identifier, EndObject],
        Expect::AfterIdentifier => vec![Colon],
        Expect::AfterKeyPart => vec![Plus, Colon],
        Expect::KeyPart | Expect::StringPart => vec![StringPart],
        Expect::BinaryPart => vec![BinaryPart],
    };
    items.push(Layout);
    items
}

pub fn table(expect: Expect) -> &'static Table<Item> {
    static TABLES: OnceLock<Vec<Table<Item>>> = OnceLock::new();
    let make = |e: &Expect| Table::new(&allowed(*e).into_iter().map(|i| (i, rule(i))).collect::<Vec<_>>());
    &TABLES.get_or_init(|| ALL.iter().map(make).collect())[expect as usize]
}

fn rule(item: Item) -> Rx {
    match item {
        Layout => layout(),
        BeginArray => byte(b'['),
        EndArray => byte(b']'),
        BeginObject => byte(b'{'),
        EndObject => byte(b'}'),
        Comma => byte(b','),
        Colon => byte(b':'),
        Plus => byte(b'+'),
        Word => word("null") | word("true") | word("false"),
        Number => number(),
        Time => time_value(),
        StringPart => string_part(),
        BinaryPart => b_value(),
        Identifier => i_begin() + star(i_begin() | digit()),
    }
}

fn digit() -> Rx {
    range(b'0', b'9')
}

/// 01: "Hex digits are accepted in either case."
fn hexdig() -> Rx {
    digit() | range(b'a', b'f') | range(b'A', b'F')
}

fn sign() -> Rx {
    byte(b'+') | byte(b'-')
}

// ---- Comments

fn layout() -> Rx {
    some(byte(0x20) | byte(0x09) | byte(0x0A) | byte(0x0D)) | c_line() | c_block()
}

fn c_line() -> Rx {
    (byte(b'#') | word("//")) + star(byte(0x09) | range(0x20, 0xFF))
}

fn c_block() -> Rx {
    let plain = || byte(0x09) | byte(0x0A) | byte(0x0D) | range(0x20, 0x29);
    let c_no_star = plain() | range(0x2B, 0xFF);
    let c_no_star_or_slash = plain() | range(0x2B, 0x2E) | range(0x30, 0xFF);
    let star_char = || byte(b'*');
    word("/*") + star(c_no_star | some(star_char()) + c_no_star_or_slash) + some(star_char()) + byte(b'/')
}

// ---- Numbers

fn number() -> Rx {
    let hex = byte(b'0') + (byte(b'x') | byte(b'X')) + some(hexdig());
    opt(sign()) + (word("NaN") | word("Infinity") | hex | dec())
}

fn dec() -> Rx {
    let exp = (byte(b'e') | byte(b'E')) + opt(sign()) + some(digit());
    let frac0 = byte(b'.') + star(digit());
    let frac1 = byte(b'.') + some(digit());
    let int = byte(b'0') | range(b'1', b'9') + star(digit());
    (int + opt(frac0) | frac1) + opt(exp)
}

// ---- Strings

fn string_part() -> Rx {
    let m_d_char = opt(byte(b'"')) + opt(byte(b'"')) + (layout_char() | range(0x20, 0x21) | range(0x23, 0xFF));
    let m_s_char = opt(byte(b'\'')) + opt(byte(b'\'')) + (layout_char() | range(0x20, 0x26) | range(0x28, 0xFF));
    let m_d_string = times(3, byte(b'"')) + star(m_d_char) + times(3, byte(b'"'));
    let m_s_string = times(3, byte(b'\'')) + star(m_s_char) + times(3, byte(b'\''));
    let d_string = byte(b'"') + star(s_char() | byte(b'\'')) + byte(b'"');
    let s_string = byte(b'\'') + star(s_char() | byte(b'"')) + byte(b'\'');
    m_d_string | m_s_string | d_string | s_string
}

/// Tab, LF and CR, which a multiline part may hold.
fn layout_char() -> Rx {
    byte(0x09) | byte(0x0A) | byte(0x0D)
}

fn s_char() -> Rx {
    let unescaped = range(0x20, 0x21) | range(0x23, 0x26) | range(0x28, 0x5B) | range(0x5D, 0xFF);
    let u = byte(b'u') + times(4, hexdig());
    let u_braces = word("u{") + some(hexdig()) + byte(b'}');
    unescaped | byte(b'\\') + (short_escape() | u | u_braces)
}

fn short_escape() -> Rx {
    b"\"'\\/0bfnrtv".iter().map(|&b| byte(b)).reduce(|a, b| a | b).expect("not empty")
}

// ---- Date and time

fn time_value() -> Rx {
    let time_offset = quoted(b'Z') | sign() + times(2, digit()) + byte(b':') + times(2, digit());
    let separator = quoted(b'T') | space_before_digit();
    local_time() | local_date() + opt(separator + local_time() + opt(time_offset))
}

/// RFC 5234, 2.3: a letter between quotes stands for both its cases (02, ticket 1).
fn quoted(letter: u8) -> Rx {
    byte(letter) | byte(letter.to_ascii_lowercase())
}

fn local_time() -> Rx {
    let two = || times(2, digit());
    two() + byte(b':') + two() + byte(b':') + two() + opt(byte(b'.') + some(digit()))
}

fn local_date() -> Rx {
    times(4, digit()) + byte(b'-') + times(2, digit()) + byte(b'-') + times(2, digit())
}

// ---- Binary

fn b_value() -> Rx {
    let b_unescaped = range(0x20, 0x21) | range(0x23, 0x26) | range(0x28, 0x5B) | range(0x5D, 0x7E);
    let b_char = || b_unescaped.clone() | byte(b'\\') + (short_escape() | byte(b'x') + times(2, hexdig()));
    let b_d_string = byte(b'"') + star(b_char() | byte(b'\'')) + byte(b'"');
    let b_s_string = byte(b'\'') + star(b_char() | byte(b'"')) + byte(b'\'');
    let b_part = || some(times(2, hexdig()));
    let b_direct = b_part() + star(byte(b'.') + b_part());
    byte(b'$') + opt(b_d_string | b_s_string | b_direct)
}

// ---- Keys

fn i_begin() -> Rx {
    range(b'A', b'Z') | range(b'a', b'z') | byte(b'$') | byte(b'_')
}
