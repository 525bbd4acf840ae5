//! A second JAXN reader and writer, written from the rules ("01" is the paper of rules, "02" that of the changes to it,
//! "002" the JAXN specification), to be compared with the proved one.
//!
//! Its structure is another one on purpose. The items of the grammar are regular expressions, spelled as 002 prints them
//! (`items`), and are made into tables (`automaton`). A parser with a stack of its own chooses the table by what may stand
//! next (`parser`). Numbers are strings of decimal digits (`number`), times are cut out of their text (`time`), UTF-8 is
//! the standard library's. A tape is well formed when decoding and encoding it again gives the same bytes (`tape`).

mod automaton;
mod calls;
mod canonical;
pub mod cases;
mod items;
mod number;
mod parser;
mod strings;
mod tape;
mod time;

pub use calls::{
    check, date, fill, measure, place_text, program, read, refuse_json, sizes, utf8, write_jaxn, write_json, Sizes,
    Written,
};
pub use canonical::{canonical, json, no_json};
pub use parser::{parse, parse_all};
pub use tape::{decode, decode_all, look, once, tape, Looked};

/// 01: "text over 16,777,216 bytes", and the same limit for records, store bytes and written text.
pub const LIMIT: usize = 16_777_216;

/// 01: "more than 64 arrays and objects open".
pub const DEPTH: usize = 64;

/// A refusal by 01's table.
#[derive(Clone, Copy, PartialEq, Eq, Debug)]
pub struct Refusal {
    pub number: u32,
    pub place: u64,
}

impl Refusal {
    pub fn new(number: u32, place: usize) -> Refusal {
        Refusal { number, place: place as u64 }
    }
}

/// 01, Meanings. Objects are sequences: the order is kept. One with two equal keys is no meaning that is accepted or well formed
/// (02, ticket 5), and can be told of here all the same.
#[derive(Clone, PartialEq, Eq, Debug)]
pub enum Value {
    Null,
    Bool(bool),
    Number(Number),
    String(String),
    Binary(Vec<u8>),
    LocalDate(Date),
    LocalTime(u64),
    LocalDateTime(Date, u64),
    OffsetDateTime(Date, u64, i16),
    Array(Vec<Value>),
    Object(Vec<(String, Value)>),
}

/// 01: "A number is finite, not a number, or infinite with a sign."
#[derive(Clone, Copy, PartialEq, Eq, Debug)]
pub enum Number {
    Finite { minus: bool, coefficient: u64, power: i32 },
    NaN,
    Infinite { minus: bool },
}

#[derive(Clone, Copy, PartialEq, Eq, Debug)]
pub struct Date {
    pub year: u16,
    pub month: u8,
    pub day: u8,
}
