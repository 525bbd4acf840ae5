//! The tape and the store: encoding, decoding, and the look at one record.

use crate::time::{is_date, DAY};
use crate::{Date, Number, Refusal, Value, DEPTH, LIMIT};
use std::collections::HashSet;

/// One record with its fields. The order of the cases is that of 01's table with `st`, `ky`, `by` apart.
#[derive(Clone, Copy, PartialEq, Eq, Debug)]
enum Record {
    Null,
    Bool(bool),
    Finite { minus: bool, coefficient: u64, power: i32 },
    Other(u8),
    Bytes { mark: [u8; 2], length: u32, start: u64 },
    LocalDate(Date),
    LocalTime(u64),
    LocalDateTime(Date, u64),
    OffsetDateTime(Date, u64, i16),
    Container { mark: [u8; 2], count: u32, end: u64 },
}

const STRING: [u8; 2] = *b"st";
const KEY: [u8; 2] = *b"ky";
const BINARY: [u8; 2] = *b"by";
const ARRAY: [u8; 2] = *b"ar";
const OBJECT: [u8; 2] = *b"ob";

/// A record's 16 bytes: the mark, then the fields at the places of 01's table; all else is zero.
fn encode(record: Record) -> [u8; 16] {
    match record {
        Record::Null => Bytes::new(*b"nu"),
        Record::Bool(b) => Bytes::new(*b"bo").with(4, [b as u8]),
        Record::Finite { minus, coefficient, power } => {
            Bytes::new(*b"nb").with(2, [minus as u8]).with(4, power.to_le_bytes()).with(8, coefficient.to_le_bytes())
        }
        Record::Other(which) => Bytes::new(*b"nx").with(4, [which]),
        Record::Bytes { mark, length, start } => {
            Bytes::new(mark).with(4, length.to_le_bytes()).with(8, start.to_le_bytes())
        }
        Record::LocalDate(d) => Bytes::new(*b"ld").with(2, date_bytes(d)),
        Record::LocalTime(t) => Bytes::new(*b"lt").with(8, t.to_le_bytes()),
        Record::LocalDateTime(d, t) => Bytes::new(*b"dt").with(2, date_bytes(d)).with(8, t.to_le_bytes()),
        Record::OffsetDateTime(d, t, o) => {
            Bytes::new(*b"od").with(2, date_bytes(d)).with(6, o.to_le_bytes()).with(8, t.to_le_bytes())
        }
        Record::Container { mark, count, end } => {
            Bytes::new(mark).with(4, count.to_le_bytes()).with(8, end.to_le_bytes())
        }
    }
    .0
}

/// A record that is being put together.
struct Bytes([u8; 16]);

impl Bytes {
    fn new(mark: [u8; 2]) -> Bytes {
        Bytes([0; 16]).with(0, mark)
    }

    fn with<const N: usize>(mut self, at: usize, field: [u8; N]) -> Bytes {
        self.0[at..at + N].copy_from_slice(&field);
        self
    }
}

fn date_bytes(d: Date) -> [u8; 4] {
    let [low, high] = d.year.to_le_bytes();
    [low, high, d.month, d.day]
}

/// Reads a record's fields; None where a field is outside its range or a byte that has no name is not zero.
fn record(bytes: &[u8; 16]) -> Option<Record> {
    let four = u32::from_le_bytes(bytes[4..8].try_into().expect("four"));
    let eight = u64::from_le_bytes(bytes[8..].try_into().expect("eight"));
    let date = Date { year: u16::from_le_bytes([bytes[2], bytes[3]]), month: bytes[4], day: bytes[5] };
    let record = match &bytes[..2] {
        b"nu" => Record::Null,
        b"bo" => Record::Bool(bytes[4] == 1),
        b"nb" => Record::Finite { minus: bytes[2] == 1, coefficient: eight, power: four as i32 },
        b"nx" => Record::Other(bytes[4]),
        b"st" | b"ky" | b"by" => Record::Bytes { mark: [bytes[0], bytes[1]], length: four, start: eight },
        b"ld" => Record::LocalDate(date),
        b"lt" => Record::LocalTime(eight),
        b"dt" => Record::LocalDateTime(date, eight),
        b"od" => Record::OffsetDateTime(date, eight, i16::from_le_bytes([bytes[6], bytes[7]])),
        b"ar" | b"ob" => Record::Container { mark: [bytes[0], bytes[1]], count: four, end: eight },
        _ => return None,
    };
    (lawful(record) && encode(record) == *bytes).then_some(record)
}

/// The ranges of 01's meanings that concern one record alone.
fn lawful(record: Record) -> bool {
    let date = |d: Date| is_date(d.year.into(), d.month.into(), d.day.into());
    match record {
        Record::Finite { coefficient: 0, power, .. } => power == 0,
        Record::Finite { coefficient, power, .. } => coefficient % 10 != 0 && (-9_999..=9_999).contains(&power),
        Record::Other(which) => which <= 2,
        Record::LocalDate(d) => date(d),
        Record::LocalTime(t) => t < DAY,
        Record::LocalDateTime(d, t) => date(d) && t < DAY,
        Record::OffsetDateTime(d, t, o) => date(d) && t < DAY && (-1_439..=1_439).contains(&o),
        Record::Null | Record::Bool(_) | Record::Bytes { .. } | Record::Container { .. } => true,
    }
}

/// The tape and the store of a meaning.
pub fn tape(value: &Value) -> (Vec<u8>, Vec<u8>) {
    let mut out = Encoder::default();
    out.value(value);
    (out.tape, out.store)
}

#[derive(Default)]
struct Encoder {
    tape: Vec<u8>,
    store: Vec<u8>,
}

impl Encoder {
    fn value(&mut self, value: &Value) {
        match value {
            Value::Null => self.push(Record::Null),
            Value::Bool(b) => self.push(Record::Bool(*b)),
            Value::Number(n) => self.push(number_record(*n)),
            Value::String(s) => self.bytes(STRING, s.as_bytes()),
            Value::Binary(b) => self.bytes(BINARY, b),
            Value::LocalDate(d) => self.push(Record::LocalDate(*d)),
            Value::LocalTime(t) => self.push(Record::LocalTime(*t)),
            Value::LocalDateTime(d, t) => self.push(Record::LocalDateTime(*d, *t)),
            Value::OffsetDateTime(d, t, o) => self.push(Record::OffsetDateTime(*d, *t, *o)),
            Value::Array(values) => self.container(ARRAY, values, |out, v| out.value(v)),
            Value::Object(members) => self.container(OBJECT, members, |out, (k, v)| out.member(k, v)),
        }
    }

    fn member(&mut self, key: &str, value: &Value) {
        self.bytes(KEY, key.as_bytes());
        self.value(value);
    }

    fn push(&mut self, record: Record) {
        self.tape.extend(encode(record));
    }

    fn bytes(&mut self, mark: [u8; 2], bytes: &[u8]) {
        self.push(Record::Bytes { mark, length: bytes.len() as u32, start: self.store.len() as u64 });
        self.store.extend(bytes);
    }

    /// 01: "index just after the last record inside, or after its own if empty". It is known once the inside is written.
    /// 02: "the number of elements or members directly inside".
    fn container<T>(&mut self, mark: [u8; 2], inside: &[T], each: impl Fn(&mut Encoder, &T)) {
        let (at, count) = (self.tape.len(), inside.len() as u32);
        self.push(Record::Container { mark, count, end: 0 });
        inside.iter().for_each(|one| each(self, one));
        let end = (self.tape.len() / 16) as u64;
        self.tape[at..at + 16].copy_from_slice(&encode(Record::Container { mark, count, end }));
    }
}

fn number_record(number: Number) -> Record {
    match number {
        Number::Finite { minus, coefficient, power } => Record::Finite { minus, coefficient, power },
        Number::NaN => Record::Other(0),
        Number::Infinite { minus: false } => Record::Other(1),
        Number::Infinite { minus: true } => Record::Other(2),
    }
}

/// The meaning of a tape and store, if they are well formed.
///
/// 01: "A tape and store are well formed when they are those of one meaning within these limits, with at most 16,777,216
/// records and at most 16,777,216 store bytes." So: find the one meaning it could be, and see whether its tape is this one. 02,
/// ticket 5, calls no tape of an object with two equal keys well formed.
pub fn decode(bytes: &[u8], store: &[u8]) -> Option<Value> {
    decode_all(bytes, store).filter(once)
}

/// Whether no object in it has two equal keys.
pub fn once(value: &Value) -> bool {
    match value {
        Value::Array(values) => values.iter().all(once),
        Value::Object(members) => {
            let keys: HashSet<&str> = members.iter().map(|(key, _)| key.as_str()).collect();
            keys.len() == members.len() && members.iter().all(|(_, v)| once(v))
        }
        _ => true,
    }
}

/// The same where two equal keys are no fault.
pub fn decode_all(bytes: &[u8], store: &[u8]) -> Option<Value> {
    if bytes.len() % 16 != 0 || bytes.len() / 16 > LIMIT || store.len() > LIMIT {
        return None;
    }
    let records: Option<Vec<Record>> = bytes.chunks(16).map(|r| record(r.try_into().expect("16"))).collect();
    let records = records?;
    let mut decoder = Decoder { records: &records, store, at: 0 };
    let value = decoder.value(0)?;
    let (same_bytes, same_store) = tape(&value);
    (same_bytes == bytes && same_store == store).then_some(value)
}

struct Decoder<'a> {
    records: &'a [Record],
    store: &'a [u8],
    at: usize,
}

impl Decoder<'_> {
    fn next(&mut self) -> Option<Record> {
        self.at += 1;
        self.records.get(self.at - 1).copied()
    }

    /// The value that begins at the present record, with `depth` containers around it.
    fn value(&mut self, depth: usize) -> Option<Value> {
        Some(match self.next()? {
            Record::Null => Value::Null,
            Record::Bool(b) => Value::Bool(b),
            Record::Finite { minus, coefficient, power } => Value::Number(Number::Finite { minus, coefficient, power }),
            Record::Other(0) => Value::Number(Number::NaN),
            Record::Other(which) => Value::Number(Number::Infinite { minus: which == 2 }),
            Record::Bytes { mark: STRING, length, start } => Value::String(self.text(length, start)?),
            Record::Bytes { mark: BINARY, length, start } => Value::Binary(inside(self.store, length, start)?.to_vec()),
            Record::Bytes { .. } => return None,
            Record::LocalDate(d) => Value::LocalDate(d),
            Record::LocalTime(t) => Value::LocalTime(t),
            Record::LocalDateTime(d, t) => Value::LocalDateTime(d, t),
            Record::OffsetDateTime(d, t, o) => Value::OffsetDateTime(d, t, o),
            Record::Container { .. } if depth == DEPTH => return None,
            Record::Container { mark: ARRAY, end, .. } => Value::Array(self.until(end, |d| d.value(depth + 1))?),
            Record::Container { end, .. } => Value::Object(self.until(end, |d| Some((d.key()?, d.value(depth + 1)?)))?),
        })
    }

    fn until<T>(&mut self, end: u64, mut element: impl FnMut(&mut Self) -> Option<T>) -> Option<Vec<T>> {
        let mut all = Vec::new();
        while (self.at as u64) < end {
            all.push(element(self)?);
        }
        Some(all)
    }

    fn key(&mut self) -> Option<String> {
        match self.next()? {
            Record::Bytes { mark: KEY, length, start } => self.text(length, start),
            _ => None,
        }
    }

    fn text(&self, length: u32, start: u64) -> Option<String> {
        String::from_utf8(inside(self.store, length, start)?.to_vec()).ok()
    }
}

/// The store's bytes that a record names, if they lie inside it.
fn inside(store: &[u8], length: u32, start: u64) -> Option<&[u8]> {
    let start = usize::try_from(start).ok()?;
    store.get(start..start.checked_add(length as usize)?)
}

/// What `look` answers: kind 1 to 13 in the order nu bo nb nx st ky by ld lt dt od ar ob, the fields that the kind has, and
/// 0 in the others. The flag is the bool, the minus sign or the value of `nx`.
#[derive(Clone, Copy, PartialEq, Eq, Debug, Default)]
pub struct Looked {
    pub kind: u32,
    pub flag: u32,
    pub power: i32,
    pub coefficient: u64,
    pub length: u64,
    pub start: u64,
    pub year: u32,
    pub month: u32,
    pub day: u32,
    pub offset: i32,
    pub time: u64,
    pub end: u64,
    pub count: u64,
}

/// 01: "Look judges one record only: mark, own fields, unnamed bytes zero, string inside the store (UTF-8 for `st` and
/// `ky`), container end past its own index and not above the number of whole records." 14 comes before 10. 02: "Look gives the
/// count as stored, since it judges one record only."
pub fn look(tape: &[u8], store: &[u8], index: u64) -> Result<Looked, Refusal> {
    let whole = (tape.len() / 16) as u64;
    if index >= whole {
        return Err(Refusal { number: 14, place: index });
    }
    let at = 16 * index as usize;
    let bytes = tape[at..at + 16].try_into().expect("16");
    match record(bytes).filter(|r| stands(*r, store, index, whole)) {
        Some(record) => Ok(looked(record)),
        None => Err(Refusal { number: 10, place: index }),
    }
}

/// The part of look's judgement that asks for more than the record.
fn stands(record: Record, store: &[u8], index: u64, whole: u64) -> bool {
    match record {
        Record::Bytes { mark, length, start } => {
            inside(store, length, start).is_some_and(|b| mark == BINARY || std::str::from_utf8(b).is_ok())
        }
        Record::Container { end, .. } => index < end && end <= whole,
        _ => true,
    }
}

fn looked(record: Record) -> Looked {
    let mut l = match record {
        Record::LocalDate(d) | Record::LocalDateTime(d, _) | Record::OffsetDateTime(d, ..) => {
            Looked { year: d.year.into(), month: d.month.into(), day: d.day.into(), ..Looked::default() }
        }
        _ => Looked::default(),
    };
    match record {
        Record::Null => l.kind = 1,
        Record::Bool(b) => (l.kind, l.flag) = (2, b.into()),
        Record::Finite { minus, coefficient, power } => {
            (l.kind, l.flag, l.coefficient, l.power) = (3, minus.into(), coefficient, power)
        }
        Record::Other(which) => (l.kind, l.flag) = (4, which.into()),
        Record::Bytes { mark, length, start } => {
            let kind = 5 + [STRING, KEY, BINARY].iter().position(|m| *m == mark).expect("one of three") as u32;
            (l.kind, l.length, l.start) = (kind, length.into(), start);
        }
        Record::LocalDate(_) => l.kind = 8,
        Record::LocalTime(t) => (l.kind, l.time) = (9, t),
        Record::LocalDateTime(_, t) => (l.kind, l.time) = (10, t),
        Record::OffsetDateTime(_, t, o) => (l.kind, l.time, l.offset) = (11, t, o.into()),
        Record::Container { mark, count, end } => {
            (l.kind, l.count, l.end) = (if mark == ARRAY { 12 } else { 13 }, count.into(), end);
        }
    }
    l
}
