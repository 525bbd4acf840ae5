//! `second` behind the C names, to test the driver without the archive (feature `stub`). With FAULT set to a number in the
//! environment it has that one fault, and the driver must find it (tests/faults.rs).

use crate::archive::{LrRecord, LrSizes, LrStatus, LrWritten};
use crate::tapes;
use second::{Number, Refusal, Sizes, Value, Written};
use std::collections::{HashSet, VecDeque};
use std::slice::{from_raw_parts, from_raw_parts_mut};
use std::sync::{Mutex, OnceLock};

fn fault() -> u32 {
    static FAULT: OnceLock<u32> = OnceLock::new();
    *FAULT.get_or_init(|| std::env::var("FAULT").map_or(0, |n| n.parse().unwrap()))
}

fn utf8(bytes: &[u8]) -> Result<(), Refusal> {
    match second::utf8(bytes) {
        Err(r) if fault() == 1 && r.place as usize + 1 < bytes.len() => Err(Refusal { place: r.place + 1, ..r }),
        Err(r) if fault() == 21 && r.place > 64 => Ok(()),
        other => other,
    }
}

fn date(year: u64, month: u64, day: u64) -> Result<(), Refusal> {
    second::date(if fault() == 2 { year & 0xFFFF_FFFF } else { year }, month, day)
}

/// Whether some object has a key that it should not know of: one of the objects around it or, where `beside` is set, of those that closed
/// before it.
fn knows(value: &Value, keys: &mut Vec<String>, beside: bool) -> bool {
    match value {
        Value::Array(values) => values.iter().any(|v| knows(v, keys, beside)),
        Value::Object(members) => {
            let known = keys.len();
            let own = || members.iter().map(|(key, _)| key.clone());
            if own().any(|key| keys.contains(&key)) {
                return true;
            }
            if !beside {
                keys.extend(own());
            }
            let found = members.iter().any(|(_, v)| knows(v, keys, beside));
            if beside {
                keys.extend(own());
            } else {
                keys.truncate(known);
            }
            found
        }
        _ => false,
    }
}

/// Whether the only keys that are repeated have 126 others before them in their object.
fn beyond(value: &Value) -> bool {
    fn near(value: &Value) -> bool {
        match value {
            Value::Array(values) => values.iter().any(near),
            Value::Object(members) => {
                let first: HashSet<&String> = members.iter().take(126).map(|(key, _)| key).collect();
                members.iter().filter(|(key, _)| first.contains(key)).count() > first.len()
                    || members.iter().any(|(_, v)| near(v))
            }
            _ => false,
        }
    }
    !second::once(value) && !near(value)
}

/// Whether two keys of an object are the same but for their last byte.
fn alike(value: &Value) -> bool {
    match value {
        Value::Array(values) => values.iter().any(alike),
        Value::Object(members) => {
            let begin = |key: &str| key.as_bytes()[..key.len().max(2) - 1].to_vec();
            let long = || members.iter().filter(|(key, _)| key.len() > 1);
            let begins: HashSet<Vec<u8>> = long().map(|(key, _)| begin(key)).collect();
            begins.len() < long().count() || members.iter().any(|(_, v)| alike(v))
        }
        _ => false,
    }
}

/// 15 as a search with this fault tells it. 40: keys are compared as they stand in the text; 41: the earlier key's place; 42: told before a
/// 3 that comes later; 43: keys of the objects around are known too; 44: those of an object that has closed too; 45: only the first
/// 126 keys of an object are known; 46: a key is taken for another one that begins like it; 47: of two, the one that is found last.
fn repeated(text: &[u8], answer: Result<Sizes, Refusal>) -> Result<Sizes, Refusal> {
    let raw = |at: usize| text[at..].iter().position(|b| *b == b':').map(|end| &text[at..at + end]);
    let first = |place: usize| Err(Refusal::new(15, place));
    match (fault(), answer, second::parse_all(text)) {
        (40, Err(r), _) if r.number == 15 => {
            let key = raw(r.place as usize).unwrap_or(b"");
            if text[..r.place as usize].windows(key.len()).any(|w| w == key) {
                answer
            } else {
                second::check(text)
            }
        }
        (41, Err(r), _) if r.number == 15 => first(text.iter().position(|b| *b == b'{').unwrap_or(0) + 1),
        (42, Err(r), _) if r.number == 3 => {
            let closed = [&text[..r.place as usize], b"}"].concat();
            second::measure(&closed).err().filter(|early| early.number == 15).map_or(answer, Err)
        }
        (43, Ok(_), Ok((value, _))) if knows(&value, &mut Vec::new(), false) => first(1),
        (44, Ok(_), Ok((value, _))) if knows(&value, &mut Vec::new(), true) => first(1),
        (45, Err(r), Ok((value, _))) if r.number == 15 && beyond(&value) => second::check(text),
        (46, Ok(_), Ok((value, _))) if alike(&value) => first(1),
        (47, Err(r), _) if r.number == 15 => {
            let later = |p: &usize| text[*p] == text[r.place as usize] && matches!(text[p - 1], b',' | b'{');
            first((r.place as usize..text.len()).filter(later).last().unwrap_or(0))
        }
        _ => answer,
    }
}

fn measure(text: &[u8]) -> Result<Sizes, Refusal> {
    let has = |piece: &[u8]| text.windows(piece.len()).any(|w| w == piece);
    match (fault(), second::measure(text)) {
        (40..=47, answer) => repeated(text, answer),
        (3, Ok(s)) if has(b"\\v") => Ok(Sizes { bytes: s.bytes + 1, ..s }),
        (4, Err(r)) if r.number == 6 && has(b"e9999") => Err(Refusal { place: 0, ..r }),
        (22, Err(r)) if r.number == 7 && text.first() == Some(&b'{') => Err(Refusal { number: 3, ..r }),
        (5, Err(r)) if has(b"/*/") && r.number == 3 => Ok(Sizes { records: 1, bytes: 0 }),
        (_, other) => other,
    }
}

fn read(text: &[u8], tape: &mut [u8], store: &mut [u8]) -> Result<Sizes, Refusal> {
    let answer = second::read(text, tape, store);
    match (fault(), &answer) {
        (6, Err(r)) if r.number == 9 && !tape.is_empty() => tape[0] = b'n',
        (7, Ok(s)) if tape.len() > 16 * s.records as usize => tape[16 * s.records as usize] = 0,
        (8, Ok(s)) if store.len() == s.bytes as usize => unsafe { *store.as_mut_ptr().add(store.len()) = 0 },
        (9, Ok(s)) if s.records == 3 && tape.len() % 16 == 15 => return Err(Refusal { number: 8, place: 48 }),
        (10, Ok(s)) if s.bytes > 3 && text.contains(&b'+') => store[2] ^= 1,
        (23, Ok(s)) if s.bytes > 40 && text.get(36) == Some(&b'\\') => store[33] ^= 0x20,
        (25, Ok(s)) if s.records > 256 => tape[5] = 0,
        (11, Err(r)) if r.number == 4 => return Err(Refusal { number: 4, place: r.place + 1 }),
        // The lengths are tested before the keys.
        (48, Err(r)) if r.number == 15 && tape.is_empty() => return Err(Refusal { number: 8, place: 48 }),
        _ => {}
    }
    answer
}

fn look(tape: &[u8], store: &[u8], index: u64) -> Result<second::Looked, Refusal> {
    let bent = match fault() {
        12 => index & 0x0FFF_FFFF_FFFF_FFFF,
        13 => index & 0xFFFF_FFFF,
        _ => index,
    };
    let answer = second::look(tape, store, bent);
    match (fault(), answer) {
        (26, Ok(l)) if l.kind == 13 && l.count > l.end => Err(Refusal { number: 10, place: index }),
        (27, Ok(l)) => Ok(second::Looked { count: l.count & 0x7FFF_FFFF, ..l }),
        (14, Ok(l)) if l.offset < 0 => Ok(second::Looked { offset: l.offset & 0xFFFF, ..l }),
        (24, Err(r)) if r.number == 10 && tape[16 * index as usize..].starts_with(b"ar") && tape.len() == 32 => {
            second::look(&rec(b"nu"), b"", 0)
        }
        (15, Err(r)) if r.number == 10 && tape[16 * index as usize..].starts_with(b"nu") => {
            second::look(&rec(b"nu"), b"", 0)
        }
        (_, other) => other,
    }
}

fn rec(mark: &[u8; 2]) -> [u8; 16] {
    let mut r = [0; 16];
    r[..2].copy_from_slice(mark);
    r
}

/// What a writer that does not test all of a container would take this tape for.
fn mended(tape: &[u8]) -> Vec<u8> {
    let bent = |index: usize, object: bool, count: u32, end: u64| match fault() {
        29 if object && count % 2 == 0 => (count / 2, end),
        30 if end == index as u64 + 1 => (0, end),
        31 if object => (count & 0x7FFF_FFFF, end),
        32 => (count, end & 0x0FFF_FFFF_FFFF_FFFF),
        33 => (count, end & 0xFFFF_FFFF),
        _ => (count, end),
    };
    match fault() {
        28 => tapes::recounted(tape),
        _ => tapes::bent(tape, bent),
    }
}

fn write_jaxn(tape: &[u8], store: &[u8], out: &mut [u8]) -> Result<Written, Refusal> {
    let answer = second::write_jaxn(tape, store, out);
    match (fault(), &answer) {
        (16, Err(r)) if r.number == 12 && !out.is_empty() => out[0] = b'[',
        (17, Ok(w)) if out.len() > w.length as usize => out[w.length as usize] = 0,
        (18, Err(r)) if r.number == 10 && tape.len() % 16 == 1 => {
            return second::write_jaxn(&tape[..tape.len() - 1], store, out)
        }
        (19, Err(r)) if r.number == 10 && !store.is_empty() => {
            return second::write_jaxn(tape, &store[..store.len() - 1], out)
        }
        (28..=33, Err(r)) if r.number == 10 => return second::write_jaxn(&mended(tape), store, out),
        (49, Err(r)) if r.number == 10 => return keyless(tape, store, |_| true).unwrap_or(answer),
        (50, Err(r)) if r.number == 10 => return keyless(tape, store, beyond).unwrap_or(answer),
        (51, Ok(_)) if second::decode(tape, store).is_some_and(|v| knows(&v, &mut Vec::new(), true)) => {
            return Err(Refusal::new(10, 0));
        }
        (54 | 55, Ok(_)) => {
            return otherwise_written(tape, store).map_or(answer, |text| second::place_text(text.as_bytes(), out))
        }
        _ => {}
    }
    answer
}

/// A number at the border of its form, in the other one. 54: twenty digits, all of them behind the point, with a power;
/// 55: digits and zeros that are twenty-one together, without one.
fn otherwise_written(tape: &[u8], store: &[u8]) -> Option<String> {
    let Value::Number(Number::Finite { minus, coefficient, power }) = second::decode(tape, store)? else { return None };
    let sign = if minus { "-" } else { "" };
    let digits = coefficient.to_string().len() as i32;
    match fault() {
        54 if digits == 20 && power == -20 => Some(format!("{sign}{coefficient}e{power}")),
        55 if power > 0 && digits + power == 21 => Some(format!("{sign}{coefficient}{:0>1$}", "", power as usize)),
        _ => None,
    }
}

/// The answer of a writer that does not look for repeated keys in this value: the fault shows before a byte is written.
fn keyless(tape: &[u8], store: &[u8], blind: fn(&Value) -> bool) -> Option<Result<Written, Refusal>> {
    let value = second::decode_all(tape, store).filter(blind)?;
    Some(second::place_text(&second::canonical(&value), &mut []))
}

fn write_json(tape: &[u8], store: &[u8], out: &mut [u8]) -> Result<Written, Refusal> {
    match (fault(), second::write_json(tape, store, out)) {
        (20, Err(r)) if r.number == 11 && r.place == 3 => second::write_jaxn(tape, store, out),
        (34, Err(r)) if r.number == 10 && tapes::older(tape) => second::write_json(&tapes::recounted(tape), store, out),
        (53, Err(r)) if r.number == 10 => keyless(tape, store, |_| true).unwrap_or(Err(r)),
        (_, other) => other,
    }
}

/// The parts fed last, each with the number of the one before it. Numbers count from 1; a state holds that of its last part, 0 where
/// none came. The oldest are forgotten: no state is in use for so long.
struct Parts {
    forgotten: usize,
    kept: VecDeque<(usize, Vec<u8>)>,
}

const KEPT: usize = 1_000_000;

static PARTS: Mutex<Parts> = Mutex::new(Parts { forgotten: 0, kept: VecDeque::new() });

impl Parts {
    fn get(&self, number: usize) -> Option<&(usize, Vec<u8>)> {
        number.checked_sub(self.forgotten + 1).and_then(|i| self.kept.get(i))
    }

    fn add(&mut self, before: usize, part: &[u8]) -> usize {
        self.kept.push_back((before, part.to_vec()));
        if self.kept.len() > KEPT {
            self.kept.pop_front();
            self.forgotten += 1;
        }
        self.forgotten + self.kept.len()
    }
}

fn last_part(state: &[u8]) -> usize {
    let mut number = [0; 8];
    state.iter().take(8).zip(&mut number).for_each(|(from, to)| *to = *from);
    usize::from_le_bytes(number)
}

fn put_last(state: &mut [u8], number: usize) {
    state.iter_mut().zip(number.to_le_bytes()).for_each(|(to, from)| *to = from);
}

fn joined(state: &[u8]) -> Vec<u8> {
    let (mut number, mut parts) = (last_part(state), Vec::new());
    let all = PARTS.lock().unwrap();
    while let Some((before, part)) = all.get(number) {
        parts.push(part.clone());
        number = *before;
    }
    parts.reverse();
    parts.concat()
}

fn check_feed(state: &mut [u8], part: &[u8]) {
    let kept = match fault() {
        35 if part.starts_with(b"\n") => &part[1..],
        36 if part.is_empty() => b"]",
        _ => part,
    };
    let before = last_part(state);
    put_last(state, PARTS.lock().unwrap().add(before, kept));
    if fault() == 37 && state.len() > 640 {
        state[640] = 0;
    }
}

fn check_finish(state: &[u8]) -> Result<Sizes, Refusal> {
    let text = joined(state);
    match (fault(), second::check(&text)) {
        (38, Err(r)) if r.number == 2 && r.place > 2 => second::check(&text[..2]),
        (52, _) => second::measure(&text),
        (_, other) => other,
    }
}

#[no_mangle]
unsafe extern "C" fn lanternrung_check_start(p: *mut u8, n: usize) {
    let state = from_raw_parts_mut(p, n);
    if fault() != 39 || last_part(state) == 0 {
        put_last(state, 0);
    }
}

#[no_mangle]
unsafe extern "C" fn lanternrung_check_feed(p: *mut u8, n: usize, part: *const u8, part_length: usize) {
    check_feed(from_raw_parts_mut(p, n), from_raw_parts(part, part_length));
}

#[no_mangle]
unsafe extern "C" fn lanternrung_check_finish(p: *const u8, n: usize) -> LrSizes {
    check_finish(from_raw_parts(p, n)).into()
}

#[no_mangle]
unsafe extern "C" fn lanternrung_utf8(p: *const u8, n: usize) -> LrStatus {
    utf8(from_raw_parts(p, n)).into()
}

#[no_mangle]
extern "C" fn lanternrung_date(year: u64, month: u64, day: u64) -> LrStatus {
    date(year, month, day).into()
}

#[no_mangle]
unsafe extern "C" fn lanternrung_measure(p: *const u8, n: usize) -> LrSizes {
    measure(from_raw_parts(p, n)).into()
}

#[no_mangle]
unsafe extern "C" fn lanternrung_read(p: *const u8, n: usize, t: *mut u8, tn: usize, s: *mut u8, sn: usize) -> LrSizes {
    read(from_raw_parts(p, n), from_raw_parts_mut(t, tn), from_raw_parts_mut(s, sn)).into()
}

#[no_mangle]
unsafe extern "C" fn lanternrung_look(t: *const u8, tn: usize, s: *const u8, sn: usize, index: u64) -> LrRecord {
    look(from_raw_parts(t, tn), from_raw_parts(s, sn), index).into()
}

#[no_mangle]
unsafe extern "C" fn lanternrung_write_jaxn(
    t: *const u8,
    tn: usize,
    s: *const u8,
    sn: usize,
    o: *mut u8,
    on: usize,
) -> LrWritten {
    write_jaxn(from_raw_parts(t, tn), from_raw_parts(s, sn), from_raw_parts_mut(o, on)).into()
}

#[no_mangle]
unsafe extern "C" fn lanternrung_write_json(
    t: *const u8,
    tn: usize,
    s: *const u8,
    sn: usize,
    o: *mut u8,
    on: usize,
) -> LrWritten {
    write_json(from_raw_parts(t, tn), from_raw_parts(s, sn), from_raw_parts_mut(o, on)).into()
}
