//! One text, or one tape with its store, through all calls, on both sides. Each lent buffer lies between two margins, is
//! filled with a pattern first, and is compared whole, with its margins, afterwards. Texts, tapes and stores that are only
//! read end at a wall (`guard`), and are looked over for changes.

use crate::archive::{self, LrRecord, LrSizes, LrStatus, LrWritten};
use crate::guard::Guard;
use crate::parts;
use second::{Refusal, Value};
use std::cell::RefCell;
use std::fmt::Debug;
use std::thread::LocalKey;

/// A call whose answer or buffers are not as they should be.
#[derive(Debug)]
pub struct Mismatch {
    pub call: String,
    pub got: String,
    pub should: String,
}

pub type Check = Result<(), Mismatch>;

/// How many buffer lengths to try.
#[derive(Clone, Copy, PartialEq, Eq)]
pub enum Effort {
    /// What is needed, and one other length of `Edges` that the number picks.
    One(usize),
    /// None, and the lengths around what is needed where something may change: by a byte, by a record.
    Edges,
    /// Every length up to past what is needed; of a long buffer, those near both ends.
    Every,
}

const MARGIN: usize = 32;

/// A lent buffer between margins. The front one varies, so that the buffer begins at any remainder of 8.
pub struct Lent {
    bytes: Vec<u8>,
    front: usize,
    length: usize,
}

impl Lent {
    pub fn new(length: usize, salt: u8) -> Lent {
        let front = MARGIN + (length ^ salt as usize) % 8;
        let bytes = (0..front + length + MARGIN).map(|i| Lent::pattern(i, salt)).collect();
        Lent { bytes, front, length }
    }

    fn pattern(i: usize, salt: u8) -> u8 {
        (i as u8).wrapping_mul(37) ^ salt
    }

    /// Whether the bytes before and after what is lent are as they were made.
    pub fn margins_stand(&self, salt: u8) -> bool {
        let outside = (0..self.front).chain(self.front + self.length..self.bytes.len());
        outside.into_iter().all(|i| self.bytes[i] == Lent::pattern(i, salt))
    }

    pub fn part(&mut self) -> &mut [u8] {
        &mut self.bytes[self.front..self.front + self.length]
    }
}

pub fn same<T: PartialEq + Debug>(call: impl FnOnce() -> String, got: T, should: T) -> Check {
    if got == should {
        return Ok(());
    }
    Err(Mismatch { call: call(), got: format!("{got:?}"), should: format!("{should:?}") })
}

fn same_buffer(call: impl FnOnce() -> String, got: &Lent, should: &Lent) -> Check {
    if got.bytes == should.bytes {
        return Ok(());
    }
    let at = (0..got.bytes.len()).find(|&i| got.bytes[i] != should.bytes[i]).expect("they differ");
    let show =
        |l: &Lent| format!("{:02x?} at {}", &l.bytes[at..l.bytes.len().min(at + 16)], at as i64 - l.front as i64);
    Err(Mismatch { call: call(), got: show(got), should: show(should) })
}

/// The second reader's reading of a text, made once for all calls. Where a key is repeated, there are a value and a tape too: the check in
/// parts answers its sizes, and the writers refuse it.
struct Reading {
    value: Option<Value>,
    answer: Result<second::Sizes, Refusal>,
    in_parts: Result<second::Sizes, Refusal>,
    tape: Vec<u8>,
    store: Vec<u8>,
}

fn reading(text: &[u8]) -> Reading {
    match second::parse_all(text) {
        Err(r) => Reading { value: None, answer: Err(r), in_parts: Err(r), tape: Vec::new(), store: Vec::new() },
        Ok((value, repeated)) => {
            let (tape, store) = second::tape(&value);
            let sizes = second::sizes(&tape, &store);
            Reading { value: Some(value), answer: repeated.map_or(Ok(sizes), Err), in_parts: Ok(sizes), tape, store }
        }
    }
}

thread_local! {
    pub static PART: RefCell<Guard> = RefCell::new(Guard::new());
    static TEXT: RefCell<Guard> = RefCell::new(Guard::new());
    static TAPE: RefCell<Guard> = RefCell::new(Guard::new());
    static STORE: RefCell<Guard> = RefCell::new(Guard::new());
}

/// What `with_borrow_mut` does, which Rust has from 1.73 on.
pub fn lent<R>(guard: &'static LocalKey<RefCell<Guard>>, with: impl FnOnce(&mut Guard) -> R) -> R {
    guard.with(|g| with(&mut g.borrow_mut()))
}

/// A text through utf8, measure, a check in parts and read; where it is accepted or has a repeated key, its tape through look and the
/// writers.
pub fn text(text: &[u8], effort: Effort) -> Check {
    let should = reading(text);
    lent(&TEXT, |guard| {
        let placed = guard.place(text);
        read_calls(placed, &should, effort)?;
        same(|| "the text after the calls".into(), placed == text, true)
    })?;
    match &should.value {
        Some(value) => tape_calls(should.answer.ok().map(|_| value), &should.tape, &should.store, effort),
        None => Ok(()),
    }
}

fn read_calls(text: &[u8], should: &Reading, effort: Effort) -> Check {
    same(|| "utf8".into(), archive::utf8(text), LrStatus::from(second::utf8(text)))?;
    same(|| "measure".into(), archive::measure(text), LrSizes::from(should.answer))?;
    parts::text(text, LrSizes::from(should.in_parts), effort)?;
    for (tape_length, store_length) in read_lengths(should, effort) {
        read(text, should, tape_length, store_length)?;
    }
    Ok(())
}

/// Look and the writers on a tape that has this meaning, or none.
fn tape_calls(value: Option<&Value>, tape: &[u8], store: &[u8], effort: Effort) -> Check {
    lent(&TAPE, |tape_guard| {
        lent(&STORE, |store_guard| {
            let (placed_tape, placed_store) = (tape_guard.place(tape), store_guard.place(store));
            match value {
                Some(value) => meaning(value, placed_tape, placed_store, effort)?,
                None => broken(placed_tape, placed_store)?,
            }
            same(|| "tape and store after the calls".into(), (placed_tape, placed_store), (tape, store))
        })
    })
}

/// The lengths around `n` that are worth a try.
fn around(n: usize, steps: &[i64]) -> Vec<usize> {
    let mut all: Vec<usize> = steps.iter().filter_map(|s| usize::try_from(n as i64 + s).ok()).collect();
    all.push(0);
    all.sort();
    all.dedup();
    all
}

/// Every length from none to `past` more than `n`; of a long buffer, the first and last hundred.
fn every(n: usize, past: usize) -> Vec<usize> {
    (0..=n + past).filter(|l| *l < 100 || l + 100 > n).collect()
}

fn crossed(tapes: &[usize], stores: &[usize]) -> Vec<(usize, usize)> {
    tapes.iter().flat_map(|&t| stores.iter().map(move |&s| (t, s))).collect()
}

fn read_lengths(should: &Reading, effort: Effort) -> Vec<(usize, usize)> {
    let (t, s) = (should.tape.len(), should.store.len());
    match should.answer {
        Err(r) if r.number == 15 => return vec![(0, 0), (t, 0), (t, s), (t + 16, s + 1)],
        Err(_) => return vec![(0, 0), (48, 16)],
        Ok(_) => {}
    }
    let (tapes, stores) = (around(t, &[-17, -16, -15, -1, 0, 1, 15, 16, 33]), around(s, &[-2, -1, 0, 1, 2, 20]));
    let edges = crossed(&tapes, &stores);
    match effort {
        Effort::One(pick) => vec![(t, s), edges[pick % edges.len()]],
        Effort::Edges => edges,
        Effort::Every => {
            let more_tapes = crossed(&every(t, 33), &around(s, &[-1, 0, 1]));
            [edges, more_tapes, crossed(&around(t, &[-1, 0, 16]), &every(s, 33))].concat()
        }
    }
}

fn read(text: &[u8], should: &Reading, tape_length: usize, store_length: usize) -> Check {
    let (mut tape, mut store) = (Lent::new(tape_length, 0x5A), Lent::new(store_length, 0xC3));
    let (mut full_tape, mut full_store) = (Lent::new(tape_length, 0x5A), Lent::new(store_length, 0xC3));
    let got = archive::read(text, tape.part(), store.part());
    let answer =
        should.answer.and_then(|_| second::fill((&should.tape, &should.store), full_tape.part(), full_store.part()));
    let call = |what: &str| format!("read{what} (tape of {tape_length}, store of {store_length} bytes)");
    same(|| call(""), got, LrSizes::from(answer))?;
    same_buffer(|| call(", tape"), &tape, &full_tape)?;
    same_buffer(|| call(", store"), &store, &full_store)
}

/// A well-formed tape through look and both writers.
fn meaning(value: &Value, tape: &[u8], store: &[u8], effort: Effort) -> Check {
    looks(tape, store)?;
    let text = second::canonical(value);
    let json = second::refuse_json(value);
    for out_length in out_lengths(text.len(), effort) {
        let jaxn = |out: &mut [u8]| second::place_text(&text, out);
        written("write_jaxn", archive::write_jaxn, jaxn, tape, store, out_length)?;
        let json = |out: &mut [u8]| json.and_then(|()| second::place_text(&text, out));
        written("write_json", archive::write_json, json, tape, store, out_length)?;
    }
    Ok(())
}

fn out_lengths(needed: usize, effort: Effort) -> Vec<usize> {
    let edges = around(needed, &[-2, -1, 0, 1, 2, 40]);
    match effort {
        Effort::One(pick) => vec![needed, edges[pick % edges.len()]],
        Effort::Edges => edges,
        Effort::Every => every(needed, 40),
    }
}

fn written(
    name: &str,
    writer: fn(&[u8], &[u8], &mut [u8]) -> LrWritten,
    second: impl Fn(&mut [u8]) -> Result<second::Written, Refusal>,
    tape: &[u8],
    store: &[u8],
    out_length: usize,
) -> Check {
    let (mut out, mut full) = (Lent::new(out_length, 0x99), Lent::new(out_length, 0x99));
    let got = writer(tape, store, out.part());
    let should = LrWritten::from(second(full.part()));
    same(|| format!("{name} (output of {out_length} bytes)"), got, should)?;
    same_buffer(|| format!("{name}, output of {out_length} bytes"), &out, &full)
}

/// Every index up to one past the end (of a long tape, the first and last thousand), and some far ones: 2^60 times 16
/// wraps to 0, 2^32 is 0 in 32 bits.
fn looks(tape: &[u8], store: &[u8]) -> Check {
    let whole = (tape.len() / 16) as u64;
    let near = (0..whole + 2).filter(|i| *i < 1000 || i + 1000 > whole);
    for index in near.chain([1 << 32, 1 << 60, (1 << 60) + 1, u64::MAX]) {
        let should = LrRecord::from(second::look(tape, store, index));
        same(|| format!("look at {index}"), archive::look(tape, store, index), should)?;
    }
    Ok(())
}

/// Any tape and store, well formed or not.
pub fn tape(tape: &[u8], store: &[u8], effort: Effort) -> Check {
    tape_calls(second::decode(tape, store).as_ref(), tape, store, effort)
}

fn broken(tape: &[u8], store: &[u8]) -> Check {
    looks(tape, store)?;
    let refusal = |_: &mut [u8]| Err(Refusal { number: 10, place: 0 });
    // Room for whatever a writer might take this tape for.
    for out_length in [0, (8 * (tape.len() + store.len())).min(second::LIMIT)] {
        written("write_jaxn", archive::write_jaxn, refusal, tape, store, out_length)?;
        written("write_json", archive::write_json, refusal, tape, store, out_length)?;
    }
    Ok(())
}

/// Bytes that are no text, through utf8 alone.
pub fn utf8(bytes: &[u8]) -> Check {
    let should = LrStatus::from(second::utf8(bytes));
    lent(&TEXT, |guard| same(|| format!("utf8 {}", bytes.escape_ascii()), archive::utf8(guard.place(bytes)), should))
}

pub fn date(year: u64, month: u64, day: u64) -> Check {
    let should = LrStatus::from(second::date(year, month, day));
    same(|| format!("date {year} {month} {day}"), archive::date(year, month, day), should)
}
