//! The calls of `include/lanternrung.h`, as Rust functions.

use second::{Looked, Refusal, Sizes, Written};
use std::sync::atomic::{AtomicU64, Ordering::Relaxed};

static CALLS: AtomicU64 = AtomicU64::new(0);

/// How many calls have been made.
pub fn calls() -> u64 {
    CALLS.load(Relaxed)
}

fn count() {
    CALLS.fetch_add(1, Relaxed);
}

/// `LR_CHECK_BYTES`.
pub const CHECK_BYTES: usize = 640;

#[repr(C)]
#[derive(Clone, Copy, PartialEq, Eq, Debug, Default)]
pub struct LrStatus {
    pub refused: u32,
    pub place: u64,
}

#[repr(C)]
#[derive(Clone, Copy, PartialEq, Eq, Debug, Default)]
pub struct LrSizes {
    pub refused: u32,
    pub place: u64,
    pub records: u64,
    pub bytes: u64,
}

#[repr(C)]
#[derive(Clone, Copy, PartialEq, Eq, Debug, Default)]
pub struct LrWritten {
    pub refused: u32,
    pub place: u64,
    pub length: u64,
}

#[repr(C)]
#[derive(Clone, Copy, PartialEq, Eq, Debug, Default)]
pub struct LrRecord {
    pub refused: u32,
    pub place: u64,
    pub kind: u32,
    pub flag: u32,
    pub power: i32,
    pub coefficient: u64,
    pub length: u64,
    pub start: u64,
    pub year: u32,
    pub month: u32,
    pub day: u32,
    pub offset: i32,
    pub time: u64,
    pub end: u64,
    pub count: u64,
}

type Writer = unsafe extern "C" fn(*const u8, usize, *const u8, usize, *mut u8, usize) -> LrWritten;

extern "C" {
    fn lanternrung_utf8(bytes: *const u8, length: usize) -> LrStatus;
    fn lanternrung_date(year: u64, month: u64, day: u64) -> LrStatus;
    fn lanternrung_measure(text: *const u8, length: usize) -> LrSizes;
    fn lanternrung_read(
        text: *const u8,
        length: usize,
        tape: *mut u8,
        tape_length: usize,
        store: *mut u8,
        store_length: usize,
    ) -> LrSizes;
    fn lanternrung_check_start(state: *mut u8, length: usize);
    fn lanternrung_check_feed(state: *mut u8, length: usize, part: *const u8, part_length: usize);
    fn lanternrung_check_finish(state: *const u8, length: usize) -> LrSizes;
    fn lanternrung_look(
        tape: *const u8,
        tape_length: usize,
        store: *const u8,
        store_length: usize,
        index: u64,
    ) -> LrRecord;
    fn lanternrung_write_jaxn(
        tape: *const u8,
        tape_length: usize,
        store: *const u8,
        store_length: usize,
        out: *mut u8,
        out_length: usize,
    ) -> LrWritten;
    fn lanternrung_write_json(
        tape: *const u8,
        tape_length: usize,
        store: *const u8,
        store_length: usize,
        out: *mut u8,
        out_length: usize,
    ) -> LrWritten;
}

// A slice is a pointer to that many bytes, readable or, where it is lent for writing, writable by nobody else. That is all
// that the calls ask.

pub fn utf8(bytes: &[u8]) -> LrStatus {
    count();
    unsafe { lanternrung_utf8(bytes.as_ptr(), bytes.len()) }
}

pub fn date(year: u64, month: u64, day: u64) -> LrStatus {
    count();
    unsafe { lanternrung_date(year, month, day) }
}

pub fn measure(text: &[u8]) -> LrSizes {
    count();
    unsafe { lanternrung_measure(text.as_ptr(), text.len()) }
}

pub fn read(text: &[u8], tape: &mut [u8], store: &mut [u8]) -> LrSizes {
    count();
    unsafe {
        lanternrung_read(text.as_ptr(), text.len(), tape.as_mut_ptr(), tape.len(), store.as_mut_ptr(), store.len())
    }
}

pub fn check_start(state: &mut [u8]) {
    count();
    unsafe { lanternrung_check_start(state.as_mut_ptr(), state.len()) }
}

pub fn check_feed(state: &mut [u8], part: &[u8]) {
    count();
    unsafe { lanternrung_check_feed(state.as_mut_ptr(), state.len(), part.as_ptr(), part.len()) }
}

pub fn check_finish(state: &[u8]) -> LrSizes {
    count();
    unsafe { lanternrung_check_finish(state.as_ptr(), state.len()) }
}

pub fn look(tape: &[u8], store: &[u8], index: u64) -> LrRecord {
    count();
    unsafe { lanternrung_look(tape.as_ptr(), tape.len(), store.as_ptr(), store.len(), index) }
}

pub fn write_jaxn(tape: &[u8], store: &[u8], out: &mut [u8]) -> LrWritten {
    write(lanternrung_write_jaxn, tape, store, out)
}

pub fn write_json(tape: &[u8], store: &[u8], out: &mut [u8]) -> LrWritten {
    write(lanternrung_write_json, tape, store, out)
}

fn write(writer: Writer, tape: &[u8], store: &[u8], out: &mut [u8]) -> LrWritten {
    count();
    unsafe { writer(tape.as_ptr(), tape.len(), store.as_ptr(), store.len(), out.as_mut_ptr(), out.len()) }
}

// ---- The second reader's answers in the same form. On a refusal all but `refused` and `place` are 0.

impl From<Result<(), Refusal>> for LrStatus {
    fn from(answer: Result<(), Refusal>) -> LrStatus {
        match answer {
            Ok(()) => LrStatus::default(),
            Err(r) => LrStatus { refused: r.number, place: r.place },
        }
    }
}

impl From<Result<Sizes, Refusal>> for LrSizes {
    fn from(answer: Result<Sizes, Refusal>) -> LrSizes {
        match answer {
            Ok(s) => LrSizes { records: s.records, bytes: s.bytes, ..LrSizes::default() },
            Err(r) => LrSizes { refused: r.number, place: r.place, ..LrSizes::default() },
        }
    }
}

impl From<Result<Written, Refusal>> for LrWritten {
    fn from(answer: Result<Written, Refusal>) -> LrWritten {
        match answer {
            Ok(w) => LrWritten { length: w.length, ..LrWritten::default() },
            Err(r) => LrWritten { refused: r.number, place: r.place, ..LrWritten::default() },
        }
    }
}

impl From<Result<Looked, Refusal>> for LrRecord {
    fn from(answer: Result<Looked, Refusal>) -> LrRecord {
        let (refused, place, l) = match answer {
            Ok(looked) => (0, 0, looked),
            Err(r) => (r.number, r.place, Looked::default()),
        };
        LrRecord {
            refused,
            place,
            kind: l.kind,
            flag: l.flag,
            power: l.power,
            coefficient: l.coefficient,
            length: l.length,
            start: l.start,
            year: l.year,
            month: l.month,
            day: l.day,
            offset: l.offset,
            time: l.time,
            end: l.end,
            count: l.count,
        }
    }
}
