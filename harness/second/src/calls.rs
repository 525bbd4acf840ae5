//! The calls as 01 words them, on plain Rust data: lent buffers are slices, and a refusal leaves them alone. The call look
//! is `tape::look`.

use crate::{canonical, decode, no_json, parse, parse_all, tape, time, Refusal, Value, LIMIT};

#[derive(Clone, Copy, PartialEq, Eq, Debug)]
pub struct Sizes {
    pub records: u64,
    pub bytes: u64,
}

#[derive(Clone, Copy, PartialEq, Eq, Debug)]
pub struct Written {
    pub length: u64,
}

/// "bytes in, done or 2 as in the table"
pub fn utf8(bytes: &[u8]) -> Result<(), Refusal> {
    std::str::from_utf8(bytes).map(|_| ()).map_err(|e| Refusal::new(2, e.valid_up_to()))
}

/// "year, month and day in, done or 5 at 0 for any that is no date in years 0000 to 9999"
pub fn date(year: u64, month: u64, day: u64) -> Result<(), Refusal> {
    if time::is_date(year, month, day) {
        Ok(())
    } else {
        Err(Refusal::new(5, 0))
    }
}

/// "text in; the number of records and of store bytes it needs, or a refusal"
pub fn measure(text: &[u8]) -> Result<Sizes, Refusal> {
    let (t, s) = tape(&parse(text)?);
    Ok(sizes(&t, &s))
}

/// What the finish of a check in parts answers for the joined text: 02: "measure with 15 left out".
pub fn check(text: &[u8]) -> Result<Sizes, Refusal> {
    let (t, s) = tape(&parse_all(text)?.0);
    Ok(sizes(&t, &s))
}

pub fn sizes(tape: &[u8], store: &[u8]) -> Sizes {
    Sizes { records: (tape.len() / 16) as u64, bytes: store.len() as u64 }
}

/// "text in; fills a lent tape and a lent store from their start; answers both counts"
pub fn read(text: &[u8], tape_out: &mut [u8], store_out: &mut [u8]) -> Result<Sizes, Refusal> {
    let (t, s) = tape(&parse(text)?);
    fill((&t, &s), tape_out, store_out)
}

/// The end of `read`: 8, then 9, then the copying.
pub fn fill(from: (&[u8], &[u8]), tape_out: &mut [u8], store_out: &mut [u8]) -> Result<Sizes, Refusal> {
    let (t, s) = from;
    if t.len() > tape_out.len() {
        return Err(Refusal::new(8, t.len()));
    }
    if s.len() > store_out.len() {
        return Err(Refusal::new(9, s.len()));
    }
    tape_out[..t.len()].copy_from_slice(t);
    store_out[..s.len()].copy_from_slice(s);
    Ok(sizes(t, s))
}

/// "tape and store in, each exactly as long as used; canonical text into a lent output from its start": 10, 13, 12.
pub fn write_jaxn(tape: &[u8], store: &[u8], out: &mut [u8]) -> Result<Written, Refusal> {
    let value = decode(tape, store).ok_or(Refusal::new(10, 0))?;
    place_text(&canonical(&value), out)
}

/// The same with 11: 10, 11, 13, 12.
pub fn write_json(tape: &[u8], store: &[u8], out: &mut [u8]) -> Result<Written, Refusal> {
    let value = decode(tape, store).ok_or(Refusal::new(10, 0))?;
    refuse_json(&value)?;
    place_text(&canonical(&value), out)
}

pub fn refuse_json(value: &Value) -> Result<(), Refusal> {
    match no_json(value) {
        Some(place) => Err(Refusal { number: 11, place }),
        None => Ok(()),
    }
}

/// The end of both writers: 13, then 12, then the copying.
pub fn place_text(text: &[u8], out: &mut [u8]) -> Result<Written, Refusal> {
    if text.len() > LIMIT {
        return Err(Refusal::new(13, text.len()));
    }
    if text.len() > out.len() {
        return Err(Refusal::new(12, text.len()));
    }
    out[..text.len()].copy_from_slice(text);
    Ok(Written { length: text.len() as u64 })
}

/// What the program prints for this standard input.
pub fn program(input: &[u8]) -> Vec<u8> {
    const LENT: usize = 65_536;
    let answer = if input.len() > LENT { Err(Refusal::new(1, LENT)) } else { through(input, LENT) };
    let mut printed = match answer {
        Ok(text) => text,
        Err(r) => format!("refused {} at {}", r.number, r.place).into_bytes(),
    };
    printed.push(b'\n');
    printed
}

/// Reads and writes with buffers of `lent` bytes each.
fn through(input: &[u8], lent: usize) -> Result<Vec<u8>, Refusal> {
    let (mut tape_out, mut store_out, mut out) = (vec![0; lent], vec![0; lent], vec![0; lent]);
    let sizes = read(input, &mut tape_out, &mut store_out)?;
    let used = (&tape_out[..16 * sizes.records as usize], &store_out[..sizes.bytes as usize]);
    let written = write_jaxn(used.0, used.1, &mut out)?;
    out.truncate(written.length as usize);
    Ok(out)
}
