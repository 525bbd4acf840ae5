// Reads a run record, prints its numbers, and prints the record in canonical form.
#[repr(C)]
struct Sizes {
    refused: u32,
    place: u64,
    records: u64,
    bytes: u64,
}

#[repr(C)]
struct Written {
    refused: u32,
    place: u64,
    length: u64,
}

#[repr(C)]
#[allow(dead_code)]
struct Record {
    refused: u32,
    place: u64,
    kind: u32, // 1 to 13: nu bo nb nx st ky by ld lt dt od ar ob
    flag: u32,
    power: i32,
    coefficient: u64,
    length: u64,
    start: u64,
    year: u32,
    month: u32,
    day: u32,
    offset: i32,
    time: u64,
    end: u64,
    count: u64,
}

#[rustfmt::skip]
extern "C" {
    fn lanternrung_measure(text: *const u8, text_len: usize) -> Sizes;
    fn lanternrung_read(text: *const u8, text_len: usize, tape: *mut u8, tape_len: usize, store: *mut u8, store_len: usize) -> Sizes;
    fn lanternrung_look(tape: *const u8, tape_len: usize, store: *const u8, store_len: usize, index: u64) -> Record;
    fn lanternrung_write_jaxn(tape: *const u8, tape_len: usize, store: *const u8, store_len: usize, out: *mut u8, out_len: usize) -> Written;
}

fn refused(number: u32, place: u64) -> String {
    format!("refused {number} at {place}")
}

/// The tape and the store of a text, or the refusal.
fn read(text: &[u8]) -> Result<(Vec<u8>, Vec<u8>), String> {
    let need = unsafe { lanternrung_measure(text.as_ptr(), text.len()) };
    if need.refused != 0 {
        return Err(refused(need.refused, need.place));
    }
    let (mut tape, mut store) = (vec![0; need.records as usize * 16], vec![0; need.bytes as usize]);
    let (t, s) = (&mut tape[..], &mut store[..]);
    let got = unsafe { lanternrung_read(text.as_ptr(), text.len(), t.as_mut_ptr(), t.len(), s.as_mut_ptr(), s.len()) };
    match got.refused {
        0 => Ok((tape, store)),
        number => Err(refused(number, got.place)),
    }
}

/// The canonical text of a tape and its store, or the refusal. A write with no room answers 12, and its place is the length.
fn write(tape: &[u8], store: &[u8]) -> Result<Vec<u8>, String> {
    let (t, s) = (tape, store);
    let room = unsafe { lanternrung_write_jaxn(t.as_ptr(), t.len(), s.as_ptr(), s.len(), std::ptr::null_mut(), 0) };
    if room.refused != 12 {
        return Err(refused(room.refused, room.place));
    }
    let mut out = vec![0; room.place as usize];
    let got = unsafe { lanternrung_write_jaxn(t.as_ptr(), t.len(), s.as_ptr(), s.len(), out.as_mut_ptr(), out.len()) };
    out.truncate(got.length as usize);
    match got.refused {
        0 => Ok(out),
        number => Err(refused(number, got.place)),
    }
}

fn main() -> Result<(), String> {
    let (tape, store) = read(b"{ run: 0x1F, # melt\n  eta: NaN, t: [.5, 1250.5,], }")?;
    for i in 0..tape.len() as u64 / 16 {
        let part = unsafe { lanternrung_look(tape.as_ptr(), tape.len(), store.as_ptr(), store.len(), i) };
        let name = &store[part.start as usize..][..part.length as usize];
        match part.kind {
            6 => println!("{}:", String::from_utf8_lossy(name)),
            3 => println!("  {}{} x 10^{}", if part.flag == 1 { "-" } else { "" }, part.coefficient, part.power),
            4 => println!("  not finite"),
            _ => {}
        }
    }
    println!("{}", String::from_utf8_lossy(&write(&tape, &store)?));
    Ok(())
}
