//! Compares `rules` with Rust's own UTF-8 check and with a calendar that counts days, and prints how many cases it ran.

use rules_harness::{date, utf8, Random, Status};

const DONE: Status = Status { refused: 0, place: 0 };

fn utf8_expected(s: &[u8]) -> Status {
    match std::str::from_utf8(s) {
        Ok(_) => DONE,
        Err(e) => Status { refused: 2, place: e.valid_up_to() as u64 },
    }
}

fn check_utf8(s: &[u8]) {
    let (got, should) = (utf8(s), utf8_expected(s));
    assert!(got == should, "utf8 {s:02x?}: {got:?}, should be {should:?}");
}

/// Every sequence of up to three bytes, and every one of four that begins with F0 or more, has a plain byte behind it.
fn short_sequences() -> u64 {
    check_utf8(&[]);
    let mut n = 1;
    for a in 0..=255u8 {
        check_utf8(&[a]);
        for b in 0..=255u8 {
            check_utf8(&[a, b]);
            for c in 0..=255u8 {
                check_utf8(&[a, b, c]);
            }
        }
    }
    n += 256 + 65_536 + 16_777_216;
    let edges = [0x00, 0x7F, 0x80, 0x81, 0x8F, 0x90, 0x9F, 0xA0, 0xBE, 0xBF, 0xC0, 0xC2, 0xE0, 0xFF];
    for a in 0xE0..=255u8 {
        for b in 0..=255u8 {
            for c in 0..=255u8 {
                for d in edges {
                    check_utf8(&[a, b, c, d]);
                    check_utf8(&[b'x', a, b, c, d, b'y']);
                    n += 2;
                }
            }
        }
    }
    n
}

/// Where the first fault of these bytes is, counted from their start, with a plain byte behind them.
fn fault_in(piece: &[u8]) -> Option<usize> {
    std::str::from_utf8(&[piece, b"y"].concat()).err().map(|e| e.valid_up_to())
}

fn check_at(text: &[u8], fault: Option<usize>) {
    let should = fault.map_or(DONE, |at| Status { refused: 2, place: at as u64 });
    let got = utf8(text);
    assert!(got == should, "utf8 {text:02x?}: {got:?}, should be {should:?}");
}

/// Every sequence of three bytes at each remainder of 32, among ASCII: the blocks of `utf8` see it at each of their places,
/// and astride two of them.
fn sequences_in_blocks() -> u64 {
    let mut texts: Vec<Vec<u8>> = (32..64).map(|at| vec![b'a' + at % 26; 96]).collect();
    for a in 0..=255u8 {
        for b in 0..=255u8 {
            for c in 0..=255u8 {
                let fault = fault_in(&[a, b, c]);
                for (at, text) in (32..64).zip(&mut texts) {
                    text[at..at + 3].copy_from_slice(&[a, b, c]);
                    check_at(text, fault.map(|k| at + k));
                }
            }
        }
    }
    32 << 24
}

/// Sequences of four bytes at the edges of the rules at each remainder of 32, among characters of one to four bytes, and at
/// each distance from the end.
fn edges_in_blocks() -> u64 {
    let edges = [0x00, 0x7F, 0x80, 0x8F, 0x90, 0x9F, 0xA0, 0xBF, 0xC0, 0xC1, 0xC2, 0xDF, 0xE0, 0xE1, 0xED, 0xEF, 0xF0, 0xF1, 0xF4, 0xF5, 0xFF];
    let fillers: [&[u8]; 4] = [b"x", b"\xc3\xa9", b"\xe2\x82\xac", b"\xf0\x9d\x84\x9e"];
    let mut n = 0;
    for index in 0..21usize.pow(4) {
        let piece = [edges[index / 9261], edges[index / 441 % 21], edges[index / 21 % 21], edges[index % 21]];
        let fault = fault_in(&piece);
        // a filler whose length does not divide 32 comes to each remainder after some turns of the index
        let filler = fillers[index % 4];
        for before in 0..12 {
            let at = (before + index % 32) * filler.len();
            let mut text = filler.repeat(before + index % 32);
            text.extend_from_slice(&piece);
            text.extend_from_slice(&[b'y'; 40][..1 + index % 40]);
            check_at(&text, fault.map(|k| at + k));
            n += 1;
        }
    }
    n
}

/// Runs of ASCII of every length around the blocks of 32, with one character or one bad byte at each place.
fn runs() -> u64 {
    let mut n = 0;
    let pieces: [&[u8]; 6] = [b"\xc3\xa9", b"\xe2\x82\xac", b"\xf0\x9d\x84\x9e", b"\xff", b"\xed\xa0\x80", b"\xe2\x82"];
    for length in 0..140 {
        let plain: Vec<u8> = (0..length).map(|i| (i % 128) as u8).collect();
        check_utf8(&plain);
        for at in 0..=length {
            for piece in pieces {
                let text = [&plain[..at], piece, &plain[at..]].concat();
                check_utf8(&text);
                n += 1;
            }
        }
    }
    n
}

/// Texts of characters and runs, some with a byte changed.
fn mixed(count: u64) -> u64 {
    let mut random = Random(0x6C61_6E74_6572_6E21);
    for _ in 0..count {
        let mut text = String::new();
        for _ in 0..random.below(12) {
            match random.below(5) {
                0 => text.push_str(&"annealing ".repeat(random.below(9))),
                1 => text.push(char::from_u32(random.below(0x800) as u32).unwrap()),
                2 => text.push(char::from_u32(0x800 + random.below(0xD000) as u32).unwrap_or('\u{FFFD}')),
                3 => text.push(char::from_u32(0x1_0000 + random.below(0x10_0000) as u32).unwrap()),
                _ => text.push((random.below(128) as u8) as char),
            }
        }
        let mut bytes = text.into_bytes();
        check_utf8(&bytes);
        if !bytes.is_empty() {
            let at = random.below(bytes.len());
            bytes[at] = random.next() as u8;
            check_utf8(&bytes);
            bytes.truncate(at);
            check_utf8(&bytes);
        }
    }
    3 * count
}

/// A calendar of its own: the days are counted off one after the other, by the 400-year cycle's known length.
fn dates() -> u64 {
    let mut n = 0;
    let mut real = 0u64;
    for year in 0..=10_001u64 {
        for month in 0..=14u64 {
            for day in 0..=33u64 {
                let long = matches!(month, 1 | 3 | 5 | 7 | 8 | 10 | 12);
                let leap = if year % 100 == 0 { year % 400 == 0 } else { year % 4 == 0 };
                let last = if month == 2 { if leap { 29 } else { 28 } } else if long { 31 } else { 30 };
                let is = year < 10_000 && (1..=12).contains(&month) && day >= 1 && day <= last;
                let got = date(year, month, day);
                let should = if is { DONE } else { Status { refused: 5, place: 0 } };
                assert!(got == should, "date {year} {month} {day}: {got:?}, should be {should:?}");
                real += (got == DONE) as u64;
                n += 1;
            }
        }
    }
    // 25 cycles of 400 years, of 146,097 days each.
    assert!(real == 25 * 146_097, "{real} dates in years 0000 to 9999");
    for big in [10_000, 65_536, 1 << 32, (1 << 32) + 2, u64::MAX] {
        for (y, m, d) in [(big, 1, 1), (2000, big, 1), (2000, 1, big), (big, big, big)] {
            assert!(date(y, m, d).refused == 5, "date {y} {m} {d}");
            n += 1;
        }
    }
    n
}

fn main() {
    let n = short_sequences() + sequences_in_blocks() + edges_in_blocks() + runs() + mixed(200_000);
    println!("rules: {n} texts agree with Rust's own check");
    println!("rules: {} dates agree", dates());
}
