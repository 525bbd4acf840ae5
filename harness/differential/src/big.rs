//! Texts at the limit of 16,777,216 bytes and one byte over it, tapes at their limits, and how the time grows: a figure, not a
//! test.

use crate::archive::{self, LrSizes, LrWritten};
use crate::check::{self, same, Check, Effort};
use crate::collide;
use crate::parts::sliced;
use second::Refusal;
use std::hint::black_box;

/// A text of just `size` bytes: `before`, `piece` as often as it fits, `filler` until it is full, `after`.
struct Kind {
    name: &'static str,
    before: &'static str,
    piece: String,
    filler: u8,
    after: &'static str,
}

impl Kind {
    fn text(&self, size: usize) -> Vec<u8> {
        let room = size - self.before.len() - self.after.len();
        let mut text = self.before.as_bytes().to_vec();
        text.extend(self.piece.repeat(room / self.piece.len()).bytes());
        text.resize(size - self.after.len(), self.filler);
        text.extend(self.after.bytes());
        text
    }
}

fn kinds() -> Vec<Kind> {
    let kind =
        |name, before, piece: &str, filler, after| Kind { name, before, piece: piece.to_string(), filler, after };
    let nested = format!("{}{},", "[".repeat(63), "]".repeat(63));
    vec![
        kind("one string", "\"", "a", b'a', "\""),
        kind("one string, not ASCII", "\"", "é€𝄞 ", b' ', "\""),
        kind("one string of escapes", "\"", "\\n\\u00e9\\ud834\\udd1e", b'a', "\""),
        kind("one escape", "\"\\u{", "0", b'0', "41}\""),
        kind("control characters", "\"", "\\0", b'a', "\""),
        kind("a multiline string", "'''\n", "''a\n", b'a', "'''"),
        kind("parts joined", "''", "+''", b' ', "+''"),
        kind("digits", "1", "1234567890", b'0', ""),
        kind("zeros", "0.", "0", b'0', "e-5"),
        kind("an exponent", "1e-", "0", b'0', "7"),
        kind("hex digits", "0x", "0", b'0', "1"),
        kind("fraction of a second", "12:00:00.", "1", b'1', ""),
        kind("bytes in hex", "$", "a0", b' ', ""),
        kind("bytes joined", "$", "+$", b' ', "+$'\\x41'"),
        kind("nested arrays at the limit", "[", &nested, b' ', "]"),
        kind("one key", "{", "k", b'k', ":1}"),
        kind("many short keys", "[", "{a:1,b:2},", b' ', "]"),
        kind("many numbers", "[", "1,", b' ', "]"),
        kind("numbers that grow", "[", "1e-20,", b' ', "]"),
        kind("times", "[", "2021-03-04 05:06:07.5-01:30,", b' ', "]"),
        kind("comments only", "", "/**/#\n", b' ', ""),
        kind("one comment", "/*", "*", b'*', "*/1"),
        kind("layout", "", " ", b' ', "1"),
    ]
}

const FULL: usize = 16_777_216;

/// Answers how many texts and tapes agreed.
pub fn all() -> u64 {
    println!("| text of 16 MiB | outcome | measure MB/s | read MB/s | write MB/s | times per byte, 16 MiB / 1 MiB |");
    println!("|---|---|---|---|---|---|");
    let mut n = 0;
    for kind in kinds() {
        let text = kind.text(FULL);
        stop_at(kind.name, check::text(&text, Effort::One(0)));
        stop_at(kind.name, check::text(&[&text[..], b" "].concat(), Effort::One(0)));
        speed(&kind, &text);
        n += 2;
    }
    println!("| text of 16 MiB, checked in parts of | 4,096 bytes, MB/s | 64 bytes | 1 byte | times per byte, 16 MiB / 1 MiB |");
    println!("|---|---|---|---|---|");
    for kind in kinds() {
        let text = kind.text(FULL);
        stop_at(kind.name, in_parts(&text));
        stop_at(kind.name, in_parts(&[&text[..], b" "].concat()));
        check_speed(&kind, &text);
        n += 2;
    }
    for (name, tape, store) in tapes() {
        stop_at(name, check::tape(&tape, &store, Effort::One(0)));
        n += 1;
    }
    n + keys()
}

/// The worst texts and the worst tape for the search for repeated keys, each once, since some take seconds.
fn keys() -> u64 {
    println!("| keys, 16 MiB | outcome | measure s | write s |");
    println!("|---|---|---|---|");
    let mut n = 0;
    for (name, text) in key_texts() {
        stop_at(name, keyed(name, &text));
        n += 1;
    }
    let (tape, store) = shortest_keys_on_tape();
    let (answer, took) = timed(|| archive::write_jaxn(&tape, &store, &mut []));
    let should = second::decode(&tape, &store).map(|value| second::place_text(&second::canonical(&value), &mut []));
    let call = || "write_jaxn (output of 0 bytes)".to_string();
    stop_at("shortest keys on a tape", same(call, answer, LrWritten::from(should.expect("well formed"))));
    println!("| shortest keys on a tape | {} keys | - | {took:.2} |", tape.len() / 32);
    n + 1
}

/// An object with these keys, as many as fit into 16 MiB, each with this after it.
fn object(keys: impl Iterator<Item = Vec<u8>>, value: &str) -> Vec<u8> {
    let mut text = b"{".to_vec();
    for key in keys {
        if text.len() + key.len() + value.len() > FULL - 1 {
            break;
        }
        text.extend(key);
        text.extend(value.bytes());
    }
    text.push(b'}');
    text
}

/// As many of a text side by side, in an array, as fit into 16 MiB.
fn many(one: &[u8]) -> Vec<u8> {
    let mut text = b"[".to_vec();
    while text.len() + one.len() < FULL - 1 {
        text.extend(one);
        text.push(b',');
    }
    text.push(b']');
    text
}

/// Two keys of 8 MiB, the second with this last letter.
fn long_keys(last: char) -> Vec<u8> {
    let key = "k".repeat(FULL / 2 - 6);
    format!("{{{key}k:1,'{key}{last}':2}}").into_bytes()
}

/// Texts that take many windows, with many objects, with long keys, and with keys of one bucket.
fn key_texts() -> impl Iterator<Item = (&'static str, Vec<u8>)> {
    type Make = fn() -> Vec<u8>;
    let all: [(&'static str, Make); 12] = [
        ("shortest keys", || object(collide::names(), ":1,")),
        ("keys of 11 letters", || object((0..).map(|n| format!("\"key{n:08}\"").into_bytes()), ":1234,")),
        ("keys of 88 bytes that begin alike", || {
            object((0..).map(|n| format!("\"{}{n:010}\"", "/long/".repeat(13)).into_bytes()), ":1,")
        }),
        ("keys of one bucket", || collide::text(FULL, 0, 128, 0)),
        // 127 and 4,095 keys fill the first two windows.
        ("keys of one bucket of the widest table that begin alike", || collide::text(FULL, 4_222, 65_536, 76)),
        ("keys of one tag that begin alike", || collide::text(FULL / 16, 4_222, 0, 76)),
        ("62 objects of 30 keys in each other", || many(&crate::keys::deep(62, 30, None))),
        ("objects of 5,000 keys", || many(&object(collide::names().take(5_000), ":1,"))),
        ("the last of many keys twice", || {
            let mut text = object(collide::names().take(1_000_000), ":1,");
            text.truncate(text.len() - 1);
            [&text[..], b"'A':1}"].concat()
        }),
        ("one key, many times", || object(std::iter::repeat(b"a".to_vec()), ":1,")),
        ("two long keys, the same", || long_keys('k')),
        ("two long keys but for the last letter", || long_keys('l')),
    ];
    all.into_iter().map(|(name, make)| (name, make()))
}

/// A text of keys through measure, a check in parts and write, once each.
fn keyed(name: &str, text: &[u8]) -> Check {
    let (value, repeated) = second::parse_all(text).expect("a text");
    let (tape, store) = second::tape(&value);
    let sizes = second::sizes(&tape, &store);
    let (answer, measure) = timed(|| archive::measure(text));
    same(|| "measure".into(), answer, LrSizes::from(repeated.map_or(Ok(sizes), Err)))?;
    same(|| "check in parts of 4096".into(), sliced(text, 4096), LrSizes::from(Ok(sizes)))?;
    let (mut out, mut full) = (vec![1; FULL], vec![1; FULL]);
    let (answer, write) = timed(|| archive::write_jaxn(&tape, &store, &mut out));
    let should = match repeated {
        Some(_) => Err(Refusal::new(10, 0)),
        None => second::place_text(&second::canonical(&value), &mut full),
    };
    same(|| "write_jaxn".into(), answer, LrWritten::from(should))?;
    same(|| "write_jaxn, what is written".into(), out == full, true)?;
    let outcome = repeated.map_or(format!("{} records, {} bytes", sizes.records, sizes.bytes), |r| {
        format!("{} at {}", r.number, r.place)
    });
    println!("| {name} | {outcome} | {measure:.2} | {write:.2} |");
    Ok(())
}

/// An object of as many keys as a store of 16 MiB holds: all of one, two and three characters, and then of four.
fn shortest_keys_on_tape() -> (Vec<u8>, Vec<u8>) {
    let (mut keys, mut store) = (Vec::new(), Vec::new());
    for n in (1..=4).flat_map(|length| (0..128u32.pow(length)).map(move |n| (length, n))) {
        let key: Vec<u8> = (0..n.0).map(|place| (n.1 >> (7 * place) & 127) as u8).collect();
        if store.len() + key.len() > FULL {
            break;
        }
        keys.extend([record(b"ky", key.len(), store.len()), record(b"nu", 0, 0)].concat());
        store.extend(key);
    }
    let members = keys.len() / 32;
    ([record(b"ob", members, 1 + 2 * members), keys].concat(), store)
}

/// An answer, and how many seconds it took.
fn timed<T>(call: impl FnOnce() -> T) -> (T, f64) {
    let start = now();
    let answer = call();
    (answer, now() - start)
}

/// A text checked in parts of some sizes, one of them no power of two.
fn in_parts(text: &[u8]) -> Check {
    let should = match archive::measure(text) {
        told if told.refused == 15 => LrSizes::from(second::check(text)),
        told => told,
    };
    [4096, 61].into_iter().try_for_each(|size| same(|| format!("check in parts of {size}"), sliced(text, size), should))
}

/// Prints how fast a text of this kind is checked in parts, byte by byte too, and how much more time a byte takes in a long text.
fn check_speed(kind: &Kind, text: &[u8]) {
    let sizes = [4096, 64, 1];
    let short = kind.text(FULL / 16);
    let long = sizes.map(|size| best(1, || sliced(black_box(text), size)));
    let speeds = long.map(|t| format!("{:.0}", text.len() as f64 / 1e6 / t)).join(" | ");
    let growth = [0, 1, 2].map(|i| long[i] / 16.0 / best(3, || sliced(black_box(&short), sizes[i])));
    println!("| {} | {speeds} | {} |", kind.name, growth.map(|g| format!("{g:.2}")).join(", "));
}

/// As many records or store bytes as are allowed and one more, and a text over the limit with and without a JSON form.
fn tapes() -> impl Iterator<Item = (&'static str, Vec<u8>, Vec<u8>)> {
    let limits = [FULL, FULL + 1].into_iter().flat_map(|n| {
        let string: fn(usize) -> _ = |n| ("one long string", record(b"st", n, 0), vec![b'a'; n]);
        let nulls: fn(usize) -> _ =
            |n| ("many records", [record(b"ar", n - 1, n), record(b"nu", 0, 0).repeat(n - 1)].concat(), Vec::new());
        let more: fn(usize) -> _ =
            |n| ("one counted too many", [record(b"ar", n, n), record(b"nu", 0, 0).repeat(n - 1)].concat(), Vec::new());
        [string, nulls, more].into_iter().map(move |make| make(n))
    });
    let long = [false, true].into_iter().map(|other| {
        let last = record(if other { b"nx" } else { b"nu" }, 0, 0);
        ("a long text", [record(b"ar", 2, 3), record(b"st", FULL / 6, 0), last].concat(), vec![1; FULL / 6])
    });
    limits.chain(long)
}

fn record(mark: &[u8; 2], four: usize, eight: usize) -> Vec<u8> {
    [&mark[..], &[0, 0], &(four as u32).to_le_bytes(), &(eight as u64).to_le_bytes()].concat()
}

fn stop_at(name: &str, check: Check) {
    if let Err(m) = check {
        println!("MISMATCH on {name}\n  {}\n  archive: {}\n  second:  {}", m.call, m.got, m.should);
        std::process::exit(1);
    }
}

/// Prints how fast a text of this kind is, and how much more time a byte takes in a long text than in a short one.
fn speed(kind: &Kind, text: &[u8]) {
    let long = times(text, 3);
    let short = times(&kind.text(FULL / 16), 9);
    let sizes = archive::measure(text);
    let outcome = match sizes.refused {
        0 => format!("{} records, {} bytes", sizes.records, sizes.bytes),
        n => format!("{n} at {}", sizes.place),
    };
    let shown = |f: &dyn Fn(usize) -> String| [0, 1, 2].map(|i| if long[i] == 0.0 { "-".into() } else { f(i) });
    let speeds = shown(&|i| format!("{:.0}", text.len() as f64 / 1e6 / long[i])).join(" | ");
    let growth = shown(&|i| format!("{:.2}", long[i] / 16.0 / short[i])).join(", ");
    println!("| {} | {outcome} | {speeds} | {growth} |", kind.name);
}

/// Seconds for measure, read, and writing what was read; 0 where little or nothing is written.
fn times(text: &[u8], turns: usize) -> [f64; 3] {
    let sizes = archive::measure(text);
    let (mut tape, mut store) = (vec![1; 16 * sizes.records as usize], vec![1; sizes.bytes as usize]);
    let measure = best(turns, || archive::measure(black_box(text)));
    let read = best(turns, || archive::read(black_box(text), &mut tape, &mut store));
    let mut out = vec![1; FULL];
    let written = archive::write_jaxn(&tape, &store, &mut out).length as usize > text.len() / 16;
    let write = best(turns, || archive::write_jaxn(black_box(&tape), black_box(&store), &mut out));
    [measure, read, if written { write } else { 0.0 }]
}

extern "C" {
    fn clock_gettime(clock: i32, time: *mut [i64; 2]) -> i32;
}

/// The thread's own processor time in seconds, since the machine may have other work (Linux).
fn now() -> f64 {
    const CLOCK_THREAD_CPUTIME_ID: i32 = 3;
    let mut time = [0; 2];
    assert_eq!(unsafe { clock_gettime(CLOCK_THREAD_CPUTIME_ID, &mut time) }, 0);
    time[0] as f64 + time[1] as f64 * 1e-9
}

/// The shortest of some times, in seconds.
fn best<T>(turns: usize, mut call: impl FnMut() -> T) -> f64 {
    let mut shortest = f64::INFINITY;
    for _ in 0..turns {
        let start = now();
        black_box(call());
        shortest = shortest.min(now() - start);
    }
    shortest
}
