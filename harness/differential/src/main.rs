//! Compares the archive with the second reader, call by call, and prints how many cases it ran.
//!
//!     differential [--seed N] [--count N] [--big] [--program PATH] [--keys] [--collide SIZE BEFORE SLOTS SHARED] [--trace]
//!
//! `--count` is the number of random texts; `--big` adds texts of 16,777,216 bytes, `--program` the program's own input and
//! output; `--keys` runs only the texts and tapes that are full of keys (for `harness/small`); `--collide SIZE BEFORE SLOTS SHARED` runs
//! nothing and writes a text of keys that fall into one bucket, after some others (`collide`); `--trace` prints each case to
//! standard error before it is run. A mismatch prints the shortened case and ends the driver with status 1.

mod archive;
mod big;
mod check;
mod collide;
mod counted;
mod guard;
mod keys;
mod parts;
mod program;
mod random;
mod shorten;
#[cfg(feature = "stub")]
mod stub;
mod systematic;
mod tapes;

use check::{Check, Effort, Mismatch};
use random::Random;
use std::io::Write;
use std::time::Instant;

struct Options {
    seed: u64,
    count: u64,
    big: bool,
    program: Option<String>,
    keys: bool,
    collide: Option<[usize; 4]>,
    trace: bool,
}

fn options() -> Options {
    let mut o = Options {
        seed: 20_260_101,
        count: 300_000,
        big: false,
        program: None,
        keys: false,
        collide: None,
        trace: false,
    };
    let mut words = std::env::args().skip(1);
    while let Some(word) = words.next() {
        let mut number = || words.next().and_then(|n| n.parse().ok()).expect("a number after the option");
        match word.as_str() {
            "--seed" => o.seed = number(),
            "--count" => o.count = number(),
            "--big" => o.big = true,
            "--program" => o.program = words.next(),
            "--keys" => o.keys = true,
            "--collide" => o.collide = Some([(); 4].map(|()| number() as usize)),
            "--trace" => o.trace = true,
            other => panic!("no such option: {other}"),
        }
    }
    o
}

/// Counts the cases, and ends the program at the first mismatch.
struct Run {
    trace: bool,
    texts: u64,
    accepted: u64,
    tapes: u64,
    bytes: u64,
}

impl Run {
    fn text(&mut self, text: &[u8], effort: Effort) {
        if self.trace {
            eprintln!("text {}", text.escape_ascii());
        }
        self.texts += 1;
        if let Err(m) = check::text(text, effort) {
            report_text(text, effort, m);
        }
    }

    fn tape(&mut self, tape: &[u8], store: &[u8], effort: Effort) {
        if self.trace {
            eprintln!("tape {} store {}", tape.escape_ascii(), store.escape_ascii());
        }
        self.tapes += 1;
        if let Err(m) = check::tape(tape, store, effort) {
            report_tape(tape, store, effort, m);
        }
    }

    fn utf8(&mut self, bytes: &[u8]) {
        self.bytes += 1;
        check::utf8(bytes).unwrap_or_else(|m| {
            let short = shorten::bytes(bytes, 1, |b| check::utf8(b).is_err());
            println!("MISMATCH");
            close(check::utf8(&short), m)
        });
    }
}

fn report_text(text: &[u8], effort: Effort, m: Mismatch) -> ! {
    let fails = |t: &[u8]| check::text(t, effort).is_err();
    let short = shorten::bytes(text, 1, fails);
    println!("MISMATCH on a text of {} bytes, shortened to {}: {}", text.len(), short.len(), short.escape_ascii());
    close(check::text(&short, effort), m)
}

fn report_tape(tape: &[u8], store: &[u8], effort: Effort, m: Mismatch) -> ! {
    let fails = |t: &[u8], s: &[u8]| check::tape(t, s, effort).is_err();
    let tape = shorten::bytes(tape, 16, |t| fails(t, store));
    let store = shorten::bytes(store, 1, |s| fails(&tape, s));
    let tape = shorten::zeros(&tape, |t| fails(t, &store));
    println!("MISMATCH on a tape of {} bytes, store \"{}\":", tape.len(), store.escape_ascii());
    tape.chunks(16).for_each(|r| println!("  {}", r.escape_ascii()));
    close(check::tape(&tape, &store, effort), m)
}

fn close(short: Check, long: Mismatch) -> ! {
    let m = short.err().unwrap_or(long);
    println!("  {}\n  archive: {}\n  second:  {}", m.call, m.got, m.should);
    std::process::exit(1)
}

/// The stated cases, with every buffer length. The texts are answered, to be damaged later.
fn stated(run: &mut Run) -> Vec<Vec<u8>> {
    use second::cases::{further, keys, numbers, readings, rfc8259, rules, samples, specification};
    let listed = [rules(), specification(), rfc8259(), readings(), further(), keys(), numbers()].concat();
    for case in &listed {
        run.text(&case.text, Effort::Every);
        let outcome = match second::parse(&case.text) {
            Ok(value) => [b"=", &second::canonical(&value)[..]].concat(),
            Err(r) => format!("{}@{}", r.number, r.place).into_bytes(),
        };
        assert!(outcome == case.outcome, "second is not as stated: {case:?}");
    }
    for case in samples() {
        run.text(&case.text, Effort::Every);
        assert!(second::program(&case.text) == case.outcome, "second is not as stated: {case:?}");
    }
    listed.into_iter().chain(samples()).map(|case| case.text).collect()
}

fn systematic(run: &mut Run) {
    let quick = |run: &mut Run, t: &[u8]| run.text(t, Effort::One(run.texts as usize));
    for item in systematic::ITEMS {
        for (before, after) in systematic::AROUND {
            let text = format!("{before}{item}{after}");
            run.text(text.as_bytes(), Effort::Every);
            systematic::cuts(text.as_bytes(), |t| quick(run, t));
        }
        systematic::bytes(item.as_bytes(), |t| quick(run, t));
        let inside = format!("[{item}");
        systematic::bytes(inside.as_bytes(), |t| quick(run, &[t, b"]"].concat()));
        for layout in systematic::LAYOUT {
            for text in [format!("{layout}{item}{layout}"), format!("[{item}{layout},{layout}{item}{layout}]")] {
                quick(run, text.as_bytes());
            }
        }
    }
    for key in systematic::KEYS {
        systematic::bytes(format!("{{{key}:1}}").as_bytes(), |t| quick(run, t));
    }
    for layout in systematic::LAYOUT {
        systematic::bytes(format!("{layout}1").as_bytes(), |t| quick(run, t));
        systematic::bytes(format!("[{layout}").as_bytes(), |t| quick(run, t));
    }
    pairs(run);
    let every: Vec<u8> = (0..=255).collect();
    (0..=2).for_each(|n| systematic::words(&every, n, |t| quick(run, t)));
    systematic::words(b"\"'\\u{}0 12e.-:+$[],/*#\nx", 4, |t| quick(run, t));
    systematic::words(b"\"\\0 1e.-:+$[],/*", 5, |t| quick(run, t));
    systematic::words(b"\"a\n\r", 9, |t| quick(run, t));
    depths(run);
    widths(run);
}

/// Values around their limits.
fn counted(run: &mut Run) {
    counted::numbers(|t| run.text(t, Effort::One(t.len())));
    counted::powers(|t| run.text(t, Effort::One(t.len())));
    counted::times(|t| run.text(t, Effort::One(t.len())));
    counted::characters(|t| run.text(t, Effort::One(t.len())));
    counted::runs(70, |t| run.text(t, Effort::One(run.texts as usize)));
}

/// Each item right after each other, in an array and bare, with and without a sign between.
fn pairs(run: &mut Run) {
    for a in systematic::ITEMS {
        for b in systematic::ITEMS {
            for text in [
                format!("{a}{b}"),
                format!("[{a},{b}]"),
                format!("{a}+{b}"),
                format!("{{k:{a} {b}"),
                format!("[{a} {b}]"),
            ] {
                run.text(text.as_bytes(), Effort::One(run.texts as usize));
            }
        }
    }
}

/// Containers in each other around the limit of 64.
fn depths(run: &mut Run) {
    for n in 62..68 {
        for (open, close) in [("[", "]"), ("{a:", "}"), ("[{a:", "}]"), ("[0,", ",]")] {
            let times = if open == "[{a:" { n / 2 } else { n };
            for inside in ["", "1", "[", "{}", "[]", "x"] {
                let text = format!("{}{inside}{}", open.repeat(times), close.repeat(times));
                run.text(text.as_bytes(), Effort::Edges);
                systematic::cuts(text.as_bytes(), |t| run.text(t, Effort::One(t.len())));
            }
        }
    }
}

/// Containers with as many elements or members as one or two bytes of a count can hold, and with some more or less.
fn widths(run: &mut Run) {
    for n in (254..259).chain(65_534..65_539) {
        for (open, one, close) in [("[", "0,", "]"), ("{", "a:[],", "}"), ("[[", "0,", "],{}]")] {
            run.text(format!("{open}{}{close}", one.repeat(n)).as_bytes(), Effort::One(n));
        }
        run.text(&keys::wide(n, &[]), Effort::One(n));
    }
}

/// Keys in all their spellings, beside each other and in objects in each other.
fn spelled_keys(run: &mut Run) {
    let quick = |run: &mut Run, t: &[u8]| run.text(t, Effort::One(run.texts as usize));
    keys::pairs(|t| quick(run, t));
    keys::members(|t| quick(run, t));
    keys::nests(6, |t| quick(run, t));
}

/// Objects of as many keys as fill the first table, the second and one of the widest, and of some more or less; objects in each other.
fn many_keys(run: &mut Run) {
    let quick = |run: &mut Run, t: &[u8]| run.text(t, Effort::One(run.texts as usize));
    keys::wides((4..12).chain(120..135).chain(4_215..4_235).chain([70_000]), |t| quick(run, t));
    let both = |few: usize| (120..131).flat_map(move |many| [(few, many), (many, few), (many / 2 - few, many / 2)]);
    keys::nested((0..5).flat_map(both), |t| quick(run, t));
    for (depth, n) in [(63, 1), (64, 2), (62, 30), (64, 66), (3, 42), (40, 110)] {
        for again in [None, Some(0), Some(1), Some(depth / 2), Some(depth - 1)] {
            quick(run, &keys::deep(depth, n, again));
        }
    }
}

/// Tapes in which a key has the bytes of another: every two of a tape with many objects, and some of an object that fills tables.
fn renamed_keys(run: &mut Run, sizes: &[usize]) {
    let of = |text: &[u8]| second::tape(&second::parse(text).expect("a text"));
    let (tape, store) = of(tapes::KEYED.as_bytes());
    run.tape(&tape, &store, Effort::Edges);
    for (to, from) in
        tapes::keys(&tape, &store).into_iter().flat_map(|a| tapes::keys(&tape, &store).into_iter().map(move |b| (a, b)))
    {
        let (tape, store) = tapes::renamed(&tape, &store, to, from);
        run.tape(&tape, &store, Effort::Edges);
    }
    for &n in sizes {
        let (tape, store) = of(&keys::wide(n, &[]));
        let all = tapes::keys(&tape, &store);
        run.tape(&tape, &store, Effort::One(0));
        for (to, from) in [(n - 1, 0), (0, n - 1), (1, 0), (n / 2, 0), (n - 1, n / 2), (n - 1, n - 2)] {
            let (tape, store) = tapes::renamed(&tape, &store, all[to], all[from]);
            run.tape(&tape, &store, Effort::One(0));
        }
    }
}

/// Random texts that are full of keys; of each its tape, with keys renamed.
fn random_keys(run: &mut Run, seed: u64, count: u64, limit: usize) {
    let mut r = Random::new(seed);
    for _ in 0..count {
        let mut text = keys::text(&mut r, limit);
        if r.one_in(8) {
            random::damage(&mut r, &mut text);
        }
        run.text(&text, if r.one_in(64) { Effort::Edges } else { Effort::One(r.below(1000)) });
        let Ok((value, _)) = second::parse_all(&text) else { continue };
        let (tape, store) = second::tape(&value);
        let all = tapes::keys(&tape, &store);
        if !all.is_empty() {
            let (to, from) = (all[r.below(all.len())], all[r.below(all.len())]);
            let (tape, store) = tapes::renamed(&tape, &store, to, from);
            run.tape(&tape, &store, Effort::One(r.below(1000)));
        }
    }
}

/// Random texts; where one is accepted, its tape is damaged some times, and every other one recounted.
fn random(run: &mut Run, seed: u64, count: u64, stated: &[Vec<u8>]) {
    let mut r = Random::new(seed);
    for _ in 0..count {
        let text = random::text(&mut r, stated);
        let effort = if r.one_in(16) { Effort::Edges } else { Effort::One(r.below(1000)) };
        run.text(&text, effort);
        if let Ok(value) = second::parse(&text) {
            run.accepted += 1;
            let canonical = second::canonical(&value);
            run.text(&canonical, effort);
            sound(&text, &value, &canonical);
            damaged(run, &mut r, &value);
        }
    }
}

/// What 01 says of every accepted text, held of the second reader itself: records and store bytes are each at most the
/// text's length, and the tape and the canonical text each bring the same meaning back.
fn sound(text: &[u8], value: &second::Value, canonical: &[u8]) {
    let (tape, store) = second::tape(value);
    let bounded = tape.len() / 16 <= text.len() && store.len() <= text.len();
    let back = second::decode(&tape, &store).as_ref() == Some(value) && second::parse(canonical).as_ref() == Ok(value);
    assert!(bounded && back, "second is at odds with itself on {}", text.escape_ascii());
}

fn damaged(run: &mut Run, r: &mut Random, value: &second::Value) {
    for _ in 0..3 {
        let (mut tape, mut store) = second::tape(value);
        for _ in 0..1 + r.below(3) {
            tapes::damage(r, &mut tape, &mut store);
        }
        if r.one_in(2) {
            tape = tapes::recounted(&tape);
        }
        run.tape(&tape, &store, Effort::One(r.below(1000)));
    }
}

/// Tapes that are counted off: records at their limits, a sample damaged in each place, counts and ends near the right ones and
/// near their limits, short tapes, containers around the limit of 64.
fn counted_tapes(run: &mut Run) {
    for (record, store) in tapes::edges() {
        run.tape(&record, &store, Effort::Edges);
        run.tape(&tapes::member(&record), &store, Effort::One(0));
    }
    let sample = second::parse(tapes::SAMPLE.as_bytes()).expect("the sample is a text");
    let (tape, store) = second::tape(&sample);
    run.tape(&tape, &store, Effort::Every);
    tapes::every(&tape, &store, |t, s| run.tape(t, s, Effort::One(t.len())));
    tapes::counted(&tape, |t| run.tape(t, &store, Effort::One(t.len())));
    tapes::small(|t| run.tape(t, b"", Effort::One(t.len())));
    for (n, objects) in (1..70).flat_map(|n| [(n, false), (n, true)]) {
        let tape = tapes::nested(n, objects);
        run.tape(&tape, b"", Effort::One(n));
        if n < 6 || n == 64 {
            tapes::counted(&tape, |t| run.tape(t, b"", Effort::One(t.len())));
        }
    }
}

/// Bytes through utf8 alone: short ones all, behind plain runs of each length up to past a block, and long ones.
fn utf8(run: &mut Run) {
    let every: Vec<u8> = (0..=255).collect();
    systematic::words(&every, 3, |b| run.utf8(b));
    let ends = [0x00, 0x7F, 0x80, 0x8F, 0x90, 0x9F, 0xA0, 0xBF, 0xC0, 0xC2, 0xE0, 0xFF];
    for (first, second) in (0xE0..=255u8).flat_map(|a| (0..=255u8).map(move |b| (a, b))) {
        systematic::words(&ends, 2, |b| run.utf8(&[&[first, second], b].concat()));
    }
    for length in 0..70 {
        systematic::words(&every, 2, |b| run.utf8(&[&b"melt".repeat(18)[..length], b].concat()));
    }
}

fn dates() -> u64 {
    let years = (0..=10_001).chain([65_536, 1 << 32, (1 << 32) + 2000, u64::MAX]);
    let mut n = 0;
    for year in years {
        for month in (0..=14).chain([258, 1 << 32 | 2, u64::MAX]) {
            for day in (0..=33).chain([257, 1 << 32 | 1, u64::MAX]) {
                check::date(year, month, day).unwrap_or_else(|m| {
                    println!("MISMATCH");
                    close(Ok(()), m)
                });
                n += 1;
            }
        }
    }
    n
}

/// What is full of keys alone, with objects that fit tables of a few slots.
fn only_keys(run: &mut Run, seed: u64, count: u64) {
    second::cases::keys().iter().for_each(|case| run.text(&case.text, Effort::Edges));
    spelled_keys(run);
    let quick = |run: &mut Run, t: &[u8]| run.text(t, Effort::One(run.texts as usize));
    keys::wides((4..20).chain([100]), |t| quick(run, t));
    keys::nested((0..7).flat_map(|n| (0..7).map(move |m| (n, m))), |t| quick(run, t));
    for (depth, n) in (1..8).flat_map(|depth| (1..5).map(move |n| (depth, n))).chain([(64, 1)]) {
        (0..depth).map(Some).chain([None]).for_each(|again| quick(run, &keys::deep(depth, n, again)));
    }
    renamed_keys(run, &[4, 5, 6, 7, 8, 9, 10, 100]);
    random_keys(run, seed, count, 20);
}

fn main() {
    let o = options();
    let start = Instant::now();
    let mut run = Run { trace: o.trace, texts: 0, accepted: 0, tapes: 0, bytes: 0 };
    if let Some([size, before, slots, shared]) = o.collide {
        return std::io::stdout().write_all(&collide::text(size, before, slots as u32, shared)).expect("it is written");
    }
    if o.keys {
        only_keys(&mut run, o.seed, o.count);
        return last_line(&run, start);
    }
    let say = |what: &str, run: &Run| {
        println!("{what}: {} texts, {} tapes so far, {:.1} s", run.texts, run.tapes, start.elapsed().as_secs_f64())
    };
    let texts = stated(&mut run);
    say("stated cases", &run);
    systematic(&mut run);
    say("systematic", &run);
    spelled_keys(&mut run);
    many_keys(&mut run);
    renamed_keys(&mut run, &[126, 127, 128, 129, 4_220, 4_225, 70_000]);
    random_keys(&mut run, o.seed, o.count / 10, 200);
    say("keys", &run);
    counted(&mut run);
    say("values around their limits", &run);
    counted_tapes(&mut run);
    say("tapes counted off", &run);
    let short: Vec<Vec<u8>> = texts.iter().filter(|text| text.len() < 1000).cloned().collect();
    random(&mut run, o.seed, o.count, &short);
    say("random", &run);
    println!("{} of {} random texts accepted (seed {})", run.accepted, o.count, o.seed);
    println!("{} states by hand, {:.1} s", parts::wild(o.seed, o.count, &short), start.elapsed().as_secs_f64());
    utf8(&mut run);
    println!("{} times utf8 alone, {} dates, {:.1} s", run.bytes, dates(), start.elapsed().as_secs_f64());
    if let Some(program) = &o.program {
        println!("{} inputs of the program", program::all(program, o.seed, &texts));
    }
    if o.big {
        println!("{} big texts and tapes", big::all());
    }
    last_line(&run, start);
}

fn last_line(run: &Run, start: Instant) {
    let (calls, took) = (archive::calls(), start.elapsed().as_secs_f64());
    println!("differential: {} texts and {} tapes agree in {calls} calls, {took:.0} s", run.texts, run.tapes);
}
