//! Damaged tapes and stores.

use crate::random::Random;

/// Changes a tape and store in one small way.
pub fn damage(r: &mut Random, tape: &mut Vec<u8>, store: &mut Vec<u8>) {
    match r.below(20) {
        0 => cut(r, tape),
        1 => cut(r, store),
        2 => tape.extend([b'n', b'u', 0, 0, 0, 0, 0, 0, 0, 0, 0, 0, 0, 0, 0, 0]),
        3 => store.push(r.next() as u8),
        4 => change(r, store),
        5 => mark(r, tape),
        6 => records(r, tape),
        7 => tape.extend((0..r.below(16)).map(|i| i as u8)),
        8..=10 => count_or_end(r, tape),
        11..=14 => key(r, tape, store),
        _ => field(r, tape),
    }
}

/// A key gets the bytes of another: of one of its object, or of any.
fn key(r: &mut Random, tape: &mut Vec<u8>, store: &mut Vec<u8>) {
    let all = keys(tape, store);
    if !all.is_empty() {
        let (to, from) = (all[r.below(all.len())], all[r.below(all.len())]);
        (*tape, *store) = renamed(tape, store, to, from);
    }
}

fn cut(r: &mut Random, bytes: &mut Vec<u8>) {
    let n = r.below(bytes.len() + 1);
    bytes.truncate(n);
}

fn change(r: &mut Random, bytes: &mut [u8]) {
    if !bytes.is_empty() {
        let at = r.below(bytes.len());
        bytes[at] = match r.below(4) {
            0 => bytes[at].wrapping_add(1),
            1 => bytes[at].wrapping_sub(1),
            2 => 0,
            _ => r.next() as u8,
        };
    }
}

fn whole(tape: &[u8]) -> usize {
    tape.len() / 16
}

fn mark(r: &mut Random, tape: &mut [u8]) {
    if whole(tape) > 0 {
        let at = 16 * r.below(whole(tape));
        let marks: &[&[u8]] =
            &[b"nu", b"bo", b"nb", b"nx", b"st", b"ky", b"by", b"ld", b"lt", b"dt", b"od", b"ar", b"ob", b"NU"];
        tape[at..at + 2].copy_from_slice(r.pick(marks));
    }
}

/// Takes a record out, puts one in twice, or makes two change places.
fn records(r: &mut Random, tape: &mut Vec<u8>) {
    if whole(tape) > 0 {
        let (a, b) = (16 * r.below(whole(tape)), 16 * r.below(whole(tape)));
        let record = tape[a..a + 16].to_vec();
        match r.below(3) {
            0 => tape.drain(a..a + 16).for_each(drop),
            1 => tape.splice(b..b, record).for_each(drop),
            _ => {
                let other = tape[b..b + 16].to_vec();
                tape[b..b + 16].copy_from_slice(&record);
                tape[a..a + 16].copy_from_slice(&other);
            }
        }
    }
}

/// A byte of one record: set to a byte near a limit.
fn field(r: &mut Random, tape: &mut [u8]) {
    if whole(tape) > 0 {
        let at = 16 * r.below(whole(tape)) + 2 + r.below(14);
        tape[at] = match r.below(5) {
            0 => tape[at].wrapping_add(1),
            1 => tape[at].wrapping_sub(1),
            2 => [0, 1, 2, 3, 10, 0x7F, 0x80, 0xFF][r.below(8)],
            _ => tape[at] ^ (1 << r.below(8)),
        };
    }
}

/// A container's count, its end or both: near the right one or near a limit.
fn count_or_end(r: &mut Random, tape: &mut [u8]) {
    let all = containers(tape);
    if !all.is_empty() {
        let at = all[r.below(all.len())];
        let (count, end) = stated(tape, at);
        let (counts, ends) = (counts(tape, at), ends(end));
        let (other, far) = (counts[r.below(counts.len())], ends[r.below(ends.len())]);
        let (count, end) = [(other, end), (other, end), (other, far), (count, far)][r.below(4)];
        set(tape, at, count, end);
    }
}

// ---- containers

fn container(mark: &[u8; 2], count: u32, end: u64) -> [u8; 16] {
    let mut record = [0; 16];
    record[..2].copy_from_slice(mark);
    set(&mut record, 0, count, end);
    record
}

/// The indexes of the records that have a container's mark.
fn containers(tape: &[u8]) -> Vec<usize> {
    (0..whole(tape)).filter(|i| is_container(tape, *i)).collect()
}

fn is_container(tape: &[u8], index: usize) -> bool {
    matches!(&tape[16 * index..16 * index + 2], b"ar" | b"ob")
}

/// The count and the end of the container at this index.
fn stated(tape: &[u8], index: usize) -> (u32, u64) {
    let at = 16 * index;
    let four = tape[at + 4..at + 8].try_into().expect("four");
    (u32::from_le_bytes(four), u64::from_le_bytes(tape[at + 8..at + 16].try_into().expect("eight")))
}

fn set(tape: &mut [u8], index: usize, count: u32, end: u64) {
    let at = 16 * index;
    tape[at + 4..at + 8].copy_from_slice(&count.to_le_bytes());
    tape[at + 8..at + 16].copy_from_slice(&end.to_le_bytes());
}

/// Counts for the container at this index: the stated one and those beside it, twice and half of it, that of all records inside, the
/// stated one with a bit more in each byte, and the greatest.
fn counts(tape: &[u8], index: usize) -> Vec<u32> {
    let (count, end) = stated(tape, index);
    let near = [0, 1, count, count.wrapping_add(1), count.wrapping_sub(1), count.wrapping_mul(2), count / 2];
    let records = end.wrapping_sub(index as u64 + 1) as u32;
    let far = [8, 16, 24, 31].map(|bit| count ^ 1 << bit);
    [&near[..], &[records], &far, &[1 << 31, u32::MAX - 1, u32::MAX]].concat()
}

/// The end and those beside it, and ends that come to it or to little more than 0 in 32 bits, or 16 times over in 64.
fn ends(end: u64) -> Vec<u64> {
    let near = [0, 1, end.wrapping_sub(1), end, end.wrapping_add(1), end.wrapping_mul(2)];
    let far = [8, 24, 31, 32, 59, 60, 63].map(|bit| end ^ 1 << bit);
    let last = [u32::MAX as u64, 1 << 32, 1 << 60, (1 << 60) - 1, end.wrapping_neg(), u64::MAX - 1, u64::MAX];
    [&near[..], &far, &last].concat()
}

/// Each container's count and end set to each of these; and the counts of each two, one more in the first and one less in the
/// second.
pub fn counted(tape: &[u8], mut each: impl FnMut(&[u8])) {
    let all = containers(tape);
    for &a in &all {
        let mut changed = tape.to_vec();
        let (count, end) = stated(tape, a);
        for other in counts(tape, a) {
            for far in ends(end) {
                set(&mut changed, a, other, far);
                each(&changed);
            }
        }
        set(&mut changed, a, count.wrapping_add(1), end);
        for &b in all.iter().filter(|b| **b != a) {
            let (count, end) = stated(tape, b);
            set(&mut changed, b, count.wrapping_sub(1), end);
            each(&changed);
            set(&mut changed, b, count, end);
        }
    }
}

/// The tape with the count in each container that its stated end would have: what else is wrong with it is then not found by a
/// count.
pub fn recounted(tape: &[u8]) -> Vec<u8> {
    let mut all = tape.to_vec();
    for at in containers(tape) {
        let end = stated(tape, at).1;
        let last = end.min(whole(tape) as u64) as usize;
        let (mut next, mut steps) = (at + 1, 0);
        while next < last {
            next = match stated(tape, next).1 {
                stop if stop > next as u64 && is_container(tape, next) => stop.min(last as u64) as usize,
                _ => next + 1,
            };
            steps += 1;
        }
        set(&mut all, at, if tape[16 * at] == b'o' { steps / 2 } else { steps }, end);
    }
    all
}

// ---- keys

/// The indexes of the keys whose bytes lie in the store.
pub fn keys(tape: &[u8], store: &[u8]) -> Vec<usize> {
    let inside = |i: &usize| {
        stated(tape, *i).1.checked_add(stated(tape, *i).0.into()).is_some_and(|end| end <= store.len() as u64)
    };
    (0..whole(tape)).filter(|i| tape[16 * i..].starts_with(b"ky")).filter(inside).collect()
}

/// The tape and store with the bytes of the key at `from` in the key at `to`; what stands after it in the store moves.
pub fn renamed(tape: &[u8], store: &[u8], to: usize, from: usize) -> (Vec<u8>, Vec<u8>) {
    let place = |i: usize| stated(tape, i).1 as usize..stated(tape, i).1 as usize + stated(tape, i).0 as usize;
    let (old, new) = (place(to), &store[place(from)]);
    let mut renamed = tape.to_vec();
    for i in (0..whole(tape)).filter(|i| matches!(&tape[16 * i..16 * i + 2], b"st" | b"ky" | b"by")) {
        let (length, start) = stated(tape, i);
        if start > old.start as u64 || start == old.start as u64 && i > to {
            set(&mut renamed, i, length, start.wrapping_add(new.len() as u64).wrapping_sub(old.len() as u64));
        }
    }
    set(&mut renamed, to, new.len() as u32, old.start as u64);
    (renamed, [&store[..old.start], new, &store[old.end..]].concat())
}

/// A text with keys in many objects, some of them the same.
pub const KEYED: &str =
    "{a:1,b:{a:2,c:[{a:3,bb:'s'},{bb:$00},{}],'':[]},'\\\"':{'é':{a:1},e:2,'è':3},ccc:[[{a:1,ab:2}]]}";

/// The tape with each container's count and end as `bend` makes them of its index, whether it is an object, its count and its end.
#[cfg(feature = "stub")]
pub fn bent(tape: &[u8], bend: impl Fn(usize, bool, u32, u64) -> (u32, u64)) -> Vec<u8> {
    let mut all = tape.to_vec();
    for at in containers(tape) {
        let (count, end) = stated(tape, at);
        let (count, end) = bend(at, tape[16 * at] == b'o', count, end);
        set(&mut all, at, count, end);
    }
    all
}

/// Whether no container counts anything.
#[cfg(feature = "stub")]
pub fn older(tape: &[u8]) -> bool {
    containers(tape).into_iter().all(|at| stated(tape, at).0 == 0)
}

/// All tapes of up to three records that are a null, a key with no bytes, or a container that counts up to two and ends between
/// its own index and one past the tape; and all of four whose containers end past themselves and inside.
pub fn small(mut each: impl FnMut(&[u8])) {
    for (n, first, past) in [(1, 0, 1), (2, 0, 1), (3, 0, 1), (4, 1, 0)] {
        let mut tapes = vec![Vec::new()];
        for index in 0..n {
            let records = any(index + first..=n + past);
            tapes = tapes.iter().flat_map(|t| records.iter().map(move |r| [&t[..], r].concat())).collect();
        }
        tapes.iter().for_each(|t| each(t));
    }
}

fn any(ends: std::ops::RangeInclusive<u64>) -> Vec<[u8; 16]> {
    let mut all = vec![*b"nu\0\0\0\0\0\0\0\0\0\0\0\0\0\0", KEY];
    for end in ends {
        for count in 0..=2 {
            all.extend([container(b"ar", count, end), container(b"ob", count, end)]);
        }
    }
    all
}

/// A key with no bytes.
pub const KEY: [u8; 16] = *b"ky\0\0\0\0\0\0\0\0\0\0\0\0\0\0";

/// A record as the only member of an object.
pub fn member(record: &[u8]) -> Vec<u8> {
    [&container(b"ob", 1, 3)[..], &KEY, record].concat()
}

// ---- tapes that are counted off

/// A record of every kind, and containers in each other.
pub const SAMPLE: &str = "[null,true,-12.5,NaN,\"\u{e9}\\0\",$00ff,2000-02-29,23:59:59.5,0000-01-01T00:00:00,\
9999-12-31T12:00:00-23:59,{k:[],\"\":{a:1}},[[\"x\",-Infinity]],{}]";

/// A tape and store with each byte set to each value, cut at each byte, with a byte more, and with each record taken out,
/// put in elsewhere, or in another's place; and each of these recounted.
pub fn every(tape: &[u8], store: &[u8], mut once: impl FnMut(&[u8], &[u8])) {
    let mut each = |t: &[u8], s: &[u8]| {
        once(t, s);
        let again = recounted(t);
        if again != t && again != tape {
            once(&again, s);
        }
    };
    bytewise(tape, |t| each(t, store));
    bytewise(store, |s| each(tape, s));
    for a in (0..tape.len()).step_by(16) {
        let (record, rest) = (&tape[a..a + 16], [&tape[..a], &tape[a + 16..]].concat());
        each(&rest, store);
        for b in (0..=tape.len()).step_by(16) {
            each(&[&tape[..b], record, &tape[b..]].concat(), store);
            if b < tape.len() {
                each(&[&rest[..b], record, &rest[b..]].concat(), store);
                each(&[&tape[..b], record, &tape[b + 16..]].concat(), store);
            }
        }
    }
}

fn bytewise(bytes: &[u8], mut each: impl FnMut(&[u8])) {
    let mut changed = bytes.to_vec();
    for at in 0..bytes.len() {
        each(&bytes[..at]);
        for b in 0..=255 {
            changed[at] = b;
            each(&changed);
        }
        changed[at] = bytes[at];
    }
    each(&[bytes, &[0]].concat());
}

/// `n` containers in each other; objects have a key each, and the innermost holds nothing.
pub fn nested(n: usize, objects: bool) -> Vec<u8> {
    let records = if objects { 2 * n - 1 } else { n };
    let mut tape = Vec::new();
    for i in 0..n {
        let more = i + 1 < n;
        tape.extend(container(if objects { b"ob" } else { b"ar" }, more.into(), records as u64));
        if objects && more {
            tape.extend(KEY);
        }
    }
    tape
}

/// Records at the limits of their fields, each as a whole tape. `store` is what they may lean on.
pub fn edges() -> Vec<(Vec<u8>, Vec<u8>)> {
    let mut all = Vec::new();
    for (mark, at, fields) in fields() {
        for field in fields {
            for zero in [true, false] {
                let mut r = vec![0; 16];
                r[..2].copy_from_slice(mark);
                if !zero {
                    // A base that is right by itself: coefficient 1, 1 January 0000, an empty container.
                    match mark {
                        b"nb" => r[8] = 1,
                        b"ld" | b"dt" | b"od" => (r[4], r[5]) = (1, 1),
                        b"ar" | b"ob" => r[8] = 1,
                        _ => {}
                    }
                }
                r[at..at + field.len()].copy_from_slice(&field);
                for store in ["", "é", "ab\u{0}"] {
                    all.push((r.clone(), store.as_bytes().to_vec()));
                }
            }
        }
    }
    all
}

type Fields = Vec<Vec<u8>>;

fn fields() -> Vec<(&'static [u8; 2], usize, Fields)> {
    let eights = |v: &[u64]| v.iter().map(|n| n.to_le_bytes().to_vec()).collect::<Fields>();
    let fours = |v: &[i32]| v.iter().map(|n| n.to_le_bytes().to_vec()).collect::<Fields>();
    let twos = |v: &[i16]| v.iter().map(|n| n.to_le_bytes().to_vec()).collect::<Fields>();
    let ones = || (0..=255u8).map(|b| vec![b]).collect::<Fields>();
    let times = [0, 1, 86_399_999_999_999, 86_400_000_000_000, 86_400_000_000_001, 1 << 32, 1 << 63, u64::MAX];
    let powers =
        [0, 1, -1, 18, 19, 20, -19, -20, -21, 9_999, 10_000, -9_999, -10_000, i32::MAX, i32::MIN, 65_536, -65_536];
    let coefficients = [0, 1, 9, 10, 11, 20, 100, u64::MAX, u64::MAX - 5, 1 << 63, 1 << 32];
    let starts = [0, 1, 2, 3, 4, 1 << 32, 1 << 63, u64::MAX, u64::MAX - 1];
    let years = [0, 1, 9_999, 10_000, 1_900, 2_000, -1, i16::MIN, i16::MAX];
    let offsets = [0, 1, -1, 1_439, 1_440, -1_439, -1_440, i16::MIN, i16::MAX, 256];
    let counts = [0, 1, 2, 255, 256, 65_535, 65_536, 1 << 24, -1, -2, i32::MAX, i32::MIN];
    let mut all = vec![
        (b"nb", 4, fours(&powers)),
        (b"nb", 8, eights(&coefficients)),
        (b"lt", 8, eights(&times)),
        (b"dt", 8, eights(&times)),
        (b"od", 8, eights(&times)),
        (b"od", 6, twos(&offsets)),
        (b"ld", 2, twos(&years)),
        (b"ar", 4, fours(&counts)),
        (b"ob", 4, fours(&counts)),
        (b"ar", 8, eights(&ends(1))),
        (b"ob", 8, eights(&ends(1))),
        (b"ar", 8, eights(&ends(3))),
        (b"ob", 8, eights(&ends(3))),
    ];
    for mark in [b"st", b"ky", b"by"] {
        all.push((mark, 4, fours(&[0, 1, 2, 3, 4, -1, i32::MAX, i32::MIN])));
        all.push((mark, 8, eights(&starts)));
    }
    for mark in [b"nu", b"bo", b"nb", b"nx", b"st", b"ky", b"by", b"ld", b"lt", b"dt", b"od", b"ar", b"ob"] {
        (0..16).for_each(|at| all.push((mark, at, ones())));
    }
    all
}
