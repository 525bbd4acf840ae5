//! The calls on tapes, lent buffers and limits, by the decided points F and G and by 01's table.

use second::*;

fn refused<T: std::fmt::Debug>(answer: Result<T, Refusal>) -> (u32, u64) {
    let r = answer.unwrap_err();
    (r.number, r.place)
}

/// A record from its mark and (place, byte) pairs.
fn rec(mark: &[u8; 2], fields: &[(usize, u8)]) -> Vec<u8> {
    let mut r = vec![0; 16];
    r[..2].copy_from_slice(mark);
    for &(at, b) in fields {
        r[at] = b;
    }
    r
}

fn of(text: &[u8]) -> (Vec<u8>, Vec<u8>) {
    tape(&parse(text).unwrap())
}

#[test]
fn the_sample_record() {
    let text = b"{ run: 0x1F, # melt\n  eta: NaN, at: 2021-03-04 05:06:07.50Z, t: [.5, 1250.5,], }\n";
    assert_eq!(measure(text), Ok(Sizes { records: 11, bytes: 9 }));
    let (t, s) = of(text);
    assert_eq!(s, b"runetaatt");
    assert_eq!(look(&t, &s, 6).unwrap().time, 18_367_500_000_000);
    assert_eq!(t[..16], rec(b"ob", &[(4, 4), (8, 11)]));
    assert_eq!(t[16..32], rec(b"ky", &[(4, 3)]));
    assert_eq!(t[32..48], rec(b"nb", &[(8, 31)]));
    assert_eq!(t[64..80], rec(b"nx", &[]));
    assert_eq!(t[96..102], [b'o', b'd', 0xE5, 0x07, 3, 4]);
    assert_eq!(t[128..144], rec(b"ar", &[(4, 2), (8, 11)]));
    assert_eq!(t[144..160], rec(b"nb", &[(4, 255), (5, 255), (6, 255), (7, 255), (8, 5)]));
}

#[test]
fn elements_and_members_are_counted() {
    let (t, s) = of(b"[1,[],{a:1}]");
    let seen: Vec<Looked> = (0..6).map(|i| look(&t, &s, i).unwrap()).collect();
    assert_eq!(seen.iter().map(|l| l.kind).collect::<Vec<_>>(), [12, 3, 12, 13, 6, 3]);
    assert_eq!(seen.iter().map(|l| l.count).collect::<Vec<_>>(), [3, 0, 0, 1, 0, 0]);
    assert_eq!(t[..16], rec(b"ar", &[(4, 3), (8, 6)]));
    assert_eq!(t[32..48], rec(b"ar", &[(8, 3)]));
    assert_eq!(t[48..64], rec(b"ob", &[(4, 1), (8, 6)]));
    let (t, _) = of(format!("[{}]", "1,".repeat(259)).as_bytes());
    assert_eq!(t[..16], rec(b"ar", &[(4, 3), (5, 1), (8, 4), (9, 1)]));
}

#[test]
fn offsets_and_signs() {
    let (t, s) = of(b"[2021-03-04T05:06:07-00:01,-Infinity,-0,true,$41]");
    let seen: Vec<Looked> = (0..6).map(|i| look(&t, &s, i).unwrap()).collect();
    assert_eq!(seen.iter().map(|l| l.kind).collect::<Vec<_>>(), [12, 11, 4, 3, 2, 7]);
    assert_eq!((seen[1].offset, seen[2].flag, seen[3].flag, seen[4].flag), (-1, 2, 1, 1));
    assert_eq!(t[22..24], [255, 255]);
}

#[test]
fn the_program() {
    let print = |r: &str| format!("{r}\n").into_bytes();
    let full = [&b"\""[..], &[b'a'; 65_534], b"\""].concat();
    assert_eq!(program(&full), [&full[..], b"\n"].concat());
    assert_eq!(program(format!("[{}1]", "1,".repeat(4095)).as_bytes()), print("refused 8 at 65552"));
    let zeros = [&b"\""[..], &b"\\0".repeat(32_767), b"\""].concat();
    assert_eq!(program(&zeros), print("refused 12 at 196604"));
    assert_eq!(program(format!("[{}x", "1,".repeat(5000)).as_bytes()), print("refused 3 at 10001"));
    assert_eq!(program(&[0xFF; 65_537]), print("refused 1 at 65536"));
    assert_eq!(program(&[b' '; 65_537]), print("refused 1 at 65536"));
}

#[test]
fn lent_buffers() {
    let text = br#"["ab",1]"#;
    for tape_length in 0..70 {
        for store_length in 0..5 {
            let (mut t, mut s) = (vec![0xA5; tape_length], vec![0x5A; store_length]);
            let answer = read(text, &mut t, &mut s);
            let (full_t, full_s) = of(text);
            if tape_length < 48 {
                assert_eq!(refused(answer), (8, 48));
            } else if store_length < 2 {
                assert_eq!(refused(answer), (9, 2));
            } else {
                assert_eq!(answer, Ok(Sizes { records: 3, bytes: 2 }));
                assert_eq!((&t[..48], &s[..2]), (&full_t[..], &full_s[..]));
                (t, s) = (t.split_off(48), s.split_off(2));
            }
            assert!(t.iter().all(|&b| b == 0xA5) && s.iter().all(|&b| b == 0x5A));
        }
    }
}

#[test]
fn look_at_one_record() {
    let st = |length: u8, start: u8| rec(b"st", &[(4, length), (8, start)]);
    assert_eq!(look(&st(0, 2), b"ab", 0).unwrap().kind, 5);
    assert_eq!(refused(look(&st(0, 3), b"ab", 0)), (10, 0));
    assert_eq!(refused(look(&rec(b"st", &[(4, 2), (8, 255), (15, 255)]), b"ab", 0)), (10, 0));
    assert_eq!(refused(look(&st(1, 0), b"\xff", 0)), (10, 0));
    assert_eq!(look(&rec(b"by", &[(4, 1)]), b"\xff", 0).unwrap().kind, 7);
    assert_eq!(refused(look(&[0; 15], b"", 0)), (14, 0));
    assert_eq!(refused(look(&[], b"", u64::MAX)), (14, u64::MAX));
    for bad in [
        rec(b"nb", &[(8, 10)]),
        rec(b"nb", &[(4, 1)]),
        rec(b"nb", &[(2, 2)]),
        rec(b"nb", &[(3, 1)]),
        rec(b"nb", &[(8, 1), (4, 0x10), (5, 0x27)]),
        rec(b"bo", &[(4, 2)]),
        rec(b"nx", &[(4, 3)]),
        rec(b"nu", &[(15, 1)]),
        rec(b"ar", &[]),
        rec(b"ar", &[(8, 2)]),
        rec(b"ar", &[(2, 1), (8, 1)]),
        rec(b"ob", &[(3, 1), (8, 1)]),
        rec(b"ob", &[(4, 1), (12, 1)]),
        rec(b"ar", &[(8, 255), (9, 255), (10, 255), (11, 255), (12, 255), (13, 255), (14, 255), (15, 255)]),
        rec(b"ld", &[(2, 1), (4, 13), (5, 1)]),
        rec(b"lt", &[(15, 1)]),
        rec(b"od", &[(2, 1), (4, 1), (5, 1), (6, 0xA0), (7, 5)]),
        rec(b"xx", &[]),
    ] {
        assert_eq!(refused(look(&bad, b"", 0)), (10, 0), "{bad:?}");
    }
    assert_eq!(look(&rec(b"nb", &[(2, 1)]), b"", 0).unwrap().flag, 1);
    assert_eq!(look(&rec(b"nb", &[(8, 1), (4, 0x0F), (5, 0x27)]), b"", 0).unwrap().power, 9_999);
    // A count is given as stored: one that is not that of what is inside, and the greatest.
    for mark in [b"ar", b"ob"] {
        for (stored, count) in [([0; 4], 0), ([1, 0, 0, 0], 1), ([0, 0, 1, 0], 65_536), ([255; 4], u32::MAX)] {
            let fields: Vec<(usize, u8)> = (4..8).zip(stored).chain([(8, 1)]).collect();
            let seen = look(&rec(mark, &fields), b"", 0).unwrap();
            assert_eq!((seen.count, seen.end), (count.into(), 1));
        }
    }
    // A tape that ends inside a record: its whole records may be looked at.
    let cut = [rec(b"ar", &[(8, 1)]), vec![7; 3]].concat();
    assert_eq!(look(&cut, b"", 0).unwrap().end, 1);
    assert_eq!(refused(look(&cut, b"", 1)), (14, 1));
}

#[test]
fn well_formed_or_not() {
    let wrong = |t: &[u8], s: &[u8]| assert_eq!(decode(t, s), None, "{t:?} {s:?}");
    let nu = rec(b"nu", &[]);
    wrong(b"", b"");
    wrong(&nu[..15], b"");
    wrong(&[&nu[..], &nu].concat(), b"");
    wrong(&nu, b"x");
    wrong(&rec(b"ky", &[]), b"");
    wrong(&rec(b"st", &[(8, 1), (4, 1)]), b"ab");
    wrong(&[rec(b"ar", &[(4, 2), (8, 3)]), rec(b"st", &[(4, 1)]), rec(b"st", &[(4, 1)])].concat(), b"a");
    wrong(&[rec(b"ar", &[(4, 1), (8, 2)]), rec(b"ky", &[])].concat(), b"");
    wrong(&[rec(b"ob", &[(4, 1), (8, 3)]), nu.clone(), nu.clone()].concat(), b"");
    for count in [0, 1] {
        wrong(&[rec(b"ob", &[(4, count), (8, 2)]), rec(b"ky", &[])].concat(), b"");
    }
    wrong(&[rec(b"ar", &[(8, 1)]), nu.clone()].concat(), b"");
    // The last one, the innermost, is empty.
    let nested = |n: u8| (0..n).flat_map(|i| rec(b"ar", &[(4, (i + 1 < n).into()), (8, n)])).collect::<Vec<_>>();
    assert!(decode(&nested(64), b"").is_some());
    wrong(&nested(65), b"");
}

/// A tape whose counts are set, each of them the four bytes of the container at this index.
fn counted(tape: &[u8], counts: &[(usize, u32)]) -> Vec<u8> {
    let mut all = tape.to_vec();
    for &(index, count) in counts {
        all[16 * index + 4..16 * index + 8].copy_from_slice(&count.to_le_bytes());
    }
    all
}

#[test]
fn the_writers_test_each_count() {
    let (t, s) = of(b"[1,[],{a:1}]");
    let mut out = [0; 100];
    assert_eq!(write_jaxn(&t, &s, &mut out), Ok(Written { length: 14 }));
    assert_eq!(&out[..14], b"[1,[],{\"a\":1}]");
    let refuse = |t: &[u8]| {
        assert_eq!(refused(write_jaxn(t, &s, &mut [0; 100])), (10, 0));
        assert_eq!(refused(write_json(t, &s, &mut [0; 100])), (10, 0));
    };
    for (index, right) in [(0, 3), (2, 0), (3, 1)] {
        for wrong in [0, 1, 2, 3, 4, 5, 6, 256, 1 << 16, 1 << 24, 1 << 31, u32::MAX - 1, u32::MAX] {
            let damaged = counted(&t, &[(index, wrong)]);
            assert_eq!(look(&damaged, &s, index as u64).unwrap().count, wrong.into());
            if wrong != right {
                refuse(&damaged);
            }
        }
    }
    // An older tape has 0 in each; an object counted by its records, 2; an array, by all the records inside, 5.
    refuse(&counted(&t, &[(0, 0), (2, 0), (3, 0)]));
    refuse(&counted(&t, &[(3, 2)]));
    refuse(&counted(&t, &[(0, 5)]));
    // Twice 2^31 is 0 in 32 bits, and an empty object has no step.
    let empty = rec(b"ob", &[(8, 1)]);
    for count in [1 << 31, u32::MAX] {
        assert_eq!(decode(&counted(&empty, &[(0, count)]), b""), None);
    }
}

#[test]
fn a_tape_has_each_key_once() {
    let (t, s) = of(b"{ab:1,b:{c:2,'d':{}},cd:3}");
    assert_eq!(s, b"abbcdcd");
    // The keys ab, b and cd are of one object, c and d of another.
    for (store, well) in [
        (b"ababcab", false),
        (b"cdbcdcd", false),
        (b"abcccdd", false),
        (b"abbbdcd", true),
        (b"abbabcd", true),
        (b"acbcdbd", true),
    ] {
        assert_eq!(decode(&t, store).is_some(), well, "{store:?}");
        let mut out = [0; 100];
        if !well {
            assert_eq!(refused(write_jaxn(&t, store, &mut out)), (10, 0));
            assert_eq!(refused(write_json(&t, store, &mut [])), (10, 0));
            assert_eq!(out, [0; 100]);
        }
        (0..t.len() as u64 / 16).for_each(|index| assert!(look(&t, store, index).is_ok()));
    }
}

#[test]
fn a_repeated_key_before_the_lengths() {
    for text in [&b"{a:1,a:2}"[..], b"{a:1,'a':{b:[1,2,3]}}"] {
        for (tape_length, store_length) in [(0, 0), (1000, 0), (0, 1000), (1000, 1000)] {
            let (mut t, mut s) = (vec![0xA5; tape_length], vec![0x5A; store_length]);
            assert_eq!(refused(read(text, &mut t, &mut s)), (15, 5));
            assert!(t.iter().all(|&b| b == 0xA5) && s.iter().all(|&b| b == 0x5A));
        }
    }
    assert_eq!(check(b"{a:1,a:2}"), Ok(Sizes { records: 5, bytes: 2 }));
    assert_eq!(program(b"{a:1,a:2}"), b"refused 15 at 5\n");
    let many = format!("{{{}a:1}}", "a:1,".repeat(3000));
    assert_eq!(program(many.as_bytes()), b"refused 15 at 5\n");
}

#[test]
fn the_order_of_the_writers() {
    let (t, s) = of(b"[{a:[1,$]},NaN]");
    assert_eq!(refused(write_json(&t, &s, &mut [])), (11, 5));
    assert_eq!(refused(write_jaxn(&t, &s, &mut [])), (12, 17));
    assert_eq!(refused(write_json(&t, b"", &mut [])), (10, 0));
    let many = "\u{1}".repeat(2_796_202);
    let (t, s) = tape(&Value::String(many.clone()));
    assert_eq!(refused(write_jaxn(&t, &s, &mut [])), (12, 16_777_214));
    let (t, s) = tape(&Value::Array(vec![Value::String(many), Value::Number(Number::NaN)]));
    assert_eq!(refused(write_jaxn(&t, &s, &mut [])), (13, 16_777_220));
    assert_eq!(refused(write_json(&t, &s, &mut [])), (11, 2));
}

#[test]
fn the_length_of_a_text() {
    let mut text = vec![b' '; LIMIT];
    text[LIMIT - 1] = b'1';
    assert_eq!(measure(&text), Ok(Sizes { records: 1, bytes: 0 }));
    text.push(0xFF);
    assert_eq!(refused(measure(&text)), (1, 16_777_216));
}

#[test]
fn utf8_and_date() {
    assert_eq!(utf8(b""), Ok(()));
    assert_eq!(refused(utf8(b"ab\xe2\x82")), (2, 2));
    assert_eq!(date(2000, 2, 29), Ok(()));
    for (y, m, d) in
        [(1900, 2, 29), (10_000, 1, 1), (2000, 0, 1), (2000, 13, 1), (2000, 1, 0), (u64::MAX, u64::MAX, u64::MAX)]
    {
        assert_eq!(refused(date(y, m, d)), (5, 0));
    }
    let all = (0..=10_000).flat_map(|y| (0..=13).flat_map(move |m| (0..=32).map(move |d| (y, m, d))));
    assert_eq!(all.filter(|&(y, m, d)| date(y, m, d).is_ok()).count(), 25 * 146_097);
}
