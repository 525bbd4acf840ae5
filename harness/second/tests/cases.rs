//! The stated cases, each read, laid on a tape, looked at, decoded and written.

use second::cases::{self, Case};
use second::{canonical, check, decode, json, look, measure, once, parse, parse_all, program, tape, Refusal, Sizes};

fn outcome(text: &[u8]) -> Vec<u8> {
    match parse(text) {
        Ok(value) => [b"=", &canonical(&value)[..]].concat(),
        Err(Refusal { number, place }) => format!("{number}@{place}").into_bytes(),
    }
}

/// What must hold of every text that is refused, with 15 left out where there is one.
fn refused(text: &[u8], refusal: Refusal) {
    match parse_all(text) {
        Err(r) => assert!(r == refusal && r.number < 8 && check(text) == Err(r)),
        Ok((value, repeated)) => {
            let (t, s) = tape(&value);
            assert!(repeated == Some(refusal) && refusal.number == 15 && !once(&value) && decode(&t, &s).is_none());
            assert_eq!(check(text), Ok(Sizes { records: t.len() as u64 / 16, bytes: s.len() as u64 }));
        }
    }
}

/// What must hold of every text.
fn sound(text: &[u8]) {
    let value = match parse(text) {
        Ok(value) => value,
        Err(refusal) => return refused(text, refusal),
    };
    assert!(once(&value) && check(text) == measure(text));
    let (t, s) = tape(&value);
    assert!(t.len() / 16 <= text.len() && s.len() <= text.len());
    assert_eq!(measure(text), Ok(Sizes { records: t.len() as u64 / 16, bytes: s.len() as u64 }));
    assert_eq!(decode(&t, &s), Some(value.clone()));
    let written = canonical(&value);
    assert_eq!(parse(&written), Ok(value.clone()));
    for index in 0..t.len() as u64 / 16 {
        look(&t, &s, index).unwrap();
    }
    match json(&value) {
        Ok(text) => assert_eq!(text, written),
        Err(r) => {
            assert!(r.number == 11 && matches!(look(&t, &s, r.place).unwrap().kind, 4 | 7..=11))
        }
    }
}

fn run(cases: Vec<Case>, answer: fn(&[u8]) -> Vec<u8>, count: usize) {
    assert_eq!(cases.len(), count);
    for case in cases {
        let got = answer(&case.text);
        let show = |b: &[u8]| String::from_utf8_lossy(b).into_owned();
        let say =
            || format!("{} {:?}: {:?}, should be {:?}", case.label, show(&case.text), show(&got), show(&case.outcome));
        assert!(got == case.outcome, "{}", say());
        sound(&case.text);
    }
}

#[test]
fn readings() {
    run(cases::readings(), outcome, 166);
}

#[test]
fn rules() {
    run(cases::rules(), outcome, 24);
}

#[test]
fn specification() {
    run(cases::specification(), outcome, 45);
}

#[test]
fn rfc8259() {
    run(cases::rfc8259(), outcome, 12);
}

#[test]
fn further() {
    run(cases::further(), outcome, 85);
}

#[test]
fn keys() {
    run(cases::keys(), outcome, 56);
}

#[test]
fn numbers() {
    run(cases::numbers(), outcome, 39);
}

#[test]
fn samples_of_the_program() {
    run(cases::samples(), program, 186);
}
