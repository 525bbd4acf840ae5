//! The program, by its standard input and output, against `second::program`.

use crate::keys;
use crate::random::{self, Random};
use std::io::{Read, Write};
use std::process::{Command, Stdio};

/// What the program prints for this input. A second thread feeds it, in pieces, so that short reads happen.
fn output(program: &str, input: &[u8]) -> Vec<u8> {
    let mut child =
        Command::new(program).stdin(Stdio::piped()).stdout(Stdio::piped()).spawn().expect("the program starts");
    let (mut to, mut from) = (child.stdin.take().expect("piped"), child.stdout.take().expect("piped"));
    let input = input.to_vec();
    let feeder = std::thread::spawn(move || {
        // A program that has read enough may close its input.
        let half = input.len() / 2;
        let _ = to.write_all(&input[..half]).and_then(|()| to.flush()).and_then(|()| to.write_all(&input[half..]));
    });
    let mut out = Vec::new();
    from.read_to_end(&mut out).expect("its output ends");
    feeder.join().expect("fed");
    child.wait().expect("it ends");
    out
}

fn check(program: &str, input: &[u8]) {
    let (got, should) = (output(program, input), second::program(input));
    if got != should {
        let show = |b: &[u8]| b[..b.len().min(200)].escape_ascii().to_string();
        println!(
            "MISMATCH of the program on {} bytes: {}\n  program: {}\n  second:  {}",
            input.len(),
            show(input),
            show(&got),
            show(&should)
        );
        std::process::exit(1);
    }
}

/// Inputs around the sizes that the program lends.
fn sizes() -> Vec<Vec<u8>> {
    let mut all = Vec::new();
    for n in 65_534..=65_538 {
        all.push(vec![b' '; n]);
        all.push(vec![0xFF; n]);
        all.push([&b"\""[..], &vec![b'a'; n - 2], b"\""].concat());
        all.push([&b"\""[..], &vec![b'a'; n - 4], b"\\0\""].concat());
        all.push([&vec![b' '; n - 1][..], b"1"].concat());
    }
    for n in 4_093..=4_097 {
        all.push(format!("[{}1]", "1,".repeat(n)).into_bytes());
        all.push(format!("[{}x", "1,".repeat(n)).into_bytes());
    }
    for n in [2_046, 2_047, 2_048, 5_000] {
        all.push(keys::wide(n, &[]));
        all.push(keys::wide(n, &[(0, n - 1)]));
        all.push(keys::wide(n, &[(n / 2, n - 1)]));
    }
    all.push(format!("\"{}\"", "\\0".repeat(32_767)).into_bytes());
    all.push(format!("\"{}\"", "\\0".repeat(10_922)).into_bytes());
    all.push(format!("\"{}\"", "\\0".repeat(10_923)).into_bytes());
    all
}

pub fn all(program: &str, seed: u64, stated: &[Vec<u8>]) -> u64 {
    let mut r = Random::new(seed);
    let random = (0..200).map(|_| random::text(&mut r, &stated[..100]));
    let inputs: Vec<Vec<u8>> = stated.iter().cloned().chain(sizes()).chain(random).collect();
    inputs.iter().for_each(|input| check(program, input));
    inputs.len() as u64
}
