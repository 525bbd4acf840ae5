//! How fast `utf8` is beside Rust's `str::from_utf8`, in one run: medians of interleaved turns over 16 MiB.

use rules_harness::{utf8, Random};
use std::hint::black_box;
use std::time::Instant;

const SIZE: usize = 16 << 20;
const TURNS: usize = 31;

fn filled(mut next: impl FnMut() -> char) -> Vec<u8> {
    let mut text = String::with_capacity(SIZE);
    while text.len() + 4 <= SIZE {
        text.push(next());
    }
    text.into_bytes()
}

fn median(mut times: Vec<f64>) -> f64 {
    times.sort_by(f64::total_cmp);
    times[times.len() / 2]
}

fn main() {
    let mut random = Random(0x6675_726E_6163_6521);
    let sentence: Vec<char> = "Die Schmelze läuft: η ≈ 10¹² Pa·s bei 1250 °C. ".chars().cycle().take(SIZE).collect();
    let mut at = 0;
    let texts = [
        ("ASCII", filled(|| (b' ' + random.below(95) as u8) as char)),
        ("prose, 1 in 8 not ASCII", filled(|| { at += 1; sentence[at - 1] })),
        ("any, 1 in 5 not ASCII", filled(|| match random.below(15) {
            0 => 'é',
            1 => '€',
            2 => '𝄞',
            n => (b'a' + n as u8) as char,
        })),
        ("three bytes each", filled(|| '粘')),
    ];
    println!("| text | utf8 GB/s | str::from_utf8 GB/s | time, utf8 / from_utf8 |\n|---|---|---|---|");
    for (name, text) in texts {
        let (mut ours, mut theirs) = (Vec::new(), Vec::new());
        for _ in 0..TURNS {
            let start = Instant::now();
            assert!(black_box(utf8(black_box(&text))).refused == 0);
            ours.push(start.elapsed().as_secs_f64());
            let start = Instant::now();
            assert!(black_box(std::str::from_utf8(black_box(&text))).is_ok());
            theirs.push(start.elapsed().as_secs_f64());
        }
        let (a, b) = (median(ours), median(theirs));
        let gb = text.len() as f64 / 1e9;
        println!("| {name} | {:.2} | {:.2} | {:.2} |", gb / a, gb / b, a / b);
    }
}
