//! A failing case made shorter while it still fails.

/// Takes out pieces of whole steps, long ones first, at each place, as long as `fails` holds and something comes of it.
pub fn bytes(case: &[u8], step: usize, fails: impl Fn(&[u8]) -> bool) -> Vec<u8> {
    let mut best = case.to_vec();
    loop {
        let before = best.len();
        for steps in sizes(best.len() / step) {
            best = without(best, step, steps * step, &fails);
        }
        if best.len() == before {
            return best;
        }
    }
}

/// Halves down to 24, then every size down to 1.
fn sizes(most: usize) -> Vec<usize> {
    let halves = std::iter::successors(Some(most), |n| Some(n / 2)).take_while(|&n| n > 24);
    halves.chain((1..=most.min(24)).rev()).collect()
}

/// One pass that tries to take out `piece` bytes at each place.
fn without(mut best: Vec<u8>, step: usize, piece: usize, fails: impl Fn(&[u8]) -> bool) -> Vec<u8> {
    let mut at = 0;
    while at + piece <= best.len() {
        let shorter = [&best[..at], &best[at + piece..]].concat();
        if fails(&shorter) {
            best = shorter;
        } else {
            at += if piece > 24 * step { piece } else { step };
        }
    }
    best
}

/// Sets to zero each byte that need not be another.
pub fn zeros(case: &[u8], fails: impl Fn(&[u8]) -> bool) -> Vec<u8> {
    let mut best = case.to_vec();
    for at in 0..best.len() {
        let before = std::mem::take(&mut best[at]);
        if before != 0 && !fails(&best) {
            best[at] = before;
        }
    }
    best
}
