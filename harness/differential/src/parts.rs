//! A text through a check in parts, cut in many ways: the finish answers what `measure` answers for the text with 15 left out. The
//! state lies between margins and is filled with a pattern before the start; parts end at a wall.

use crate::archive::{self, LrSizes, CHECK_BYTES};
use crate::check::{lent, same, Check, Effort, Lent, PART};
use crate::random::Random;
use std::cell::Cell;

/// Up to this many bytes every pair of places is cut at.
const PAIRS: usize = 40;

/// A state of this length after a start.
fn started(length: usize) -> Lent {
    let mut state = Lent::new(length, 0x6B);
    archive::check_start(state.part());
    state
}

fn feed(state: &mut Lent, part: &[u8]) {
    lent(&PART, |guard| archive::check_feed(state.part(), guard.place(part)));
}

/// The text cut at these places, which do not fall.
fn parts<'a>(text: &'a [u8], cuts: &'a [usize]) -> impl Iterator<Item = &'a [u8]> {
    let starts = std::iter::once(0).chain(cuts.iter().copied());
    let ends = cuts.iter().copied().chain(std::iter::once(text.len()));
    starts.zip(ends).map(move |(from, to)| &text[from..to])
}

/// A check of the text cut at these places. The margins stay, and a second finish answers the same.
fn cut(text: &[u8], cuts: &[usize], should: LrSizes) -> Check {
    let mut state = started(CHECK_BYTES);
    parts(text, cuts).for_each(|part| feed(&mut state, part));
    let call = |what: &str| format!("check{what}, cut at {cuts:?}");
    same(|| call(""), archive::check_finish(state.part()), should)?;
    same(|| call(", finished again"), archive::check_finish(state.part()), should)?;
    same(|| call(", margins"), state.margins_stand(0x6B), true)
}

/// Cuts at random places, some of them the same, so that parts of no length come too.
fn random_cuts(r: &mut Random, length: usize) -> Vec<usize> {
    let mut cuts: Vec<usize> = (0..r.below(6)).map(|_| r.below(length + 1)).collect();
    cuts.sort();
    cuts
}

thread_local! {
    static CUTS: Cell<u64> = const { Cell::new(1) };
}

/// A text, as thoroughly as is asked.
pub fn text(text: &[u8], should: LrSizes, effort: Effort) -> Check {
    let seed = CUTS.with(|c| c.replace(c.get() + 1));
    let mut r = Random::new(seed);
    match effort {
        Effort::One(_) => cut(text, &random_cuts(&mut r, text.len()), should),
        Effort::Edges => {
            cut(text, &[], should)?;
            bytes(text, should)?;
            (0..4).try_for_each(|_| cut(text, &random_cuts(&mut r, text.len()), should))
        }
        Effort::Every => every(text, should, &mut r),
    }
}

fn bytes(text: &[u8], should: LrSizes) -> Check {
    cut(text, &(1..text.len()).collect::<Vec<_>>(), should)
}

/// Every place, every pair of places of a short text, byte by byte, and the ways to handle a state.
fn every(text: &[u8], should: LrSizes, r: &mut Random) -> Check {
    (0..=text.len()).try_for_each(|i| cut(text, &[i], should))?;
    if text.len() <= PAIRS {
        for i in 0..=text.len() {
            (i..=text.len()).try_for_each(|j| cut(text, &[i, j], should))?;
        }
    }
    bytes(text, should)?;
    handled(text, should, r)
}

/// A state that is copied, lent longer, started over after another text, and fed in turn with another one; a finish in the middle
/// spends nothing.
fn handled(text: &[u8], should: LrSizes, r: &mut Random) -> Check {
    let middle = r.below(text.len() + 1);
    let (first, second) = text.split_at(middle);
    let mut state = started(CHECK_BYTES);
    feed(&mut state, b"[1, \"used");
    archive::check_start(state.part());
    let mut other = started(CHECK_BYTES + 1 + r.below(40));
    let past: Vec<u8> = other.part()[CHECK_BYTES..].to_vec();
    feed(&mut state, first);
    feed(&mut other, b"{\"a\\u00");
    archive::check_finish(state.part());
    let mut copy = Lent::new(CHECK_BYTES, 0x11);
    copy.part().copy_from_slice(state.part());
    feed(&mut state, second);
    feed(&mut other, b"e9\": 1}");
    feed(&mut copy, second);
    same(|| format!("check, handled in turn, cut at {middle}"), archive::check_finish(state.part()), should)?;
    same(|| format!("check, copied, cut at {middle}"), archive::check_finish(copy.part()), should)?;
    let two = LrSizes { records: 3, bytes: 3, ..LrSizes::default() };
    same(|| "check beside another".into(), archive::check_finish(other.part()), two)?;
    same(|| "what lies past the state".into(), other.part()[CHECK_BYTES..] == past[..], true)
}

/// States put together by hand, or from a true one with some bytes changed, of any length, fed with any bytes: there is an answer, and
/// nothing but the state is touched.
pub fn wild(seed: u64, count: u64, texts: &[Vec<u8>]) -> u64 {
    let mut r = Random::new(seed);
    for n in 0..count {
        let length = if r.one_in(4) { r.below(CHECK_BYTES + 20) } else { CHECK_BYTES };
        let mut state = Lent::new(length, n as u8);
        if r.one_in(2) {
            archive::check_start(state.part());
            let text = &texts[r.below(texts.len())];
            feed(&mut state, &text[..r.below(text.len() + 1)]);
            for _ in 0..1 + r.below(4) {
                let at = r.below(length.min(160) + 1);
                if let Some(b) = state.part().get_mut(at) {
                    *b = r.below(256) as u8;
                }
            }
        } else {
            let few = r.below(256);
            state.part().iter_mut().for_each(|b| *b = if r.below(256) < few { r.below(256) as u8 } else { 0 });
        }
        for _ in 0..r.below(4) {
            let text = &texts[r.below(texts.len())];
            feed(&mut state, &text[r.below(text.len() + 1)..]);
        }
        let answer = archive::check_finish(state.part());
        let told = answer.refused <= 15 && (answer.refused == 0 || answer.records + answer.bytes == 0);
        assert!(told && state.margins_stand(n as u8), "a state by hand: {answer:?}");
    }
    count
}

/// A text of any length in parts of `size` bytes.
pub fn sliced(text: &[u8], size: usize) -> LrSizes {
    let mut state = [0; CHECK_BYTES];
    archive::check_start(&mut state);
    text.chunks(size).for_each(|part| archive::check_feed(&mut state, part));
    archive::check_finish(&state)
}
