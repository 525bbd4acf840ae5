//! Regular expressions over bytes, and the tables made from them (Thompson's construction, then sets of states).
//!
//! A text's bytes are read as 257 symbols: the bytes, and one more for a space that has a digit right after it, since 01
//! says that a date goes on "after one space followed by a digit". Wherever a space may stand, that symbol may too.

use std::collections::HashMap;
use std::ops::{Add, BitOr};

pub const SYMBOLS: usize = 257;
const SPACE_DIGIT: usize = 256;
const DEAD: u16 = 0;

/// A regular expression: `a + b` is a and then b, `a | b` is either.
#[derive(Clone)]
pub enum Rx {
    Set(Vec<usize>),
    Seq(Box<Rx>, Box<Rx>),
    Or(Box<Rx>, Box<Rx>),
    Star(Box<Rx>),
    Empty,
}

impl Add for Rx {
    type Output = Rx;
    fn add(self, next: Rx) -> Rx {
        Rx::Seq(Box::new(self), Box::new(next))
    }
}

impl BitOr for Rx {
    type Output = Rx;
    fn bitor(self, other: Rx) -> Rx {
        match (self, other) {
            (Rx::Set(a), Rx::Set(b)) => Rx::Set([a, b].concat()),
            (a, b) => Rx::Or(Box::new(a), Box::new(b)),
        }
    }
}

/// `%xAA-BB`; the upper end 255 stands for 10FFFF, as the text is known to be UTF-8.
pub fn range(low: u8, high: u8) -> Rx {
    let mut set: Vec<usize> = (low as usize..=high as usize).collect();
    if (low..=high).contains(&b' ') {
        set.push(SPACE_DIGIT);
    }
    Rx::Set(set)
}

pub fn byte(b: u8) -> Rx {
    range(b, b)
}

pub fn space_before_digit() -> Rx {
    Rx::Set(vec![SPACE_DIGIT])
}

/// `%xAA.BB.CC`
pub fn word(s: &str) -> Rx {
    s.bytes().fold(Rx::Empty, |r, b| r + byte(b))
}

/// `*x`
pub fn star(r: Rx) -> Rx {
    Rx::Star(Box::new(r))
}

/// `1*x`
pub fn some(r: Rx) -> Rx {
    r.clone() + star(r)
}

/// `[ x ]`
pub fn opt(r: Rx) -> Rx {
    r | Rx::Empty
}

/// `nx`
pub fn times(n: usize, r: Rx) -> Rx {
    (0..n).fold(Rx::Empty, |all, _| all + r.clone())
}

/// The automaton with many states at once: edges by symbol, and edges that take nothing.
#[derive(Default)]
struct Nfa {
    by_symbol: Vec<Vec<(usize, usize)>>,
    free: Vec<Vec<usize>>,
}

impl Nfa {
    fn state(&mut self) -> usize {
        self.by_symbol.push(Vec::new());
        self.free.push(Vec::new());
        self.free.len() - 1
    }

    /// Adds `r` from the state `from`; answers the state it ends in.
    fn add(&mut self, r: &Rx, from: usize) -> usize {
        match r {
            Rx::Empty => from,
            Rx::Set(symbols) => {
                let to = self.state();
                self.by_symbol[from].extend(symbols.iter().map(|&s| (s, to)));
                to
            }
            Rx::Seq(a, b) => {
                let middle = self.add(a, from);
                self.add(b, middle)
            }
            Rx::Or(a, b) => {
                let (start_a, start_b, to) = (self.state(), self.state(), self.state());
                self.free[from].extend([start_a, start_b]);
                let (end_a, end_b) = (self.add(a, start_a), self.add(b, start_b));
                self.free[end_a].push(to);
                self.free[end_b].push(to);
                to
            }
            Rx::Star(a) => {
                let (round, to) = (self.state(), self.state());
                self.free[from].push(round);
                let end = self.add(a, round);
                self.free[end].push(round);
                self.free[round].push(to);
                to
            }
        }
    }

    /// All states that `states` reach for nothing, in order; of these, the ones that lead on by a symbol or nowhere.
    fn closure(&self, states: Vec<usize>) -> Vec<usize> {
        if states.is_empty() {
            return states;
        }
        let mut seen = vec![false; self.free.len()];
        let mut todo = states;
        while let Some(s) = todo.pop() {
            if !seen[s] {
                seen[s] = true;
                todo.extend(&self.free[s]);
            }
        }
        let matters = |s: usize| self.free[s].is_empty() || !self.by_symbol[s].is_empty();
        (0..seen.len()).filter(|&s| seen[s] && matters(s)).collect()
    }
}

/// A table: the next state by state and symbol, and what each state accepts. State 0 is the one with no way on.
pub struct Table<K> {
    next: Vec<[u16; SYMBOLS]>,
    accepts: Vec<Option<K>>,
}

impl<K: Copy + PartialEq + std::fmt::Debug> Table<K> {
    pub fn new(kinds: &[(K, Rx)]) -> Table<K> {
        let mut nfa = Nfa::default();
        let start = nfa.state();
        let mut ends = Vec::new();
        for (kind, rx) in kinds {
            let first = nfa.state();
            nfa.free[start].push(first);
            let (last, end) = (nfa.add(rx, first), nfa.state());
            nfa.free[last].push(end);
            ends.push((end, *kind));
        }
        Table::determine(&nfa, start, &ends)
    }

    fn determine(nfa: &Nfa, start: usize, ends: &[(usize, K)]) -> Table<K> {
        let first = nfa.closure(vec![start]);
        let mut numbers = HashMap::from([(Vec::new(), DEAD as usize), (first.clone(), 1)]);
        let mut sets = vec![Vec::new(), first];
        let mut table = Table { next: Vec::new(), accepts: Vec::new() };
        while table.next.len() < sets.len() {
            let set = sets[table.next.len()].clone();
            let mut to: Vec<Vec<usize>> = vec![Vec::new(); SYMBOLS];
            for &(symbol, target) in set.iter().flat_map(|&s| &nfa.by_symbol[s]) {
                to[symbol].push(target);
            }
            let mut row = [DEAD; SYMBOLS];
            for (symbol, targets) in to.into_iter().enumerate() {
                let target = nfa.closure(targets);
                let number = *numbers.entry(target.clone()).or_insert_with(|| {
                    sets.push(target);
                    sets.len() - 1
                });
                row[symbol] = u16::try_from(number).expect("few states");
            }
            table.next.push(row);
            table.accepts.push(accepted(&set, ends));
        }
        table
    }

    /// Takes bytes of `text` from `from` on while some rule lets it (01: "An item takes each next byte that some rule lets
    /// it take"). Answers the kind and the end, or the place where it can neither go on nor stop.
    pub fn take(&self, text: &[u8], from: usize) -> Result<(K, usize), usize> {
        let (mut state, mut at) = (1, from);
        while at < text.len() {
            let next = self.next[state][symbol(text, at)];
            if next == DEAD {
                break;
            }
            state = next as usize;
            at += 1;
        }
        self.accepts[state].map(|kind| (kind, at)).ok_or(at)
    }
}

/// What a set of states accepts. Two kinds at once would be an ambiguity in the grammar.
fn accepted<K: Copy + PartialEq + std::fmt::Debug>(set: &[usize], ends: &[(usize, K)]) -> Option<K> {
    let mut kinds = ends.iter().filter(|(end, _)| set.contains(end)).map(|&(_, kind)| kind);
    let kind = kinds.next();
    assert!(kinds.all(|other| Some(other) == kind), "two kinds of item in one text");
    kind
}

fn symbol(text: &[u8], at: usize) -> usize {
    match text[at] {
        b' ' if text.get(at + 1).is_some_and(u8::is_ascii_digit) => SPACE_DIGIT,
        b => b as usize,
    }
}
