//! Texts full of keys: the same key in all its spellings, objects in each other, and objects of as many keys as fill a table.

use crate::random::{layout, Random};

/// Some keys, each in many spellings; no two of these keys are the same.
pub const SPELLINGS: &[&[&str]] = &[
    &[
        "a",
        "'a'",
        "\"a\"",
        "\"\\u0061\"",
        "'\\u{61}'",
        "\"\\u{00000061}\"",
        "\"a\"+\"\"",
        "''+'a'",
        "\"\" /*:*/ + # a\n \"\\u0061\"+''",
        "\"\"\"a\"\"\"",
        "'''\na'''",
        "\"\"\"\r\na\"\"\"+''",
    ],
    &["ab", "'ab'", "\"a\"+'b'", "\"a\\u0062\"", "'''ab'''", "'a'+\"\"\"\nb\"\"\"", "\"\\u{61}\"+''+'\\u{62}'"],
    &["\"\"", "''", "\"\"\"\"\"\"", "''''''", "\"\"+''", "'''\n'''", "\"\"\"\r\n\"\"\"+\"\""],
    &["\"\\n\"", "'\\u000A'", "'''\n\n'''", "\"\"\"\r\n\n\"\"\"", "\"\\u{a}\""],
    &["\"\\r\"", "'\\u{d}'", "'''\r'''", "\"\"\"\n\r\"\"\""],
    &["\"é\"", "'\\u00e9'", "\"\\u{E9}\"", "'''é'''"],
    &["\"e\u{301}\"", "\"e\\u0301\"", "'e'+'\u{301}'"],
    &["\"𝄞\"", "\"\\ud834\\udd1e\"", "'\\u{1D11E}'", "'''𝄞'''", "'\\uD834\\uDD1E'+''"],
    &["\"\\u0000\"", "'\\0'", "\"\\u{0}\""],
    &["\"/\"", "'\\/'", "\"\\u002F\""],
    &["\"\\\\u0061\"", "'''\\u0061'''", "\"\\\\\"+'u0061'"],
    &["'\"'", "\"\\\"\"", "'''\"'''"],
    &["A", "\"A\""],
    &["aa", "'a'+'a'"],
    &["true", "'true'"],
];

/// Objects with each spelling beside each other: two and three members, one object in the other, in an array of the other, side by side.
pub fn pairs(mut each: impl FnMut(&[u8])) {
    let all: Vec<&str> = SPELLINGS.concat();
    for x in &all {
        for y in &all {
            for text in [
                format!("{{{x}:1,{y}:2}}"),
                format!("{{{x}:1,k:{{}},{y}:2,}}"),
                format!("{{{x}:{{{y}:1}}}}"),
                format!("{{{x}:[{{{y}:1}}],k:0,{y}:2}}"),
                format!("[{{{x}:1}},{{{y}:1,b:{{{x}:2}}}}]"),
                format!("{{{x}:{{{y}:1,{x}:2}},{y}:3}}"),
                format!(" {{ # {x}\n{x} /*{y}*/ : '', {y}: {y}, }}"),
                format!("{{{x}:1,{y}:2"),
                format!("{{{x}:1,{y}:1e99999}}"),
            ] {
                each(text.as_bytes());
            }
        }
    }
}

/// Objects of up to five members whose keys are any of three, spelled in turn.
pub fn members(mut each: impl FnMut(&[u8])) {
    let mut turn = 0;
    for length in 2..=5 {
        for n in 0..3usize.pow(length) {
            for _ in 0..8 {
                let mut text = b"{".to_vec();
                for place in 0..length {
                    let key = SPELLINGS[n / 3usize.pow(place) % 3];
                    turn += 7;
                    text.extend(format!("{}:{place},", key[turn % key.len()]).bytes());
                }
                text.push(b'}');
                each(&text);
            }
        }
    }
}

/// Objects in each other and in arrays, put together from up to `length` pieces: two keys, an object or an array of one that opens, and
/// one that closes.
pub fn nests(length: u32, mut each: impl FnMut(&[u8])) {
    const PIECES: [&str; 5] = ["a:1,", "'b':[],", "\"a\":{", "b:[0,{", "}"];
    for n in 0..5usize.pow(length) {
        let mut text = String::from("{");
        let mut open = vec!["}"];
        for place in 0..length {
            let piece = PIECES[n / 5usize.pow(place) % 5];
            match piece {
                "}" if open.len() > 1 => text += open.pop().expect("not empty"),
                "}" => continue,
                _ => text += piece,
            }
            if piece.ends_with('{') {
                open.push(if piece.contains('[') { "}]," } else { "}," });
            }
        }
        open.iter().rev().for_each(|close| text += close);
        each(text.as_bytes());
    }
}

/// An object of `n` members, of which some have the key of an earlier one: pairs of the earlier and the later, counted from 0.
pub fn wide(n: usize, again: &[(usize, usize)]) -> Vec<u8> {
    let mut names: Vec<usize> = (0..n).collect();
    again.iter().filter(|(_, later)| *later < n).for_each(|&(earlier, later)| names[later] = earlier);
    format!("{{{}}}", members_of(&names, 'k')).into_bytes()
}

/// Members with these numbers in their keys, the second of two that are the same in another spelling.
fn members_of(names: &[usize], letter: char) -> String {
    let member = |(i, name): (usize, &usize)| match i == *name {
        true => format!("{letter}{name}:0,"),
        false => format!("'{letter}'+\"{name}\":0,"),
    };
    names.iter().enumerate().map(member).collect()
}

/// Objects of as many members, each with no repeated key, and with some: of the first, the middle and the last key, and more than one, where
/// the first to be found need not be the first in the text.
pub fn wides(sizes: impl Iterator<Item = usize>, mut each: impl FnMut(&[u8])) {
    for n in sizes {
        let (middle, last) = (n / 2, n - 1);
        each(&wide(n, &[]));
        each(&wide(n, &[(0, 1)]));
        each(&wide(n, &[(0, middle)]));
        each(&wide(n, &[(0, last)]));
        each(&wide(n, &[(middle, last)]));
        each(&wide(n, &[(last - 1, last)]));
        each(&wide(n, &[(0, last), (middle - 1, last - 1)]));
        each(&wide(n, &[(middle, last), (1, last - 1), (1, last - 2)]));
    }
}

/// Objects of `n` members with one of `m` inside, so that both together come to the end of a table, and with further members after it.
pub fn nested(sizes: impl Iterator<Item = (usize, usize)>, mut each: impl FnMut(&[u8])) {
    for (n, m) in sizes {
        let (outer, all): (Vec<usize>, Vec<usize>) = ((0..n).collect(), (0..m).collect());
        let twice: Vec<usize> = (0..m).chain([0]).collect();
        for inner in [members_of(&all, 'k'), members_of(&all, 'm'), members_of(&twice, 'k')] {
            for after in ["", "n:0", "'k0':0", "k:0", "k:{},n:[{k0:0}]"] {
                each(format!("{{{}k:[{{{inner}}}],{after}}}", members_of(&outer, 'k')).as_bytes());
            }
        }
    }
}

/// Objects in each other, each with `n` keys before the next one and one after it; `again` of them, counted from the outermost, has its first
/// key twice.
pub fn deep(depth: usize, n: usize, again: Option<usize>) -> Vec<u8> {
    let names: Vec<usize> = (0..n).collect();
    let before = format!("{{{}in:", members_of(&names, 'k')).repeat(depth);
    let after = |i: usize| if again == Some(depth - 1 - i) { ",'k0':1}" } else { ",out:1}" };
    format!("{before}1{}", (0..depth).map(after).collect::<String>()).into_bytes()
}

// ---- by chance

/// Keys that are like each other, and some of each kind of character.
const KEYS: &[&str] = &[
    "a",
    "b",
    "ab",
    "ba",
    "aa",
    "",
    "$",
    "_0",
    "true",
    "A",
    "a ",
    "é",
    "e\u{301}",
    "\u{20AC}",
    "\u{1D11E}",
    "\u{1D11F}",
    "\n",
    "\r\n",
    "\t",
    "\0",
    "\u{1F}",
    "\u{7F}",
    "\"",
    "'",
    "\\",
    "\\u0061",
    "/",
    "{a:1}",
    "setpoint",
];

/// The keys of one object, drawn one by one.
pub struct Drawn {
    used: Vec<String>,
    /// Once in so many a key is one that was drawn before; 0 for never.
    again: usize,
}

impl Drawn {
    /// In most objects no key is drawn twice.
    pub fn new(r: &mut Random) -> Drawn {
        let again = if r.one_in(9) { 1 + r.below(4) } else { 0 };
        Drawn { used: Vec::new(), again }
    }

    fn key(&mut self, r: &mut Random) -> String {
        if self.again > 0 && !self.used.is_empty() && r.one_in(self.again) {
            return self.used[r.below(self.used.len())].clone();
        }
        let mut key = fresh(r);
        for n in 0.. {
            if !self.used.contains(&key) {
                break;
            }
            key = if n < 3 { fresh(r) } else { format!("{key}{}", self.used.len()) };
        }
        self.used.push(key.clone());
        key
    }

    /// The next key, in any spelling.
    pub fn next(&mut self, r: &mut Random, out: &mut Vec<u8>) {
        let key = self.key(r);
        spell(r, &key, out);
    }
}

/// A key by itself: one of those above, or up to 40 letters of which only the last may differ.
fn fresh(r: &mut Random) -> String {
    match r.below(5) {
        0 => format!("{}{}", "x".repeat(r.below(40)), r.pick(&["x", "y", "\u{E9}", "\u{E8}"])),
        _ => r.pick(KEYS).to_string(),
    }
}

/// A key in one of its spellings: an identifier where it is one, or parts.
fn spell(r: &mut Random, key: &str, out: &mut Vec<u8>) {
    let letter = |c: char| c.is_ascii_alphabetic() || c == '$' || c == '_';
    let name = key.starts_with(letter) && key.chars().all(|c| letter(c) || c.is_ascii_digit());
    if name && !r.one_in(3) {
        return out.extend(key.bytes());
    }
    let mut rest: Vec<char> = key.chars().collect();
    while r.one_in(4) {
        let after = rest.split_off(r.below(rest.len() + 1));
        part(r, &rest, out);
        layout(r, out);
        out.push(b'+');
        layout(r, out);
        rest = after;
    }
    part(r, &rest, out);
}

/// A string part of these characters.
fn part(r: &mut Random, characters: &[char], out: &mut Vec<u8>) {
    let quote = if r.one_in(2) { '"' } else { '\'' };
    let text: String = characters.iter().collect();
    let plain = |c: &char| !(c.is_ascii_control() && !"\t\n\r\u{7F}".contains(*c)) && *c != quote;
    if r.one_in(4) && characters.iter().all(plain) {
        let three = quote.to_string().repeat(3);
        // A newline that is lost, where the first one would be or by chance.
        let lost = match text.starts_with(['\n', '\r']) || r.one_in(3) {
            true => r.pick(&["\n", "\r\n"]),
            false => "",
        };
        return out.extend(format!("{three}{lost}{text}{three}").bytes());
    }
    let inside: String = characters.iter().map(|c| character(r, *c, quote)).collect();
    out.extend(format!("{quote}{inside}{quote}").bytes());
}

/// A character in a part that this quote closes: as it is where it may stand so, or as an escape.
fn character(r: &mut Random, c: char, quote: char) -> String {
    let bare = c >= ' ' && c != '\\' && c != quote;
    let short = "\"'\\/0bfnrtv".chars().zip("\"'\\/\0\u{8}\u{C}\n\r\t\u{B}".chars()).find(|(_, of)| *of == c);
    let mut units = [0; 2];
    match r.below(8) {
        0 => c.encode_utf16(&mut units).iter().map(|unit| format!("\\u{unit:04x}")).collect(),
        1 => c.encode_utf16(&mut units).iter().map(|unit| format!("\\u{unit:04X}")).collect(),
        2 => format!("\\u{{{}{:x}}}", r.pick(&["", "0", "0000000"]), c as u32),
        _ if bare => c.to_string(),
        _ => short.map_or(format!("\\u{{{:X}}}", c as u32), |(letter, _)| format!("\\{letter}")),
    }
}

/// A text of objects in each other: a few keys or many, but not more in one object than `limit`, with one repeated, many, or none.
pub fn text(r: &mut Random, limit: usize) -> Vec<u8> {
    let mut out = Vec::new();
    layout(r, &mut out);
    let again = [0, 0, 3, 60][r.below(4)];
    let most = [3, 6, 6, 6, 20, 20, 60, 200][r.below(8)];
    object(r, 0, again, limit.min(most), &mut out);
    layout(r, &mut out);
    out
}

fn object(r: &mut Random, depth: usize, again: usize, most: usize, out: &mut Vec<u8>) {
    let mut keys = Drawn { used: Vec::new(), again };
    out.push(b'{');
    for _ in 0..r.below(most) {
        layout(r, out);
        keys.next(r, out);
        layout(r, out);
        out.push(b':');
        let fewer = if most > 6 { 6 } else { most };
        match r.below(12) {
            0 | 1 if depth < 6 => object(r, depth + 1, again, fewer, out),
            2 if depth < 6 => {
                out.push(b'[');
                (0..r.below(3)).for_each(|_| {
                    object(r, depth + 1, again, fewer, out);
                    out.push(b',');
                });
                out.push(b']');
            }
            3 => out.extend(b"'a'"),
            _ => out.push(b'1'),
        }
        out.push(b',');
    }
    out.push(b'}');
}
