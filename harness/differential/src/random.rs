//! Texts made by chance from a fixed seed: grown along the grammar, then often damaged.

use crate::keys::Drawn;

/// A small fixed-seed generator (xorshift64*).
pub struct Random(u64);

impl Random {
    pub fn new(seed: u64) -> Random {
        let mut r = Random(seed ^ 0x9E37_79B9_7F4A_7C15 | 1);
        for _ in 0..8 {
            r.next();
        }
        r
    }

    pub fn next(&mut self) -> u64 {
        self.0 ^= self.0 >> 12;
        self.0 ^= self.0 << 25;
        self.0 ^= self.0 >> 27;
        self.0.wrapping_mul(0x2545_F491_4F6C_DD1D)
    }

    pub fn below(&mut self, n: usize) -> usize {
        ((self.next() >> 16) % n as u64) as usize
    }

    /// True once in `n` times.
    pub fn one_in(&mut self, n: usize) -> bool {
        self.below(n) == 0
    }

    pub fn pick<'a, T: ?Sized>(&mut self, all: &[&'a T]) -> &'a T {
        all[self.below(all.len())]
    }

    fn digits(&mut self, n: usize) -> String {
        (0..n).map(|_| self.pick(&["0", "0", "1", "2", "3", "4", "5", "6", "7", "8", "9"])).collect()
    }

    fn hex(&mut self, n: usize) -> String {
        (0..n).map(|_| (b"0123456789abcdefABCDEF"[self.below(22)]) as char).collect()
    }
}

/// A text: grown along the grammar, a soup of pieces, or one of `stated`; damaged more often than not.
pub fn text(r: &mut Random, stated: &[Vec<u8>]) -> Vec<u8> {
    let mut out = Vec::new();
    match r.below(10) {
        0 => (0..1 + r.below(10)).for_each(|_| out.extend(r.pick(PIECES))),
        1 => out = stated[r.below(stated.len())].clone(),
        _ => {
            layout(r, &mut out);
            value(r, 0, &mut out);
            layout(r, &mut out);
        }
    }
    for _ in 0..[0, 0, 1, 1, 1, 2, 3][r.below(7)] {
        damage(r, &mut out);
    }
    out
}

const PIECES: &[&[u8]] = &[
    b"null",
    b"true",
    b"false",
    b"NaN",
    b"Infinity",
    b"-",
    b"+",
    b"0",
    b"1",
    b"0x",
    b"e",
    b".",
    b"\"",
    b"'",
    b"\"\"\"",
    b"'''",
    b"\\",
    b"\\u",
    b"\\u{",
    b"}",
    b"d834",
    b"\\ud834",
    b"\\udd1e",
    b"$",
    b"$4",
    b"48",
    b"[",
    b"]",
    b"{",
    b",",
    b":",
    b"#",
    b"//",
    b"/*",
    b"*/",
    b"\n",
    b"\r",
    b" ",
    b"\t",
    b"2021-03-04",
    b"T",
    b"t",
    b"Z",
    b"z",
    b"05:06:07",
    b"a",
    b"_",
    b"\xc3\xa9",
    b"\xe2\x82\xac",
    b"\xf0\x9d\x84\x9e",
    b"\x00",
    b"\x7f",
    b"\xff",
    b"12",
    b"2021-",
    b"12:",
    b"+01:30",
    b"1e9999",
    b"18446744073709551615",
];

/// The bytes that mean something to some rule.
const SIGNS: &[u8] = b"\"'\\/*#$+-:,.[]{}\n\r 019TtZzeExu";

pub fn damage(r: &mut Random, text: &mut Vec<u8>) {
    let at = r.below(text.len() + 1);
    match r.below(8) {
        0 => text.truncate(at),
        1 => text.splice(at..at, r.pick(PIECES).iter().copied()).for_each(drop),
        2 => text.insert(at, r.next() as u8),
        3 => text.insert(at, SIGNS[r.below(SIGNS.len())]),
        4 | 5 if at < text.len() => drop(text.remove(at)),
        6 if at < text.len() => text[at] = SIGNS[r.below(SIGNS.len())],
        _ => {
            let end = at + r.below(1 + (text.len() - at).min(12));
            let piece = text[at..end].to_vec();
            let to = r.below(text.len() + 1);
            text.splice(to..to, piece).for_each(drop);
        }
    }
}

/// Now and then a run of one byte, long enough for readers that go by blocks of bytes.
fn run(r: &mut Random, out: &mut Vec<u8>, bytes: &[u8]) {
    if r.one_in(24) {
        let b = bytes[r.below(bytes.len())];
        let n = out.len() + r.below(100);
        out.resize(n, b);
    }
}

pub fn layout(r: &mut Random, out: &mut Vec<u8>) {
    run(r, out, b" \n\t\r");
    while r.one_in(5) {
        let pieces: &[&[u8]] = &[
            b" ",
            b" ",
            b"\n",
            b"\t",
            b"\r",
            b"\r\n",
            b"  ",
            b"# x\n",
            b"//\r",
            b"/* y */",
            b"/***/",
            b"/**/",
            b"#\xe2\x82\xac\t\n",
            b"/*\n*/",
        ];
        out.extend(r.pick(pieces));
    }
}

fn value(r: &mut Random, depth: usize, out: &mut Vec<u8>) {
    match r.below(if depth < 5 { 16 } else { 10 }) {
        0 | 1 => out.extend(r.pick(&["null", "true", "false"]).bytes()),
        2 | 3 => number(r, out),
        4 | 5 => time(r, out),
        6 | 7 => joined(r, out, string_part),
        8 | 9 => joined(r, out, binary_part),
        10..=12 => container(r, out, b"[]", |r, out| value(r, depth + 1, out)),
        _ => {
            let mut keys = Drawn::new(r);
            container(r, out, b"{}", |r, out| member(r, depth + 1, &mut keys, out))
        }
    }
}

fn container(
    r: &mut Random,
    out: &mut Vec<u8>,
    brackets: &[u8; 2],
    mut element: impl FnMut(&mut Random, &mut Vec<u8>),
) {
    // Now and then as many brackets as are allowed, or one too many.
    let deep = if r.one_in(200) { 60 + r.below(8) } else { 0 };
    (0..deep).for_each(|_| out.push(b'['));
    out.push(brackets[0]);
    layout(r, out);
    let count = if r.one_in(40) { r.below(60) } else { r.below(5) };
    for i in 0..count {
        element(r, out);
        layout(r, out);
        if i + 1 < count || r.one_in(4) {
            out.push(b',');
            layout(r, out);
        }
    }
    out.push(brackets[1]);
    (0..deep).for_each(|_| out.push(b']'));
}

fn member(r: &mut Random, depth: usize, keys: &mut Drawn, out: &mut Vec<u8>) {
    match r.below(9) {
        0 => out.extend(r.pick(&["a", "$", "_9", "true", "NaN", "e5", "T", "eta", "aZ0$"]).bytes()),
        1 | 2 => joined(r, out, string_part),
        3 => string_part(r, out),
        _ => keys.next(r, out),
    }
    layout(r, out);
    out.push(b':');
    layout(r, out);
    value(r, depth, out);
}

fn number(r: &mut Random, out: &mut Vec<u8>) {
    out.extend(r.pick(&["", "", "", "-", "-", "+"]).bytes());
    let text = match r.below(10) {
        0 => r.pick(&["NaN", "Infinity", "0", "0.", ".0", "0e7"]).to_string(),
        1 => {
            let n = 1 + r.below(18);
            let x = r.pick(&["x", "X"]);
            format!("0{x}{}{}", r.pick(&["", "", "0", "000"]), r.hex(n))
        }
        2 => format!(
            "184467440737095516{}",
            r.pick(&["15", "16", "150", "160", "1.5", "1.60", "15e3", "150e-1", "14", "17", "09e1"])
        ),
        3 => {
            let (d, e) = (1 + r.below(9), 9_990 + r.below(20));
            format!("{}{}e{}{e}", d, r.pick(&["", ".", "0", "00", ".5", ".50"]), r.pick(&["", "+", "-"]))
        }
        _ => decimal(r),
    };
    out.extend(text.bytes());
}

fn decimal(r: &mut Random) -> String {
    let n = if r.one_in(4) { r.below(24) } else { r.below(4) };
    let mut text = match r.below(4) {
        0 => "0".to_string(),
        _ => format!("{}{}", 1 + r.below(9), r.digits(n)),
    };
    if r.one_in(3) {
        let n = r.below(6);
        text = format!("{}.{}", if r.one_in(4) { "" } else { &text }, r.digits(n));
    }
    if r.one_in(3) {
        let n = if r.one_in(20) { 25 } else { r.below(5) };
        text = format!("{text}{}{}{}", r.pick(&["e", "E"]), r.pick(&["", "+", "-"]), r.digits(n));
    }
    text
}

fn time(r: &mut Random, out: &mut Vec<u8>) {
    let mut text = String::new();
    let dated = !r.one_in(3);
    if dated {
        let n = r.below(10_000);
        let year = [0, 4, 100, 400, 1900, 2000, 2021, 2024, 9999, n][r.below(10)];
        let (month, day) = (
            r.pick(&["01", "02", "02", "02", "04", "06", "12", "11", "00", "13"]),
            r.pick(&["01", "28", "29", "30", "31", "00", "32", "15"]),
        );
        text = format!("{year:04}-{month}-{day}");
        if r.one_in(3) {
            return out.extend(text.bytes());
        }
        text += r.pick(&["T", "t", " "]);
    }
    let minute = r.pick(&["00", "59", "30", "07", "60"]);
    text += &format!("{}:{minute}:{}", r.pick(&["00", "23", "12", "05", "24"]), r.pick(&["00", "59", "01", "60"]));
    if r.one_in(2) {
        let n = 1 + r.below(12);
        text += &format!(".{}", r.digits(n));
    }
    if dated && r.one_in(2) {
        text += r.pick(&[
            "Z", "z", "+00:00", "-00:00", "+23:59", "-23:59", "-00:01", "+01:30", "+24:00", "-12:60", "+22:60",
        ]);
    }
    out.extend(text.bytes());
}

fn joined(r: &mut Random, out: &mut Vec<u8>, part: fn(&mut Random, &mut Vec<u8>)) {
    part(r, out);
    while r.one_in(4) {
        layout(r, out);
        out.push(b'+');
        layout(r, out);
        part(r, out);
    }
}

fn string_part(r: &mut Random, out: &mut Vec<u8>) {
    let quote = r.pick(&["\"", "'"]);
    if r.one_in(4) {
        let three = quote.repeat(3);
        out.extend(three.bytes());
        for _ in 0..r.below(6) {
            let pieces: [&str; 12] =
                ["\n", "\r\n", "\r", "a", "\\", "\t", " ", "\u{20AC}", "\"a", "''b", "\u{1D11E}", "\\u0041"];
            out.extend(r.pick(&pieces).bytes());
            run(r, out, b"a0 \n");
        }
        return out.extend(three.bytes());
    }
    out.extend(quote.bytes());
    for _ in 0..r.below(7) {
        character(r, out);
        run(r, out, b"a0 /");
    }
    out.extend(quote.bytes());
}

fn character(r: &mut Random, out: &mut Vec<u8>) {
    let plain: &[&str] = &[
        "a",
        "bc",
        " ",
        "/",
        "0",
        "\u{7F}",
        "\u{85}",
        "\u{E9}",
        "\u{20AC}",
        "\u{FFFD}",
        "\u{1D11E}",
        "#",
        "+",
        "{",
        "12:00",
    ];
    let escapes: &[&str] = &["\\\"", "\\'", "\\\\", "\\/", "\\0", "\\b", "\\f", "\\n", "\\r", "\\t", "\\v"];
    let text = match r.below(8) {
        0..=2 => r.pick(plain).to_string(),
        3 | 4 => r.pick(escapes).to_string(),
        5 => format!("\\u{}", r.hex(4)),
        6 => {
            let low = format!("\\uD{}{}", r.pick(&["c", "D", "e", "F"]), r.hex(2));
            let high = format!("\\ud{}{}", r.pick(&["8", "9", "a", "B"]), r.hex(2));
            if r.one_in(12) {
                low
            } else {
                format!("{high}{low}")
            }
        }
        _ => {
            let n = 1 + r.below(5);
            format!("\\u{{{}{}}}", r.pick(&["", "", "0", "10", "00000000"]), r.hex(n))
        }
    };
    out.extend(text.bytes());
}

fn binary_part(r: &mut Random, out: &mut Vec<u8>) {
    out.push(b'$');
    match r.below(3) {
        0 => {
            let quote = r.pick(&["\"", "'"]);
            out.extend(quote.bytes());
            for _ in 0..r.below(6) {
                out.extend(
                    r.pick(&["a", "~", " ", "\\x00", "\\xFf", "\\0", "\\v", "\\\"", "\\'", "\\\\", "\\/", "\\n"])
                        .bytes(),
                );
            }
            out.extend(quote.bytes());
        }
        1 => {
            for i in 0..1 + r.below(4) {
                let n = 2 * (1 + r.below(3));
                out.extend(format!("{}{}", if i > 0 { "." } else { "" }, r.hex(n)).bytes());
            }
        }
        _ => {}
    }
}
