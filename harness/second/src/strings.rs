//! The meaning of string parts and binary parts, each from its own text alone.

/// A part's characters; where an escape is bad (refusal 4), the offset of the first bad one's backslash.
pub fn string_part(lexeme: &[u8]) -> Result<String, usize> {
    let text = std::str::from_utf8(lexeme).expect("the text is UTF-8 and a quote ends a part");
    for three in ["\"\"\"", "'''"] {
        if let Some(inside) = text.strip_prefix(three) {
            return Ok(multiline(inside.strip_suffix(three).expect("closed")).to_string());
        }
    }
    Escapes::default().whole(&text[1..text.len() - 1])
}

/// 01: a multiline part "loses one LF, or one CR LF, right after its opening. A lone CR there is kept."
fn multiline(inside: &str) -> &str {
    inside.strip_prefix("\r\n").or(inside.strip_prefix('\n')).unwrap_or(inside)
}

/// What has been read of a part, and the `\uXXXX` escapes that stand side by side just before.
#[derive(Default)]
struct Escapes {
    out: String,
    units: Vec<u16>,
    first: usize,
}

impl Escapes {
    fn whole(mut self, inside: &str) -> Result<String, usize> {
        let mut rest = inside;
        while let Some(c) = rest.chars().next() {
            // One quote stands before the part's inside.
            let at = 1 + inside.len() - rest.len();
            let length = if c == '\\' { self.escape(&rest[1..], at)? } else { self.plain(c)? };
            rest = &rest[length..];
        }
        self.flush()?;
        Ok(self.out)
    }

    fn plain(&mut self, c: char) -> Result<usize, usize> {
        self.flush()?;
        self.out.push(c);
        Ok(c.len_utf8())
    }

    /// Takes the escape whose text after the backslash begins `rest`; answers its length with the backslash.
    fn escape(&mut self, rest: &str, at: usize) -> Result<usize, usize> {
        let Some(hex) = rest.strip_prefix('u') else {
            self.flush()?;
            self.out.push(short(rest.as_bytes()[0]) as char);
            return Ok(2);
        };
        if let Some(braced) = hex.strip_prefix('{') {
            self.flush()?;
            let digits = braced.split_once('}').expect("closed").0;
            self.out.push(scalar(digits).ok_or(at)?);
            return Ok(4 + digits.len());
        }
        if self.units.is_empty() {
            self.first = at;
        }
        self.units.push(u16::from_str_radix(&hex[..4], 16).expect("four hex digits"));
        Ok(6)
    }

    /// 01: "`\uXXXX` high then low surrogate, adjacent in one part, make one character." Adjacent escapes are UTF-16.
    fn flush(&mut self) -> Result<(), usize> {
        let mut at = self.first;
        for c in char::decode_utf16(self.units.drain(..)) {
            let c = c.map_err(|_| at)?;
            self.out.push(c);
            at += 6 * c.len_utf16();
        }
        Ok(())
    }
}

/// The character of `\u{X...}`: any number of digits, but no surrogate and nothing above 10FFFF.
fn scalar(digits: &str) -> Option<char> {
    let significant = digits.trim_start_matches('0');
    match significant.len() {
        0 => Some('\0'),
        1..=6 => char::from_u32(u32::from_str_radix(significant, 16).ok()?),
        _ => None,
    }
}

/// The byte of an escape of one letter; a quote, backslash or slash is itself.
fn short(letter: u8) -> u8 {
    match letter {
        b'0' => 0x00,
        b'b' => 0x08,
        b'f' => 0x0C,
        b'n' => 0x0A,
        b'r' => 0x0D,
        b't' => 0x09,
        b'v' => 0x0B,
        other => other,
    }
}

pub fn binary_part(lexeme: &[u8]) -> Vec<u8> {
    match lexeme.get(1) {
        Some(b'"' | b'\'') => quoted_bytes(&lexeme[2..lexeme.len() - 1]),
        _ => hex_bytes(lexeme[1..].iter().copied().filter(|&b| b != b'.').collect()),
    }
}

fn quoted_bytes(mut inside: &[u8]) -> Vec<u8> {
    let mut out = Vec::new();
    loop {
        inside = match inside {
            [] => return out,
            [b'\\', b'x', high, low, rest @ ..] => {
                out.extend(hex_bytes(vec![*high, *low]));
                rest
            }
            [b'\\', letter, rest @ ..] => {
                out.push(short(*letter));
                rest
            }
            [plain, rest @ ..] => {
                out.push(*plain);
                rest
            }
        }
    }
}

fn hex_bytes(digits: Vec<u8>) -> Vec<u8> {
    let value = |d: u8| (d as char).to_digit(16).expect("hex digit") as u8;
    digits.chunks(2).map(|pair| 16 * value(pair[0]) + value(pair[1])).collect()
}
