//! The cases in `cases/` that have a stated outcome: 01's samples, the examples of 002 and RFC 8259, the decided points, further
//! texts, repeated keys, and the samples of the program.

/// A text and its outcome: `N@P` is "refused N at P", `=x` is the canonical text x.
#[derive(Clone, PartialEq, Eq, Debug)]
pub struct Case {
    pub label: String,
    pub text: Vec<u8>,
    pub outcome: Vec<u8>,
}

pub fn rules() -> Vec<Case> {
    listed(include_str!("../cases/rules.txt"))
}

pub fn specification() -> Vec<Case> {
    listed(include_str!("../cases/specification.txt"))
}

pub fn rfc8259() -> Vec<Case> {
    listed(include_str!("../cases/rfc8259.txt"))
}

pub fn readings() -> Vec<Case> {
    listed(include_str!("../cases/readings.txt"))
}

pub fn further() -> Vec<Case> {
    listed(include_str!("../cases/further.txt"))
}

pub fn keys() -> Vec<Case> {
    listed(include_str!("../cases/keys.txt"))
}

/// Numbers as they are written (02, ticket 6).
pub fn numbers() -> Vec<Case> {
    listed(include_str!("../cases/numbers.txt"))
}

/// Label, text and outcome with tabs between; other lines are prose.
fn listed(file: &str) -> Vec<Case> {
    let fields = file.lines().map(|line| line.split('\t').collect::<Vec<_>>());
    let cases = fields.filter(|f| f.len() == 3);
    cases.map(|f| Case { label: f[0].to_string(), text: bytes(f[1]), outcome: bytes(f[2]) }).collect()
}

/// `\\` is a backslash, `\xAA` a byte; all else stands for itself.
fn bytes(escaped: &str) -> Vec<u8> {
    let mut pieces = escaped.split('\\');
    let mut out = pieces.next().expect("at least one").as_bytes().to_vec();
    while let Some(piece) = pieces.next() {
        match piece.strip_prefix('x') {
            Some(rest) => {
                out.extend(hex(&rest[..2]));
                out.extend(rest[2..].bytes());
            }
            None => {
                assert!(piece.is_empty(), "a backslash stands before x or a backslash");
                out.push(b'\\');
                out.extend(pieces.next().expect("what follows the backslash").bytes());
            }
        }
    }
    out
}

fn hex(digits: &str) -> Vec<u8> {
    (0..digits.len()).step_by(2).map(|i| u8::from_str_radix(&digits[i..i + 2], 16).expect("hex")).collect()
}

/// The samples of the program: lines `{"in": hex, "out": hex, "note": text}`; `out` is what it prints.
pub fn samples() -> Vec<Case> {
    include_str!("../cases/samples.jsonl").lines().map(sample).collect()
}

fn sample(line: &str) -> Case {
    let words: Vec<&str> = line.split('"').collect();
    assert_eq!((words[1], words[5]), ("in", "out"));
    Case { label: words.get(11).unwrap_or(&"").to_string(), text: hex(words[3]), outcome: hex(words[7]) }
}
