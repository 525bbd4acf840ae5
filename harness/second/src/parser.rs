//! The parser: a stack of open containers, and the table of what may stand next.

use crate::items::{table, Expect, Item};
use crate::{number, strings, time, Refusal, Value, DEPTH, LIMIT};
use std::collections::HashSet;

/// An open array, or an open object.
enum Open {
    Array(Vec<Value>),
    Object(Object),
}

/// The members of an open object, all its keys so far, and of these the one whose value comes next.
#[derive(Default)]
struct Object {
    members: Vec<(String, Value)>,
    keys: HashSet<String>,
    key: String,
}

struct Parser {
    open: Vec<Open>,
    expect: Expect,
    /// The key that is being read, and its first byte.
    key: String,
    key_at: usize,
    /// The first key that repeats an earlier one of its object.
    repeated: Option<usize>,
    /// The value before the present place: it stays here until what follows shows that no part is joined to it.
    value: Option<Value>,
}

/// The meaning of a text, or the refusal that is given: 1, then 2 over the whole text, then 3 to 7 from left to right, then 15.
pub fn parse(text: &[u8]) -> Result<Value, Refusal> {
    match parse_all(text)? {
        (value, None) => Ok(value),
        (_, Some(repeated)) => Err(repeated),
    }
}

/// The same with 15 left out and told beside the value: 02 has it "looked for only when 1 to 7 don't apply".
pub fn parse_all(text: &[u8]) -> Result<(Value, Option<Refusal>), Refusal> {
    if text.len() > LIMIT {
        return Err(Refusal::new(1, LIMIT));
    }
    std::str::from_utf8(text).map_err(|e| Refusal::new(2, e.valid_up_to()))?;
    let mut parser = Parser::default();
    let mut at = 0;
    while at < text.len() || !parser.complete() {
        let (item, end) = table(parser.expect).take(text, at).map_err(|place| Refusal::new(3, place))?;
        parser.item(item, &text[at..end], at)?;
        at = end;
    }
    Ok((parser.value.expect("complete"), parser.repeated.map(|place| Refusal::new(15, place))))
}

impl Default for Parser {
    fn default() -> Parser {
        Parser { open: Vec::new(), expect: Expect::Value, key: String::new(), key_at: 0, repeated: None, value: None }
    }
}

impl Parser {
    fn complete(&self) -> bool {
        self.open.is_empty() && self.value.is_some() && !matches!(self.expect, Expect::StringPart | Expect::BinaryPart)
    }

    /// One item with its checks. The table has already said that it may stand here.
    fn item(&mut self, item: Item, lexeme: &[u8], at: usize) -> Result<(), Refusal> {
        if self.expect == Expect::KeyOrEnd && item != Item::Layout {
            self.key_at = at;
        }
        match item {
            Item::Layout => {}
            Item::BeginArray => self.begin(Open::Array(Vec::new()), Expect::ValueOrEnd, at)?,
            Item::BeginObject => self.begin(Open::Object(Object::default()), Expect::KeyOrEnd, at)?,
            Item::EndArray | Item::EndObject => self.end(),
            Item::Comma => self.comma(),
            Item::Colon => self.colon(),
            Item::Plus => self.plus(),
            Item::Word => self.single(word(lexeme)),
            Item::Number => self.single(Value::Number(number::meaning(lexeme).ok_or(Refusal::new(6, at))?)),
            Item::Time => self.single(time::meaning(lexeme).ok_or(Refusal::new(5, at))?),
            Item::StringPart => {
                let part = strings::string_part(lexeme).map_err(|offset| Refusal::new(4, at + offset))?;
                self.string_part(part);
            }
            Item::BinaryPart => self.binary_part(strings::binary_part(lexeme)),
            Item::Identifier => self.identifier(lexeme),
        }
        Ok(())
    }

    fn begin(&mut self, open: Open, expect: Expect, at: usize) -> Result<(), Refusal> {
        if self.open.len() == DEPTH {
            return Err(Refusal::new(7, at));
        }
        self.open.push(open);
        self.expect = expect;
        Ok(())
    }

    /// Moves the finished value, if there is one, into the container around it.
    fn settle(&mut self) {
        let value = self.value.take();
        match (self.open.last_mut(), value) {
            (Some(Open::Array(values)), Some(v)) => values.push(v),
            (Some(Open::Object(o)), Some(v)) => o.members.push((std::mem::take(&mut o.key), v)),
            _ => {}
        }
    }

    fn end(&mut self) {
        self.settle();
        match self.open.pop().expect("the table lets no end stand outside") {
            Open::Array(mut values) => {
                values.shrink_to_fit();
                self.single(Value::Array(values));
            }
            Open::Object(mut object) => {
                object.members.shrink_to_fit();
                self.single(Value::Object(object.members));
            }
        }
    }

    /// 01: "One comma may follow the last element", so the end may stand after it too.
    fn comma(&mut self) {
        self.settle();
        self.expect = match self.open.last() {
            Some(Open::Array(_)) => Expect::ValueOrEnd,
            _ => Expect::KeyOrEnd,
        };
    }

    /// A key is whole. 02: "compared as decoded strings"; "the first key in the text that repeats an earlier one".
    fn colon(&mut self) {
        if let Some(Open::Object(object)) = self.open.last_mut() {
            object.key = std::mem::take(&mut self.key);
            if !object.keys.insert(object.key.clone()) {
                self.repeated = self.repeated.or(Some(self.key_at));
            }
        }
        self.expect = Expect::Value;
    }

    fn plus(&mut self) {
        self.expect = match (self.expect, &self.value) {
            (Expect::AfterKeyPart, _) => Expect::KeyPart,
            (_, Some(Value::String(_))) => Expect::StringPart,
            _ => Expect::BinaryPart,
        };
    }

    fn single(&mut self, value: Value) {
        self.value = Some(value);
        self.expect = match self.open.last() {
            None => Expect::AfterValueAlone,
            Some(Open::Array(_)) => Expect::AfterValueInArray,
            Some(Open::Object(_)) => Expect::AfterValueInObject,
        };
    }

    fn joinable(&mut self, value: Value) {
        self.value = Some(value);
        self.expect = match self.open.last() {
            None => Expect::AfterPartAlone,
            Some(Open::Array(_)) => Expect::AfterPartInArray,
            Some(Open::Object(_)) => Expect::AfterPartInObject,
        };
    }

    fn string_part(&mut self, part: String) {
        match self.expect {
            Expect::KeyOrEnd => self.key_part(part),
            Expect::KeyPart => {
                let key = std::mem::take(&mut self.key) + &part;
                self.key_part(key);
            }
            Expect::StringPart => match self.value.take() {
                Some(Value::String(before)) => self.joinable(Value::String(before + &part)),
                _ => unreachable!("a string stands before this +"),
            },
            _ => self.joinable(Value::String(part)),
        }
    }

    fn key_part(&mut self, key: String) {
        self.key = key;
        self.expect = Expect::AfterKeyPart;
    }

    fn binary_part(&mut self, part: Vec<u8>) {
        let mut whole = match (self.expect, self.value.take()) {
            (Expect::BinaryPart, Some(Value::Binary(before))) => before,
            _ => Vec::new(),
        };
        whole.extend(part);
        self.joinable(Value::Binary(whole));
    }

    fn identifier(&mut self, lexeme: &[u8]) {
        self.key = lexeme.iter().map(|&b| b as char).collect();
        self.expect = Expect::AfterIdentifier;
    }
}

fn word(lexeme: &[u8]) -> Value {
    match lexeme {
        b"null" => Value::Null,
        b"true" => Value::Bool(true),
        _ => Value::Bool(false),
    }
}
