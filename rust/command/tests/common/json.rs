//! A strict reader of JSON (RFC 8259), apart from the command's writer. It panics at what is no document, at a number
//! that is not exact in every parser and at a name that comes twice.

use std::ops::Index;

#[derive(Clone, Debug, PartialEq)]
pub enum Value {
    Null,
    Bool(bool),
    Number(u64),
    Text(String),
    List(Vec<Value>),
    Object(Vec<(String, Value)>),
}

impl Value {
    pub fn number(&self) -> u64 {
        match self {
            Value::Number(number) => *number,
            other => panic!("no number: {other:?}"),
        }
    }

    pub fn text(&self) -> &str {
        match self {
            Value::Text(text) => text,
            other => panic!("no text: {other:?}"),
        }
    }

    pub fn list(&self) -> &[Value] {
        match self {
            Value::List(list) => list,
            other => panic!("no list: {other:?}"),
        }
    }

    pub fn numbers(&self) -> Vec<u64> {
        self.list().iter().map(Value::number).collect()
    }

    pub fn names(&self) -> Vec<&str> {
        match self {
            Value::Object(fields) => fields.iter().map(|(name, _)| name.as_str()).collect(),
            other => panic!("no object: {other:?}"),
        }
    }
}

impl Index<&str> for Value {
    type Output = Value;

    fn index(&self, name: &str) -> &Value {
        match self {
            Value::Object(fields) => &fields.iter().find(|field| field.0 == name).expect(name).1,
            other => panic!("no object: {other:?}"),
        }
    }
}

impl Index<usize> for Value {
    type Output = Value;

    fn index(&self, index: usize) -> &Value {
        &self.list()[index]
    }
}

pub fn parse(text: &str) -> Value {
    let mut reader = Reader { rest: text };
    let value = reader.value();
    reader.space();
    assert!(reader.rest.is_empty(), "after the document: {}", reader.rest);
    value
}

struct Reader<'a> {
    rest: &'a str,
}

impl Reader<'_> {
    fn space(&mut self) {
        self.rest = self.rest.trim_start_matches([' ', '\t', '\n', '\r']);
    }

    fn take(&mut self, word: &str) -> bool {
        match self.rest.strip_prefix(word) {
            Some(rest) => {
                self.rest = rest;
                true
            }
            None => false,
        }
    }

    fn value(&mut self) -> Value {
        self.space();
        if self.take("null") {
            Value::Null
        } else if self.take("true") {
            Value::Bool(true)
        } else if self.take("false") {
            Value::Bool(false)
        } else if self.take("[") {
            let mut list = Vec::new();
            self.items("]", |reader| list.push(reader.value()));
            Value::List(list)
        } else if self.take("{") {
            let mut fields: Vec<(String, Value)> = Vec::new();
            self.items("}", |reader| {
                reader.space();
                let name = reader.text();
                assert!(fields.iter().all(|field| field.0 != name), "{name} comes twice");
                reader.space();
                assert!(reader.take(":"), "no colon: {}", reader.rest);
                fields.push((name, reader.value()));
            });
            Value::Object(fields)
        } else if self.rest.starts_with('"') {
            Value::Text(self.text())
        } else {
            self.number()
        }
    }

    fn items(&mut self, end: &str, mut item: impl FnMut(&mut Self)) {
        self.space();
        if self.take(end) {
            return;
        }
        loop {
            item(self);
            self.space();
            if self.take(end) {
                return;
            }
            assert!(self.take(","), "no comma: {}", self.rest);
        }
    }

    fn number(&mut self) -> Value {
        let end = self.rest.find(|one: char| !one.is_ascii_digit()).unwrap_or(self.rest.len());
        let (digits, rest) = self.rest.split_at(end);
        assert!(digits == "0" || !digits.is_empty() && !digits.starts_with('0'), "no value: {}", self.rest);
        self.rest = rest;
        let number = digits.parse().unwrap();
        assert!(number < 1 << 53, "{number} is not exact everywhere");
        Value::Number(number)
    }

    fn text(&mut self) -> String {
        assert!(self.take("\""), "no text: {}", self.rest);
        let mut text = String::new();
        loop {
            let one = self.rest.chars().next().expect("the text does not end");
            self.rest = &self.rest[one.len_utf8()..];
            match one {
                '"' => return text,
                '\\' => {
                    let escaped = self.rest.chars().next().unwrap();
                    self.rest = &self.rest[escaped.len_utf8()..];
                    text.push(match escaped {
                        '"' | '\\' | '/' => escaped,
                        'n' => '\n',
                        't' => '\t',
                        'u' => {
                            let (digits, rest) = self.rest.split_at(4);
                            self.rest = rest;
                            char::from_u32(u32::from_str_radix(digits, 16).unwrap()).unwrap()
                        }
                        other => panic!("no escape: {other}"),
                    });
                }
                _ => {
                    assert!(one >= ' ', "a control character in a text");
                    text.push(one);
                }
            }
        }
    }
}
