//! A small reader of JSON texts, to read back what the command writes.

use std::iter::Peekable;
use std::str::Chars;

/// A JSON value.
#[derive(Clone, Debug, PartialEq)]
pub enum Value {
    Truth(bool),
    Number(u64),
    Text(String),
    List(Vec<Value>),
    Object(Vec<(String, Value)>),
}

impl Value {
    /// The member of an object.
    #[track_caller]
    pub fn get(&self, key: &str) -> &Value {
        let Value::Object(members) = self else {
            panic!("no object: {self:?}");
        };
        let found = members.iter().find(|(name, _)| name == key);
        &found.unwrap_or_else(|| panic!("no {key}: {self:?}")).1
    }

    /// The keys of an object, in order.
    pub fn keys(&self) -> Vec<&str> {
        match self {
            Value::Object(members) => members.iter().map(|(name, _)| &name[..]).collect(),
            _ => Vec::new(),
        }
    }

    /// The items of a list.
    #[track_caller]
    pub fn items(&self) -> &[Value] {
        match self {
            Value::List(items) => items,
            _ => panic!("no list: {self:?}"),
        }
    }
}

/// Reads one text and nothing after it.
#[track_caller]
pub fn parse(text: &str) -> Value {
    let mut rest = text.chars().peekable();
    let value = value(&mut rest);
    assert_eq!(rest.next(), None, "something after the value: {text}");
    value
}

fn spaces(rest: &mut Peekable<Chars>) {
    while rest.next_if(|c| c.is_ascii_whitespace()).is_some() {}
}

fn expect(rest: &mut Peekable<Chars>, wanted: &str) {
    for character in wanted.chars() {
        assert_eq!(rest.next(), Some(character), "in {wanted}");
    }
}

fn value(rest: &mut Peekable<Chars>) -> Value {
    spaces(rest);
    match rest.peek() {
        Some('{') => Value::Object(sequence(rest, '{', '}', member)),
        Some('[') => Value::List(sequence(rest, '[', ']', value)),
        Some('"') => Value::Text(string(rest)),
        Some('t') => {
            expect(rest, "true");
            Value::Truth(true)
        }
        Some('f') => {
            expect(rest, "false");
            Value::Truth(false)
        }
        _ => {
            let mut digits = String::new();
            while let Some(digit) = rest.next_if(char::is_ascii_digit) {
                digits.push(digit);
            }
            Value::Number(digits.parse().expect("a number"))
        }
    }
}

fn member(rest: &mut Peekable<Chars>) -> (String, Value) {
    spaces(rest);
    let key = string(rest);
    spaces(rest);
    expect(rest, ":");
    (key, value(rest))
}

fn sequence<T>(
    rest: &mut Peekable<Chars>,
    open: char,
    close: char,
    item: fn(&mut Peekable<Chars>) -> T,
) -> Vec<T> {
    assert_eq!(rest.next(), Some(open));
    let mut items = Vec::new();
    spaces(rest);
    if rest.next_if_eq(&close).is_some() {
        return items;
    }
    loop {
        items.push(item(rest));
        spaces(rest);
        match rest.next() {
            Some(',') => {}
            end => {
                assert_eq!(end, Some(close));
                return items;
            }
        }
    }
}

fn string(rest: &mut Peekable<Chars>) -> String {
    expect(rest, "\"");
    let mut text = String::new();
    loop {
        match rest.next().expect("the end of a string") {
            '"' => return text,
            '\\' => text.push(escaped(rest)),
            character => {
                assert!(!character.is_control(), "{character:?} in a string");
                text.push(character);
            }
        }
    }
}

fn escaped(rest: &mut Peekable<Chars>) -> char {
    match rest.next() {
        Some('u') => {
            let digits: String = rest.take(4).collect();
            let code = u32::from_str_radix(&digits, 16).expect("four digits");
            char::from_u32(code).expect("a character")
        }
        Some(character @ ('"' | '\\' | '/')) => character,
        other => panic!("\\{other:?}"),
    }
}
