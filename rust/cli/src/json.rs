//! JSON texts, written.

use std::fmt::Write;

/// The option of a subcommand that can print JSON.
pub const FLAG: &str = "--json";

/// An object, member by member.
#[derive(Default)]
pub struct Object(String);

impl Object {
    /// Adds a member whose value is a JSON text.
    pub fn put(mut self, key: &str, value: impl std::fmt::Display) -> Object {
        let separator = if self.0.is_empty() { "" } else { ", " };
        let _ = write!(self.0, "{separator}{}: {value}", string(key));
        self
    }

    /// The object as a text.
    pub fn text(self) -> String {
        format!("{{{}}}", self.0)
    }
}

/// A list of JSON texts.
pub fn list(items: impl Iterator<Item = String>) -> String {
    format!("[{}]", items.collect::<Vec<_>>().join(", "))
}

/// A string.
pub fn string(text: &str) -> String {
    let mut quoted = String::from("\"");
    for character in text.chars() {
        match character {
            '"' | '\\' => quoted.extend(['\\', character]),
            '\u{7f}' | '\0'..='\u{1f}' => {
                let _ = write!(quoted, "\\u{:04x}", u32::from(character));
            }
            _ => quoted.push(character),
        }
    }
    quoted.push('"');
    quoted
}
