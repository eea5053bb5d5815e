//! JSON objects that subcommands share. The manual lists their keys.

use crate::json::{self, Object};
use eif::{Refusal, Registers};
use std::ffi::OsStr;

/// The start of an object on a file.
pub fn on_file(name: &OsStr, accepted: bool) -> Object {
    Object::default()
        .put("file", json::string(&name.to_string_lossy()))
        .put("accepted", accepted)
}

/// The object on a file that is refused.
pub fn refused(name: &OsStr, refusal: &Refusal) -> Object {
    on_file(name, false)
        .put("number", refusal.number())
        .put("index", refusal.index())
        .put("position", refusal.position())
        .put("meaning", json::string(refusal.reason().meaning()))
}

/// Adds the registers, under the keys that users of `nitro-cli describe-eif` know.
pub fn put_measurements(object: Object, registers: &Registers) -> Object {
    let algorithm = Object::default().put("HashAlgorithm", json::string("Sha384 { ... }"));
    let measurements = registers.named().fold(algorithm, |object, (name, value)| {
        object.put(name, json::string(&value.to_string()))
    });
    object.put("Measurements", measurements.text())
}
