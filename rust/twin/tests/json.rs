//! JSON texts and the stricter reading through the twin.

use eif_cases::{image_cases, strict_cases, text_cases, ACCEPTED};
use eif_twin::{check_json, read, read_strict};

#[test]
fn cases_of_every_rule() {
    for case in text_cases() {
        let place = check_json(&case.text).err();
        let text = String::from_utf8_lossy(&case.text);
        assert_eq!(place, case.place, "{}: {text}", case.name);
    }
}

#[test]
fn strict_readings() {
    for case in strict_cases() {
        let answer = match read_strict(&case.image) {
            Ok(_) => ACCEPTED,
            Err(refusal) => (refusal.number, refusal.index, refusal.position),
        };
        assert_eq!(answer, case.answer, "{}", case.name);
    }
    // What is refused at all is refused alike.
    for case in image_cases().iter().filter(|case| case.answer != ACCEPTED) {
        let strict = read_strict(&case.image);
        assert_eq!(strict, read(&case.image), "{}", case.name);
    }
}
