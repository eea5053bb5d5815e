//! One JSON text, as RFC 8259 writes it, in UTF-8, as RFC 3629 writes that. Sections are those of
//! RFC 8259 where no other is named.

use std::ops::RangeInclusive;

/// The most arrays or objects that are open at once.
const MAX_DEPTH: usize = 32;

/// UTF8-tail of RFC 3629, section 4.
const TAIL: RangeInclusive<u8> = 0x80..=0xbf;

/// The place of the first byte that no text can have after the bytes before it, or the end.
type Parsed = Result<(), usize>;

/// Whether `text` is one JSON text (section 2: `ws value ws`). Otherwise the place of the first byte that no
/// text can have after the bytes before it or, where there is none, the text's length.
pub fn check_json(text: &[u8]) -> Result<(), usize> {
    let mut parser = Parser { text, at: 0 };
    parser.space();
    parser.value(MAX_DEPTH)?;
    parser.space();
    if parser.at == text.len() {
        Ok(())
    } else {
        parser.fault()
    }
}

/// A text, of which the bytes before `at` can begin one.
struct Parser<'a> {
    text: &'a [u8],
    at: usize,
}

impl Parser<'_> {
    fn next(&self) -> Option<u8> {
        self.text.get(self.at).copied()
    }

    fn fault(&self) -> Parsed {
        Err(self.at)
    }

    /// One byte of these.
    fn take(&mut self, allowed: RangeInclusive<u8>) -> Parsed {
        match self.next() {
            Some(byte) if allowed.contains(&byte) => {
                self.at += 1;
                Ok(())
            }
            _ => self.fault(),
        }
    }

    fn byte(&mut self, wanted: u8) -> Parsed {
        self.take(wanted..=wanted)
    }

    /// Section 2, `ws`.
    fn space(&mut self) {
        while let Some(b' ' | b'\t' | b'\n' | b'\r') = self.next() {
            self.at += 1;
        }
    }

    /// Section 3, with room for so many arrays or objects more, one in the other.
    fn value(&mut self, room: usize) -> Parsed {
        match self.next() {
            Some(b'f') => self.literal(b"false"),
            Some(b'n') => self.literal(b"null"),
            Some(b't') => self.literal(b"true"),
            Some(b'{') if room > 0 => self.list(b'}', |parser| parser.member(room - 1)),
            Some(b'[') if room > 0 => self.list(b']', |parser| parser.value(room - 1)),
            Some(b'-' | b'0'..=b'9') => self.number(),
            Some(b'"') => self.string(),
            _ => self.fault(),
        }
    }

    fn literal(&mut self, letters: &[u8]) -> Parsed {
        letters.iter().try_for_each(|&letter| self.byte(letter))
    }

    /// Sections 4 and 5: from the opening bracket to the closing one, which is `end`.
    fn list(&mut self, end: u8, item: impl Fn(&mut Self) -> Parsed) -> Parsed {
        self.at += 1;
        self.space();
        if self.byte(end).is_ok() {
            return Ok(());
        }
        loop {
            item(self)?;
            self.space();
            if self.byte(end).is_ok() {
                return Ok(());
            }
            self.byte(b',')?;
            self.space();
        }
    }

    /// Section 4.
    fn member(&mut self, room: usize) -> Parsed {
        self.string()?;
        self.space();
        self.byte(b':')?;
        self.space();
        self.value(room)
    }

    /// Section 6: `[ minus ] int [ frac ] [ exp ]`.
    fn number(&mut self) -> Parsed {
        if self.next() == Some(b'-') {
            self.at += 1;
        }
        match self.next() {
            Some(b'0') => self.at += 1,
            _ => {
                self.take(b'1'..=b'9')?;
                self.more_digits();
            }
        }
        if self.next() == Some(b'.') {
            self.at += 1;
            self.digits()?;
        }
        if let Some(b'e' | b'E') = self.next() {
            self.at += 1;
            if let Some(b'-' | b'+') = self.next() {
                self.at += 1;
            }
            self.digits()?;
        }
        Ok(())
    }

    /// One digit or more.
    fn digits(&mut self) -> Parsed {
        self.take(b'0'..=b'9')?;
        self.more_digits();
        Ok(())
    }

    fn more_digits(&mut self) {
        while let Some(b'0'..=b'9') = self.next() {
            self.at += 1;
        }
    }

    /// Section 7.
    fn string(&mut self) -> Parsed {
        self.byte(b'"')?;
        loop {
            match self.next() {
                Some(b'"') => {
                    self.at += 1;
                    return Ok(());
                }
                Some(b'\\') => self.escaped()?,
                Some(0x20..=0x7f) => self.at += 1,
                _ => self.wide()?,
            }
        }
    }

    /// Section 7: a backslash and what follows it.
    fn escaped(&mut self) -> Parsed {
        self.at += 1;
        match self.next() {
            Some(b'"' | b'\\' | b'/' | b'b' | b'f' | b'n' | b'r' | b't') => {
                self.at += 1;
                Ok(())
            }
            Some(b'u') => {
                self.at += 1;
                (0..4).try_for_each(|_| self.hexadecimal())
            }
            _ => self.fault(),
        }
    }

    fn hexadecimal(&mut self) -> Parsed {
        match self.next() {
            Some(byte) if byte.is_ascii_hexdigit() => {
                self.at += 1;
                Ok(())
            }
            _ => self.fault(),
        }
    }

    /// RFC 3629, section 4: UTF8-2, UTF8-3 and UTF8-4.
    fn wide(&mut self) -> Parsed {
        let (second, more) = match self.next() {
            Some(0xc2..=0xdf) => (TAIL, 0),
            Some(0xe0) => (0xa0..=0xbf, 1),
            Some(0xe1..=0xec) => (TAIL, 1),
            Some(0xed) => (0x80..=0x9f, 1),
            Some(0xee..=0xef) => (TAIL, 1),
            Some(0xf0) => (0x90..=0xbf, 2),
            Some(0xf1..=0xf3) => (TAIL, 2),
            Some(0xf4) => (0x80..=0x8f, 2),
            _ => return self.fault(),
        };
        self.at += 1;
        self.take(second)?;
        (0..more).try_for_each(|_| self.take(TAIL))
    }
}
