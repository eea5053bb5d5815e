//! CBOR items (RFC 8949) laid out head by head, with no rule judged.

/// An item.
#[derive(Clone, Debug)]
pub enum Item {
    /// A number from 0 on.
    Unsigned(u64),
    /// -1 less this number.
    Negative(u64),
    /// A byte string.
    Bytes(Vec<u8>),
    /// A byte string that holds an item.
    Encoded(Box<Item>),
    /// A text.
    Text(&'static str),
    /// Items in order.
    Array(Vec<Item>),
    /// Keys with their values, in order.
    Map(Vec<(Item, Item)>),
    /// A tag and the item that it stands before.
    Tag(u64, Box<Item>),
    /// Nothing, in the place of an item.
    Null,
}

/// How an item's head is laid out.
#[derive(Clone, Copy, Debug, PartialEq, Eq)]
pub enum Head {
    /// In as few bytes as its number needs.
    Shortest,
    /// Its number in 1, 2, 4 or 8 bytes, if need be cut.
    Wide(usize),
    /// With no number: an array, a map or a string then has an end of its own.
    Indefinite,
}

impl Head {
    /// Every form but the shortest.
    pub const OTHERS: [Head; 5] = [
        Head::Wide(1),
        Head::Wide(2),
        Head::Wide(4),
        Head::Wide(8),
        Head::Indefinite,
    ];
}

/// Bytes in an array of numbers.
pub fn numbers(bytes: &[u8]) -> Item {
    Item::Array(bytes.iter().map(|&b| Item::Unsigned(b.into())).collect())
}

/// One map of a signature section.
pub fn signature_entry(certificate: Item, signature: Item) -> Item {
    Item::Map(vec![
        (Item::Text("signing_certificate"), certificate),
        (Item::Text("signature"), signature),
    ])
}

/// The bytes of an item, every head the shortest.
pub fn encode(item: &Item) -> Vec<u8> {
    encode_with(item, &|_| Head::Shortest)
}

/// The bytes of an item whose heads, counted from 0 in the order in which they stand, have these forms.
pub fn encode_with(item: &Item, form: &dyn Fn(usize) -> Head) -> Vec<u8> {
    let mut encoder = Encoder {
        form,
        heads: 0,
        out: Vec::new(),
    };
    encoder.put(item);
    encoder.out
}

/// The bytes of an item with one head in another form, for each head and each form that is not its own, with
/// a name that says which.
pub fn other_forms(item: &Item) -> Vec<(String, Vec<u8>)> {
    let shortest = encode(item);
    let mut others = Vec::new();
    for chosen in 0..count_heads(item) {
        for form in Head::OTHERS {
            let bytes = encode_with(item, &|head| match head == chosen {
                true => form,
                false => Head::Shortest,
            });
            // Some heads are that wide by themselves.
            if bytes != shortest {
                others.push((format!("head {chosen} {form:?}"), bytes));
            }
        }
    }
    others
}

/// How many heads an item has.
pub fn count_heads(item: &Item) -> usize {
    match item {
        Item::Encoded(inner) | Item::Tag(_, inner) => 1 + count_heads(inner),
        Item::Array(items) => 1 + items.iter().map(count_heads).sum::<usize>(),
        Item::Map(pairs) => {
            let pairs = pairs.iter();
            1 + pairs
                .map(|(key, value)| count_heads(key) + count_heads(value))
                .sum::<usize>()
        }
        _ => 1,
    }
}

struct Encoder<'a> {
    form: &'a dyn Fn(usize) -> Head,
    heads: usize,
    out: Vec<u8>,
}

impl Encoder<'_> {
    fn put(&mut self, item: &Item) {
        let form = (self.form)(self.heads);
        self.heads += 1;
        match item {
            Item::Unsigned(number) => self.put_head(0, *number, form),
            Item::Negative(number) => self.put_head(1, *number, form),
            Item::Bytes(bytes) => self.put_string(2, bytes, form),
            Item::Encoded(inner) => {
                let before = std::mem::take(&mut self.out);
                self.put(inner);
                let bytes = std::mem::replace(&mut self.out, before);
                self.put_string(2, &bytes, form);
            }
            Item::Text(text) => self.put_string(3, text.as_bytes(), form),
            Item::Array(items) => {
                self.put_head(4, items.len() as u64, form);
                items.iter().for_each(|item| self.put(item));
                self.put_end(form);
            }
            Item::Map(pairs) => {
                self.put_head(5, pairs.len() as u64, form);
                for (key, value) in pairs {
                    self.put(key);
                    self.put(value);
                }
                self.put_end(form);
            }
            Item::Tag(number, inner) => {
                self.put_head(6, *number, form);
                self.put(inner);
            }
            Item::Null => self.put_head(7, 22, form),
        }
    }

    fn put_head(&mut self, major: u8, number: u64, form: Head) {
        let width = match form {
            Head::Wide(width) => width,
            Head::Indefinite => return self.out.push(major << 5 | 31),
            Head::Shortest => match number {
                0..=23 => return self.out.push(major << 5 | number as u8),
                24..=0xff => 1,
                0x100..=0xffff => 2,
                0x1_0000..=0xffff_ffff => 4,
                _ => 8,
            },
        };
        self.out.push((major << 5) | (24 + width.ilog2() as u8));
        self.out
            .extend_from_slice(&number.to_be_bytes()[8 - width..]);
    }

    /// With no length, a string is a string of a definite length between a head and an end.
    fn put_string(&mut self, major: u8, bytes: &[u8], form: Head) {
        self.put_head(major, bytes.len() as u64, form);
        if form == Head::Indefinite {
            self.put_head(major, bytes.len() as u64, Head::Shortest);
        }
        self.out.extend_from_slice(bytes);
        self.put_end(form);
    }

    fn put_end(&mut self, form: Head) {
        if form == Head::Indefinite {
            self.out.push(0xff);
        }
    }
}

#[cfg(test)]
mod tests {
    use super::*;
    use crate::hex;

    /// From RFC 8949, appendix A.
    #[test]
    fn published_examples() {
        let text = |text| Item::Text(text);
        let unsigned = Item::Unsigned;
        for (item, expected) in [
            (unsigned(0), "00"),
            (unsigned(23), "17"),
            (unsigned(24), "1818"),
            (unsigned(100), "1864"),
            (unsigned(1000), "1903e8"),
            (unsigned(1_000_000), "1a000f4240"),
            (unsigned(1_000_000_000_000), "1b000000e8d4a51000"),
            (unsigned(u64::MAX), "1bffffffffffffffff"),
            (Item::Negative(9), "29"),
            (Item::Negative(99), "3863"),
            (Item::Negative(999), "3903e7"),
            (Item::Null, "f6"),
            (Item::Bytes(vec![]), "40"),
            (Item::Bytes(vec![1, 2, 3, 4]), "4401020304"),
            (Item::Encoded(Box::new(text("IETF"))), "456449455446"),
            (text("IETF"), "6449455446"),
            (
                Item::Tag(1, Box::new(unsigned(1_363_896_240))),
                "c11a514b67b0",
            ),
            (numbers(&[1, 2, 3]), "83010203"),
            (
                Item::Map(vec![(unsigned(1), unsigned(2)), (unsigned(3), unsigned(4))]),
                "a201020304",
            ),
        ] {
            assert_eq!(hex(&encode(&item)), expected);
        }
        let indefinite = encode_with(&numbers(&[1, 2, 3]), &|head| match head {
            0 => Head::Indefinite,
            _ => Head::Shortest,
        });
        assert_eq!(hex(&indefinite), "9f010203ff");
    }

    #[test]
    fn wide_heads() {
        let wide = |width| hex(&encode_with(&Item::Unsigned(5), &|_| Head::Wide(width)));
        let heads = [1, 2, 4, 8].map(wide);
        assert_eq!(
            heads,
            ["1805", "190005", "1a00000005", "1b0000000000000005"]
        );
    }
}
