//! JSON texts and what is none: every rule of RFC 8259 and of RFC 3629's UTF-8, kept and broken.

/// Bytes, and where they stop being a JSON text.
#[derive(Clone, Debug)]
pub struct TextCase {
    /// The rule that the case is of.
    pub name: &'static str,
    /// The bytes.
    pub text: Vec<u8>,
    /// None where they are a text. Otherwise the place of the first byte that no text can have after the
    /// bytes before it, or the end.
    pub place: Option<usize>,
}

/// A table of one rule: texts, and what is none with its place.
struct Rule {
    name: &'static str,
    texts: &'static [&'static [u8]],
    faults: &'static [(&'static [u8], usize)],
}

const RULES: &[Rule] = &[
    Rule {
        name: "one value",
        texts: &[b"0", b"null", b"\"\"", b"{}", b"[]"],
        faults: &[
            (b"", 0),
            (b" \t\n\r", 4),
            (b"1 2", 2),
            (b"{} {}", 3),
            (b"[],", 2),
            (b"null\0", 4),
            (b"\0null", 0),
            (b"x", 0),
            (b"'a'", 0),
            (b"// a\n1", 0),
        ],
    },
    Rule {
        name: "white space",
        texts: &[
            b" \t\n\r0\r\n\t ",
            b" [ 1 , 2 ] ",
            b"\n{\t\"a\"\r:\n1\t,\r\"b\" : 2\n}\r",
            b"[\n]",
            b"{ }",
        ],
        faults: &[
            (b"\x0b0", 0),
            (b"\x0c0", 0),
            (b"0\x0c", 1),
            (b"[\x0c]", 1),
            (b"[1,\x0c2]", 3),
            (b"\x080", 0),
            (b"\x0e0", 0),
            (b"\x1f0", 0),
            (b"0\x7f", 1),
            (b"0\xc2\x85", 1),
            (b"\xc2\xa00", 0),
            (b"1\xe2\x80\xa8", 1),
            (b"- 1", 1),
            (b"1 .5", 2),
            (b"nu ll", 2),
        ],
    },
    Rule {
        name: "byte order mark",
        texts: &[b"\"\xef\xbb\xbf\""],
        faults: &[(b"\xef\xbb\xbf{}", 0), (b"\xfe\xff\0{", 0), (b"{\0}\0", 1)],
    },
    Rule {
        name: "literals",
        texts: &[b"true", b"false", b"null", b"[true,false,null]"],
        faults: &[
            (b"t", 1),
            (b"tru", 3),
            (b"trux", 3),
            (b"truee", 4),
            (b"True", 0),
            (b"f", 1),
            (b"fals", 4),
            (b"falze", 3),
            (b"n", 1),
            (b"nul", 3),
            (b"nulL", 3),
            (b"nullnull", 4),
            (b"NaN", 0),
            (b"Infinity", 0),
            (b"-Infinity", 1),
        ],
    },
    Rule {
        name: "numbers",
        texts: &[
            b"0",
            b"-0",
            b"9",
            b"10",
            b"-1234567890",
            b"0.0",
            b"-0.5",
            b"1.25",
            b"1e5",
            b"1E5",
            b"0e0",
            b"1e+05",
            b"1e-5",
            b"1.5E+10",
            b"123456789012345678901234567890.123456789e1234567890",
        ],
        faults: &[
            (b"-", 1),
            (b"--1", 1),
            (b"+1", 0),
            (b"01", 1),
            (b"-01", 2),
            (b"00", 1),
            (b"1.", 2),
            (b"1.e5", 2),
            (b".5", 0),
            (b"1..5", 2),
            (b"1.5.2", 3),
            (b"1e", 2),
            (b"1e+", 3),
            (b"1e-", 3),
            (b"1e+-1", 3),
            (b"1e1.5", 3),
            (b"1e1e1", 3),
            (b"0x10", 1),
            (b"1a", 1),
            (b"[1.]", 3),
            (b"[-]", 2),
        ],
    },
    Rule {
        name: "strings",
        texts: &[
            b"\"a b\"",
            b"\"\x20\"",
            b"\"\x21\x23\x5b\x5d\x7e\"",
            b"\"\x7f\"",
            b"{\"\x7f\":\"\x7f\x7f\"}",
            b"\"'/[]{}:,\"",
            b"\" !#[]~\"",
        ],
        faults: &[
            (b"\"", 1),
            (b"\"abc", 4),
            (b"\"a\"b\"", 3),
            (b"\"\0\"", 1),
            (b"\"\x1f\"", 1),
            (b"\"\x7f\x1f\"", 2),
            (b"\"\x0c\"", 1),
            (b"\"a\nb\"", 2),
            (b"\"a\tb\"", 2),
        ],
    },
    Rule {
        name: "escapes",
        texts: &[
            b"\"\\\"\\\\\\/\\b\\f\\n\\r\\t\"",
            b"\"\\u0000\\u00e9\\uABCD\\uabcd\"",
            b"\"\\ud83d\\ude00\"",
            b"\"\\ud800\"",
            b"\"\\udc00\\ud800\"",
            b"\"\\u0041b\"",
            b"\"\\/\"",
            b"\"\\u0000\\u9999\\uaaaa\\uffff\\uAAAA\\uFFFF\"",
            b"\"\\uDEAD\\uBeEf\"",
        ],
        faults: &[
            (b"\"\\", 2),
            (b"\"\\\"", 3),
            (b"\"\\x\"", 2),
            (b"\"\\v\"", 2),
            (b"\"\\a\"", 2),
            (b"\"\\e\"", 2),
            (b"\"\\N\"", 2),
            (b"\"\\\x7f\"", 2),
            // The bytes beside 0 to 9, A to F and a to f.
            (b"\"\\u/000\"", 3),
            (b"\"\\u:000\"", 3),
            (b"\"\\u0@00\"", 4),
            (b"\"\\u0G00\"", 4),
            (b"\"\\u00`0\"", 5),
            (b"\"\\u000g\"", 6),
            (b"\"\\0\"", 2),
            (b"\"\\U0041\"", 2),
            (b"\"\\'\"", 2),
            (b"\"\\\n\"", 2),
            (b"\"\\u\"", 3),
            (b"\"\\u12\"", 5),
            (b"\"\\u12", 5),
            (b"\"\\u123g\"", 6),
            (b"\"\\u123", 6),
            (b"\"\\u+123\"", 3),
        ],
    },
    Rule {
        name: "arrays",
        texts: &[b"[]", b"[1]", b"[1,2,3]", b"[[],[[]],{}]", b"[\"a\"]"],
        faults: &[
            (b"[", 1),
            (b"]", 0),
            (b"[1", 2),
            (b"[1,", 3),
            (b"[1,]", 3),
            (b"[,1]", 1),
            (b"[1,,2]", 3),
            (b"[1 2]", 3),
            (b"[1}", 2),
            (b"[1]]", 3),
            (b"[1:2]", 2),
            (b"[[]", 3),
        ],
    },
    Rule {
        name: "objects",
        texts: &[
            b"{}",
            b"{\"a\":1}",
            b"{\"a\":1,\"b\":{\"c\":[]}}",
            b"{\"a\":1,\"a\":2}",
            b"{\"\":null}",
        ],
        faults: &[
            (b"{", 1),
            (b"}", 0),
            (b"{\"a\"", 4),
            (b"{\"a\":", 5),
            (b"{\"a\":1", 6),
            (b"{\"a\":1,", 7),
            (b"{\"a\":1,}", 7),
            (b"{\"a\" 1}", 5),
            (b"{\"a\",1}", 4),
            (b"{\"a\":}", 5),
            (b"{\"a\"}", 4),
            (b"{a:1}", 1),
            (b"{1:1}", 1),
            (b"{[]:1}", 1),
            (b"{,}", 1),
            (b"{\"a\":1]", 6),
            (b"{\"a\":1,,}", 7),
            (b"{\"a\":1 \"b\":2}", 7),
            (b"{\"a\"::1}", 5),
            (b"{\"a\":1}}", 7),
        ],
    },
    Rule {
        name: "UTF-8 of two bytes",
        texts: &[
            b"\"\xc2\x80\"",
            b"\"\xc2\x85\xc2\x9f\"",
            b"\"\xc3\xa9\"",
            b"\"\xdf\xbf\"",
        ],
        faults: &[
            (b"\"\x80\"", 1),
            (b"\"\xbf\"", 1),
            (b"\"\xc0\x80\"", 1),
            (b"\"\xc1\xbf\"", 1),
            (b"\"\xc2", 2),
            (b"\"\xc2\"", 2),
            (b"\"\xc2\x7f\"", 2),
            (b"\"\xdf\xc0\"", 2),
            (b"\xc3\xa9", 0),
        ],
    },
    Rule {
        name: "UTF-8 of three bytes",
        texts: &[
            b"\"\xe0\xa0\x80\"",
            b"\"\xe0\xbf\xbf\"",
            b"\"\xe1\x80\x80\"",
            b"\"\xe2\x82\xac\"",
            b"\"\xec\xbf\xbf\"",
            b"\"\xed\x80\x80\"",
            b"\"\xed\x9f\xbf\"",
            b"\"\xee\x80\x80\"",
            b"\"\xef\xbf\xbf\"",
        ],
        faults: &[
            (b"\"\xe0\x9f\xbf\"", 2),
            (b"\"\xe0\x80\x80\"", 2),
            (b"\"\xe0\xc0\x80\"", 2),
            (b"\"\xe0\xa0\"", 3),
            (b"\"\xe0\xa0", 3),
            (b"\"\xe0", 2),
            (b"\"\xe1\x7f\x80\"", 2),
            (b"\"\xe2\x82\xc0\"", 3),
            (b"\"\xed\xa0\x80\"", 2),
            (b"\"\xed\xbf\xbf\"", 2),
            (b"\"\xee\x80\x7f\"", 3),
            (b"\"\xef\xbf", 3),
        ],
    },
    Rule {
        name: "UTF-8 of four bytes",
        texts: &[
            b"\"\xf0\x90\x80\x80\"",
            b"\"\xf0\x9f\x98\x80\"",
            b"\"\xf0\xbf\xbf\xbf\"",
            b"\"\xf1\x80\x80\x80\"",
            b"\"\xf3\xbf\xbf\xbf\"",
            b"\"\xf4\x80\x80\x80\"",
            b"\"\xf4\x8f\xbf\xbf\"",
        ],
        faults: &[
            (b"\"\xf0\x8f\xbf\xbf\"", 2),
            (b"\"\xf0\x80\x80\x80\"", 2),
            (b"\"\xf0\x90\x80\"", 4),
            (b"\"\xf0\x90", 3),
            (b"\"\xf1\x7f\"", 2),
            (b"\"\xf3\x80\xc0\x80\"", 3),
            (b"\"\xf4\x90\x80\x80\"", 2),
            (b"\"\xf4\xbf\x80\x80\"", 2),
            (b"\"\xf4\x8f\xbf\xc0\"", 4),
            (b"\"\xf5\x80\x80\x80\"", 1),
            (b"\"\xf8\x88\x80\x80\x80\"", 1),
            (b"\"\xfe\"", 1),
            (b"\"\xff\"", 1),
        ],
    },
];

/// `depth` arrays or objects in each other, the innermost with nothing in it; `closed` of them are closed.
pub fn nested(objects: bool, depth: usize, closed: usize) -> Vec<u8> {
    let (open, close) = if objects {
        (&b"{\"\":"[..], &b"}"[..])
    } else {
        (&b"["[..], &b"]"[..])
    };
    let mut text = open.repeat(depth.saturating_sub(1));
    text.extend(&open[..depth.min(1)]);
    text.extend(close.repeat(closed));
    text
}

/// At most 32 arrays or objects are open at once.
fn depth_cases() -> Vec<TextCase> {
    let mut cases = Vec::new();
    let mut case = |name, text, place| cases.push(TextCase { name, text, place });
    for objects in [false, true] {
        // The place of the 33rd opening bracket.
        let past = 32 * if objects { 4 } else { 1 };
        case("31 open", nested(objects, 31, 31), None);
        case("32 open", nested(objects, 32, 32), None);
        let text = nested(objects, 32, 31);
        let end = text.len();
        case("32 open, one not closed", text, Some(end));
        case("33 open", nested(objects, 33, 33), Some(past));
        case("33 open, none closed", nested(objects, 33, 0), Some(past));
        case("1,000 open", nested(objects, 1000, 1000), Some(past));
    }
    let after_31 = |second: &[u8]| [b"[", &nested(false, 31, 31)[..], b",", second, b"]"].concat();
    case("32 open, twice", after_31(&nested(true, 31, 31)), None);
    let text = after_31(&nested(false, 32, 32));
    case("33 open the second time", text, Some(1 + 62 + 1 + 31));
    case(
        "brackets in a string",
        [b"\"", &[b'['; 100][..], b"\""].concat(),
        None,
    );
    cases
}

/// Texts, and what is none with its place.
pub fn text_cases() -> Vec<TextCase> {
    let mut cases = Vec::new();
    for rule in RULES {
        let name = rule.name;
        let texts = rule.texts.iter().map(|&text| (text, None));
        let faults = rule.faults.iter().map(|&(text, place)| (text, Some(place)));
        cases.extend(texts.chain(faults).map(|(text, place)| TextCase {
            name,
            text: text.to_vec(),
            place,
        }));
    }
    cases.extend(depth_cases());
    cases
}
