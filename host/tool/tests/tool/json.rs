//! As much of a JSON reader as shows that what is printed is JSON, and what it
//! says.

#[derive(Debug, PartialEq)]
pub enum Json {
    Null,
    Number(u64),
    Text(String),
    List(Vec<Json>),
    Object(Vec<(String, Json)>),
}

use Json::{List, Null, Number, Object, Text};

impl Json {
    /// The member of an object that has each name once.
    pub fn at(&self, name: &str) -> &Json {
        let Object(members) = self else {
            panic!("no object: {self:?}")
        };
        let found: Vec<_> = members.iter().filter(|(key, _)| key == name).collect();
        assert_eq!(found.len(), 1, "{name} in {self:?}");
        &found[0].1
    }

    pub fn names(&self) -> Vec<&str> {
        match self {
            Object(members) => members.iter().map(|(name, _)| &**name).collect(),
            _ => panic!("no object: {self:?}"),
        }
    }
}

pub fn text(text: &str) -> Json {
    Text(text.to_string())
}

/// A sum as it is shown.
pub fn sum(sum: u32) -> Json {
    Text(format!("{sum:08X}"))
}

pub fn numbers(numbers: &[u64]) -> Json {
    List(numbers.iter().map(|number| Number(*number)).collect())
}

/// One value on one line, and nothing behind it.
pub fn read(line: &str) -> Json {
    let text = line.strip_suffix('\n').unwrap();
    assert!(text.bytes().all(|byte| (b' '..=b'~').contains(&byte)));
    let mut reader = Reader(text.as_bytes());
    let value = reader.value();
    assert_eq!(reader.0, b"");
    value
}

struct Reader<'a>(&'a [u8]);

impl Reader<'_> {
    fn next(&mut self) -> u8 {
        let (first, rest) = self.0.split_first().expect("more text");
        self.0 = rest;
        *first
    }

    fn takes(&mut self, word: &[u8]) -> bool {
        match self.0.strip_prefix(word) {
            Some(rest) => {
                self.0 = rest;
                true
            }
            None => false,
        }
    }

    fn value(&mut self) -> Json {
        match self.0.first().expect("a value") {
            b'{' => Object(self.several(b'{', b'}', |reader| {
                let name = reader.string();
                assert!(reader.takes(b":"));
                (name, reader.value())
            })),
            b'[' => List(self.several(b'[', b']', Reader::value)),
            b'"' => Text(self.string()),
            b'0'..=b'9' => self.number(),
            _ => {
                assert!(self.takes(b"null"));
                Null
            }
        }
    }

    fn several<T>(&mut self, open: u8, close: u8, one: impl Fn(&mut Self) -> T) -> Vec<T> {
        assert!(self.takes(&[open]));
        let mut found = Vec::new();
        if self.takes(&[close]) {
            return found;
        }
        loop {
            found.push(one(self));
            if self.takes(&[close]) {
                return found;
            }
            assert!(self.takes(b","));
        }
    }

    fn number(&mut self) -> Json {
        let digits = self.0.iter().take_while(|byte| byte.is_ascii_digit());
        let (digits, rest) = self.0.split_at(digits.count());
        assert!(digits[0] != b'0' || digits.len() == 1);
        self.0 = rest;
        Number(std::str::from_utf8(digits).unwrap().parse().unwrap())
    }

    fn string(&mut self) -> String {
        assert!(self.takes(b"\""));
        let mut units = Vec::new();
        loop {
            match self.next() {
                b'"' => return String::from_utf16(&units).unwrap(),
                b'\\' => units.push(self.escape()),
                byte => units.push(byte.into()),
            }
        }
    }

    fn escape(&mut self) -> u16 {
        match self.next() {
            byte @ (b'"' | b'\\') => byte.into(),
            b'u' => {
                let digits: Vec<u8> = (0..4).map(|_| self.next()).collect();
                u16::from_str_radix(std::str::from_utf8(&digits).unwrap(), 16).unwrap()
            }
            other => panic!("no escape: {other}"),
        }
    }
}

/// The reader itself refuses what isn't JSON.
#[test]
fn what_is_no_json_is_refused() {
    let value = read("{\"a\":[1,\"\\u00E9\\\"\",null],\"b\":{}}\n");
    assert_eq!(value.names(), ["a", "b"]);
    assert_eq!(*value.at("a"), List(vec![Number(1), text("é\""), Null]));
    for wrong in [
        "",
        "{}",
        "{,}\n",
        "[1,]\n",
        "[1 2]\n",
        "{\"a\"}\n",
        "\"a\n",
        "01\n",
        "{}{}\n",
        "\"\n\"\n",
        "{\"a\":1,}\n",
        "\"\\q\"\n",
        "nil\n",
    ] {
        let went = std::panic::catch_unwind(|| read(wrong));
        assert!(went.is_err(), "{wrong:?}");
    }
}
