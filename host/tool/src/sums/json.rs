//! The sums as one JSON object on one line. Sums are strings of eight digits,
//! as they are shown everywhere else.

use super::difference::Difference;
use super::held::Held;
use super::words::Kind;

pub fn one(held: &Held) -> String {
    let row = |block| object(&[("block", number(block)), ("sum", sum(held.sum(block)))]);
    let mut members = source(held);
    members.extend(split(held));
    members.push(("sums", array(held.blocks().map(row))));
    members.push(("whole", sum(held.whole())));
    members.extend(taken_off(held));
    object(&members)
}

pub fn two(old: &Held, new: &Held, difference: &Difference) -> String {
    let pair = |one, other| [("old", sum(one)), ("new", sum(other))];
    let row = |block: &usize| {
        let [one, other] = pair(old.sum(*block), new.sum(*block));
        object(&[("block", number(*block)), one, other])
    };
    let numbers = |blocks: &Vec<usize>| array(blocks.iter().map(|block| number(*block)));
    let which = |held| object(&[source(held), taken_off(held)].concat());
    let mut members = vec![("old", which(old)), ("new", which(new))];
    members.extend(split(old));
    members.push(("changed", array(difference.changed.iter().map(row))));
    members.push(("whole", object(&pair(old.whole(), new.whole()))));
    members.push(("same_sum_other_bytes", numbers(&difference.silent)));
    let boot = difference.boot.as_ref();
    members.push(("boot_changed", boot.map_or("null".to_string(), numbers)));
    object(&members)
}

type Member = (&'static str, String);

fn source(held: &Held) -> Vec<Member> {
    let kind = match held.source.kind {
        Kind::Flash => "flash",
        Kind::Image => "image",
    };
    vec![
        ("file", string(&held.source.path.to_string_lossy())),
        ("kind", string(kind)),
        ("bytes", number(held.bytes)),
    ]
}

/// What stood around an image in its file; a flash has no such members.
fn taken_off(held: &Held) -> Vec<Member> {
    let Some(wrapping) = held.wrapping else {
        return Vec::new();
    };
    let suffix = wrapping.suffix.map(|parts| {
        object(&[
            ("device", number(parts.device.into())),
            ("product", number(parts.product.into())),
            ("vendor", number(parts.vendor.into())),
        ])
    });
    let header = wrapping.header.map(|block| number(block.into()));
    let null = || "null".to_string();
    vec![
        ("suffix", suffix.unwrap_or_else(null)),
        ("header_block", header.unwrap_or_else(null)),
    ]
}

fn split(held: &Held) -> [Member; 2] {
    [
        ("first", number(held.split.first.into())),
        ("blocks", number(held.split.blocks.into())),
    ]
}

fn object(members: &[Member]) -> String {
    let members: Vec<String> = members
        .iter()
        .map(|(name, value)| format!("{}:{value}", string(name)))
        .collect();
    format!("{{{}}}", members.join(","))
}

fn array(values: impl Iterator<Item = String>) -> String {
    let values: Vec<String> = values.collect();
    format!("[{}]", values.join(","))
}

fn number(number: usize) -> String {
    number.to_string()
}

fn sum(sum: u32) -> String {
    string(&format!("{sum:08X}"))
}

/// Plain ASCII, whatever the text: nothing in it that a terminal would obey.
fn string(text: &str) -> String {
    let mut quoted = String::from("\"");
    for unit in text.encode_utf16() {
        match u8::try_from(unit) {
            Ok(byte @ (b'"' | b'\\')) => quoted.extend(['\\', char::from(byte)]),
            Ok(byte @ b' '..=b'~') => quoted.push(char::from(byte)),
            _ => quoted += &format!("\\u{unit:04X}"),
        }
    }
    quoted + "\""
}

#[cfg(test)]
mod tests {
    use super::*;

    #[test]
    fn strings_are_plain() {
        assert_eq!(string("a b~"), "\"a b~\"");
        assert_eq!(string("q\"b\\"), "\"q\\\"b\\\\\"");
        assert_eq!(string("\n\x1b\x7fé"), "\"\\u000A\\u001B\\u007F\\u00E9\"");
        assert_eq!(string("\u{1F50C}"), "\"\\uD83D\\uDD0C\"");
    }

    #[test]
    fn members_and_values_are_parted_by_commas() {
        assert_eq!(object(&[]), "{}");
        assert_eq!(
            object(&[("a", number(1)), ("b", sum(10))]),
            "{\"a\":1,\"b\":\"0000000A\"}"
        );
        assert_eq!(array([].into_iter()), "[]");
        assert_eq!(array([number(1), number(2)].into_iter()), "[1,2]");
    }
}
