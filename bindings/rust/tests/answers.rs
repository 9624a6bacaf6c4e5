//! What the Rust crate `wincode` answered itself: the rows of `crates/rows_values` are read, each of a type that can be
//! described is checked, and accepted or refused as there, with as many bytes left.
use std::fs;
use wincode_check::{Kind, Type};

/// The type as it is written for the inspector, or none where it can't be described: bytes and texts that are lent have no
/// limit, and some schemas are a row's own.
fn type_of(name: &str) -> Option<Type> {
    let text = match name {
        "unit" => "()".to_owned(),
        "message-like" => "(u64, Vec<u8>, Option<String>)".to_owned(),
        "bytes" | "str" => return None,
        name => match name.strip_prefix("Short<").and_then(|rest| rest.strip_suffix('>')) {
            Some(item) => format!("short Vec<{item}>"),
            None => name.to_owned(),
        },
    };
    Type::parse(&text).ok()
}

fn bytes_of(digits: &str) -> Vec<u8> {
    (0..digits.len() / 2)
        .map(|i| u8::from_str_radix(&digits[2 * i..2 * i + 2], 16).unwrap())
        .collect()
}

/// The error as the Rust crate's `Debug` prints it.
fn debug_of(kind: Kind) -> String {
    match kind {
        Kind::TooFewBytes(wanted) => format!("Io(ReadSizeLimit({wanted}))"),
        Kind::NotUtf8 { valid_up_to, error_len } => {
            format!("InvalidUtf8Encoding(Utf8Error {{ valid_up_to: {valid_up_to}, error_len: {error_len:?} }})")
        }
        Kind::PastLimit { needed, limit } => format!("PreallocationSizeLimit {{ needed: {needed}, limit: {limit} }}"),
        Kind::NoSuchTag(tag) => format!("InvalidTagEncoding({tag})"),
        Kind::NoBool(byte) => format!("InvalidBoolEncoding({byte})"),
        Kind::NoCharacter(byte) => format!("InvalidCharLead({byte})"),
        Kind::LengthOverflow { is_short } => format!(
            "LengthEncodingOverflow({:?})",
            if is_short { "u16::MAX" } else { "usize::MAX" }
        ),
        kind => format!("{kind:?}"),
    }
}

#[test]
fn depth_of_a_refusal() {
    let refused = Type::parse("[[bool; 2]; 2]").unwrap().check(&[1, 0, 1, 2]).unwrap_err();
    assert_eq!((refused.offset, refused.depth), (3, 2));
}

#[test]
fn rows_of_the_rust_crate() {
    let rows = fs::read_to_string("../../crates/rows_values/stdout").unwrap();
    let mut seen = 0;
    for row in rows.lines() {
        let columns: Vec<&str> = row.split('|').collect();
        let ["read", name, digits, answer] = columns[..] else {
            continue;
        };
        let Some(described) = type_of(name) else { continue };
        let bytes = bytes_of(digits);
        let words: Vec<&str> = answer.splitn(3, ' ').collect();
        let found = described.check(&bytes);
        if words[0] == "ok" {
            assert_eq!(
                found.map(|checked| checked.behind.to_string()).as_deref(),
                Ok(words[1]),
                "{row}"
            );
        } else {
            let refused = found.unwrap_err();
            let left = bytes.len() - refused.place;
            assert_eq!(format!("err {} {left}", debug_of(refused.kind)), answer, "{row}");
        }
        seen += 1;
    }
    assert!(seen > 600, "{seen} rows");
}
