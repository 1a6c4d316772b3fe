//! The fields of a line: numbers, hexadecimal bytes, f32 bit patterns and lists. `-` stands for what is empty.
use oracle::enzyme::Position;
use std::{fmt::Debug, str::FromStr};

pub fn text(field: &str) -> &str {
    match field {
        "-" => "",
        _ => field,
    }
}

pub fn or_dash(answer: String) -> String {
    match answer.is_empty() {
        true => "-".into(),
        false => answer,
    }
}

pub fn list(field: &str, separator: char) -> Vec<&str> {
    match field {
        "-" => vec![],
        _ => field.split(separator).collect(),
    }
}

pub fn join(parts: impl IntoIterator<Item = String>, separator: &str) -> String {
    parts.into_iter().collect::<Vec<_>>().join(separator)
}

pub fn number<T: FromStr>(field: &str) -> T
where
    T::Err: Debug,
{
    field.parse().unwrap()
}

pub fn flag(field: &str) -> bool {
    field == "1"
}

/// `a.b` as its two parts.
pub fn two(field: &str) -> (&str, &str) {
    field.split_once('.').unwrap()
}

pub fn float(field: &str) -> f32 {
    f32::from_bits(u32::from_str_radix(field, 16).unwrap())
}

pub fn bits(value: f32) -> String {
    format!("{:08x}", value.to_bits())
}

pub fn hex(bytes: &[u8]) -> String {
    or_dash(bytes.iter().map(|byte| format!("{byte:02x}")).collect())
}

pub fn unhex(field: &str) -> Vec<u8> {
    let byte = |pair: &[u8]| u8::from_str_radix(std::str::from_utf8(pair).unwrap(), 16).unwrap();
    text(field).as_bytes().chunks(2).map(byte).collect()
}

pub fn position(field: &str) -> Position {
    match field {
        "0" => Position::Nterm,
        "1" => Position::Cterm,
        "2" => Position::Full,
        "3" => Position::Internal,
        _ => panic!("position {field}"),
    }
}

pub fn position_number(position: Position) -> u8 {
    match position {
        Position::Nterm => 0,
        Position::Cterm => 1,
        Position::Full => 2,
        Position::Internal => 3,
    }
}
