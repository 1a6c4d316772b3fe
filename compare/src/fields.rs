//! The fields of a line, as the original and the gate read them.
use crate::cover::model::Edge;
use crate::digest_groups::model::{name, NAME};
use crate::model::capitals;
use crate::oracle::{hex, or_dash};
use crate::protein_groups::model::Member;

/// Items, divided by a separator.
pub fn list_field<T: ToString>(items: impl IntoIterator<Item = T>, separator: &str) -> String {
    or_dash(items.into_iter().map(|item| item.to_string()).collect::<Vec<_>>().join(separator))
}

/// Marks or flags as digits.
pub fn digits_field(digits: &[u8]) -> String {
    list_field(digits, "")
}

/// Edges or pairs.
pub fn edges_field(edges: &[Edge]) -> String {
    list_field(edges.iter().map(|(group, meta)| format!("{group}.{meta}")), ";")
}

pub fn names_field(names: &[u8]) -> String {
    list_field(names.chunks(NAME).map(|record| hex(name(record))), ";")
}

pub fn members_field(members: impl IntoIterator<Item = Member>) -> String {
    let member = |Member { group, protein, decoy }: Member| format!("{group}.{protein}.{decoy}");
    list_field(members.into_iter().map(member), ";")
}

/// Bytes as the original can be sent them.
pub fn text(bytes: &[u8]) -> &str {
    std::str::from_utf8(bytes).expect("bytes below 128")
}

pub fn letters_field(letters: &[u8]) -> String {
    or_dash(text(letters).into())
}

/// Letters as the original is asked about them: "on the input with capitals" (document 02, [2]).
pub fn capitals_field(letters: &[u8]) -> String {
    letters_field(&capitals(letters))
}
