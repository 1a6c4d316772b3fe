//! What the original says of a list of digests. It has letters where ours has ranges, and names where ours has numbers.
use super::model::{Call, Digest, Key, Lists};
use crate::fields::list_field;
use crate::oracle::{answered, hex, unhex, Oracle};
use std::collections::HashMap;

fn item(call: &Call, digest: &Digest) -> String {
    let (position, decoy, letters) = call.key(digest);
    let letters = String::from_utf8(letters).expect("letters");
    let Digest { missed, semi, protein, .. } = digest;
    format!("{position}.{decoy}.{letters}.{}.{missed}.{semi}", hex(call.name(*protein)))
}

/// One answer for each call.
pub fn ask(oracle: &Oracle, calls: &[Call]) -> Vec<String> {
    let line = |call: &Call| {
        format!("GROUPD\t{}", list_field(call.digests().map(|digest| item(call, &digest)), ";"))
    };
    oracle.ask(&calls.iter().map(line).collect::<Vec<_>>())
}

/// The lists that the original's groups make, with what document 01 puts right in them.
#[derive(Clone, Debug, Default, PartialEq)]
pub struct Read {
    pub lists: Lists,
    /// A reference was not the first of its digests.
    pub unstable: bool,
    /// The proteins of the last group were not sorted.
    pub unsorted: bool,
}

fn key_of(item: &str) -> Key {
    let mut fields = item.split('.');
    let [position, decoy] = std::array::from_fn(|_| fields.next().and_then(|field| field.parse().ok()))
        .map(|field| field.expect("a number of the oracle"));
    (position, decoy, fields.next().expect("letters").into())
}

/// The first digest of each key.
fn first_digests(call: &Call) -> HashMap<Key, Digest> {
    let mut first = HashMap::new();
    for digest in call.digests() {
        first.entry(call.key(&digest)).or_insert(digest);
    }
    first
}

pub fn read(call: &Call, answer: &str) -> Read {
    let numbers: HashMap<&[u8], u32> = call.names().zip(0..).collect();
    let first = first_digests(call);
    let mut read = Read::default();
    let groups: Vec<&str> = answered(answer).split(';').collect();
    for (place, group) in groups.iter().enumerate() {
        let (reference, names) = group.split_once(':').expect("a group of the oracle");
        let digest = first.get(&key_of(reference)).expect("letters of a digest");
        read.unstable |= item(call, digest) != reference;
        let mut names: Vec<Vec<u8>> = names.split(',').map(unhex).collect();
        if place + 1 == groups.len() {
            read.unsorted = !names.is_sorted();
            names.sort();
        }
        let proteins: Vec<u32> = names.iter().map(|name| numbers[&name[..]]).collect();
        read.lists.push(&digest.bytes(), &proteins);
    }
    read
}
