//! What the original says of pairs. Its proteins have names: here a protein's number.
use super::model::{Groups, Member};
use crate::cover::model::Edge;
use crate::fields::{digits_field, list_field};
use crate::oracle::{answered, Oracle};

/// Pairs, the decoy flags of peptides, and the number of proteins.
pub type Shown = (Vec<Edge>, Vec<u8>, usize);

/// The peptides that have a pair.
pub fn with_pairs(pairs: &[Edge], flags: &[u8]) -> Vec<usize> {
    let mut paired = vec![false; flags.len()];
    for (peptide, _) in pairs {
        paired[*peptide as usize] = true;
    }
    (0..flags.len()).filter(|peptide| paired[*peptide]).collect()
}

fn line((pairs, flags, _): &Shown, taking: &[usize]) -> String {
    let pairs = pairs.iter().map(|(peptide, protein)| format!("{peptide}.{protein}"));
    format!("GROUPP\t{}\t{}\t{}", digits_field(flags), list_field(pairs, " "), list_field(taking, ","))
}

/// One answer for each list of pairs: only peptides with a pair take part.
pub fn ask<'a>(oracle: &Oracle, all: impl IntoIterator<Item = &'a Shown>) -> Vec<String> {
    let line = |shown: &Shown| line(shown, &with_pairs(&shown.0, &shown.1));
    oracle.ask(&all.into_iter().map(line).collect::<Vec<_>>())
}

/// The same where all peptides take part.
pub fn ask_of_all(oracle: &Oracle, all: &[Shown]) -> Vec<String> {
    let line = |shown: &Shown| line(shown, &(0..shown.1.len()).collect::<Vec<_>>());
    oracle.ask(&all.iter().map(line).collect::<Vec<_>>())
}

/// The original's groups, their members sorted by their numbers.
#[derive(Clone, Debug, PartialEq)]
pub struct Read {
    pub groups: Groups,
    /// They stood in another order.
    pub unsorted: bool,
}

fn items(part: &str, separator: char) -> impl Iterator<Item = &str> {
    part.split(separator).filter(|item| *item != "-")
}

fn numbers<const N: usize>(item: &str) -> [u32; N] {
    let mut fields = item.split('.').map(|field| field.parse().expect("a number of the oracle"));
    std::array::from_fn(|_| fields.next().expect("a field of the oracle"))
}

pub fn read(answer: &str) -> Read {
    let parts: Vec<&str> = answered(answer).split(" | ").collect();
    let edge = |item| {
        let [group, meta] = numbers(item);
        (group, meta)
    };
    let mut groups = Groups { metas: parts[2].parse().expect("a number of the oracle"), ..Groups::default() };
    groups.edges = items(parts[0], ';').map(edge).collect();
    let mut unsorted = false;
    for (group, members) in (0..).zip(items(parts[1], ';')) {
        let mut members: Vec<[u32; 3]> = members.split(',').map(numbers).collect();
        unsorted |= !members.is_sorted();
        members.sort();
        let member = |[_, protein, decoy]: [u32; 3]| Member { group, protein, decoy: decoy as u8 };
        groups.members.extend(members.into_iter().map(member));
        groups.groups += 1;
    }
    Read { groups, unsorted }
}
