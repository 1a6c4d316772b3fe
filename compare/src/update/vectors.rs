//! A sample of updates, touched parts as the original covers them alone.
use super::cases::{self, Change};
use super::{marks_of, p11};
use crate::asked::with_larger;
use crate::entry::Context;
use crate::fields::{digits_field, edges_field};
use crate::sample::sample;

const CHANGES: usize = 700;

pub fn lines(context: &Context) -> String {
    let mut changes: Vec<Change> = p11().map(|(change, _)| change).to_vec();
    changes.extend(with_larger(context.rng("vectors: update"), CHANGES, 20, cases::larger, cases::random));
    let line = |(change, [marks, _]): (&Change, [Vec<u8>; 2])| {
        let Change { old, new, groups, metas, given } = change;
        let (old, new, given) = (edges_field(old), edges_field(new), digits_field(given));
        format!("{groups} {metas} {old} {new} {given} {}\n", digits_field(&marks))
    };
    sample(changes.iter().zip(marks_of(context, &changes)).map(line))
}
