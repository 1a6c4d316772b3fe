//! A sample of the original's groups of proteins.
use super::model::Groups;
use super::said::{ask, read, Shown};
use super::{cases, p10};
use crate::asked::with_larger;
use crate::entry::Context;
use crate::fields::{digits_field, edges_field, members_field};
use crate::sample::sample;

const LISTS: usize = 600;

fn line((pairs, flags, proteins): &Shown, groups: Groups) -> String {
    let given = format!("{} {proteins} {}", digits_field(flags), edges_field(pairs));
    let lists = format!("{} {}", edges_field(&groups.edges), members_field(groups.members));
    format!("{given} {} {} {lists}\n", groups.groups, groups.metas)
}

pub fn lines(context: &Context) -> String {
    let mut all = vec![p10().0];
    let rng = context.rng("vectors: protein groups");
    all.extend(with_larger(rng, LISTS, 20, cases::larger, cases::random));
    let answers = ask(&context.oracle, &all);
    sample(all.iter().zip(answers).map(|(shown, answer)| line(shown, read(&answer).groups)))
}
