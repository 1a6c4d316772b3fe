//! What the original says of the line of a peptide. It has names where ours has numbers.
use super::model::{Call, Line};
use crate::fields::{digits_field, letters_field, list_field, text};
use crate::oracle::{answered, Oracle};
use crate::protein_groups::model::Member;

/// A list or a tag that is just `-` would be taken for none.
pub fn can_be_asked(call: &Call) -> bool {
    let alone = matches!(&call.proteins[..], [protein] if call.name(*protein) == b"-");
    !alone && call.tag != b"-"
}

fn line(call: &Call) -> String {
    let member =
        |Member { group, protein, decoy }: Member| format!("{group}.{decoy}.{}", text(call.name(protein)));
    let names = call.proteins.iter().map(|protein| text(call.name(*protein)));
    let (members, proteins) = (list_field(call.members().map(member), " "), list_field(names, " "));
    let (marks, tag) = (digits_field(&call.marks), letters_field(&call.tag));
    let Call { decoy, generated, .. } = call;
    format!("REPORT\t{members}\t{marks}\t{proteins}\t{decoy}\t{tag}\t{generated}")
}

/// One answer for each call that passes its tests.
pub fn ask<'a>(oracle: &Oracle, calls: impl IntoIterator<Item = &'a Call>) -> Vec<String> {
    oracle.ask(&calls.into_iter().map(line).collect::<Vec<_>>())
}

pub fn read(answer: &str) -> Line {
    let (groups, text) = answered(answer).split_once(' ').expect("an answer of the oracle");
    let groups = groups.parse().expect("a number of the oracle");
    Line { text: if groups == 0 { vec![] } else { text.into() }, groups }
}
