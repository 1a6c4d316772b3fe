//! A sample of the original's report lines, where no two groups have the same members. The number of groups is made of the line: its
//! `;` plus one, without those in names.
use super::model::{applying, semicolons_in_names, Call, Line};
use super::said::{ask, can_be_asked, read};
use super::{cases, distinct};
use crate::asked::drawn;
use crate::entry::Context;
use crate::fields::{digits_field, list_field, members_field, names_field};
use crate::oracle::hex;
use crate::rng::Rng;
use crate::sample::sample;

const CALLS: usize = 900;

fn line(call: &Call, said: &Line) -> String {
    let (names, members) = (names_field(&call.names), members_field(call.members()));
    let (marks, proteins) = (digits_field(&call.marks), list_field(&call.proteins, "."));
    let Call { decoy, generated, tag, .. } = call;
    let given = format!("{names} {members} {marks} {proteins} {decoy} {} {generated}", hex(tag));
    let groups = said.groups - semicolons_in_names(call, &applying(call));
    format!("{given} {groups} {}\n", hex(&said.text))
}

/// Few of those that apply no group.
fn some(rng: &mut Rng) -> Call {
    let mut call = cases::random(rng);
    while applying(&call).is_empty() && !rng.once_in(8) {
        call = cases::random(rng);
    }
    call
}

pub fn lines(context: &Context) -> String {
    let rng = context.rng("vectors: report lines");
    let calls: Vec<Call> = drawn(rng, CALLS, some).filter(can_be_asked).collect();
    let answers = ask(&context.oracle, &calls);
    let same = |call: &Call| {
        let groups = applying(call);
        distinct(&groups).len() == groups.len()
    };
    let asked = calls.iter().zip(answers).filter(|(call, _)| same(call));
    sample(asked.map(|(call, answer)| line(call, &read(&answer))))
}
