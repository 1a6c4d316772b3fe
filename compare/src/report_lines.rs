//! Report lines: against the original's, byte for byte. The count is held to the `;` of the original's line plus one, by which the
//! original counts, without the `;` in names.
pub mod cases;
pub mod model;
pub mod refusals;
pub mod said;
pub mod vectors;

use crate::answer::Filled;
use crate::asked::{drawn, with_larger, Asked};
use crate::calls::report_lines as calls;
use crate::entry::{Against, Context, Tally};
use crate::protein_groups::model::Member;
use crate::rng::Rng;
use crate::room;
use crate::shown::from_difference;
use model::{applying, filled, line_of, semicolons_in_names, Call, Line, Sizes};
use said::{ask, can_be_asked, read};
use std::collections::HashSet;

const EQUAL: &str = "of two marked groups with the same members (two, the Rust one)";
pub const SEMICOLONS: &str = "with a `;` in a name of the line (the Rust counts it)";

/// Holds one call against what its answer and its line have to be.
pub fn hold(tally: &mut Tally, call: &Call, out: &[u8], wanted: &Filled<Sizes>) {
    let ours = calls::report_line(call, out);
    tally.case_in_part(&(call, out.len()), ours, wanted, |ours, wanted| from_difference(ours, wanted, 8));
}

/// Holds a call with room and, once in three times, one without enough.
fn hold_with_rooms(tally: &mut Tally, rng: &mut Rng, call: &Call, line: &Line) {
    for out in room::for_bytes(rng, line.text.len(), 3) {
        hold(tally, call, &out, &filled(line, &out));
    }
}

/// Groups without those that have the same members as one before, which are one to the original.
fn distinct(groups: &[Vec<Member>]) -> Vec<Vec<Member>> {
    let mut known = HashSet::new();
    let members = |group: &Vec<Member>| -> Vec<(u32, u8)> {
        group.iter().map(|member| (member.protein, member.decoy)).collect()
    };
    groups.iter().filter(|group| known.insert(members(group))).cloned().collect()
}

/// What the original says of groups, none of which has the same members as another.
fn said_of(call: &Call, groups: &[Vec<Member>]) -> Line {
    let line = line_of(call, groups);
    Line { groups: line.groups + semicolons_in_names(call, groups), ..line }
}

/// Holds a call against the original's line and its `;` plus one, without those in names, or against the model where groups have
/// the same members.
fn hold_to_rust(tally: &mut Tally, rng: &mut Rng, call: &Call, said: &Line) {
    let groups = applying(call);
    let distinct = distinct(&groups);
    let in_names = semicolons_in_names(call, &distinct);
    if distinct.len() == groups.len() {
        let counted = Line { groups: said.groups.wrapping_sub(in_names), ..said.clone() };
        hold_with_rooms(tally, rng, call, &counted);
    } else {
        hold_with_rooms(tally, rng, call, &line_of(call, &groups));
        tally.intended(EQUAL);
        if *said != said_of(call, &distinct) {
            tally.fail(call, &format!("the Rust says {} {}", said.groups, said.text.escape_ascii()));
        }
    }
    if in_names > 0 {
        tally.intended(SEMICOLONS);
    }
}

const CALLS: Asked<Call> = Asked {
    ask: |context, calls| ask(&context.oracle, calls),
    hold: |tally, rng, call, answer| hold_to_rust(tally, rng, call, &read(&answer)),
    rooms: "report lines, rooms",
};

pub fn small_calls(context: &Context) -> Tally {
    let calls = |_| cases::exhaustive().into_iter().filter(can_be_asked);
    CALLS.entry(context, "report lines: small calls").made(calls)
}

pub fn random_calls(context: &Context) -> Tally {
    let calls = |rng| drawn(rng, 250_000, cases::random).filter(can_be_asked);
    CALLS.entry(context, "report lines: random calls").made(calls)
}

pub fn larger_calls(context: &Context) -> Tally {
    let calls = |rng| drawn(rng, 10_000, cases::larger).filter(can_be_asked);
    CALLS.entry(context, "report lines: larger calls").made(calls)
}

/// Numbers around which the library takes more memory.
pub fn long_calls(context: &Context) -> Tally {
    let sizes = [vec![1024; 48], vec![16_384; 18], vec![65_536; 18]].concat().into_iter();
    CALLS
        .entry(context, "report lines: long calls")
        .made(|mut rng| sizes.map(move |most| cases::around(&mut rng, most)).filter(can_be_asked))
}

pub fn model_lines(context: &Context) -> Tally {
    let calls = |rng| with_larger(rng, 60_000, 30, cases::larger, cases::random).filter(can_be_asked);
    CALLS.entry(context, "model: report lines").model(calls, |tally, call, answer| {
        tally.case(call, &Ok(said_of(call, &distinct(&applying(call)))), &read(&answer));
    })
}

/// The greatest sizes, with room exact and one short.
pub fn greatest_calls(context: &Context) -> Tally {
    let mut tally = Tally::new("report lines: the most", Against::Model);
    for call in cases::greatest(&mut context.rng("report lines, the most")) {
        let line = model::line(&call);
        for fewer in [0, 1] {
            let out = vec![0xee; line.text.len() - fewer];
            hold(&mut tally, &call, &out, &filled(&line, &out));
        }
    }
    tally
}
