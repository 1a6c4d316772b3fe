//! Every refusal of `report_line`, alone and with others: which one is given, and what it leaves of the line.
use super::cases;
use super::hold;
use super::model::{self, Call, MOST_LIST, MOST_MARKS, MOST_TAG};
use crate::digest_groups::model::{MOST_NAMES, NAME};
use crate::digest_groups::refusals::damage_names;
use crate::entry::{Against, Context, Tally};
use crate::model::put_word;
use crate::protein_groups::model::{MEMBER, MOST_MEMBERS};
use crate::refusals::{cut_within, scatter, spoil, Spoil, Turns};
use crate::rng::Rng;
use crate::room;

fn bad_names(rng: &mut Rng, call: &mut Call) {
    damage_names(rng, &mut call.names);
}

/// A group without a mark, a protein without a name, a flag that is none, and bytes behind it.
fn bad_members(rng: &mut Rng, call: &mut Call) {
    let (count, names) = (call.members.len() / MEMBER, call.names.len() / NAME);
    let above = |rng: &mut Rng, most: usize| rng.pick(&[0, 0, 1, 1 << 16, 1 << 24, 1 << 31]) | most as u32;
    for _ in 0..(1 + rng.below(3)).min(count) {
        let at = rng.below(count) * MEMBER;
        let record = &mut call.members[at..at + MEMBER];
        match rng.below(4) {
            0 => put_word(record, 0, above(rng, call.marks.len())),
            1 => put_word(record, 4, above(rng, names)),
            2 => record[8] = rng.pick(&[2, 3, 128, 129, 255]),
            _ => record[9 + rng.below(3)] = rng.pick(&[1, 2, 128, 255]),
        }
    }
}

fn bad_marks(rng: &mut Rng, call: &mut Call) {
    scatter(rng, &mut call.marks, &[2, 3, 128, 129, 255]);
}

fn bad_list(rng: &mut Rng, call: &mut Call) {
    let names = (call.names.len() / NAME) as u32;
    let bad = [names, names, names + 1, names | 1 << 16, names | 1 << 24, u32::MAX];
    scatter(rng, &mut call.proteins, &bad);
}

/// One that is too long, also much, and bytes that no name has.
fn bad_tag(rng: &mut Rng, call: &mut Call) {
    if call.tag.is_empty() || rng.once_in(2) {
        let len = MOST_TAG + 1 + rng.pick(&[0, 0, 1, 16, 240]);
        call.tag = cases::any_visible(rng, len);
    }
    if rng.once_in(2) {
        call.tag.truncate(MOST_TAG);
        let place = rng.below(call.tag.len());
        call.tag[place] = rng.pick(&[0, 9, 10, 32, 127, 128, b'A' | 128, 255]);
    }
}

fn bad_flags(rng: &mut Rng, call: &mut Call) {
    let number = rng.pick(&[2, 3, 256, 257, 1 << 16, 1 << 31 | 1, u32::MAX]);
    match rng.below(3) {
        0 => call.decoy = number,
        1 => call.generated = number,
        _ => (call.decoy, call.generated) = (number, 2),
    }
}

/// Lists that end within a record.
fn no_length(rng: &mut Rng, call: &mut Call) {
    let (list, size) = if rng.once_in(2) { (&mut call.names, NAME) } else { (&mut call.members, MEMBER) };
    cut_within(rng, list, size);
}

/// Lists are cut within a record last, so that there are records to damage.
const SPOILS: [Spoil<Call>; 7] = [bad_names, bad_members, bad_marks, bad_list, bad_tag, bad_flags, no_length];

fn hold_spoiled(tally: &mut Tally, rng: &mut Rng, reasons: &[Spoil<Call>], few: bool) {
    let mut call = cases::random(rng);
    let bytes = model::line(&call).text.len();
    let out = room::bytes(rng, bytes, few);
    spoil(rng, &mut call, reasons);
    hold(tally, &call, &out, &model::report_line(&call, &out));
}

/// Every choice of reasons but sizes.
pub fn any_call(context: &Context) -> Tally {
    let turns = Turns::new(context, "report lines: any call", "calls of report_line", 192_000);
    turns.every_choice(&SPOILS, hold_spoiled)
}

pub fn single_reasons(context: &Context) -> Tally {
    let turns = Turns::new(context, "report lines: single reasons", "single reasons of report_line", 120_000);
    turns.single_reasons(&SPOILS, hold_spoiled)
}

/// Sizes at their limits and above them, alone and with other reasons.
pub fn large(context: &Context) -> Tally {
    let mut tally = Tally::new("report lines: large calls", Against::Model);
    let rng = &mut context.rng("large calls of report_line");
    for more in [0, 1, 2] {
        for part in [0, 1] {
            let mut calls: [Call; 4] = std::array::from_fn(|_| cases::random(rng));
            calls[0].names.resize((MOST_NAMES + more) * NAME + part, b'A');
            calls[1].members.resize((MOST_MEMBERS + more) * MEMBER + part, 0);
            calls[2].marks.resize(MOST_MARKS + more, 0);
            calls[3].proteins.resize(MOST_LIST + more, 0);
            for call in &mut calls {
                for reasons in [&[][..], &[no_length as Spoil<Call>], &[bad_tag]] {
                    spoil(rng, call, reasons);
                    let out = rng.bytes(50);
                    hold(&mut tally, call, &out, &model::report_line(call, &out));
                }
            }
        }
    }
    tally
}
