//! Every refusal of `group_digests`, alone and with others: which one is given, and what it leaves of the memory.
use super::cases::{self, work};
use super::model::{self, work_for, Call, MOST_NAMES, NAME};
use super::{hold, rooms};
use crate::digest::model::{DIGEST, MOST_DIGESTS, MOST_LETTERS};
use crate::entry::{Against, Context, Tally};
use crate::letters::NEAR_LETTERS;
use crate::model::{put_word, word, MOST_BOOK};
use crate::refusals::{cut_within, scatter, spoil, Spoil, Turns};
use crate::reversal::cases::FORMER;
use crate::rng::Rng;

fn short_work(rng: &mut Rng, call: &mut Call) {
    let needed = work_for(call.names.len() / NAME, call.digests.len() / DIGEST);
    let any = rng.below(needed.max(1));
    let names_only = 4 * (call.names.len() / NAME);
    call.work.truncate(rng.pick(&[
        needed.saturating_sub(1),
        any,
        names_only.min(needed.saturating_sub(1)),
        0,
    ]));
}

/// Bytes that no name has, an end of zeros that is none, and no byte at all.
fn bad_name(rng: &mut Rng, name: &mut [u8]) {
    let len = name.iter().position(|byte| *byte == 0).unwrap_or(NAME);
    let bad = rng.pick(&[1, 9, 10, 32, 127, 128, b'A' | 128, 255]);
    match rng.below(4) {
        0 => name.fill(0),
        1 => name[rng.below(len)] = bad,
        2 if len < NAME => name[len + rng.below(NAME - len)] = bad,
        2 => name[NAME - 1] = bad,
        _ if len + 1 < NAME => name[len + 1 + rng.below(NAME - len - 1)] = b'A',
        _ => name[0] = 0,
    }
}

/// Bad names and repeated ones: the place is the first one's.
pub fn damage_names(rng: &mut Rng, names: &mut [u8]) {
    let count = names.len() / NAME;
    for _ in 0..(1 + rng.below(2)).min(count) {
        let place = rng.below(count);
        if place > 0 && rng.once_in(2) {
            let earlier = rng.below(place);
            names.copy_within(earlier * NAME..(earlier + 1) * NAME, place * NAME);
        } else {
            bad_name(rng, &mut names[place * NAME..(place + 1) * NAME]);
        }
    }
}

fn bad_names(rng: &mut Rng, call: &mut Call) {
    damage_names(rng, &mut call.names);
}

/// A first boundary that is not 0, ones that fall or jump, a last one that is not the letter count.
fn bad_bounds(rng: &mut Rng, call: &mut Call) {
    let most = MOST_LETTERS as u32;
    for _ in 0..1 + rng.below(2) {
        let place = rng.below(call.bounds.len());
        let before = call.bounds[place.saturating_sub(1)];
        call.bounds[place] = match rng.below(6) {
            0 => rng.word(),
            1 => before.wrapping_sub(1),
            2 => before.wrapping_add(most).wrapping_add(1),
            3 => before.wrapping_add(most),
            4 => call.bounds[place].wrapping_add(1),
            _ => call.bounds[place] | 1 << 31,
        };
    }
}

fn bad_letters(rng: &mut Rng, call: &mut Call) {
    scatter(rng, &mut call.letters, &NEAR_LETTERS);
}

/// One field out of range: an empty or reversed range, an end past the protein, a protein that is none, marks.
fn bad_digest(rng: &mut Rng, record: &mut [u8], names: u32) {
    let (start, end) = (word(record, 0), word(record, 4));
    let above = |rng: &mut Rng, most: u8| rng.pick(&[most + 1, most + 2, 128, 255]);
    match rng.below(8) {
        0 => put_word(record, 4, start),
        1 => put_word(record, 0, rng.pick(&[end, end + 1, u32::MAX])),
        2 => put_word(record, 4, rng.pick(&[end + 1, end + 30, end | 1 << 16, end | 1 << 31, u32::MAX])),
        3 => record[8] = above(rng, 16),
        4 => record[9] = above(rng, 1),
        5 => record[10] = above(rng, 3),
        6 => record[11] = above(rng, 1),
        _ => put_word(record, 12, rng.pick(&[names, names + 1, 1 << 16, 1 << 24 | 1, u32::MAX])),
    }
}

fn bad_digests(rng: &mut Rng, call: &mut Call) {
    let (count, names) = (call.digests.len() / DIGEST, call.names.len() / NAME);
    for _ in 0..(1 + rng.below(3)).min(count) {
        let at = rng.below(count) * DIGEST;
        bad_digest(rng, &mut call.digests[at..at + DIGEST], names as u32);
    }
}

/// Digests as a file had them before document 02, [7]: whole records of 16 bytes, and none of 20.
fn former_digests(rng: &mut Rng, digests: &mut Vec<u8>) {
    let count = digests.len() / DIGEST + rng.below(2);
    let count = if count % 5 == 0 { count + 1 } else { count };
    digests.resize(count * FORMER, 0);
}

/// Lists that end within a record, and boundaries that are not one more than names.
fn no_length(rng: &mut Rng, call: &mut Call) {
    match rng.below(4) {
        0 => call.names.extend(vec![b'A'; 1 + rng.below(NAME - 1)]),
        1 => cut_within(rng, &mut call.digests, DIGEST),
        2 => former_digests(rng, &mut call.digests),
        _ => {
            let count = call.bounds.len();
            call.bounds.resize(rng.pick(&[0, count - 1, count + 1, count + 2, 2 * count]), 0);
        }
    }
}

/// Lists are cut within a record last, so that there are records to damage.
const SPOILS: [Spoil<Call>; 6] = [short_work, bad_names, bad_bounds, bad_letters, bad_digests, no_length];

fn hold_spoiled(tally: &mut Tally, rng: &mut Rng, good: Call, reasons: &[Spoil<Call>], short: bool) {
    let mut call = good;
    let lists = model::lists(&call);
    spoil(rng, &mut call, reasons);
    let (groups, proteins) = rooms(rng, lists.groups.len(), lists.proteins.len(), short);
    hold(tally, &call, &groups, &proteins, &model::group_digests(&call, &groups, &proteins));
}

fn hold_any(tally: &mut Tally, rng: &mut Rng, reasons: &[Spoil<Call>], short: bool) {
    let call = cases::random(rng, 5, 8);
    hold_spoiled(tally, rng, call, reasons, short);
}

/// Every choice of reasons but sizes.
pub fn any_call(context: &Context) -> Tally {
    let turns = Turns::new(context, "digest groups: any call", "calls of group_digests", 192_000);
    turns.every_choice(&SPOILS, hold_any)
}

pub fn any_small_letters(context: &Context) -> Tally {
    let stream = "calls of group_digests, small letters";
    let turns = Turns::new(context, "digest groups: small letters, any call", stream, 96_000);
    turns.every_choice_small(&SPOILS, hold_any)
}

pub fn single_reasons(context: &Context) -> Tally {
    let stream = "single reasons of group_digests";
    let turns = Turns::new(context, "digest groups: single reasons", stream, 140_000);
    turns.single_reasons(&SPOILS, |tally, rng, reasons, short| {
        let call = cases::random(rng, 6, 12);
        hold_spoiled(tally, rng, call, reasons, short);
    })
}

/// Sizes one above their limits, and at them, where another reason then comes to light.
fn large_calls(rng: &mut Rng) -> Vec<Call> {
    let mut calls = Vec::new();
    for more in [0, 1, 2] {
        for part in [0, 1] {
            let mut call = cases::random(rng, 4, 6);
            call.names.resize((MOST_NAMES + more) * NAME + part, b'A');
            calls.push(call);
            let mut call = cases::random(rng, 4, 6);
            call.digests.resize((MOST_DIGESTS + more) * DIGEST + part, 0);
            calls.push(call);
        }
    }
    for more in [0, 1] {
        let mut call = cases::random(rng, 4, 6);
        call.letters.resize(MOST_BOOK + more, b'A');
        calls.push(call);
    }
    calls
}

/// Each size, alone and with other reasons, also where there is work memory for it.
pub fn large(context: &Context) -> Tally {
    let mut tally = Tally::new("digest groups: large calls", Against::Model);
    let rng = &mut context.rng("large calls of group_digests");
    for mut call in large_calls(rng) {
        for step in 0..4 {
            match step {
                0 => {}
                1 => call.work = work(rng, call.names.len() / NAME, call.digests.len() / DIGEST),
                2 => call.bounds.resize(call.names.len() / NAME + 1, 0),
                _ => no_length(rng, &mut call),
            }
            let (groups, proteins) = (rng.bytes(50), vec![9; 5]);
            hold(&mut tally, &call, &groups, &proteins, &model::group_digests(&call, &groups, &proteins));
        }
    }
    tally
}
