//! Every refusal of digest, alone and with others: which one is given, and what it leaves of the memory.
use super::cases::{call, enzyme, protein, ALL_LETTERS};
use super::model::{self, Call, DIGEST, MOST_LETTERS, SET};
use crate::calls;
use crate::entry::{Context, Tally};
use crate::letters::NEAR_LETTERS;
use crate::refusals::{spoil, Spoil, Turns};
use crate::rng::Rng;
use crate::room;

/// Numbers above a limit, and ones that are below it when bits are cut off.
fn above(rng: &mut Rng, limit: u32) -> u32 {
    rng.pick(&[limit + 1, limit + 2, limit | 1 << 8 | 1, 1 << 16 | 1, 1 << 31, u32::MAX])
}

fn too_large(rng: &mut Rng, call: &mut Call) {
    let longest = MOST_LETTERS as u32;
    match rng.below(16) {
        0 => call.letters.resize(MOST_LETTERS + 1 + rng.below(3), b'K'),
        1..=5 => call.enzyme.missed = above(rng, 16),
        6..=10 => call.enzyme.minimum = above(rng, longest),
        _ => call.enzyme.maximum = above(rng, longest),
    }
}

/// A member of a set that the alphabet lacks, also one that no alphabet has, or an alphabet with more than letters.
fn outside(rng: &mut Rng, call: &mut Call) {
    let bit = 1 << rng.below(32);
    match rng.below(3) {
        0 => call.alphabet |= 1 << (26 + rng.below(6)),
        1 => {
            call.enzyme.skip |= bit;
            call.alphabet &= !bit;
        }
        _ => {
            call.enzyme.kind = SET;
            call.enzyme.cleave |= bit;
            call.alphabet &= !bit;
        }
    }
}

/// Bytes that are no letters: the place is the first one's.
fn bad_letters(rng: &mut Rng, call: &mut Call) {
    if call.letters.is_empty() {
        call.letters.push(b'A');
    }
    for _ in 0..1 + rng.below(3) {
        let place = rng.below(call.letters.len());
        call.letters[place] = rng.pick(&NEAR_LETTERS);
    }
}

fn no_field(rng: &mut Rng, call: &mut Call) {
    match rng.below(3) {
        0 => call.enzyme.kind = rng.pick(&[3, 4, 255, 256, 258, 1 << 31 | 2, u32::MAX]),
        1 => call.enzyme.side = rng.pick(&[2, 3, 255, 256, 257, 1 << 31, u32::MAX]),
        _ => call.enzyme.semi = rng.pick(&[2, 3, 255, 256, 257, 1 << 31, u32::MAX]),
    }
}

const SPOILS: [Spoil<Call>; 4] = [too_large, outside, bad_letters, no_field];

/// A call, and how many digests it has.
fn good(rng: &mut Rng) -> (Call, usize) {
    let enzyme = enzyme(rng);
    let len = rng.below(16);
    let letters = protein(rng, &enzyme, len);
    let mut call = call(rng, letters, enzyme);
    if rng.once_in(2) {
        call.alphabet = ALL_LETTERS;
    }
    let count = model::kept(&call.letters, &call.enzyme).len();
    (call, count)
}

fn hold_spoiled(tally: &mut Tally, rng: &mut Rng, reasons: &[Spoil<Call>], short: bool) {
    let (mut call, count) = good(rng);
    spoil(rng, &mut call, reasons);
    let len = room::len(rng, count, DIGEST, short && count > 0);
    let out = rng.bytes(len);
    tally.case(&(&call, len), &calls::digest(&call, &out), &model::digest(&call, &out));
}

pub fn any_call(context: &Context) -> Tally {
    Turns::new(context, "digest: any call", "calls of digest", 160_000).every_choice(&SPOILS, hold_spoiled)
}

pub fn any_small_letters(context: &Context) -> Tally {
    let stream = "calls of digest, small letters";
    let turns = Turns::new(context, "digest: small letters, any call", stream, 80_000);
    turns.every_choice_small(&SPOILS, hold_spoiled)
}
