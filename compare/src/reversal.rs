//! Reversal: of letters and of digest records against the original, any call against the model.
pub mod cases;
pub mod model;

use crate::answer::*;
use crate::calls;
use crate::digest::cases::{all_proteins, FEW_LETTERS};
use crate::entry::{Against, Context, Tally};
use crate::fields::capitals_field;
use crate::oracle::Oracle;
use crate::rng::Rng;
use crate::small_letters::{all_with_small, with_small};
use cases::*;

/// The letters and the decoy flag of a digest, and what the original makes of it: these, or that it panics.
fn ask(oracle: &Oracle, digests: &[(Vec<u8>, u8)]) -> Vec<Option<(Vec<u8>, u8)>> {
    let line = |(letters, decoy): &(Vec<u8>, u8)| format!("REVD\t{}\t{decoy}", capitals_field(letters));
    let read = |answer: &String| {
        let (letters, decoy) = answer.rsplit_once(' ').expect("letters and a flag");
        let letters = if letters == "-" { "" } else { letters };
        (!answer.starts_with("PANIC")).then(|| (letters.into(), decoy.parse().expect("a flag")))
    };
    let lines: Vec<String> = digests.iter().map(line).collect();
    oracle.ask(&lines).iter().map(read).collect()
}

fn targets(context: &Context) -> Vec<Vec<u8>> {
    let rng = &mut context.rng("letters to reverse");
    let mut targets = all_proteins(FEW_LETTERS, 8);
    targets.remove(0);
    targets.extend((0..50_000).map(|_| letters(rng, 60)).filter(|letters| !letters.is_empty()));
    targets.extend([255, 256, 257, 65_535, 65_536].map(|len| exactly(rng, len)));
    targets
}

/// All short ones of letters that stand both as capitals and small, and the others with letters made small.
fn small_targets(context: &Context) -> Vec<Vec<u8>> {
    let mut targets = all_proteins(b"AaKk", 5);
    targets.remove(0);
    targets.extend(all_with_small(context.rng("letters to reverse, made small"), self::targets(context)));
    targets
}

/// Holds what reverses letters against the original's targets.
fn compare_letters(
    mut tally: Tally,
    context: &Context,
    targets: Vec<Vec<u8>>,
    ours: impl Fn(&[u8]) -> Checked<Filled<()>>,
) -> Tally {
    let digests: Vec<(Vec<u8>, u8)> = targets.into_iter().map(|letters| (letters, 0)).collect();
    for (digest, said) in digests.iter().zip(ask(&context.oracle, &digests)) {
        let (buffer, _) = said.expect("the original reverses what is not empty");
        tally.case(&Shown(&digest.0), &ours(&digest.0), &Filled { answer: Ok(()), buffer });
    }
    tally
}

pub fn of_letters(context: &Context) -> Tally {
    let tally = Tally::new("reversal: letters", Against::Rust);
    compare_letters(tally, context, targets(context), calls::letters_reverse)
}

pub fn of_small_letters(context: &Context) -> Tally {
    let tally = Tally::new("reversal: small letters", Against::Rust);
    compare_letters(tally, context, small_targets(context), calls::letters_reverse)
}

pub fn model_letters(context: &Context) -> Tally {
    let tally = Tally::new("model: reversal, letters", Against::Rust);
    let targets = [targets(context), small_targets(context)].concat();
    compare_letters(tally, context, targets, |letters| Ok(model::letters_reverse(letters)))
}

/// The letters of a record of ours, by a call with room to spare, and its flag.
fn shown(letters: &[u8], record: &[u8]) -> Checked<Answer<(Vec<u8>, u8)>> {
    let Filled { answer, buffer } = calls::digest_letters(letters, record, &vec![0xee; letters.len() + 1])?;
    Ok(answer.map(|count| (buffer[..count as usize].to_vec(), record[11])))
}

/// A record as the digest that it is, reversed by the original, and reversed as a record: a target becomes a decoy with
/// these letters, and a decoy stays what it is.
fn compare_records(mut tally: Tally, context: &Context, pairs: &[(Vec<u8>, Vec<u8>)]) -> Tally {
    let mut asked = Vec::new();
    for (letters, record) in pairs {
        match shown(letters, record) {
            Ok(Ok(digest)) => asked.push((letters, record, digest)),
            other => tally.fail(&(Shown(letters), record), &format!("ours {other:x?}, wanted its letters")),
        }
    }
    let digests: Vec<_> = asked.iter().map(|(_, _, digest)| digest.clone()).collect();
    for ((letters, record, _), said) in asked.iter().zip(ask(&context.oracle, &digests)) {
        let ours = calls::digest_reverse(record).and_then(|filled| match filled.answer {
            Ok(()) => shown(letters, &filled.buffer),
            Err(refusal) => Ok(Err(refusal)),
        });
        let wanted = said.expect("the original reverses what is not empty");
        tally.case(&(Shown(letters), record), &ours, &Ok(wanted));
    }
    tally
}

pub fn of_records(context: &Context) -> Tally {
    let rng = &mut context.rng("records to reverse");
    let pairs: Vec<(Vec<u8>, Vec<u8>)> = (0..60_000).map(|_| with_record(rng)).collect();
    compare_records(Tally::new("reversal: records", Against::Rust), context, &pairs)
}

pub fn of_small_records(context: &Context) -> Tally {
    let rng = &mut context.rng("records of small letters to reverse");
    let pairs: Vec<(Vec<u8>, Vec<u8>)> = (0..30_000).map(|_| with_small(rng, with_record)).collect();
    compare_records(Tally::new("reversal: small letters, records", Against::Rust), context, &pairs)
}

/// What document 01 refuses and the original does not, or with a panic.
pub fn beyond_the_rust(context: &Context) -> Tally {
    let mut tally = Tally::new("reversal: beyond the Rust", Against::Model);
    let rng = &mut context.rng("reversal beyond the Rust");
    let mut digests = vec![(vec![], 0), (vec![], 1), (exactly(rng, 65_537), 0)];
    digests.extend((0..5_000).map(|_| (with_other_byte(rng), 0)));
    for ((letters, decoy), said) in digests.iter().zip(ask(&context.oracle, &digests)) {
        match (letters.is_empty(), decoy) {
            (true, 1) => {
                let record = record_of(rng, 0..0, 1);
                tally.case(&record, &calls::digest_reverse(&record), &model::digest_reverse(&record));
            }
            _ => {
                let wanted = model::letters_reverse(letters);
                tally.case(&Shown(letters), &calls::letters_reverse(letters), &wanted);
            }
        }
        tally.intended(match (letters.len(), said) {
            (0, None) => "empty (1, as a record 9, the Rust panics on a target)",
            (0, Some(_)) => "empty (1, as a record 9, the Rust leaves a decoy)",
            (65_537.., _) => "above the letters of a protein (1, the Rust has no such limit)",
            _ => "with a byte that is no letter (2 at its index, the Rust reverses it)",
        });
    }
    tally
}

pub fn any_letters(context: &Context) -> Tally {
    let mut tally = Tally::new("reversal: letters, any call", Against::Model);
    let rng = &mut context.rng("calls of letter reversal");
    for _ in 0..60_000 {
        let letters = any_bytes(rng);
        tally.case(&Shown(&letters), &calls::letters_reverse(&letters), &model::letters_reverse(&letters));
    }
    tally
}

/// Every call of both functions that take letters.
pub fn any_small_letters(context: &Context) -> Tally {
    let mut tally = Tally::new("reversal: small letters, any call", Against::Model);
    let rng = &mut context.rng("calls of reversal, small letters");
    for _ in 0..40_000 {
        let letters = with_small(rng, any_bytes);
        tally.case(&Shown(&letters), &calls::letters_reverse(&letters), &model::letters_reverse(&letters));
    }
    for _ in 0..60_000 {
        let pair = if rng.once_in(2) { with_record } else { damaged };
        let (letters, record) = with_small(rng, pair);
        hold_letters(&mut tally, rng, &letters, &record);
    }
    tally
}

pub fn any_record(context: &Context) -> Tally {
    let mut tally = Tally::new("reversal: records, any call", Against::Model);
    let rng = &mut context.rng("calls of record reversal");
    for record in single_fields(rng).into_iter().chain((0..60_000).map(|_| damaged(rng).1)) {
        tally.case(&record, &calls::digest_reverse(&record), &model::digest_reverse(&record));
    }
    tally
}

fn hold_letters(tally: &mut Tally, rng: &mut Rng, letters: &[u8], record: &[u8]) {
    let len = room(rng, record);
    let out = rng.bytes(len);
    let ours = calls::digest_letters(letters, record, &out);
    tally.case(&(Shown(letters), record, len), &ours, &model::digest_letters(letters, record, &out));
}

pub fn any_digest_letters(context: &Context) -> Tally {
    let mut tally = Tally::new("reversal: letters of a digest", Against::Model);
    let rng = &mut context.rng("calls of digest letters");
    for _ in 0..100_000 {
        let (letters, record) = if rng.once_in(2) { with_record(rng) } else { damaged(rng) };
        hold_letters(&mut tally, rng, &letters, &record);
    }
    for len in [65_535, 65_536, 65_537] {
        for decoy in [0, 1] {
            let letters = exactly(rng, len);
            let record = record_of(rng, 0..len, decoy);
            hold_letters(&mut tally, rng, &letters, &record);
        }
    }
    tally
}
