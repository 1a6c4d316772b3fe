//! Peptides by themselves: their test against the model, their reversal against the original.
pub mod cases;
pub mod model;

use crate::answer::*;
use crate::calls::peptides as calls;
use crate::entry::{Against, Context, Tally};
use crate::fields::capitals_field;
use crate::masses;
use crate::oracle::{hex, unhex, Oracle};
use crate::peptide_letters::{any_letters, size_reason};
use crate::refusals::{spoil, Spoil, Turns};
use crate::rng::Rng;
use crate::small_letters::{all_with_small, with_small};
use cases::{any_good, good, wrong_sizes, SPOILS};
use model::Peptide;

fn hold_test(tally: &mut Tally, rng: &mut Rng, letters: Vec<u8>) {
    let masses = masses::cases::any_table(rng);
    let position = if rng.once_in(2) { rng.byte() } else { rng.below(6) as u8 };
    let ours = calls::peptide_test(&letters, &masses, position);
    let wanted = masses::model::peptide_test(&letters, &masses, position);
    tally.case(&(&letters, &masses, position), &ours, &wanted);
}

pub fn any_test(context: &Context) -> Tally {
    let mut tally = Tally::new("peptides: test", Against::Model);
    let rng = &mut context.rng("tests of peptides");
    for _ in 0..150_000 {
        let letters = any_letters(rng);
        hold_test(&mut tally, rng, letters);
    }
    tally
}

pub fn small_test(context: &Context) -> Tally {
    let mut tally = Tally::new("peptides: small letters, test", Against::Model);
    let rng = &mut context.rng("tests of peptides, small letters");
    for _ in 0..60_000 {
        let letters = with_small(rng, any_letters);
        hold_test(&mut tally, rng, letters);
    }
    tally
}

/// The ids of the ends of every peptide that the original is sent: a reversal keeps them.
const ENDS: [u8; 2] = [7, 200];

/// What the original makes of each peptide.
fn ask(oracle: &Oracle, peptides: &[Peptide]) -> Vec<Peptide> {
    let line = |peptide: &Peptide| {
        let letters = capitals_field(&peptide.letters);
        let [nterm, cterm] = ENDS;
        format!("REVP\t{letters}\t{}\t{nterm}\t{cterm}\t{}", peptide.decoy, hex(&peptide.ids))
    };
    let lines: Vec<String> = peptides.iter().map(line).collect();
    oracle.ask(&lines).iter().map(|answer| read(answer)).collect()
}

fn read(answer: &str) -> Peptide {
    let fields: Vec<&str> = answer.split(' ').collect();
    let [letters, decoy, form] = fields[..] else { panic!("the oracle said {answer}") };
    let form = unhex(form);
    assert_eq!(form[..2], ENDS, "the original keeps the ends");
    let letters = if letters == "-" { "" } else { letters };
    Peptide { letters: letters.into(), ids: form[2..].to_vec(), decoy: decoy.parse().expect("a flag") }
}

type Reversed = Checked<(Answer<()>, Peptide)>;

/// Holds what reverses peptides against the original.
fn compare_reversal(
    mut tally: Tally,
    context: &Context,
    peptides: &[Peptide],
    ours: fn(&Peptide) -> Reversed,
) -> Tally {
    for (peptide, said) in peptides.iter().zip(ask(&context.oracle, peptides)) {
        tally.case(peptide, &ours(peptide), &(Ok(()), said));
    }
    tally
}

fn peptides(context: &Context) -> Vec<Peptide> {
    good(&mut context.rng("peptides to reverse"))
}

fn small_peptides(context: &Context) -> Vec<Peptide> {
    all_with_small(context.rng("peptides to reverse, made small"), peptides(context)).collect()
}

pub fn reversal(context: &Context) -> Tally {
    let tally = Tally::new("peptides: reversal", Against::Rust);
    compare_reversal(tally, context, &peptides(context), calls::peptide_reverse)
}

pub fn small_letters(context: &Context) -> Tally {
    let tally = Tally::new("peptides: small letters", Against::Rust);
    compare_reversal(tally, context, &small_peptides(context), calls::peptide_reverse)
}

pub fn model_reversal(context: &Context) -> Tally {
    let tally = Tally::new("model: peptides, reversal", Against::Rust);
    let peptides = [peptides(context), small_peptides(context)].concat();
    compare_reversal(tally, context, &peptides, |peptide| Ok(model::reverse(peptide)))
}

/// The sizes that only the original takes.
pub fn beyond_the_rust(context: &Context) -> Tally {
    let mut tally = Tally::new("peptides: reversal, wrong sizes", Against::Rust);
    let peptides = wrong_sizes(&mut context.rng("peptides of wrong sizes"));
    for (peptide, said) in peptides.iter().zip(ask(&context.oracle, &peptides)) {
        assert_eq!(said.letters.len(), peptide.letters.len(), "the original reverses every size");
        tally.case(peptide, &calls::peptide_reverse(peptide), &(refuse(SIZE, 0), peptide.clone()));
        tally.intended(size_reason(&peptide.letters));
    }
    tally
}

fn hold_spoiled(tally: &mut Tally, rng: &mut Rng, reasons: &[Spoil<Peptide>], _: bool) {
    let mut peptide = any_good(rng);
    spoil(rng, &mut peptide, reasons);
    tally.case(&peptide, &calls::peptide_reverse(&peptide), &model::reverse(&peptide));
}

pub fn any_reversal(context: &Context) -> Tally {
    let turns = Turns::new(context, "peptides: reversal, any call", "calls of reversal", 80_000);
    turns.every_choice(&SPOILS, hold_spoiled)
}

pub fn any_small_letters(context: &Context) -> Tally {
    let stream = "calls of reversal of peptides, small letters";
    let turns = Turns::new(context, "peptides: small letters, any call", stream, 40_000);
    turns.every_choice_small(&SPOILS, hold_spoiled)
}
