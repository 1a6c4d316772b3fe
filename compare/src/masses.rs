//! Base masses, bit for bit: with the original's masses, with any table, and any call.
pub mod cases;
pub mod model;
pub mod vectors;

use crate::answer::*;
use crate::calls::peptides as calls;
use crate::entry::{Against, Context, Tally};
use crate::fields::capitals_field;
use crate::oracle::Oracle;
use crate::peptide_letters::{any_letter, any_letters, len, size_reason};
use crate::rng::Rng;
use crate::small_letters::{all_with_small, make_small, with_small};
use cases::*;
use std::fmt::Debug;

/// What the original says of letters: the bit pattern of a mass, or that one of the letters has none.
pub type Said = Option<u32>;

fn line(letters: &[u8]) -> String {
    format!("MASS\t{}", capitals_field(letters))
}

fn read(answer: &str) -> Said {
    (answer != "E2").then(|| u32::from_str_radix(answer, 16).expect("a bit pattern"))
}

pub fn ask(oracle: &Oracle, texts: &[Vec<u8>]) -> Vec<Said> {
    let lines: Vec<String> = texts.iter().map(|letters| line(letters)).collect();
    oracle.ask(&lines).iter().map(|answer| read(answer)).collect()
}

/// The original refuses letters without saying where: it is the first byte that has no mass.
fn wanted(said: Said, letters: &[u8], masses: &[u32]) -> Answer<u32> {
    match (said, model::first_without_mass(letters, masses)) {
        (Some(mass), _) => Ok(mass),
        (None, place) => refuse(LETTER, place.expect("the original misses a mass")),
    }
}

/// One pattern for all not-a-numbers.
pub fn as_number(mass: u32) -> u32 {
    match f32::from_bits(mass).is_nan() {
        true => f32::NAN.to_bits(),
        false => mass,
    }
}

/// Holds masses together bit for bit, not-a-numbers as such.
fn hold(tally: &mut Tally, input: &dyn Debug, ours: Checked<Answer<u32>>, wanted: Answer<u32>) {
    let same_bits = ours == Ok(wanted);
    let ours = ours.map(|answer| answer.map(as_number));
    let wanted = wanted.map(as_number);
    tally.case(input, &ours, &wanted);
    if ours == Ok(wanted) && !same_bits {
        tally.intended("not-a-numbers of other bits (the Rust keeps payloads)");
    }
}

fn hold_to_rust(tally: &mut Tally, context: &Context, texts: &[Vec<u8>]) {
    let masses = rust_masses();
    for (letters, said) in texts.iter().zip(ask(&context.oracle, texts)) {
        let ours = calls::base_mass(letters, &masses, rust_water());
        hold(tally, letters, ours, wanted(said, letters, &masses));
    }
}

pub fn rust_table(context: &Context) -> Tally {
    let mut tally = Tally::new("masses: the original's", Against::Rust);
    hold_to_rust(&mut tally, context, &weighed_by_rust(&mut context.rng("masses, the original's")));
    tally
}

/// A table, letters to be weighed with it, and what the original says of these.
type Weighed = (Vec<u32>, Vec<(Vec<u8>, Said)>);

fn weighed(context: &Context, tables: usize, make: fn(&mut Rng) -> Vec<Vec<u8>>) -> Vec<Weighed> {
    let rng = &mut context.rng("masses, any table");
    let mut lines = Vec::new();
    let mut asked: Vec<(Vec<u32>, Vec<Vec<u8>>)> = Vec::new();
    for _ in 0..tables {
        let (table, texts) = (table(rng), make(rng));
        let bits: Vec<String> = table.iter().map(|mass| format!("{mass:08x}")).collect();
        lines.push(format!("SETMASS\t{}", bits.join(",")));
        lines.extend(texts.iter().map(|letters| line(letters)));
        asked.push((table, texts));
    }
    let mut answers = context.oracle_alt.ask(&lines).into_iter();
    let mut of = |(table, texts): (Vec<u32>, Vec<Vec<u8>>)| {
        assert_eq!(answers.next().as_deref(), Some("ok"), "the masses are not set");
        let said = texts.into_iter().map(|letters| (letters, read(&answers.next().expect("an answer"))));
        (table, said.collect())
    };
    asked.into_iter().map(&mut of).collect()
}

/// Each letter alone, and random ones.
fn texts_for_table(rng: &mut Rng) -> Vec<Vec<u8>> {
    let mut texts: Vec<Vec<u8>> = (b'A'..=b'Z').map(|letter| vec![letter]).collect();
    for _ in 0..24 {
        let (pool, len) = ([any_letter(rng), any_letter(rng), any_letter(rng)], len(rng));
        let few = rng.once_in(2);
        texts.push((0..len).map(|_| if few { rng.pick(&pool) } else { any_letter(rng) }).collect());
    }
    texts
}

fn small_texts_for_table(rng: &mut Rng) -> Vec<Vec<u8>> {
    let mut texts = texts_for_table(rng);
    texts.iter_mut().for_each(|letters| make_small(rng, letters));
    texts
}

fn hold_weighed(tally: &mut Tally, weighed: Vec<Weighed>) {
    for (masses, texts) in weighed {
        for (letters, said) in texts {
            let ours = calls::base_mass(&letters, &masses, rust_water());
            hold(tally, &(&letters, &masses), ours, wanted(said, &letters, &masses));
        }
    }
}

pub fn any_table(context: &Context) -> Tally {
    let mut tally = Tally::new("masses: any table", Against::Rust);
    hold_weighed(&mut tally, weighed(context, 4000, texts_for_table));
    tally
}

/// With the original's masses and with any.
pub fn small_letters(context: &Context) -> Tally {
    let mut tally = Tally::new("masses: small letters", Against::Rust);
    let texts = weighed_by_rust(&mut context.rng("masses, small letters"));
    let texts: Vec<_> = all_with_small(context.rng("masses, letters made small"), texts).collect();
    hold_to_rust(&mut tally, context, &texts);
    hold_weighed(&mut tally, weighed(context, 1000, small_texts_for_table));
    tally
}

pub fn model_sums(context: &Context) -> Tally {
    let mut tally = Tally::new("model: masses, sums", Against::Rust);
    let small = weighed(context, 300, small_texts_for_table);
    for (masses, texts) in weighed(context, 1000, texts_for_table).into_iter().chain(small) {
        for (letters, said) in texts {
            let ours = model::base_mass(&letters, &masses, rust_water());
            hold(&mut tally, &(&letters, &masses), Ok(ours), wanted(said, &letters, &masses));
        }
    }
    tally
}

/// The sizes that only the original takes.
pub fn beyond_the_rust(context: &Context) -> Tally {
    let mut tally = Tally::new("masses: wrong sizes", Against::Rust);
    let rng = &mut context.rng("masses, wrong sizes");
    let pool = rust_letters();
    let texts: Vec<Vec<u8>> =
        [0].into_iter().chain(65..=400).map(|len| (0..len).map(|_| rng.pick(&pool)).collect()).collect();
    for (letters, said) in texts.iter().zip(ask(&context.oracle, &texts)) {
        tally.case(letters, &calls::base_mass(letters, &rust_masses(), rust_water()), &refuse(SIZE, 0));
        match said {
            Some(_) => tally.intended(size_reason(letters)),
            None => tally.fail(letters, "the Rust refuses it"),
        }
    }
    tally
}

/// Any water, and every refusal.
fn hold_any(tally: &mut Tally, rng: &mut Rng, letters: Vec<u8>) {
    let (masses, water) = (cases::any_table(rng), water(rng));
    let ours = calls::base_mass(&letters, &masses, water);
    let wanted = model::base_mass(&letters, &masses, water);
    hold(tally, &(&letters, &masses, water), ours, wanted);
}

pub fn any_call(context: &Context) -> Tally {
    let mut tally = Tally::new("masses: any call", Against::Model);
    let rng = &mut context.rng("calls of base mass");
    for _ in 0..150_000 {
        let letters = any_letters(rng);
        hold_any(&mut tally, rng, letters);
    }
    tally
}

pub fn any_small_letters(context: &Context) -> Tally {
    let mut tally = Tally::new("masses: small letters, any call", Against::Model);
    let rng = &mut context.rng("calls of base mass, small letters");
    for _ in 0..60_000 {
        let letters = with_small(rng, any_letters);
        hold_any(&mut tally, rng, letters);
    }
    tally
}
