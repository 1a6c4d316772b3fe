//! A sample of the original's base masses.
use super::cases::rust_letters;
use crate::entry::Context;
use crate::fields::letters_field;
use crate::peptide_letters::{len, of_len};

const LINES: usize = 300;

/// Each letter alone, 64 of them, and random ones.
fn texts(context: &Context) -> Vec<Vec<u8>> {
    let rng = &mut context.rng("vectors: masses");
    let pool = rust_letters();
    let mut texts: Vec<Vec<u8>> = pool.iter().map(|letter| vec![*letter]).collect();
    texts.push(of_len(rng, 64, &pool));
    while texts.len() < LINES {
        let len = len(rng);
        texts.push(of_len(rng, len, &pool));
    }
    texts
}

pub fn lines(context: &Context) -> String {
    let texts = texts(context);
    let line = |(letters, mass): (&Vec<u8>, Option<u32>)| {
        format!("{} {:08x}\n", letters_field(letters), mass.expect("letters that have masses"))
    };
    texts.iter().zip(super::ask(&context.oracle, &texts)).map(line).collect()
}
