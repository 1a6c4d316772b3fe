//! The rule texts and rules that are tried.
use crate::entry::Context;
use crate::model::{self, Rule, MARKS};
use crate::rng::Rng;
use crate::small_letters::all_with_small;
use std::collections::HashSet;

/// The letters of the original's `VALID_AA`: the one alphabet that it knows.
const RUST_LETTERS: &[u8; 22] = b"ACDEFGHIKLMNPQRSTVWYUO";

pub fn rust_alphabet() -> u32 {
    RUST_LETTERS.iter().fold(0, |set, letter| model::insert(set, *letter))
}

/// Each text once, where it first stands.
pub fn distinct(mut texts: Vec<Vec<u8>>) -> Vec<Vec<u8>> {
    let mut seen = HashSet::new();
    texts.retain(|text| seen.insert(text.clone()));
    texts
}

/// All texts of 0, 1 and 2 bytes, and all of 3 that start with a mark and have no byte of 128 or more.
fn short_texts() -> Vec<Vec<u8>> {
    let mut texts = vec![vec![]];
    texts.extend((0..=255).map(|byte| vec![byte]));
    texts.extend((0..=u16::MAX).map(|pair| pair.to_be_bytes().to_vec()));
    for mark in MARKS {
        texts.extend((0..128 * 128).map(|pair| vec![mark, (pair >> 7) as u8, (pair & 127) as u8]));
    }
    texts
}

pub fn accepted_texts() -> Vec<Vec<u8>> {
    let mut texts: Vec<Vec<u8>> = RUST_LETTERS.iter().map(|letter| vec![*letter]).collect();
    for mark in MARKS {
        texts.push(vec![mark]);
        texts.extend(RUST_LETTERS.iter().map(|letter| vec![mark, *letter]));
    }
    texts
}

/// The same texts with small letters.
pub fn accepted_small_texts() -> Vec<Vec<u8>> {
    accepted_texts().iter().map(|text| text.to_ascii_lowercase()).collect()
}

fn likely_byte(rng: &mut Rng) -> u8 {
    match rng.below(5) {
        0 => rng.pick(RUST_LETTERS),
        1 => rng.pick(&MARKS),
        2 => rng.pick(b"BJXZ@[`a{mk \n\0"),
        3 => rng.below(128) as u8,
        _ => rng.byte(),
    }
}

/// An accepted text with a byte put in, taken out or changed, up to three times.
pub fn near_miss(rng: &mut Rng, accepted: &[Vec<u8>]) -> Vec<u8> {
    let mut text = accepted[rng.below(accepted.len())].clone();
    for _ in 0..1 + rng.below(3) {
        let place = rng.below(text.len() + 1);
        match rng.below(3) {
            0 => text.insert(place, likely_byte(rng)),
            1 if place < text.len() => drop(text.remove(place)),
            2 if place < text.len() => text[place] = likely_byte(rng),
            _ => {}
        }
    }
    text
}

fn long_text(rng: &mut Rng) -> Vec<u8> {
    let len = rng.below(301);
    match rng.below(3) {
        0 => rng.bytes(len),
        1 => (0..len).map(|_| rng.below(128) as u8).collect(),
        _ => (0..len).map(|_| likely_byte(rng)).collect(),
    }
}

/// UTF-8 with characters of two to four bytes, alone and beside marks and letters: what the original can be asked.
fn wide_text(rng: &mut Rng) -> Vec<u8> {
    let ceiling = rng.pick(&[0x100, 0x800, 0x1_0000, 0x11_0000]);
    let wide =
        std::iter::repeat_with(|| rng.below(ceiling) as u32).find_map(char::from_u32).expect("a character");
    let mut text: Vec<char> = vec![wide];
    for _ in 0..rng.below(3) {
        let place = rng.below(text.len() + 1);
        text.insert(place, (likely_byte(rng) & 127) as char);
    }
    text.into_iter().collect::<String>().into_bytes()
}

/// Bytes of 128 or more at every place of texts of every length to 40, and of one of 300.
fn high_texts(rng: &mut Rng) -> Vec<Vec<u8>> {
    let mut texts = Vec::new();
    for len in (1..=40).chain([300]) {
        for place in 0..len {
            let mut text: Vec<u8> = (0..len).map(|_| likely_byte(rng) & 127).collect();
            text[place] = rng.byte() | 128;
            texts.push(text.clone());
            text[place..].fill_with(|| likely_byte(rng) | 128);
            texts.push(text);
        }
    }
    texts
}

pub fn texts(context: &Context) -> Vec<Vec<u8>> {
    let rng = &mut context.rng("rule texts");
    let accepted = accepted_texts();
    let mut texts = short_texts();
    texts.extend((0..200_000).map(|_| near_miss(rng, &accepted)));
    texts.extend((0..60_000).map(|_| long_text(rng)));
    texts.extend((0..60_000).map(|_| wide_text(rng)));
    texts.extend(high_texts(rng));
    distinct(texts)
}

/// Accepted texts and other ones, with small letters.
pub fn small_texts(context: &Context) -> Vec<Vec<u8>> {
    let rng = &mut context.rng("rule texts, small letters");
    let accepted = accepted_texts();
    let mut texts = accepted_small_texts();
    texts.extend((0..40_000).map(|_| near_miss(rng, &accepted)));
    texts.extend((0..5_000).map(|_| long_text(rng)));
    texts.extend((0..5_000).map(|_| wide_text(rng)));
    distinct(all_with_small(context.rng("rule texts, letters made small"), texts).collect())
}

/// Texts that depend on the alphabet, and some that do not.
pub fn texts_for_alphabets(rng: &mut Rng) -> Vec<Vec<u8>> {
    let mut texts: Vec<Vec<u8>> = vec![vec![]];
    for byte in 0..=255 {
        texts.push(vec![byte]);
        texts.extend(MARKS.map(|mark| vec![mark, byte]));
        texts.push(vec![rng.pick(&MARKS), byte, byte]);
    }
    let accepted = accepted_texts();
    texts.extend((0..300).map(|_| near_miss(rng, &accepted)));
    texts.extend((0..30).map(|_| long_text(rng)));
    distinct(texts)
}

/// Every rule that a text can say, whatever the alphabet.
pub fn rules() -> Vec<Rule> {
    let letters = || [0].into_iter().chain(b'A'.into()..=b'Z'.into());
    let all = (0..=4).flat_map(|kind| letters().map(move |letter| Rule { kind, letter }));
    all.filter(|rule| model::is_rule(*rule)).collect()
}

/// Numbers that are kinds, letters and ids, numbers that become these when bits are cut off, and the rest.
pub fn field_values() -> Vec<u32> {
    let mut values: Vec<u32> = (0..=300).collect();
    for high in [8, 16, 24, 31] {
        values.extend([0, 1, 4, 5, 65, 77, 90, 91].map(|low| 1 << high | low));
    }
    values.extend([u32::MAX, u32::MAX - 1, u32::MAX << 8 | 65]);
    values
}
