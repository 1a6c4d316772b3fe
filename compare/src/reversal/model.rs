//! Document 01's reversal of letters and of digest records as plain Rust. What is written as letters is capitals.
use crate::answer::*;
use crate::digest::model::{DIGEST, MOST_LETTERS, MOST_MISSED};
use crate::model::{self, word};
use std::ops::Range;

/// All but the first and the last reversed.
pub fn reversed(letters: &[u8]) -> Vec<u8> {
    let mut reversed = letters.to_vec();
    if let [_, inner @ .., _] = &mut reversed[..] {
        inner.reverse();
    }
    reversed
}

pub fn letters_reverse(letters: &[u8]) -> Filled<()> {
    let answer = match letters.len() {
        1..=MOST_LETTERS => model::letters_test(letters),
        _ => refuse(SIZE, 0),
    };
    let buffer = if answer.is_ok() { reversed(&model::capitals(letters)) } else { letters.to_vec() };
    Filled { answer, buffer }
}

/// The range of a record whose fields are in order, for a protein of at most so many letters.
fn range(record: &[u8; DIGEST], most: usize) -> Option<Range<usize>> {
    let (start, end) = (word(record, 0) as usize, word(record, 4) as usize);
    let [missed, semi, position, decoy] = std::array::from_fn(|field| u32::from(record[8 + field]));
    let fields = missed <= MOST_MISSED && semi <= 1 && position <= 3 && decoy <= 1;
    (fields && start < end && end <= most).then_some(start..end)
}

fn is_decoy(record: &[u8; DIGEST]) -> bool {
    record[11] == 1
}

/// A record without its protein lies within the longest one.
pub fn digest_reverse(record: &[u8]) -> Filled<()> {
    let mut buffer = record.to_vec();
    let answer = match record.try_into().map(|record| range(record, MOST_LETTERS)) {
        Err(_) => refuse(LENGTH, 0),
        Ok(None) => refuse(FIELD, 0),
        Ok(Some(_)) => {
            buffer[11] = 1;
            Ok(())
        }
    };
    Filled { answer, buffer }
}

pub fn letters_of(letters: &[u8], record: &[u8]) -> Answer<Vec<u8>> {
    if letters.len() > MOST_LETTERS {
        return refuse(SIZE, 0);
    }
    let Ok(record) = record.try_into() else {
        return refuse(LENGTH, 0);
    };
    model::letters_test(letters)?;
    let Some(range) = range(record, letters.len()) else {
        return refuse(FIELD, 0);
    };
    let letters = model::capitals(&letters[range]);
    Ok(if is_decoy(record) { reversed(&letters) } else { letters })
}

/// The answer is the number of letters; a record of theirs is a byte.
pub fn digest_letters(letters: &[u8], record: &[u8], out: &[u8]) -> Filled<u32> {
    let mut buffer = out.to_vec();
    let answer = letters_of(letters, record).and_then(|all| {
        let fitting = all.len().min(out.len());
        buffer[..fitting].copy_from_slice(&all[..fitting]);
        match fitting == all.len() {
            true => Ok(all.len() as u32),
            false => refuse(NO_ROOM, 0),
        }
    });
    Filled { answer, buffer }
}
