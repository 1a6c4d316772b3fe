//! Catalogues of names, tested alone.
use crate::answer::{refuse, Answer, LENGTH, SIZE};
use crate::calls;
use crate::digest_groups::cases;
use crate::digest_groups::model::{names_test, shown_names, MOST_NAMES, NAME};
use crate::digest_groups::refusals::damage_names;
use crate::entry::{Against, Context, Tally};
use crate::rng::Rng;
use std::fmt;

struct Catalogue(Vec<u8>);

impl fmt::Debug for Catalogue {
    fn fmt(&self, f: &mut fmt::Formatter<'_>) -> fmt::Result {
        f.write_str(&shown_names(&self.0))
    }
}

/// 1, 8, then 12 and 13 at the lowest place.
fn wanted(names: &[u8]) -> Answer<()> {
    if names.len() / NAME > MOST_NAMES {
        return refuse(SIZE, 0);
    }
    if names.len() % NAME != 0 {
        return refuse(LENGTH, 0);
    }
    names_test(names)
}

fn hold(tally: &mut Tally, names: Vec<u8>) {
    let (ours, wanted) = (calls::names_test(&names), wanted(&names));
    tally.case(&Catalogue(names), &ours, &wanted);
}

/// A part of a name behind the last one.
fn with_part(rng: &mut Rng, names: &[u8]) -> Vec<u8> {
    let part = 1 + rng.below(NAME - 1);
    [names, &vec![b'A'; part]].concat()
}

/// The first name once more, in the place of the last.
fn first_again(names: &[u8]) -> Vec<u8> {
    match names.len() {
        0 => vec![],
        len => [&names[..len - NAME], &names[..NAME]].concat(),
    }
}

/// One good catalogue, and with each thing that can be wrong.
fn with_faults(rng: &mut Rng, names: Vec<u8>) -> [Vec<u8>; 5] {
    let mut damaged = names.clone();
    damage_names(rng, &mut damaged);
    let cut = with_part(rng, &damaged);
    [first_again(&names), with_part(rng, &names), cut, damaged, names]
}

/// One name: every byte at the front, inside, at its end and behind it, after a length.
fn single_names() -> Vec<Vec<u8>> {
    let mut names = Vec::new();
    for len in [0, 1, 2, 62, 63, NAME] {
        for place in [0, 1, 30, 62, 63] {
            for byte in 0..=255 {
                let mut name = cases::padded(&vec![b'x'; len]);
                name[place] = byte;
                names.push(name.to_vec());
            }
        }
    }
    names
}

/// Few names, and as many as there are places in each table that is on the stack, with one less and one more.
pub fn catalogues(context: &Context) -> Tally {
    let mut tally = Tally::new("names: catalogues", Against::Model);
    let rng = &mut context.rng("catalogues of names");
    for name in single_names() {
        hold(&mut tally, name);
    }
    let sizes = (0..8_000).map(|number| number % 16).chain([255, 256, 257, 4_095, 4_096, 4_097]);
    for size in sizes {
        let names = cases::names(rng, size);
        for names in with_faults(rng, names) {
            hold(&mut tally, names);
        }
    }
    tally
}

/// As many as there may be, one less, one more, and two.
pub fn large_catalogues(context: &Context) -> Tally {
    let mut tally = Tally::new("names: large catalogues", Against::Model);
    let rng = &mut context.rng("large catalogues of names");
    for size in MOST_NAMES - 1..=MOST_NAMES + 2 {
        let names = cases::names(rng, size);
        for names in with_faults(rng, names) {
            hold(&mut tally, names);
        }
    }
    tally
}
