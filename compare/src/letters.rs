//! Letter sets, and the first byte of a stretch that is not a letter.
use crate::calls;
use crate::entry::{Against, Context, Tally};
use crate::model;
use crate::rng::Rng;
use crate::small_letters::make_small;

/// Empty, full, each single letter, bits above 25, and random ones.
pub fn sets(rng: &mut Rng, random: usize) -> Vec<u32> {
    let mut sets = vec![0, 0x03ff_ffff, 0xfc00_0000, u32::MAX];
    sets.extend((0..32).map(|bit| 1 << bit));
    sets.extend((0..32).map(|bit| !(1 << bit)));
    sets.extend((0..random).map(|_| rng.word()));
    sets
}

pub fn set_operations(context: &Context) -> Tally {
    let mut tally = Tally::new("letters: insert, contains", Against::Model);
    for set in sets(&mut context.rng("letter sets"), 400) {
        for letter in 0..=255 {
            let ours = (calls::set_insert(set, letter), calls::set_contains(set, letter));
            let wanted = (model::insert(set, letter), model::contains(set, letter).into());
            tally.case(&(set, letter), &Ok(ours), &wanted);
        }
    }
    tally
}

fn random_letters(rng: &mut Rng, count: usize) -> Vec<u8> {
    let mut letters: Vec<u8> = (0..count).map(|_| b'A' + rng.below(26) as u8).collect();
    if rng.once_in(2) {
        make_small(rng, &mut letters);
    }
    letters
}

/// Bytes that are no letters: the ends of the range, those as far below A and Z as these are below a and z, those next to the
/// letters, and those that a signed or a 7-bit comparison gets wrong.
pub const NEAR_LETTERS: [u8; 16] = *b"\0\x01!:@[`{\x7f\x80\xc1\xda\xe1\xfa\xfe\xff";

/// Good stretches, and ones with a bad byte at one place and bytes of all kinds behind it.
fn stretches(rng: &mut Rng) -> Vec<Vec<u8>> {
    let mut stretches = vec![random_letters(rng, 65_536), random_letters(rng, 70_001)];
    for len in 0..400 {
        stretches.push(random_letters(rng, len));
        for place in 0..len.min(70) {
            let place = if len <= 70 { place } else { rng.below(len) };
            let mut stretch = random_letters(rng, len);
            stretch[place] = rng.pick(&NEAR_LETTERS);
            if rng.once_in(2) {
                stretch.truncate(place + 1);
                stretch.extend(rng.bytes(len - place - 1));
            }
            stretches.push(stretch);
        }
    }
    stretches
}

pub fn first_bad_byte(context: &Context) -> Tally {
    let mut tally = Tally::new("letters: first bad byte", Against::Model);
    let pairs = (0..=u16::MAX).map(|pair| pair.to_be_bytes().to_vec());
    let single = (0..=255).map(|byte| vec![byte]);
    for letters in single.chain(pairs).chain(stretches(&mut context.rng("stretches of letters"))) {
        tally.case(&letters, &calls::letters_test(&letters), &model::letters_alone(&letters));
    }
    tally
}

/// As many letters as a book may have, and one more, each without a bad byte, with one in front and with one at the end; every
/// second letter is small. A case is shown by its length and by where the bad byte stands.
pub fn longest(_: &Context) -> Tally {
    let mut tally = Tally::new("letters: the longest", Against::Model);
    for len in [model::MOST_BOOK, model::MOST_BOOK + 1] {
        for place in [None, Some(0), Some(len - 1)] {
            let mut letters = b"Qq".repeat(len.div_ceil(2));
            letters.truncate(len);
            if let Some(place) = place {
                letters[place] = b'{';
            }
            tally.case(&(len, place), &calls::letters_test(&letters), &model::letters_alone(&letters));
        }
    }
    tally
}
