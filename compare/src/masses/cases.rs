//! The tables of masses and the letters that are weighed.
use super::model::MASSES;
use crate::peptide_letters::{len, of_len};
use crate::rng::Rng;
use crate::table::cases::SPECIAL_MASSES;

/// The original's masses of A to Z, and its water.
#[rustfmt::skip]
const RUST_MASSES: [f32; MASSES] = [
    71.03711, 0.0, 103.00919, 115.02694, 129.04259, 147.0684, 57.02146, 137.05891, 113.08406, 0.0, 128.09496, 113.08406,
    131.0405, 114.04293, 237.14774, 97.05276, 128.05858, 156.1011, 87.03203, 101.04768, 150.95363, 99.06841, 186.07932,
    0.0, 163.06332, 0.0,
];
const RUST_WATER: f32 = 18.010565;

pub fn rust_masses() -> Vec<u32> {
    RUST_MASSES.map(f32::to_bits).to_vec()
}

pub fn rust_water() -> u32 {
    RUST_WATER.to_bits()
}

/// The letters to which the original gives a mass.
pub fn rust_letters() -> Vec<u8> {
    (b'A'..=b'Z').filter(|letter| RUST_MASSES[usize::from(letter - b'A')] != 0.0).collect()
}

/// A mass that is in use, or one next to it.
fn usual(rng: &mut Rng, letter: usize) -> u32 {
    let mass = RUST_MASSES[letter].to_bits().max(1.0_f32.to_bits());
    mass + rng.below(3) as u32 - 1
}

/// All masses of a table are of one sort.
fn mass(rng: &mut Rng, sort: usize, letter: usize) -> u32 {
    let sign = (rng.below(2) as u32) << 31;
    match sort {
        0 => usual(rng, letter),
        1 => rng.pick(&SPECIAL_MASSES),
        2 => rng.word(),
        // Large enough to overflow, or to swallow what is added to them.
        3 => sign | 0x7f00_0000 | rng.word() & 0x007f_ffff,
        4 => sign | rng.word() & 0x007f_ffff,
        5 if rng.once_in(10) => rng.pick(&SPECIAL_MASSES),
        5 => usual(rng, letter),
        6 => sign | usual(rng, letter),
        // Exponents so close to each other that every addition rounds.
        _ => sign | (0x3f80_0000 + ((rng.below(24) as u32) << 23)) | rng.word() & 0x007f_ffff,
    }
}

pub fn table(rng: &mut Rng) -> Vec<u32> {
    let sort = rng.below(8);
    (0..MASSES).map(|letter| mass(rng, sort, letter)).collect()
}

pub fn water(rng: &mut Rng) -> u32 {
    match rng.below(4) {
        0 => rust_water(),
        1 => rng.pick(&SPECIAL_MASSES),
        2 => rng.word() & 0x807f_ffff,
        _ => rng.word(),
    }
}

/// All texts of one and two letters, then random ones, in some of which a byte has no mass.
pub fn weighed_by_rust(rng: &mut Rng) -> Vec<Vec<u8>> {
    let all = b'A'..=b'Z';
    let mut texts: Vec<Vec<u8>> = all.clone().map(|letter| vec![letter]).collect();
    texts.extend(all.clone().flat_map(|first| all.clone().map(move |second| vec![first, second])));
    let pool = rust_letters();
    for _ in 0..60_000 {
        let len = len(rng);
        let mut text = of_len(rng, len, &pool);
        if rng.once_in(8) {
            let place = rng.below(len);
            text[place] = rng.pick(b"BJXZ@[`:}{ ~0!\0");
        }
        texts.push(text);
    }
    texts
}

/// A table that may be none.
pub fn any_table(rng: &mut Rng) -> Vec<u32> {
    let mut table = table(rng);
    if rng.once_in(6) {
        let len = rng.pick(&[0, 1, MASSES - 1, MASSES + 1, 2 * MASSES]);
        table.resize_with(len, || rng.word());
    }
    table
}
