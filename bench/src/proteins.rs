//! Proteins that are generated: the same ones in every run.
use crate::rng::Rng;

/// How many of a thousand letters of Swiss-Prot are which.
const FREQUENCIES: [(u8, usize); 20] = [
    (b'A', 83),
    (b'R', 55),
    (b'N', 41),
    (b'D', 55),
    (b'C', 14),
    (b'Q', 39),
    (b'E', 67),
    (b'G', 71),
    (b'H', 23),
    (b'I', 59),
    (b'L', 97),
    (b'K', 58),
    (b'M', 24),
    (b'F', 39),
    (b'P', 47),
    (b'S', 66),
    (b'T', 54),
    (b'W', 11),
    (b'Y', 29),
    (b'V', 68),
];

fn letter(rng: &mut Rng) -> char {
    let mut left = rng.below(FREQUENCIES.iter().map(|(_, many)| many).sum());
    for (letter, many) in FREQUENCIES {
        if left < many {
            return letter.into();
        }
        left -= many;
    }
    unreachable!("the frequencies have a sum")
}

pub fn letters(rng: &mut Rng, length: usize) -> String {
    (0..length).map(|_| letter(rng)).collect()
}

/// A protein whose length is within a tenth of the given one.
pub fn protein(rng: &mut Rng, about: usize) -> String {
    let length = about - about / 10 + rng.below(about / 5 + 1);
    letters(rng, length)
}

/// A name as Swiss-Prot has them, different for each number.
pub fn name(rng: &mut Rng, number: usize) -> String {
    let entry = letters(rng, 4);
    format!("sp|P{:05}|{entry}{number}_HUMAN", number * 40_503 % 65_536)
}
