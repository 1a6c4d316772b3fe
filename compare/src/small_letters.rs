//! Cases of which some letters are small. The original is always asked about the letters with capitals.
use crate::rng::Rng;

/// A case that has letters.
pub trait Lettered {
    fn letters(&mut self) -> &mut [u8];
}

impl Lettered for Vec<u8> {
    fn letters(&mut self) -> &mut [u8] {
        self
    }
}

/// Makes each letter small once in two times. Bytes that are no letters stay.
pub fn make_half_small(rng: &mut Rng, letters: &mut [u8]) {
    letters.iter_mut().filter(|_| rng.once_in(2)).for_each(|letter| letter.make_ascii_lowercase());
}

/// Makes half of the letters small, or all of them, or one: the first, the last or any.
pub fn make_small<C: Lettered>(rng: &mut Rng, case: &mut C) {
    let letters = case.letters();
    if letters.is_empty() {
        return;
    }
    let any = rng.below(letters.len());
    match rng.below(4) {
        0 => letters.make_ascii_lowercase(),
        1 => letters[rng.pick(&[0, letters.len() - 1, any])].make_ascii_lowercase(),
        _ => make_half_small(rng, letters),
    }
}

/// A case that is drawn, with small letters.
pub fn with_small<C: Lettered>(rng: &mut Rng, draw: fn(&mut Rng) -> C) -> C {
    let mut case = draw(rng);
    make_small(rng, &mut case);
    case
}

/// With small letters once in two times.
pub fn at_times_small<C: Lettered>(rng: &mut Rng, draw: fn(&mut Rng) -> C) -> C {
    match rng.once_in(2) {
        true => with_small(rng, draw),
        false => draw(rng),
    }
}

/// The same cases with small letters.
pub fn all_with_small<C: Lettered>(
    mut rng: Rng,
    cases: impl IntoIterator<Item = C>,
) -> impl Iterator<Item = C> {
    cases.into_iter().map(move |mut case| {
        make_small(&mut rng, &mut case);
        case
    })
}
