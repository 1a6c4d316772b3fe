//! The proteins and enzymes that are tried.
use super::colliding;
use super::model::{Call, Enzyme, C_SIDE, END, MOST_LETTERS, NONE, N_SIDE, SET};
use crate::model;
use crate::rng::Rng;
use crate::rule_texts::cases::rust_alphabet;

pub const ALL_LETTERS: u32 = 0x03ff_ffff;

pub fn set_of(letters: &[u8]) -> u32 {
    letters.iter().fold(0, |set, letter| model::insert(set, *letter))
}

/// All proteins over some letters that are at most so long.
pub fn all_proteins(letters: &[u8], longest: usize) -> Vec<Vec<u8>> {
    let longer = |protein: &Vec<u8>| {
        let protein = protein.clone();
        letters.iter().map(move |letter| [&protein[..], &[*letter]].concat())
    };
    let mut of_length: Vec<Vec<u8>> = vec![vec![]];
    let mut all = of_length.clone();
    for _ in 0..longest {
        of_length = of_length.iter().flat_map(longer).collect();
        all.extend(of_length.iter().cloned());
    }
    all
}

/// The letters of `all_proteins`: one that cuts, one that forbids it, one that does neither, and what else these can be.
pub const FEW_LETTERS: &[u8; 3] = b"AKP";
const SMALL_SETS: [(&[u8], &[u8]); 7] =
    [(b"K", b""), (b"K", b"P"), (b"KP", b""), (b"KP", b"P"), (b"K", b"K"), (b"AKP", b""), (b"K", b"AP")];
const SMALL_MISSED: [u32; 5] = [0, 1, 2, 5, 16];
/// Least and greatest lengths, the least above the greatest too.
const SMALL_BOUNDS: [(u32, u32); 9] =
    [(1, 50), (0, 50), (2, 4), (1, 65_536), (3, 7), (1, 1), (2, 50), (3, 2), (0, 0)];
/// "None" walks every length of its bounds.
const NONE_BOUNDS: [(u32, u32); 9] =
    [(0, 3), (1, 2), (1, 7), (2, 5), (3, 3), (5, 4), (0, 0), (4, 12), (0, 40)];

fn small_sets() -> Vec<Enzyme> {
    let mut enzymes = Vec::new();
    for (cleave, skip) in SMALL_SETS {
        for side in [C_SIDE, N_SIDE] {
            for semi in [0, 1] {
                for missed in SMALL_MISSED {
                    let (minimum, maximum) = SMALL_BOUNDS[enzymes.len() % SMALL_BOUNDS.len()];
                    let (kind, cleave, skip) = (SET, set_of(cleave), set_of(skip));
                    enzymes.push(Enzyme { kind, cleave, skip, side, semi, missed, minimum, maximum });
                }
            }
        }
    }
    enzymes
}

/// "End", "none", and the empty set that means "none", with sides, skip sets and flags that mean nothing there.
fn small_others(rng: &mut Rng) -> Vec<Enzyme> {
    let mut enzymes = Vec::new();
    let ends = SMALL_BOUNDS.map(|bounds| (END, bounds));
    let nones = NONE_BOUNDS.map(|bounds| (NONE, bounds));
    let empty = NONE_BOUNDS.map(|bounds| (SET, bounds));
    for (kind, (minimum, maximum)) in ends.into_iter().chain(nones).chain(empty) {
        let cleave = if kind == SET { 0 } else { rng.word() };
        let skip = if rng.once_in(2) { 0 } else { set_of(b"P") };
        let (side, semi) = (rng.below(2) as u32, rng.below(2) as u32);
        let missed = rng.pick(&SMALL_MISSED);
        enzymes.push(Enzyme { kind, cleave, skip, side, semi, missed, minimum, maximum });
    }
    enzymes
}

pub fn small_enzymes(rng: &mut Rng) -> Vec<Enzyme> {
    [small_sets(), small_others(rng)].concat()
}

/// A few that cut in every way, for all proteins up to a greater length.
pub fn few_enzymes() -> Vec<Enzyme> {
    let (cleave, skip) = (set_of(b"K"), set_of(b"P"));
    let plain = Enzyme { kind: SET, cleave, skip, side: C_SIDE, semi: 0, missed: 0, minimum: 1, maximum: 50 };
    vec![
        Enzyme { missed: 2, ..plain },
        Enzyme { side: N_SIDE, missed: 1, minimum: 2, ..plain },
        Enzyme { semi: 1, missed: 1, minimum: 3, ..plain },
        Enzyme { semi: 1, side: N_SIDE, skip: 0, minimum: 4, maximum: 6, ..plain },
        Enzyme { cleave: cleave | skip, side: N_SIDE, missed: 16, minimum: 0, ..plain },
        Enzyme { kind: END, missed: 1, ..plain },
        Enzyme { kind: NONE, minimum: 2, maximum: 4, ..plain },
    ]
}

/// The alphabet that the original has, all letters, or just those that the enzyme uses: the letters of a protein are not
/// asked to be in it.
fn alphabet(rng: &mut Rng, enzyme: &Enzyme) -> u32 {
    let used = enzyme.used();
    match rng.below(4) {
        0 => rust_alphabet() | used,
        1 => ALL_LETTERS,
        2 => used,
        _ => used | rng.word() & ALL_LETTERS,
    }
}

pub fn call(rng: &mut Rng, letters: Vec<u8>, enzyme: Enzyme) -> Call {
    Call { letters, alphabet: alphabet(rng, &enzyme), enzyme, protein: rng.word() }
}

/// Every protein with every enzyme, enzyme by enzyme.
pub fn crossed<'a>(
    rng: &'a mut Rng,
    enzymes: &'a [Enzyme],
    proteins: &'a [Vec<u8>],
) -> impl Iterator<Item = Call> + 'a {
    let pairs = enzymes.iter().flat_map(move |enzyme| proteins.iter().map(move |letters| (letters, *enzyme)));
    pairs.map(|(letters, enzyme)| call(rng, letters.clone(), enzyme))
}

fn some_of(rng: &mut Rng, letters: &[u8], most: usize) -> u32 {
    (0..rng.below(most + 1)).fold(0, |set, _| model::insert(set, rng.pick(letters)))
}

fn bounds(rng: &mut Rng, greatest: usize) -> (u32, u32) {
    let minimum = rng.below(9) as u32;
    match rng.below(8) {
        0 => (minimum, minimum),
        1 => (minimum, rng.below(9) as u32),
        2 => (0, greatest as u32),
        _ => (minimum, minimum + rng.below(40) as u32),
    }
}

/// Any enzyme that the original takes: it tests the letters of its sets.
pub fn enzyme(rng: &mut Rng) -> Enzyme {
    let letters: Vec<u8> = (b'A'..=b'Z').filter(|letter| model::contains(rust_alphabet(), *letter)).collect();
    let kind = rng.pick(&[NONE, END, SET, SET, SET, SET, SET, SET]);
    let cleave = if kind == SET { some_of(rng, &letters, 6) } else { rng.word() };
    let skip = some_of(rng, &letters, 3);
    let (side, semi) = (rng.below(2) as u32, rng.below(2) as u32);
    let any = rng.below(17) as u32;
    let missed = rng.pick(&[0, 0, 1, 1, 2, 3, any]);
    let enzyme = Enzyme { kind, cleave, skip, side, semi, missed, minimum: 0, maximum: 0 };
    let (minimum, maximum) = bounds(rng, if enzyme.is_none() { 60 } else { MOST_LETTERS });
    Enzyme { minimum, maximum, ..enzyme }
}

/// The letters of an enzyme and a few others: proteins of these are cut often, and repeat.
fn near_letters(rng: &mut Rng, enzyme: &Enzyme) -> Vec<u8> {
    let mut letters: Vec<u8> =
        (b'A'..=b'Z').filter(|letter| model::contains(enzyme.used(), *letter)).collect();
    letters.extend((0..1 + rng.below(3)).map(|_| b'A' + rng.below(26) as u8));
    letters
}

/// One letter only, a stretch again and again, letters near the enzyme's, or any.
pub fn protein(rng: &mut Rng, enzyme: &Enzyme, len: usize) -> Vec<u8> {
    let near = near_letters(rng, enzyme);
    match rng.below(10) {
        0 => vec![rng.pick(&near); len],
        1 => {
            let stretch: Vec<u8> = (0..1 + rng.below(6)).map(|_| rng.pick(&near)).collect();
            stretch.into_iter().cycle().take(len).collect()
        }
        2..=6 => (0..len).map(|_| rng.pick(&near)).collect(),
        _ => (0..len).map(|_| b'A' + rng.below(26) as u8).collect(),
    }
}

/// Semi sites of long windows are many: their proteins stay shorter.
fn length(rng: &mut Rng, enzyme: &Enzyme) -> usize {
    let longest = if enzyme.semi == 1 && enzyme.missed > 2 { 20 } else { 60 };
    let longest = rng.pick(&[4, 12, 30, longest]).min(longest);
    rng.below(longest + 1)
}

/// Many enzymes, each with some proteins.
pub fn random_calls(rng: &mut Rng, enzymes: usize, proteins: usize) -> impl Iterator<Item = Call> + '_ {
    let mut last = None;
    (0..enzymes * proteins).map(move |number| {
        let fresh = number % proteins == 0;
        let enzyme = match last {
            Some(enzyme) if !fresh => enzyme,
            _ => *last.insert(enzyme(rng)),
        };
        let len = length(rng, &enzyme);
        let letters = protein(rng, &enzyme, len);
        call(rng, letters, enzyme)
    })
}

/// Lengths around those at which an implementation may take another table, and the greatest.
const LONG: [usize; 21] = [
    63, 64, 65, 127, 128, 129, 255, 256, 257, 511, 512, 513, 1023, 1024, 1025, 8191, 8192, 8193, 35_000,
    65_535, 65_536,
];

fn long_enzymes() -> Vec<Enzyme> {
    let (cleave, skip) = (set_of(b"KR"), set_of(b"P"));
    let trypsin =
        Enzyme { kind: SET, cleave, skip, side: C_SIDE, semi: 0, missed: 0, minimum: 7, maximum: 50 };
    vec![
        trypsin,
        Enzyme { missed: 2, minimum: 1, maximum: 65_536, ..trypsin },
        Enzyme { missed: 16, ..trypsin },
        Enzyme { side: N_SIDE, missed: 1, ..trypsin },
        Enzyme { semi: 1, missed: 1, maximum: 30, ..trypsin },
        Enzyme { kind: END, missed: 1, maximum: 65_536, ..trypsin },
        Enzyme { kind: NONE, minimum: 7, maximum: 14, ..trypsin },
    ]
}

/// Of every letter, of few letters, and of one that cuts or does not.
pub fn long_calls(rng: &mut Rng) -> Vec<Call> {
    let mut calls = Vec::new();
    for enzyme in long_enzymes() {
        for len in LONG {
            let from: &[u8] = rng.pick(&[&b"AAACDEFGHIKLMNPQRSTVWY"[..], b"AKP", b"ACDEFGHIKLMN"]);
            let letters = (0..len).map(|_| rng.pick(from)).collect();
            calls.push(call(rng, letters, enzyme));
            let letter = rng.pick(b"AKP");
            calls.push(call(rng, vec![letter; len], enzyme));
        }
    }
    calls
}

/// The words of Thue and Morse and of Fibonacci, a letter again and again, two, and two at random: most stretches of
/// these stand in them many times.
fn repetitive(rng: &mut Rng, len: usize) -> Vec<Vec<u8>> {
    let thue_morse = (0..len).map(|place| b"AK"[place.count_ones() as usize % 2]).collect();
    let (mut fibonacci, mut before) = (b"AK".to_vec(), b"A".to_vec());
    while fibonacci.len() < len {
        let longer = [&fibonacci[..], &before].concat();
        before = std::mem::replace(&mut fibonacci, longer);
    }
    fibonacci.truncate(len);
    let two = (0..len).map(|_| rng.pick(b"AK")).collect();
    vec![thue_morse, fibonacci, vec![b'A'; len], b"AK".iter().copied().cycle().take(len).collect(), two]
}

/// Repetitive proteins with bounds that leave out no length, or only the short ones.
pub fn repetitive_calls(rng: &mut Rng) -> Vec<Call> {
    let mut calls = Vec::new();
    for len in (0..=70).chain([127, 128, 129, 255, 256, 257]) {
        let maximum = len as u32 + 1;
        let none = Enzyme { kind: NONE, minimum: 1, maximum, ..few_enzymes()[0] };
        let long = Enzyme { minimum: maximum / 2, ..none };
        let semi = Enzyme { kind: SET, semi: 1, ..none };
        for letters in repetitive(rng, len) {
            calls.extend([none, long, semi].map(|enzyme| call(rng, letters.clone(), enzyme)));
        }
    }
    calls
}

/// Blocks of A that each end in K, every one longer than the last, again and again.
fn blocks(len: usize) -> Vec<u8> {
    let block = |size: usize| std::iter::repeat_n(b'A', size).chain([b'K']);
    (0..120).cycle().flat_map(block).take(len).collect()
}

/// A stretch that stands so many times.
fn again(rng: &mut Rng, times: usize, len: usize) -> Vec<u8> {
    let stretch: Vec<u8> = (0..len.div_ceil(times)).map(|_| rng.pick(b"ACDEFGHIKLMNPQRSTVWY")).collect();
    stretch.into_iter().cycle().take(len).collect()
}

/// What someone sends who wants many equal peptides, or many that are equal nearly to their ends.
fn hostile(rng: &mut Rng, len: usize) -> Vec<Vec<u8>> {
    let three = (0..len).map(|_| rng.pick(b"KPA")).collect();
    let collided = [colliding::protein(len), colliding::of_one_code(len)];
    [vec![again(rng, 2, len), again(rng, 16, len), three, blocks(len)], collided.into()].concat()
}

/// Lengths around those at which another table is taken, for every way of cutting.
const HOSTILE: [usize; 12] = [1, 2, 17, 130, 511, 512, 513, 1023, 1024, 1025, 4097, 8193];

fn hostile_enzymes() -> Vec<Enzyme> {
    let [trypsin, ..] = long_enzymes()[..] else { unreachable!("there are some") };
    let any = Enzyme { minimum: 1, maximum: 128, ..trypsin };
    vec![
        Enzyme { missed: 2, ..trypsin },
        Enzyme { missed: 16, minimum: 1, maximum: 65_536, ..trypsin },
        Enzyme { side: N_SIDE, skip: 0, missed: 16, ..any },
        Enzyme { cleave: set_of(b"A"), skip: set_of(b"K"), missed: 5, ..any },
        Enzyme { semi: 1, ..trypsin },
        Enzyme { semi: 1, missed: 2, ..any },
        Enzyme { semi: 1, side: N_SIDE, skip: 0, missed: 16, maximum: 40, ..any },
        Enzyme { kind: NONE, minimum: 1, maximum: 40, ..any },
        Enzyme { kind: NONE, minimum: 60, maximum: 70, ..any },
    ]
}

pub fn hostile_calls(rng: &mut Rng) -> Vec<Call> {
    let mut calls = Vec::new();
    for enzyme in hostile_enzymes() {
        for len in HOSTILE {
            calls.extend(hostile(rng, len).into_iter().map(|letters| call(rng, letters, enzyme)));
        }
    }
    calls
}

/// The longest proteins, as hostile.
pub fn greatest_calls(rng: &mut Rng) -> Vec<Call> {
    let [windows, _, _, _, semi, _, _, _, none] = hostile_enzymes()[..] else { unreachable!("nine") };
    let mut calls = Vec::new();
    for enzyme in [windows, semi, none] {
        calls.extend(hostile(rng, MOST_LETTERS).into_iter().map(|letters| call(rng, letters, enzyme)));
    }
    calls
}

/// More digests than a list holds.
pub fn too_many(rng: &mut Rng) -> Call {
    let enzyme =
        Enzyme { kind: NONE, cleave: 0, skip: 0, side: C_SIDE, semi: 0, missed: 0, minimum: 7, maximum: 30 };
    let letters = (0..MOST_LETTERS).map(|_| b'A' + rng.below(26) as u8).collect();
    call(rng, letters, enzyme)
}
