//! What is timed: proteins of some lengths with the enzymes in use, proteins of one letter, and the longest, random and hostile.
use crate::colliding;
use crate::proteins::{letters, protein};
use crate::rng::Rng;
use crate::turns::Block;

/// How a protein is cut: behind the letters of a set, but not before P, or at every place where the set is empty.
#[derive(Clone, Copy)]
pub struct Cutting {
    pub cleave: &'static str,
    pub semi: bool,
    pub missed: u8,
    pub minimum: u32,
    pub maximum: u32,
}

pub struct Row {
    pub name: String,
    pub cutting: Cutting,
    pub blocks: Vec<Block>,
}

const LENGTHS: [usize; 4] = [450, 2_000, 8_000, 35_000];
/// Of a block of long proteins there are fewer, so that one round of it takes no seconds.
const BLOCK: usize = 25;
const BLOCK_LETTERS: usize = 100_000;
const BLOCKS: usize = 4;

pub const SET: Cutting = Cutting { cleave: "KR", semi: false, missed: 0, minimum: 7, maximum: 50 };
/// How lists of digests are made that are to be grouped.
pub const TRYPTIC: Cutting = Cutting { missed: 2, ..SET };
const NONE: Cutting = Cutting { cleave: "", semi: false, missed: 0, minimum: 7, maximum: 30 };

pub fn name_of(cutting: &Cutting) -> String {
    let Cutting { cleave, semi, missed, minimum, maximum } = cutting;
    let lengths = format!("lengths {minimum} to {maximum}");
    match (*cleave, semi) {
        ("", _) => format!("none, {lengths}"),
        (_, false) => format!("{cleave} not before P, missed {missed}, {lengths}"),
        (_, true) => format!("{cleave} not before P, semi, missed {missed}, {lengths}"),
    }
}

fn random_row(rng: &mut Rng, length: usize, cutting: Cutting) -> Row {
    let size = BLOCK.min(BLOCK_LETTERS / length);
    let block = |rng: &mut Rng| (0..size).map(|_| protein(rng, length)).collect();
    let name = format!("about {length} letters, {}", name_of(&cutting));
    Row { name, cutting, blocks: (0..BLOCKS).map(|_| block(rng)).collect() }
}

/// One letter only: every range of a length has the same letters.
fn repeated_row(letter: char, length: usize, cutting: Cutting) -> Row {
    let protein: String = std::iter::repeat_n(letter, length).collect();
    let name = format!("{length} times {letter}, {}", name_of(&cutting));
    Row { name, cutting, blocks: vec![vec![protein]] }
}

fn cuttings() -> Vec<Cutting> {
    let missed = [0, 1, 2].map(|missed| Cutting { missed, ..SET });
    let semi = [0, 2].map(|missed| Cutting { semi: true, missed, ..SET });
    [&missed[..], &semi, &[NONE]].concat()
}

/// The longest protein that there is.
pub const MOST: usize = 65_536;

/// Proteins that someone may send who wants a call to take long, each with its name.
fn hostile(rng: &mut Rng, length: usize) -> Vec<(&'static str, String)> {
    let again = |rng: &mut Rng, times: usize| {
        let stretch = letters(rng, length.div_ceil(times));
        stretch.chars().cycle().take(length).collect::<String>()
    };
    let block = |size: usize| std::iter::repeat_n('A', size).chain(['K']);
    let of_three = (0..length).map(|_| rng.pick(b"KPA") as char).collect();
    let text = |letters: Vec<u8>| String::from_utf8(letters).expect("letters");
    vec![
        ("random", letters(rng, length)),
        ("a stretch twice", again(rng, 2)),
        ("a stretch 16 times", again(rng, 16)),
        ("K, P and A at random", of_three),
        ("blocks A..AK", (0..120).cycle().flat_map(block).take(length).collect()),
        ("made to collide", text(colliding::protein(length))),
        ("sites of one code", text(colliding::of_one_code(length))),
    ]
}

/// Every way of cutting, for the longest proteins.
fn greatest_cuttings() -> Vec<Cutting> {
    let tryptic = [2, 16].map(|missed| Cutting { missed, ..SET });
    let semi = [0, 2].map(|missed| Cutting { semi: true, missed, ..SET });
    let none = Cutting { maximum: 20, ..NONE };
    [&tryptic[..], &semi, &[none]].concat()
}

fn single_row(name: &str, length: usize, protein: String, cutting: Cutting) -> Row {
    let name = format!("{length} letters, {name}, {}", name_of(&cutting));
    Row { name, cutting, blocks: vec![vec![protein]] }
}

/// The longest proteins, random and hostile.
pub fn greatest_rows(rng: &mut Rng) -> Vec<Row> {
    let proteins = hostile(rng, MOST);
    let row = |cutting: Cutting| {
        proteins.iter().map(move |(name, protein)| single_row(name, MOST, protein.clone(), cutting))
    };
    let mut rows: Vec<Row> = greatest_cuttings().into_iter().flat_map(row).collect();
    let most = Cutting { semi: true, missed: 16, minimum: 1, maximum: 64, ..SET };
    for place in [0, 5] {
        let (name, protein) = &proteins[place];
        rows.push(single_row(name, MOST, protein.clone(), most));
    }
    rows
}

/// Proteins of each kind whose letters double, with the way of cutting that each is worst for, and one letter, or 16, without bounds.
pub fn doubling_rows(rng: &mut Rng) -> Vec<(String, Cutting, Vec<String>)> {
    const LENGTHS: [usize; 4] = [8_192, 16_384, 32_768, 65_536];
    let of_lengths: Vec<_> = LENGTHS.map(|length| hostile(rng, length)).into();
    let mut rows = Vec::new();
    for cutting in greatest_cuttings() {
        for (place, (name, _)) in of_lengths[0].iter().enumerate() {
            let proteins = of_lengths.iter().map(|proteins| proteins[place].1.clone()).collect();
            rows.push((format!("{name}, {}", name_of(&cutting)), cutting, proteins));
        }
    }
    let one = LENGTHS.map(|length| "A".repeat(length)).to_vec();
    let none = Cutting { minimum: 1, maximum: 65_536, ..NONE };
    rows.push((format!("A alone, {}", name_of(&none)), none, one.clone()));
    let sixteen = LENGTHS.map(|length| "ACDEFGHILMNQSTVW".repeat(length / 16)).to_vec();
    rows.push((format!("16 letters again and again, {}", name_of(&none)), none, sixteen));
    let semi = Cutting { semi: true, minimum: 1, maximum: 65_536, ..SET };
    rows.push((format!("A alone, {}", name_of(&semi)), semi, one));
    rows
}

pub fn rows(rng: &mut Rng) -> Vec<Row> {
    let mut rows = Vec::new();
    for cutting in cuttings() {
        rows.extend(LENGTHS.map(|length| random_row(rng, length, cutting)));
    }
    for length in [35_000, 65_536] {
        rows.push(repeated_row('A', length, NONE));
        rows.push(repeated_row('K', length, Cutting { missed: 2, minimum: 1, ..SET }));
        rows.push(repeated_row('A', length, Cutting { semi: true, ..SET }));
    }
    // Without bounds each candidate may be as long as the protein.
    rows.push(repeated_row('A', 1_000, Cutting { minimum: 1, maximum: 65_536, ..NONE }));
    rows.push(repeated_row('A', 8_000, Cutting { semi: true, minimum: 1, maximum: 65_536, ..SET }));
    rows
}
