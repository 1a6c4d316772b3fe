//! Times asking whether a letter is in a set: by itself, in digests that ask of every letter and find none, and in digests as
//! people make them, of capitals and of masked letters. Ours alone: the original has no sets of letters and reads no small ones.
use crate::clock::least;
use crate::digest::{name_of, set_of, Cutting, Ours, MOST, SET};
use crate::ffi::sendumaal_set_contains;
use crate::proteins::{letters, protein};
use crate::rng::Rng;
use std::hint::black_box;

const CALLS: usize = 200;
const ASKED: usize = 1_000_000;
/// Half of the alphabet.
const THIRTEEN: &str = "ABCDEFGHIJKLM";

/// The least time of many calls that go through so many letters.
fn print_row(name: &str, letters: usize, call: impl FnMut()) {
    let nanoseconds = least(CALLS, call) * 1e9 / letters as f64;
    println!("| {name} | {letters} | {nanoseconds:.3} |");
}

fn print_asking(name: &str, bytes: &[u8]) {
    let set = set_of(SET.cleave);
    let in_set = |byte: &&u8| SET.cleave.as_bytes().contains(&byte.to_ascii_uppercase());
    let wanted = bytes.iter().filter(in_set).count();
    print_row(&format!("`sendumaal_set_contains`, {}, {name}", SET.cleave), bytes.len(), || {
        let members: u32 = bytes.iter().map(|byte| unsafe { sendumaal_set_contains(set, *byte) }).sum();
        assert_eq!(members as usize, wanted, "ours finds other members");
    });
}

fn print_digests(ours: &mut Ours, name: &str, cutting: Cutting, proteins: &[String]) {
    let letters = proteins.iter().map(String::len).sum();
    print_row(&format!("`sendumaal_digest`, {}, {name}", name_of(&cutting)), letters, || {
        for protein in proteins {
            black_box(ours.count(&cutting, protein));
        }
    });
}

/// A protein of which no letter is in the set.
fn uncut(rng: &mut Rng, cutting: Cutting) -> String {
    let outside = |letter: &char| !cutting.cleave.contains(*letter);
    let protein: String = letters(rng, 4 * MOST).chars().filter(outside).take(MOST).collect();
    assert_eq!(protein.len(), MOST, "most letters are in the set");
    protein
}

/// Every second letter small.
pub fn masked(protein: &str) -> String {
    let small = |(place, letter): (usize, char)| match place % 2 {
        0 => letter,
        _ => letter.to_ascii_lowercase(),
    };
    protein.chars().enumerate().map(small).collect()
}

pub fn print() {
    println!("| call | letters | ours, ns/letter |");
    println!("|---|--:|--:|");
    let mut rng = Rng::new(crate::SEED, "letters in sets");
    let mut ours = Ours::new();
    print_asking("letters at random", letters(&mut rng, ASKED).as_bytes());
    print_asking("bytes at random", &rng.bytes(ASKED));
    let long = [SET, Cutting { cleave: THIRTEEN, ..SET }].map(|cutting| (cutting, uncut(&mut rng, cutting)));
    let proteins: Vec<String> = (0..25).map(|_| protein(&mut rng, 450)).collect();
    for (cutting, protein) in &long {
        print_digests(&mut ours, "no letter cuts", *cutting, std::slice::from_ref(protein));
    }
    print_digests(&mut ours, "25 proteins of about 450 letters", SET, &proteins);
    let small = |proteins: &[String]| proteins.iter().map(|protein| masked(protein)).collect::<Vec<String>>();
    let [(cutting, protein), _] = &long;
    print_digests(
        &mut ours,
        "no letter cuts, every second small",
        *cutting,
        &small(std::slice::from_ref(protein)),
    );
    print_digests(&mut ours, "25 proteins of about 450 letters, every second small", SET, &small(&proteins));
}
