//! The pairs that are tried.
use super::model::{work_for, MOST_PAIRS, MOST_PEPTIDES, MOST_PROTEINS};
use super::said::Shown;
use crate::cover::cases::{all_lists, shuffle, some};
use crate::cover::model::Edge;
use crate::rng::Rng;

/// All settings of so many flags.
fn all_flags(count: usize) -> Vec<Vec<u8>> {
    (0..1 << count).map(|bits: u32| (0..count).map(|flag| (bits >> flag & 1) as u8).collect()).collect()
}

/// All lists of so many pairs over a few peptides and proteins, with all flags.
pub fn exhaustive() -> Vec<Shown> {
    let mut all = Vec::new();
    for (peptides, proteins, most) in [(3, 3, 4), (2, 3, 5), (3, 2, 5), (4, 1, 4), (1, 4, 4), (2, 2, 6)] {
        for flags in all_flags(peptides as usize) {
            let lists = all_lists(peptides, proteins, most).into_iter();
            all.extend(lists.map(|pairs| (pairs, flags.clone(), proteins as usize)));
        }
    }
    all
}

fn any_pair(rng: &mut Rng, peptides: usize, proteins: usize) -> Edge {
    (rng.below(peptides) as u32, rng.below(proteins) as u32)
}

/// Families of neighbours: a peptide is shared by all of a family, or by some of it.
fn families(rng: &mut Rng, peptides: usize, proteins: usize) -> Vec<Edge> {
    let size = 1 + rng.below(5);
    let mut pairs = Vec::new();
    for peptide in 0..peptides as u32 {
        let first = rng.below(proteins) / size * size;
        let last = proteins.min(first + size);
        let sparse = rng.once_in(2);
        for protein in first..last {
            if !sparse || rng.once_in(2) {
                pairs.push((peptide, protein as u32));
            }
        }
    }
    pairs
}

/// Every peptide shows the same proteins, or all but one of them.
fn nearly_equal(rng: &mut Rng, peptides: usize, proteins: usize) -> Vec<Edge> {
    let mut pairs = Vec::new();
    for peptide in 0..peptides as u32 {
        let without = rng.below(proteins + 2);
        let shown = (0..proteins).filter(|protein| *protein != without);
        pairs.extend(shown.map(|protein| (peptide, protein as u32)));
    }
    pairs
}

fn renumbered(rng: &mut Rng, pairs: &mut [Edge], peptides: usize, proteins: usize) {
    let mut permuted = |count: usize| {
        let mut numbers: Vec<u32> = (0..count as u32).collect();
        shuffle(rng, &mut numbers);
        numbers
    };
    let (names, numbers) = (permuted(peptides), permuted(proteins));
    for (peptide, protein) in pairs {
        (*peptide, *protein) = (names[*peptide as usize], numbers[*protein as usize]);
    }
}

/// Pairs of one shape, some of them again, mostly renumbered and in any order.
fn pairs(rng: &mut Rng, peptides: usize, proteins: usize, most: usize) -> Vec<Edge> {
    if peptides == 0 || proteins == 0 {
        return vec![];
    }
    let many = 1 + rng.below(most);
    let mut pairs: Vec<Edge> = match rng.below(8) {
        0 | 1 => families(rng, peptides, proteins),
        2 => nearly_equal(rng, peptides, proteins),
        3 => {
            let pool: Vec<Edge> = (0..1 + rng.below(6)).map(|_| any_pair(rng, peptides, proteins)).collect();
            (0..many).map(|_| rng.pick(&pool)).collect()
        }
        _ => (0..many).map(|_| any_pair(rng, peptides, proteins)).collect(),
    };
    if !pairs.is_empty() && rng.once_in(2) {
        for _ in 0..rng.below(4) {
            pairs.push(pairs[rng.below(pairs.len())]);
        }
    }
    renumbered(rng, &mut pairs, peptides, proteins);
    if !rng.once_in(4) {
        shuffle(rng, &mut pairs);
    }
    pairs
}

/// All targets, all decoys, or any.
fn flags(rng: &mut Rng, peptides: usize) -> Vec<u8> {
    match rng.below(6) {
        0 => vec![0; peptides],
        1 => vec![1; peptides],
        2 => (0..peptides).map(|_| u8::from(rng.once_in(6))).collect(),
        _ => (0..peptides).map(|_| rng.below(2) as u8).collect(),
    }
}

fn shown(rng: &mut Rng, peptides: usize, proteins: usize, most: usize) -> Shown {
    (pairs(rng, peptides, proteins, most), flags(rng, peptides), proteins)
}

pub fn random(rng: &mut Rng) -> Shown {
    let most = rng.pick(&[3, 5, 8, 12]);
    let (peptides, proteins) = (some(rng, most), some(rng, most));
    shown(rng, peptides, proteins, 3 * most)
}

/// Counts at and around powers of two among them.
pub fn larger(rng: &mut Rng) -> Shown {
    let most = rng.pick(&[30, 64, 200]);
    let exact = rng.pick(&[31, 32, 33, 63, 64, 65]);
    let peptides = if rng.once_in(3) { exact } else { 1 + rng.below(most) };
    let proteins = if rng.once_in(3) { exact } else { 1 + rng.below(most) };
    let pairs = 3 * most;
    let (mut pairs, flags, proteins) = shown(rng, peptides, proteins, pairs);
    pairs.truncate(2000);
    (pairs, flags, proteins)
}

pub fn long(rng: &mut Rng) -> Vec<Shown> {
    let mut all = Vec::new();
    for count in [255, 256, 257, 1000, 4095, 4096, 4097, 20_000] {
        let of_families = families(rng, 2 * count, count);
        all.push((of_families, flags(rng, 2 * count), count));
        let random = (0..3 * count).map(|_| any_pair(rng, count, count)).collect();
        all.push((random, flags(rng, count), count));
        all.push(((0..count as u32).map(|number| (0, number)).collect(), vec![1], count));
        all.push(((0..count as u32).map(|number| (number, 0)).collect(), flags(rng, count), 1));
    }
    all
}

/// The greatest counts: families, one peptide that shows all, one protein that all show, as many groups as there can be, and one
/// pair as often as it can stand.
pub fn greatest(rng: &mut Rng) -> Vec<Shown> {
    let (peptides, proteins) = (MOST_PEPTIDES as u32, MOST_PROTEINS as u32);
    let mixed: Vec<u8> = (0..MOST_PEPTIDES).map(|_| rng.below(2) as u8).collect();
    let mut of_families = families(rng, MOST_PEPTIDES, MOST_PROTEINS);
    of_families.truncate(MOST_PAIRS);
    shuffle(rng, &mut of_families);
    let one_peptide = (0..MOST_PAIRS as u32).map(|number| (5, number % proteins)).collect();
    let one_protein = (0..MOST_PAIRS as u32).map(|number| (number % peptides, 7)).collect();
    let apart = (0..2 * proteins).map(|number| (number, number / 2)).collect();
    let halves: Vec<u8> = (0..MOST_PEPTIDES).map(|peptide| (peptide % 2) as u8).collect();
    let random = (0..MOST_PAIRS).map(|_| any_pair(rng, MOST_PEPTIDES, MOST_PROTEINS)).collect();
    let again = vec![(peptides - 1, proteins - 1); MOST_PAIRS];
    let all = |pairs: Vec<Edge>, flags: &Vec<u8>| (pairs, flags.clone(), MOST_PROTEINS);
    let listed = [of_families, one_peptide, one_protein, random, again, vec![]];
    let mut listed: Vec<Shown> = listed.into_iter().map(|pairs| all(pairs, &mixed)).collect();
    listed.push(all(apart, &halves));
    listed
}

/// Work memory that is just enough, or with some to spare, filled with anything.
pub fn work(rng: &mut Rng, peptides: usize, proteins: usize, pairs: usize) -> Vec<u32> {
    let more = rng.pick(&[0, 0, 0, 1, 7, 100]);
    (0..work_for(peptides, proteins, pairs) + more).map(|_| rng.word()).collect()
}
