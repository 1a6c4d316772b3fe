//! What is grouped: peptides that show generated proteins, of which many have a family.
use crate::proteins::name;
use crate::records::NAME;
use crate::rng::Rng;
use oracle::database::IndexedDatabase;
use oracle::peptide::Peptide;
use oracle::protein_grouping::probe::{peptide_set, Peptides};
use std::sync::Arc;

/// One set of peptides, as each side takes it.
pub struct Set {
    pub name: String,
    pub rust: IndexedDatabase,
    pub pairs: Vec<u8>,
    pub flags: Vec<u8>,
    pub names: Vec<u8>,
    /// The proteins of each peptide.
    pub shown: Vec<Vec<u32>>,
}

const LARGEST_FAMILY: usize = 8;

/// First and count of each protein's family: of ten families, three have two to eight members.
fn families(rng: &mut Rng, proteins: usize) -> Vec<(usize, usize)> {
    let mut families = Vec::new();
    while families.len() < proteins {
        let size = if rng.below(10) < 3 { 2 + rng.below(LARGEST_FAMILY - 1) } else { 1 };
        let (first, size) = (families.len(), size.min(proteins - families.len()));
        families.extend(vec![(first, size); size]);
    }
    families
}

/// The proteins that a peptide is found in: one, which is more likely for low numbers, and of its family each second where
/// the peptide is shared, which one in five is.
fn proteins_of(rng: &mut Rng, families: &[(usize, usize)]) -> Vec<u32> {
    let place = rng.below(families.len()) as f64 / families.len() as f64;
    let home = (place * place * families.len() as f64) as usize;
    let (first, size) = families[home];
    let shared = rng.once_in(5);
    let mut shows = |protein: &usize| *protein == home || shared && rng.once_in(2);
    (first..first + size).filter(&mut shows).map(|protein| protein as u32).collect()
}

fn peptide(proteins: &[u32], names: &[Arc<str>], flag: u8) -> Peptide {
    let proteins = proteins.iter().map(|protein| Arc::clone(&names[*protein as usize])).collect();
    Peptide { decoy: flag == 1, proteins, ..Default::default() }
}

/// A decoy for every second peptide, or for none.
pub fn set(rng: &mut Rng, proteins: usize, peptides: usize, decoys: bool) -> Set {
    let names: Vec<String> = (0..proteins).map(|number| name(rng, number)).collect();
    let shared: Vec<Arc<str>> = names.iter().map(|name| Arc::from(&name[..])).collect();
    let families = families(rng, proteins);
    let shown: Vec<Vec<u32>> = (0..peptides).map(|_| proteins_of(rng, &families)).collect();
    let flags: Vec<u8> = (0..peptides).map(|number| u8::from(decoys && number % 2 == 1)).collect();
    let pair = |(peptide, protein): (u32, u32)| [peptide.to_le_bytes(), protein.to_le_bytes()].concat();
    let pairs =
        (0..).zip(&shown).flat_map(|(peptide, all)| all.iter().map(move |protein| (peptide, *protein)));
    let padded = |name: &String| [name.as_bytes(), &vec![0; NAME - name.len()]].concat();
    Set {
        name: format!(
            "{proteins} proteins, {peptides} peptides{}",
            if decoys { ", half of decoys" } else { "" }
        ),
        rust: IndexedDatabase {
            peptides: shown.iter().zip(&flags).map(|(all, flag)| peptide(all, &shared, *flag)).collect(),
            decoy_tag: "rev_".into(),
            generate_decoys: true,
            ..Default::default()
        },
        pairs: pairs.flat_map(pair).collect(),
        flags,
        names: names.iter().flat_map(padded).collect(),
        shown,
    }
}

impl Set {
    pub fn proteins(&self) -> usize {
        self.names.len() / NAME
    }

    /// All peptides, as the original takes them.
    pub fn peptides(&self) -> Peptides {
        peptide_set(&(0..self.shown.len() as u32).collect::<Vec<_>>())
    }
}

/// A small one, a whole proteome, and one with decoys.
pub fn sets(rng: &mut Rng) -> Vec<Set> {
    vec![set(rng, 5000, 16_000, false), set(rng, 60_000, 200_000, false), set(rng, 60_000, 200_000, true)]
}
