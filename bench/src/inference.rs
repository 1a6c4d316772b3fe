//! Times the grouping of proteins of the original Rust and `sendumaal_group_proteins`, alone and with the cover of the groups.
mod sets;
mod sides;

use crate::clock::seconds;
use crate::records::PAIR;
use crate::rng::Rng;
use crate::turns::{measure, Measured, Sides};
use oracle::protein_grouping::probe;
pub use sets::{sets, Set};
pub use sides::Ours;
use std::hint::black_box;

/// Groups alone, or with their cover.
struct Both {
    ours: Ours,
    covers: bool,
}

impl Sides for Both {
    type Item = Set;

    /// How many groups there are, or how many are marked.
    fn agree(&mut self, set: &Set) -> usize {
        let sizes = self.ours.group(set);
        assert!(self.ours.holds(set, sizes), "the groups of {} differ", set.name);
        let marks = probe::marks(&set.rust, set.peptides());
        let same = self.ours.marks(set).iter().map(|mark| *mark == 1).eq(marks.iter().copied());
        assert!(same, "the marks of {} differ", set.name);
        if self.covers {
            marks.iter().filter(|mark| **mark).count()
        } else {
            marks.len()
        }
    }

    /// The grouping takes its set of peptides, so there is one for each call, made before.
    fn rust(&mut self, block: &[Set]) -> f64 {
        let peptides: Vec<_> = block.iter().map(Set::peptides).collect();
        let covers = self.covers;
        seconds(|| {
            for (set, peptides) in block.iter().zip(peptides) {
                match covers {
                    true => drop(black_box(probe::marks(&set.rust, black_box(peptides)))),
                    false => drop(black_box(probe::group_count(&set.rust, black_box(peptides)))),
                }
            }
        })
    }

    fn ours(&mut self, block: &[Set]) -> f64 {
        let (ours, covers) = (&mut self.ours, self.covers);
        seconds(|| {
            for set in block {
                match covers {
                    true => drop(black_box(ours.marks(set))),
                    false => drop(black_box(ours.group(set))),
                }
            }
        })
    }
}

pub fn print() {
    println!("| set | pairs | groups | Rust, ms | ours, ms | ours/Rust | marked | Rust, with cover, ms | ours, with cover, ms | ours/Rust |");
    println!("|---|--:|--:|--:|--:|--:|--:|--:|--:|--:|");
    for set in sets(&mut Rng::new(crate::SEED, "benchmark of protein groups")) {
        let (name, pairs) = (set.name.clone(), set.pairs.len() / PAIR);
        let block = [vec![set]];
        let mut cells = format!("| {name} | {pairs} |");
        for covers in [false, true] {
            let both = Both { ours: Ours::new(&block[0][0]), covers };
            let Measured { count, rust, ours } = measure(both, &block);
            let (rust, ours, ratio) = (rust * 1e3, ours * 1e3, ours / rust);
            cells += &format!(" {count} | {rust:.2} | {ours:.2} | {ratio:.3} |");
        }
        println!("{cells}");
    }
}
