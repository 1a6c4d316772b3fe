//! Times `group_digests` of the original Rust and `sendumaal_group_digests` on the same digests.
mod lists;
mod sides;

use crate::clock::seconds;
use crate::rng::Rng;
use crate::turns::{measure, Measured, Sides};
use lists::{list, List};
use oracle::enzyme::group_digests;
use sides::Ours;
use std::hint::black_box;

struct Both {
    ours: Ours,
}

impl Sides for Both {
    type Item = List;

    fn agree(&mut self, list: &List) -> usize {
        let groups = group_digests(list.rust.clone());
        let count = self.ours.group(list);
        assert!(self.ours.holds(list, count, &groups), "the groups of {} digests differ", list.rust.len());
        count
    }

    /// `group_digests` takes its list, so there is one for each call, made before. Freeing the groups is part of the time.
    fn rust(&mut self, block: &[List]) -> f64 {
        let lists: Vec<_> = block.iter().map(|list| list.rust.clone()).collect();
        seconds(|| {
            for list in lists {
                black_box(group_digests(black_box(list)));
            }
        })
    }

    fn ours(&mut self, block: &[List]) -> f64 {
        seconds(|| {
            for list in block {
                black_box(self.ours.group(list));
            }
        })
    }
}

pub fn print() {
    println!("| digests | proteins | groups | Rust, ms | ours, ms | ours/Rust |");
    println!("|--:|--:|--:|--:|--:|--:|");
    let rng = &mut Rng::new(crate::SEED, "benchmark of digest groups");
    for digests in [10_000, 100_000, 1_000_000] {
        let list = list(rng, digests);
        let proteins = list.bounds.len() - 1;
        let Measured { count, rust, ours } = measure(Both { ours: Ours::new(&list) }, &[vec![list]]);
        let (rust, ours, ratio) = (rust * 1e3, ours * 1e3, ours / rust);
        println!("| {digests} | {proteins} | {count} | {rust:.2} | {ours:.2} | {ratio:.2} |");
    }
}
