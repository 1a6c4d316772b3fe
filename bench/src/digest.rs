//! Times `EnzymeParameters::digest` of the original Rust and `sendumaal_digest` on the same proteins.
mod rows;
mod sides;

use crate::clock::{least, seconds};
use crate::rng::Rng;
use crate::turns::{measure, Measured, Sides};
use rows::{doubling_rows, greatest_rows, rows, Row, TRYPTIC};
pub use rows::{name_of, Cutting, MOST, SET};
use sides::Rust;
pub use sides::{set_of, Ours};
use std::cell::RefCell;
use std::hint::black_box;

struct Both<'a> {
    rust: Rust,
    ours: &'a mut Ours,
    cutting: Cutting,
}

fn time(block: &[String], mut count: impl FnMut(&str) -> usize) -> f64 {
    seconds(|| {
        for protein in block {
            black_box(count(protein));
        }
    })
}

impl Sides for Both<'_> {
    type Item = String;

    fn agree(&mut self, protein: &String) -> usize {
        let digests = self.rust.digests(protein);
        let count = self.ours.count(&self.cutting, protein);
        let same =
            digests.iter().map(|digest| digest.sequence.as_str()).eq(self.ours.letters(count, protein));
        assert!(same, "the digests of {protein} differ");
        count
    }

    fn rust(&mut self, block: &[String]) -> f64 {
        time(block, |protein| self.rust.count(protein))
    }

    fn ours(&mut self, block: &[String]) -> f64 {
        time(block, |protein| self.ours.count(&self.cutting, protein))
    }
}

/// The records of a protein's digests: KR not before P, missed 2, lengths 7 to 50.
pub fn cut(protein: &str, number: u32) -> Vec<u8> {
    thread_local!(static OURS: RefCell<Ours> = RefCell::new(Ours::new()));
    OURS.with_borrow_mut(|ours| ours.records(&TRYPTIC, protein, number))
}

fn print_rows(ours: &mut Ours, rows: Vec<Row>) {
    Measured::print_head("protein, enzyme", "digests", "protein");
    for Row { name, cutting, blocks } in rows {
        let both = Both { rust: Rust::new(&cutting), ours, cutting };
        measure(both, &blocks).print_row(&name, 0);
    }
}

pub fn print() {
    print_rows(&mut Ours::new(), rows(&mut Rng::new(crate::SEED, "benchmark")));
}

pub fn print_greatest() {
    print_rows(&mut Ours::new(), greatest_rows(&mut Rng::new(crate::SEED, "greatest proteins")));
}

/// The least of seven calls, in milliseconds.
fn least_time(ours: &mut Ours, cutting: &Cutting, protein: &str) -> f64 {
    let seconds = least(7, || {
        black_box(ours.count(cutting, protein));
    });
    seconds * 1e3
}

/// Ours alone: how the time grows where the letters double.
pub fn print_doubling() {
    println!("| protein, enzyme | 8,192 letters, ms | 16,384 | 32,768 | 65,536 | last doubling |");
    println!("|---|--:|--:|--:|--:|--:|");
    let mut ours = Ours::new();
    for (name, cutting, proteins) in doubling_rows(&mut Rng::new(crate::SEED, "proteins that double")) {
        let times: Vec<f64> =
            proteins.iter().map(|protein| least_time(&mut ours, &cutting, protein)).collect();
        let cells: Vec<String> = times.iter().map(|time| format!("{time:.3}")).collect();
        println!("| {name} | {} | {:.2} |", cells.join(" | "), times[3] / times[2]);
    }
}
