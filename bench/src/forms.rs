//! Times `Peptide::apply` of the original Rust and `sendumaal_forms` on the same peptides, and ours alone where the
//! original would not end.
mod rows;
mod sides;

use crate::clock::{least, seconds};
use crate::rng::Rng;
use crate::turns::{measure, Measured, Sides};
use rows::{extremes, rows, Extreme, Rules};
use sides::{Ours, Rust};
use std::hint::black_box;

struct Both<'a> {
    rust: Rust,
    ours: &'a mut Ours,
    rules: Rules,
}

impl Sides for Both<'_> {
    type Item = String;

    fn agree(&mut self, letters: &String) -> usize {
        let forms = self.rust.forms(Rust::peptide(letters));
        let (number, count) = self.ours.list(&self.rules, letters);
        let all_same = forms.iter().zip(self.ours.forms()).all(|(form, own)| self.rust.is_form(form, own));
        assert!(number == 0 && count == forms.len() && all_same, "the forms of {letters} differ");
        count
    }

    /// `apply` takes its peptide, so there is one for each call, made before. Freeing the forms is part of the time.
    fn rust(&mut self, block: &[String]) -> f64 {
        let peptides: Vec<_> = block.iter().map(|letters| Rust::peptide(letters)).collect();
        seconds(|| {
            for peptide in peptides {
                black_box(self.rust.forms(black_box(peptide)));
            }
        })
    }

    fn ours(&mut self, block: &[String]) -> f64 {
        seconds(|| {
            for letters in block {
                black_box(self.ours.list(&self.rules, letters));
            }
        })
    }
}

/// The least of seven calls.
fn print_extremes(ours: &mut Ours) {
    println!("Ours alone, the least of seven calls, where the Rust would walk up to C(1024, 8) choices. Answer 11: there are");
    println!("more forms than a list may hold, and the first 1,048,576 stand in the buffer.");
    println!();
    println!("| 64 letters, 16 variable rules, combination limit | forms | answer | ours, ms |");
    println!("|---|--:|--:|--:|");
    for Extreme { name, rules, letters } in extremes() {
        let (mut number, mut count) = (0, 0);
        let least = least(7, || (number, count) = ours.list(&rules, &letters));
        println!("| {name} | {count} | {number} | {:.3} |", least * 1e3);
    }
}

pub fn print() {
    let mut ours = Ours::new();
    Measured::print_head("variable rules, combination limit", "forms", "peptide");
    for (name, rules, blocks) in rows(&mut Rng::new(crate::SEED, "benchmark of forms")) {
        let both = Both { rust: Rust::new(&rules), ours: &mut ours, rules };
        measure(both, &blocks).print_row(&name, 1);
    }
    println!();
    print_extremes(&mut ours);
}
