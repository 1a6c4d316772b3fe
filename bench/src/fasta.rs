//! Times `Fasta::parse` of the original Rust and a loop of `sendumaal_fasta_entry` on the same files.
mod files;
mod sides;

use crate::clock::{least, seconds};
use crate::rng::Rng;
use crate::turns::{measure, Measured, Sides};
use files::{usual, File, HOSTILE};
use sides::{parse, Ended, Ours};
use std::hint::black_box;

struct Both {
    ours: Ours,
}

impl Sides for Both {
    type Item = File;

    /// How many entries ours lists. Where it lists all, they are those of the original.
    fn agree(&mut self, file: &File) -> usize {
        let ended = self.ours.read(file.text.as_bytes());
        assert_eq!(ended, Ended { entries: file.entries, number: file.answer }, "{}", file.name);
        let same = file.answer != 0 || self.ours.holds(&parse(file.text.clone()));
        assert!(same, "the entries of {} differ", file.name);
        ended.entries
    }

    /// `parse` takes its text, so there is one for each call, made before. Freeing it and the entries is part of the time.
    fn rust(&mut self, block: &[File]) -> f64 {
        let texts: Vec<String> = block.iter().map(|file| file.text.clone()).collect();
        seconds(|| {
            for text in texts {
                black_box(parse(text));
            }
        })
    }

    fn ours(&mut self, block: &[File]) -> f64 {
        seconds(|| {
            for file in block {
                black_box(self.ours.read(file.text.as_bytes()));
            }
        })
    }
}

/// The least of five turns that read a file and test its catalogue.
fn tested_time(file: &File) -> f64 {
    let mut ours = Ours::new(file);
    least(5, || ours.read_and_test(file.text.as_bytes()))
}

fn print_usual() {
    println!("| file | MB | entries | Rust, ms | ours, ms | ours/Rust | ours, with names, ms | ours/Rust |");
    println!("|---|--:|--:|--:|--:|--:|--:|--:|");
    for file in usual(&mut Rng::new(crate::SEED, "benchmark of files")) {
        let (name, size, tested) = (file.name, file.text.len() as f64 * 1e-6, tested_time(&file));
        let Measured { count, rust, ours } = measure(Both { ours: Ours::new(&file) }, &[vec![file]]);
        let (ratio, tested_ratio) = (ours / rust, tested / rust);
        let [rust, ours, tested] = [rust, ours, tested].map(|seconds| seconds * 1e3);
        print!("| {name} | {size:.1} | {count} | {rust:.1} | {ours:.1} | {ratio:.2} ");
        println!("| {tested:.1} | {tested_ratio:.2} |");
    }
}

/// The least of five turns that read the first tenth of a file, for a byte.
fn tenth_time(file: &File) -> f64 {
    let tenth = &file.text.as_bytes()[..file.text.len() / 10];
    let mut ours = Ours::new(file);
    let seconds = least(5, || {
        black_box(ours.read(tenth));
    });
    seconds / tenth.len() as f64
}

fn print_hostile() {
    println!("Files such as someone may send who wants a reader to take long. Answer 1: an entry of more letters than it may");
    println!("have; 12: no name, or too long a one. The Rust refuses none of these, and leaves out what has no letters. Where a");
    println!("byte of the first tenth of a file takes as long as one of the whole, the time grows as the file does.");
    println!();
    println!("| file | entries | answer | Rust, ms | ours, ms | ours/Rust | ours, ns/byte | ours, a tenth, ns/byte |");
    println!("|---|--:|--:|--:|--:|--:|--:|--:|");
    let rng = &mut Rng::new(crate::SEED, "benchmark of hostile files");
    for make in HOSTILE {
        let file = make(rng);
        let (name, answer, bytes, tenth) =
            (file.name, file.answer, file.text.len() as f64, tenth_time(&file));
        let Measured { count, rust, ours } = measure(Both { ours: Ours::new(&file) }, &[vec![file]]);
        let (ratio, [each, tenth]) = (ours / rust, [ours / bytes, tenth].map(|seconds| seconds * 1e9));
        let [rust, ours] = [rust, ours].map(|seconds| seconds * 1e3);
        print!("| {name} | {count} | {answer} | {rust:.1} | {ours:.1} | {ratio:.2} ");
        println!("| {each:.3} | {tenth:.3} |");
    }
}

pub fn print() {
    print_usual();
    println!();
    print_hostile();
}
