//! Times the original Rust and the proved library on the same proteins, peptides, digests, edges, pairs and files, in turns, and
//! prints tables of both: `bench digest`, `bench greatest`, `bench doubling`, `bench letters`, `bench forms`, `bench groups`,
//! `bench cover`, `bench inference`, `bench lines`, `bench fasta`. With the word `ours` behind it the original is asked and not timed.
mod clock;
#[path = "../../compare/src/digest/colliding.rs"]
mod colliding;
mod cover;
mod digest;
mod fasta;
#[path = "../../compare/src/ffi.rs"]
#[allow(dead_code)]
mod ffi;
mod forms;
mod groups;
mod inference;
mod letters;
mod lines;
mod proteins;
mod records;
#[path = "../../compare/src/rng.rs"]
#[allow(dead_code)]
mod rng;
mod turns;

const SEED: u64 = 1;

fn main() {
    match std::env::args().nth(1).as_deref() {
        Some("digest") => digest::print(),
        Some("greatest") => digest::print_greatest(),
        Some("doubling") => digest::print_doubling(),
        Some("letters") => letters::print(),
        Some("forms") => forms::print(),
        Some("groups") => groups::print(),
        Some("cover") => cover::print(),
        Some("inference") => inference::print(),
        Some("lines") => lines::print(),
        Some("fasta") => fasta::print(),
        _ => panic!("digest, greatest, doubling, letters, forms, groups, cover, inference, lines or fasta"),
    }
}
