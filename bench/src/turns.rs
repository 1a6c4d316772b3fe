//! Times of both sides. They take a block of items in turns, round after round; of each side the least time of a block
//! counts, which is the one that was disturbed least.
use std::time::{Duration, Instant};

const LEAST_ROUNDS: usize = 5;
const BLOCK_TIME: Duration = Duration::from_millis(300);
/// After so long no further round is begun.
const LONGEST: Duration = Duration::from_secs(15);

/// Letters of proteins or of peptides.
pub type Block = Vec<String>;

pub trait Sides {
    type Item;
    /// That both sides answer the same for an item; the answer is how many they list.
    fn agree(&mut self, item: &Self::Item) -> usize;
    /// The seconds of the original for a block.
    fn rust(&mut self, block: &[Self::Item]) -> f64;
    fn ours(&mut self, block: &[Self::Item]) -> f64;
}

/// For each item: how many were listed, and the seconds of both sides.
#[derive(Default)]
pub struct Measured {
    pub count: f64,
    pub rust: f64,
    pub ours: f64,
}

/// Whether ours is timed alone, as two archives are held together: a time of the original is then not a number.
fn ours_alone() -> bool {
    std::env::args().nth(2).as_deref() == Some("ours")
}

/// The least time of each side for a block.
fn block_times<S: Sides>(sides: &mut S, block: &[S::Item]) -> (f64, f64) {
    let alone = ours_alone();
    let mut least = (if alone { f64::NAN } else { f64::MAX }, f64::MAX);
    let begun = Instant::now();
    let mut rounds = 0;
    while rounds < LEAST_ROUNDS && begun.elapsed() < LONGEST || begun.elapsed() < BLOCK_TIME {
        if !alone {
            least.0 = least.0.min(sides.rust(block));
        }
        least.1 = least.1.min(sides.ours(block));
        rounds += 1;
    }
    least
}

pub fn measure<S: Sides>(mut sides: S, blocks: &[Vec<S::Item>]) -> Measured {
    let mut sum = Measured::default();
    for block in blocks {
        sum.count += block.iter().map(|item| sides.agree(item)).sum::<usize>() as f64;
        let (rust, ours) = block_times(&mut sides, block);
        sum.rust += rust;
        sum.ours += ours;
    }
    let items = blocks.iter().map(Vec::len).sum::<usize>() as f64;
    Measured { count: sum.count / items, rust: sum.rust / items, ours: sum.ours / items }
}

impl Measured {
    /// A table is headed by what a row is named for, what is listed and for what.
    pub fn print_head(row: &str, listed: &str, text: &str) {
        println!("| {row} | {listed} | Rust, µs/{text} | ours, µs/{text} | ours/Rust |");
        println!("|---|--:|--:|--:|--:|");
    }

    /// With so many digits behind the point of a count, and one more of a time.
    pub fn print_row(&self, name: &str, digits: usize) {
        let Measured { count, rust, ours } = self;
        let (rust, ours, ratio) = (rust * 1e6, ours * 1e6, ours / rust);
        let more = digits + 1;
        println!("| {name} | {count:.digits$} | {rust:.more$} | {ours:.more$} | {ratio:.2} |");
    }
}
