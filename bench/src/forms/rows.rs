//! What is timed: the forms of peptides as proteins have them, and of peptides with more choices than can be walked.
use crate::proteins;
use crate::rng::Rng;
use crate::turns::Block;

/// A variable rule on a residue: its letter, and how often it may be used.
#[derive(Clone, Copy)]
pub struct Rule {
    pub letter: u8,
    pub limit: u32,
}

pub const NO_LIMIT: u32 = u32::MAX;

pub struct Rules {
    pub variable: Vec<Rule>,
    /// The letters of fixed rules on residues.
    pub fixed: Vec<u8>,
    /// The combination limit.
    pub limit: u32,
}

const BLOCK: usize = 100;
const BLOCKS: usize = 5;
const SHORTEST: usize = 7;
const LONGEST: usize = 30;

fn peptide(rng: &mut Rng) -> String {
    let length = SHORTEST + rng.below(LONGEST - SHORTEST + 1);
    proteins::letters(rng, length)
}

fn row(rng: &mut Rng, letters: &str, limit: u32) -> (String, Rules, Vec<Block>) {
    let block = |rng: &mut Rng| (0..BLOCK).map(|_| peptide(rng)).collect();
    let words: Vec<String> = letters.chars().map(String::from).collect();
    let variable = letters.bytes().map(|letter| Rule { letter, limit: NO_LIMIT }).collect();
    let rules = Rules { variable, fixed: vec![b'C'], limit };
    (format!("{}, {limit}", words.join(" ")), rules, (0..BLOCKS).map(|_| block(rng)).collect())
}

/// M alone, and beside it S, T and Y; C is fixed.
pub fn rows(rng: &mut Rng) -> Vec<(String, Rules, Vec<Block>)> {
    [("M", 2), ("M", 3), ("MSTY", 2), ("MSTY", 3)].map(|(letters, limit)| row(rng, letters, limit)).into()
}

/// A single peptide of 64 letters with 16 rules.
pub struct Extreme {
    pub name: String,
    pub rules: Rules,
    pub letters: String,
}

fn extreme(what: &str, variable: Vec<Rule>, letters: String, limit: u32) -> Extreme {
    Extreme { name: format!("{what}, {limit}"), rules: Rules { variable, fixed: vec![], limit }, letters }
}

fn equal(rule_limit: u32, limit: u32) -> Extreme {
    let what = format!("64 times A, 16 times the rule A of limit {rule_limit}");
    extreme(&what, vec![Rule { letter: b'A', limit: rule_limit }; 16], "A".repeat(64), limit)
}

fn different(limit: u32) -> Extreme {
    let letters = "ACDEFGHIKLMNPQRS";
    let variable = letters.bytes().map(|letter| Rule { letter, limit: 1 }).collect();
    extreme("16 letters four times each, a rule of limit 1 for each", variable, letters.repeat(4), limit)
}

/// Three rules of limit 1 are used up by many choices, behind which nothing passes any more.
fn used_up(limit: u32) -> Extreme {
    let rule = |limit: u32| Rule { letter: b'A', limit };
    let variable = [vec![rule(1); 3], vec![rule(0); 13]].concat();
    extreme(
        "64 times A, 3 times the rule A of limit 1 and 13 times of limit 0",
        variable,
        "A".repeat(64),
        limit,
    )
}

/// These have up to C(1024, 8) choices, of which nearly all use a slot twice or a rule above its limit.
pub fn extremes() -> Vec<Extreme> {
    vec![
        equal(0, 8),
        equal(1, 1),
        equal(1, 2),
        equal(1, 8),
        used_up(8),
        different(2),
        different(3),
        different(8),
    ]
}
