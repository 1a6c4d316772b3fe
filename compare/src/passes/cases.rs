//! The pairs, names and peptides that are tried together.
use crate::cover::model::Edge;
use crate::digest_groups::cases::padded;
use crate::digest_groups::model::{name, NAME};
use crate::protein_groups::cases as pairs;
use crate::protein_groups::p10 as groups_p10;
use crate::protein_groups::said::{with_pairs, Shown};
use crate::report_lines::cases::{catalogue, tag};
use crate::report_lines::model::{Call, Line, MOST_TAG};
use crate::rng::Rng;

#[derive(Clone, Debug)]
pub struct Pass {
    pub pairs: Vec<Edge>,
    pub flags: Vec<u8>,
    pub names: Vec<u8>,
    /// The peptides that are grouped; all get a line.
    pub grouped: Vec<usize>,
    pub tag: Vec<u8>,
    pub generated: u32,
}

impl Pass {
    pub fn name(&self, protein: u32) -> &[u8] {
        name(&self.names[protein as usize * NAME..][..NAME])
    }

    pub fn proteins_of(&self, peptide: usize) -> Vec<u32> {
        self.pairs.iter().filter(|pair| pair.0 as usize == peptide).map(|pair| pair.1).collect()
    }

    /// The call for the line of a peptide, given the members of the groups and their marks.
    pub fn call(&self, peptide: usize, members: &[u8], marks: &[u8]) -> Call {
        Call {
            names: self.names.clone(),
            members: members.to_vec(),
            marks: marks.to_vec(),
            proteins: self.proteins_of(peptide),
            decoy: self.flags[peptide].into(),
            tag: self.tag.clone(),
            generated: self.generated,
        }
    }

    /// What the original writes for a peptide without a group.
    pub fn all_names(&self, peptide: usize) -> Line {
        let tag: &[u8] = if self.flags[peptide] == 1 && self.generated == 1 { &self.tag } else { &[] };
        let proteins = self.proteins_of(peptide);
        let names: Vec<Vec<u8>> =
            proteins.iter().map(|protein| [tag, self.name(*protein)].concat()).collect();
        Line { text: names.join(&b';'), groups: proteins.len() as u32 }
    }

    /// What is grouped.
    pub fn taking(&self) -> Shown {
        let grouped = |pair: &&Edge| self.grouped.contains(&(pair.0 as usize));
        let pairs = self.pairs.iter().filter(grouped).copied().collect();
        (pairs, self.flags.clone(), self.names.len() / NAME)
    }

    /// Bytes that are enough for any line: each protein at most twice, as a target and as a decoy.
    pub fn room(&self) -> usize {
        2 * (self.names.len() / NAME) * (MOST_TAG + NAME + 1)
    }
}

/// All peptides with a pair are grouped, or some of them.
fn pass(rng: &mut Rng, (pairs, flags, proteins): Shown) -> Pass {
    let mut tag = tag(rng);
    if tag == b"-" {
        tag.clear();
    }
    let names = catalogue(rng, proteins, &tag, false);
    let mut grouped = with_pairs(&pairs, &flags);
    if rng.once_in(3) {
        grouped.retain(|_| rng.once_in(2));
    }
    Pass { pairs, flags, names, grouped, tag, generated: rng.below(2) as u32 }
}

pub fn small(rng: &mut Rng) -> Pass {
    let shown = pairs::random(rng);
    pass(rng, shown)
}

pub fn larger(rng: &mut Rng) -> Pass {
    let shown = pairs::larger(rng);
    pass(rng, shown)
}

/// Proteins are named for their numbers.
pub fn p10() -> Pass {
    let ((pairs, flags, proteins), _) = groups_p10();
    let names = (0..proteins).flat_map(|number| padded(format!("p{number}").as_bytes())).collect();
    let grouped = with_pairs(&pairs, &flags);
    Pass { pairs, flags, names, grouped, tag: b"rev_".to_vec(), generated: 1 }
}
