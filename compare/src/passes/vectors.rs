//! A sample of the original's lines after grouping and cover. Numbers of groups are made of the lines: their `;` plus one, without
//! those in names.
use super::cases::{self, Pass};
use super::said::{ask, read};
use crate::asked::drawn;
use crate::cover::model::marks;
use crate::entry::Context;
use crate::fields::{digits_field, edges_field, list_field, names_field};
use crate::oracle::hex;
use crate::protein_groups::model::{groups, Member};
use crate::protein_groups::said::with_pairs;
use crate::report_lines::model::{applying, semicolons_in_names, Line};
use crate::rng::Rng;
use crate::sample::sample;

const PASSES: usize = 900;

/// The number of groups in each line: which groups there are, the model says.
fn counts(pass: &Pass, lines: &[Line]) -> Vec<u32> {
    let groups = groups(&pass.pairs, &pass.flags);
    let marks = marks(&groups.edges, groups.groups as usize, groups.metas as usize);
    let members: Vec<u8> = groups.members.iter().flat_map(Member::bytes).collect();
    let count = |(peptide, line): (usize, &Line)| {
        let call = pass.call(peptide, &members, &marks);
        line.groups - semicolons_in_names(&call, &applying(&call))
    };
    lines.iter().enumerate().map(count).collect()
}

fn line(pass: &Pass, lines: &[Line]) -> String {
    let (names, flags) = (names_field(&pass.names), digits_field(&pass.flags));
    let given = format!("{names} {flags} {} {} {}", edges_field(&pass.pairs), hex(&pass.tag), pass.generated);
    let texts = list_field(lines.iter().map(|line| hex(&line.text)), ";");
    format!("{given} {texts} {}\n", list_field(counts(pass, lines), "."))
}

/// All peptides with a pair are grouped.
fn some(rng: &mut Rng) -> Pass {
    let pass = cases::small(rng);
    Pass { grouped: with_pairs(&pass.pairs, &pass.flags), ..pass }
}

pub fn lines(context: &Context) -> String {
    let mut passes = vec![cases::p10()];
    let drawn = drawn(context.rng("vectors: passes"), PASSES, some);
    passes.extend(drawn.filter(|pass| !pass.flags.is_empty()));
    let answers = ask(&context.oracle, &passes);
    let all = passes.iter().zip(answers);
    sample(all.map(|(pass, answer)| line(pass, &read(&answer, pass.flags.len()))))
}
