//! Whole passes: groups of proteins, their cover, and the lines of all peptides, against the original's.
pub mod cases;
pub mod said;
pub mod vectors;

use crate::answer::{Answer, Checked, Fault};
use crate::asked::{with_larger, Asked};
use crate::calls::{cover as covers, protein_groups, report_lines};
use crate::cover::model as cover;
use crate::entry::{Against, Context, Tally};
use crate::protein_groups::call;
use crate::protein_groups::model::{MEMBER, MOST_MEMBERS};
use crate::report_lines::model::{applying, semicolons_in_names, Line};
use crate::report_lines::SEMICOLONS;
use crate::rng::Rng;
use cases::Pass;
use said::{ask, ask_of_rows, read, read_rows};

fn accepted<T>(answer: Answer<T>) -> Checked<T> {
    answer.map_err(|refusal| Fault(format!("it refused: {refusal:?}")))
}

/// The members, and the marks of their groups.
fn covered(rng: &mut Rng, pass: &Pass) -> Checked<(Vec<u8>, Vec<u8>)> {
    let shown = pass.taking();
    let most = (2 * shown.2).min(MOST_MEMBERS);
    let (edges, members) = (vec![0; shown.0.len() * cover::EDGE], vec![0; most * MEMBER]);
    let grouped = protein_groups::group_proteins(&call(rng, &shown), &edges, &members)?;
    let sizes = accepted(grouped.answer)?;
    let [groups, metas, edges, members] =
        [sizes.groups, sizes.metas, sizes.edges, sizes.members].map(|count| count as usize);
    let work = vec![7; cover::work_for(groups, metas, edges)];
    let call = cover::Call { edges: grouped.edges[..edges * cover::EDGE].to_vec(), groups, metas, work };
    let marks = covers::cover(&call, &vec![9; groups])?;
    accepted(marks.answer)?;
    Ok((grouped.members[..members * MEMBER].to_vec(), marks.buffer))
}

/// The lines of all peptides, counted by the original's formula: with the `;` in names.
fn lines(tally: &mut Tally, rng: &mut Rng, pass: &Pass) -> Checked<Vec<Line>> {
    let (members, marks) = covered(rng, pass)?;
    let mut lines = Vec::new();
    let mut some_in_names = false;
    for peptide in 0..pass.flags.len() {
        let call = pass.call(peptide, &members, &marks);
        let said = report_lines::report_line(&call, &vec![0xee; pass.room()])?;
        let sizes = accepted(said.answer)?;
        let in_names = semicolons_in_names(&call, &applying(&call));
        some_in_names |= in_names > 0;
        let text = said.buffer[..sizes.bytes as usize].to_vec();
        lines.push(Line { text, groups: sizes.groups + in_names });
    }
    if some_in_names {
        tally.intended(SEMICOLONS);
    }
    Ok(lines)
}

const PASSES: Asked<Pass> = Asked {
    ask: |context, passes| ask(&context.oracle, passes),
    hold: |tally, rng, pass, answer| {
        let ours = lines(tally, rng, pass);
        tally.case(pass, &ours, &read(&answer, pass.flags.len()));
    },
    rooms: "passes, work memory",
};

pub fn small_passes(context: &Context) -> Tally {
    PASSES.entry(context, "passes: small").drawn(60_000, cases::small)
}

pub fn larger_passes(context: &Context) -> Tally {
    PASSES.entry(context, "passes: larger").drawn(2000, cases::larger)
}

/// P10: the cover of its groups is {10}.
pub fn examples(context: &Context) -> Tally {
    let mut tally = Tally::new("passes: P10", Against::Rust);
    let pass = cases::p10();
    let lines_of = |peptide: usize| match peptide {
        0 => Line { text: vec![], groups: 0 },
        _ => Line { text: b"p10".to_vec(), groups: 1 },
    };
    let wanted: Vec<Line> = (0..4).map(lines_of).collect();
    let answer = ask(&context.oracle, std::slice::from_ref(&pass));
    tally.case(&pass, &Ok(read(&answer[0], 4)), &wanted);
    let ours = lines(&mut tally, &mut context.rng("passes, P10"), &pass);
    tally.case(&pass, &ours, &wanted);
    tally
}

/// The lines of all peptides, where none is written as the original does it: with the names of all proteins.
fn rows(tally: &mut Tally, rng: &mut Rng, pass: &Pass) -> Checked<Vec<Line>> {
    let row = |(peptide, line): (usize, Line)| if line.groups == 0 { pass.all_names(peptide) } else { line };
    Ok(lines(tally, rng, pass)?.into_iter().enumerate().map(row).collect())
}

/// The rows that the original's public function annotates.
const ROWS: Asked<Pass> = Asked {
    ask: |context, passes| ask_of_rows(&context.oracle, passes),
    hold: |tally, rng, pass, answer| {
        let ours = rows(tally, rng, pass);
        tally.case(pass, &ours, &read_rows(&answer, pass.flags.len()));
    },
    rooms: "passes, work memory of rows",
};

pub fn annotated_rows(context: &Context) -> Tally {
    ROWS.entry(context, "passes: rows").made(|rng| with_larger(rng, 30_000, 50, cases::larger, cases::small))
}
