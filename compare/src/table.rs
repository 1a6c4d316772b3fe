//! The table of modifications: insertions one after the other against the original, single calls against the model.
pub mod cases;

use crate::answer::*;
use crate::calls;
use crate::entry::{Against, Context, Tally};
use crate::model::{self, Modification, NO_NAME, RECORD};
use crate::oracle::Oracle;
use crate::rng::Rng;
use cases::{call, sequences, Call};

/// What the original says of the insertions of a sequence into an empty table, and the table that it has then.
pub struct Said {
    /// None where the table is full.
    pub ids: Vec<Option<u32>>,
    table: Vec<Modification>,
}

fn write_item(item: &Modification) -> String {
    let name = if item.name == NO_NAME { "~".into() } else { format!("n{}", item.name) };
    format!("{:08x}.{name}", item.mass_bits)
}

fn read_item(item: &str) -> Modification {
    let (mass, name) = item.split_once('.').expect("a mass and a name");
    let name = if name == "~" { NO_NAME } else { name[1..].parse().expect("the number of a name") };
    Modification { mass_bits: u32::from_str_radix(mass, 16).expect("a bit pattern"), name }
}

fn list(field: &str, separator: char) -> impl Iterator<Item = &str> {
    field.split(separator).filter(|item| *item != "-")
}

impl Said {
    fn read(answer: &str) -> Said {
        let (ids, table) = answer.split_once(' ').unwrap_or_else(|| panic!("the oracle said {answer}"));
        let id = |id: &str| (id != "E7").then(|| id.parse().expect("an id"));
        Said { ids: list(ids, ',').map(id).collect(), table: list(table, ';').map(read_item).collect() }
    }

    fn bytes(&self) -> Vec<u8> {
        self.table.iter().flat_map(|entry| entry.bytes()).collect()
    }
}

pub fn ask(oracle: &Oracle, sequences: &[Vec<Modification>]) -> Vec<Said> {
    let line = |sequence: &Vec<Modification>| {
        let items: Vec<String> = sequence.iter().map(write_item).collect();
        format!("MODS\t{}", if items.is_empty() { "-".into() } else { items.join(";") })
    };
    let lines: Vec<String> = sequences.iter().map(line).collect();
    let said: Vec<Said> = oracle.ask(&lines).iter().map(|answer| Said::read(answer)).collect();
    let all_answered = said.iter().zip(sequences).all(|(said, sequence)| said.ids.len() == sequence.len());
    assert!(all_answered, "the oracle left insertions without an answer");
    said
}

/// One insertion, and what the original said of it.
struct Step {
    count: u32,
    given: Modification,
    id: Option<u32>,
}

impl Step {
    /// The answer and the table afterwards that follow from the original's id, for a table of some length.
    fn wanted(&self, table: &[u8]) -> Filled<u32> {
        let at = self.count as usize * RECORD;
        let mut buffer = table.to_vec();
        let answer = match self.id {
            None => refuse(TABLE_FULL, 0),
            Some(id) if id <= self.count => Ok(id),
            Some(_) if table.len() < at + RECORD => refuse(NO_ROOM, 0),
            Some(id) => {
                buffer[at..at + RECORD].copy_from_slice(&self.given.bytes());
                Ok(id)
            }
        };
        Filled { answer, buffer }
    }

    fn ours(&self, table: &[u8]) -> Checked<Filled<u32>> {
        calls::modification_id(table, self.count, self.given.mass_bits, self.given.name)
    }
}

/// Holds each insertion against the original's: into the table, and into its stretch without room for one more.
/// The table that results is the one that the answers describe, so that one difference makes no others.
fn follow(tally: &mut Tally, rng: &mut Rng, sequence: &[Modification], said: &Said, spare: usize) {
    let mut table = rng.bytes(said.table.len() * RECORD + spare);
    let mut count = 0;
    for (given, id) in sequence.iter().zip(&said.ids) {
        let step = Step { count, given: *given, id: *id };
        let wanted = step.wanted(&table);
        tally.case(&(count, given, &table), &step.ours(&table), &wanted);
        if rng.once_in(4) {
            let short = &table[..table.len().min(count as usize * RECORD + rng.below(RECORD))];
            tally.case(&(count, given, short), &step.ours(short), &step.wanted(short));
        }
        table = wanted.buffer;
        count = count.max(id.unwrap_or(0));
    }
    let entries = table[..count as usize * RECORD].to_vec();
    tally.case(&sequence, &Ok(entries), &said.bytes());
}

pub fn insertions(context: &Context) -> Tally {
    let mut tally = Tally::new("table: insertions", Against::Rust);
    let rng = &mut context.rng("insertions");
    let sequences = sequences(rng);
    for (sequence, said) in sequences.iter().zip(ask(&context.oracle, &sequences)) {
        let spare = rng.pick(&[0, 0, 1, 7, 8, 9, 100]);
        follow(&mut tally, rng, sequence, &said, spare);
    }
    tally
}

/// The model's ids, on the same sequences.
pub fn model_insertions(context: &Context) -> Tally {
    let mut tally = Tally::new("model: table, insertions", Against::Rust);
    let sequences = sequences(&mut context.rng("insertions"));
    for (sequence, said) in sequences.iter().zip(ask(&context.oracle, &sequences)) {
        let mut table = vec![0; 256 * RECORD];
        let mut count = 0;
        for (given, id) in sequence.iter().zip(&said.ids) {
            let filled = model::modification_id(&table, count, *given);
            let wanted = id.ok_or(Refusal { number: TABLE_FULL, place: 0 });
            tally.case(&(count, given), &Ok(filled.answer), &wanted);
            count = count.max(filled.answer.unwrap_or(0));
            table = filled.buffer;
        }
    }
    tally
}

pub fn single_calls(context: &Context) -> Tally {
    let mut tally = Tally::new("table: any call", Against::Model);
    let rng = &mut context.rng("calls on tables");
    for _ in 0..150_000 {
        let Call { table, count, given } = call(rng);
        let ours = calls::modification_id(&table, count, given.mass_bits, given.name);
        let wanted = model::modification_id(&table, count, given);
        tally.case(&(&table, count, given), &ours, &wanted);
    }
    tally
}
