//! Whole files, read as hosts read them: entry by entry into a catalogue and a book.
use super::cases::{self, put_entry, usual};
use super::model::{database, listed, Database, Found, Listed};
use super::said::ask_read;
use super::{difference, small, Shown};
use crate::answer::*;
use crate::asked::{drawn, with_larger, Asked};
use crate::calls;
use crate::digest::model::MOST_LETTERS;
use crate::digest_groups::cases::names;
use crate::digest_groups::model::{name, NAME};
use crate::entry::{Against, Context, Tally};
use crate::rng::Rng;
use crate::room;

/// Where a loop goes on: `next` is above the place and within the file, so that it ends.
fn next_place(found: Found, at: usize, bytes: &[u8]) -> Checked<usize> {
    match found.next > at && found.next <= bytes.len() {
        true => Ok(found.next),
        false => Err(Fault(format!("at {at} it answered next {}", found.next))),
    }
}

/// One call of the loop: the entry that it has put behind the others, if it found one.
fn step(database: &mut Database, bytes: &[u8], at: usize) -> Checked<Answer<Option<Found>>> {
    let (names, letters) = database.left();
    let said = calls::fasta::entry(bytes, at, names, letters)?;
    names.copy_from_slice(&said.name);
    letters.copy_from_slice(&said.letters);
    match said.answer {
        Ok(Some(Found { count, .. })) if names.len() < NAME || letters.len() < count as usize => {
            Err(Fault(format!("it accepted {count} letters in {} and {}", names.len(), letters.len())))
        }
        answer => Ok(answer),
    }
}

/// Reads entries until nothing is left, or one is refused.
fn read_file(bytes: &[u8], names: &[u8], letters: &[u8]) -> Checked<Database> {
    let mut database = Database::new(names, letters);
    let mut at = 0;
    loop {
        match step(&mut database, bytes, at)? {
            Ok(None) => return Ok(database),
            Ok(Some(found)) => {
                database.add(found.count);
                at = next_place(found, at, bytes)?;
            }
            Err(refusal) => return Ok(Database { end: Err(refusal), ..database }),
        }
    }
}

/// Two databases, and of their names and letters what differs.
fn differing(ours: Database, wanted: &Database) -> (Database, Database) {
    let (names, wanted_names) = difference(&ours.names, &wanted.names);
    let (letters, wanted_letters) = difference(&ours.letters, &wanted.letters);
    let wanted = Database { names: wanted_names, letters: wanted_letters, ..wanted.clone() };
    (Database { names, letters, ..ours }, wanted)
}

/// Holds a file with room and, once in four times, one without enough for the names, the letters or both.
pub fn hold_file(tally: &mut Tally, rng: &mut Rng, bytes: &[u8], listed: &Listed) {
    let all_names = NAME * listed.entries.len();
    let all_letters = listed.entries.iter().map(|entry| entry.letters.len()).sum();
    for few in room::turns(rng, 4) {
        let (few_names, few_letters) = room::either(rng, *few);
        let names = room::bytes(rng, all_names, few_names);
        let letters = room::bytes(rng, all_letters, few_letters);
        let (ours, wanted) = (read_file(bytes, &names, &letters), database(listed, &names, &letters));
        tally.case_in_part(&(Shown(bytes), names.len(), letters.len()), ours, &wanted, differing);
    }
}

const FILES: Asked<Vec<u8>, Listed> = Asked {
    ask: |context, files| ask_read(&context.oracle, files),
    hold: |tally, rng, file, said| hold_file(tally, rng, file, &said),
    rooms: "fasta, rooms",
};

fn agreed_files(rng: Rng, count: usize) -> impl Iterator<Item = Vec<u8>> {
    with_larger(rng, count, 5_000, cases::longer, cases::agreed)
}

pub fn random_files(context: &Context) -> Tally {
    FILES.entry(context, "fasta: random files").made(|rng| agreed_files(rng, 300_000))
}

/// Entries of as many letters as there may be, and of one less.
pub fn longest_files(context: &Context) -> Tally {
    let counts = [MOST_LETTERS, MOST_LETTERS - 1].repeat(6).into_iter();
    FILES
        .entry(context, "fasta: the longest")
        .one_by_one(|mut rng| counts.map(move |count| cases::exactly(&mut rng, count)))
}

pub fn model_files(context: &Context) -> Tally {
    let files = |rng| agreed_files(rng, 60_000);
    FILES.entry(context, "model: fasta").model(files, |tally, file, said| {
        tally.case(&Shown(file), &Ok(listed(file)), &said);
    })
}

/// All small files and any others, which may be refused at any entry: the loop ends for all of them.
pub fn any_files(context: &Context) -> Tally {
    let mut tally = Tally::new("fasta: any whole file", Against::Model);
    let rng = &mut context.rng("whole sequence files");
    for file in small().into_iter().chain(drawn(context.rng("any sequence files"), 100_000, cases::any)) {
        hold_file(&mut tally, rng, &file, &listed(&file));
    }
    tally
}

/// A catalogue, in which a name stands twice if that is asked, and then the index of the second.
fn catalogue(rng: &mut Rng, twice: bool) -> (Vec<u8>, Option<usize>) {
    let count = 2 + rng.below(12);
    let mut names = names(rng, count);
    if !twice {
        return (names, None);
    }
    let second = 1 + rng.below(count - 1);
    let first = NAME * rng.below(second);
    names.copy_within(first..first + NAME, NAME * second);
    (names, Some(second))
}

fn file_of(rng: &mut Rng, names: &[u8]) -> Vec<u8> {
    let kind = usual(rng);
    let mut file = Vec::new();
    for record in names.chunks(NAME) {
        put_entry(rng, &kind, &mut file, name(record));
    }
    file
}

/// The names of a file in a row, as they are read, and what their test says.
fn tested_names(file: &[u8], room: usize) -> Checked<(Vec<u8>, Answer<()>)> {
    let database = read_file(file, &vec![0xee; room], &vec![0xee; file.len()])?;
    let names = &database.names[..database.used().0];
    Ok((names.to_vec(), calls::names_test(names)?))
}

/// "An equal name is refusal 13 only where it enters the catalogue": the reader takes it, and the test of the catalogue that is
/// read tells it.
pub fn catalogues(context: &Context) -> Tally {
    let mut tally = Tally::new("fasta: catalogues", Against::Model);
    let rng = &mut context.rng("catalogues of sequence files");
    for number in 0..40_000 {
        let (names, second) = catalogue(rng, number % 2 == 1);
        let file = file_of(rng, &names);
        let wanted = second.map_or(Ok(()), |second| refuse(REPEATED_NAME, second));
        tally.case(&Shown(&file), &tested_names(&file, names.len()), &(names, wanted));
    }
    tally
}
