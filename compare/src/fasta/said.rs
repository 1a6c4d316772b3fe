//! What the original says of a sequence file. It is asked about the file as it stands, as names keep their small letters; the
//! letters that it answers are read as capitals.
use super::model::{Entry, Listed};
use crate::model::capitals;
use crate::oracle::{hex, panicked, unhex, Oracle};

#[derive(PartialEq)]
pub enum Said {
    /// All entries, none of which is refused.
    Reads(Listed),
    Panics,
    /// It reads UTF-8 only.
    NotUtf8,
}

/// The letters of an entry are behind the last `=`, as a name may hold one.
fn read_entry(item: &str) -> Entry {
    let (name, letters) = item.rsplit_once('=').expect("an entry of the oracle");
    Entry { name: name.into(), letters: capitals(&unhex(letters)) }
}

fn read(answer: &str) -> Said {
    match answer {
        "NOTUTF8" => Said::NotUtf8,
        _ if panicked(answer) => Said::Panics,
        "-" => Said::Reads(Listed { entries: vec![], end: Ok(()) }),
        _ => Said::Reads(Listed { entries: answer.split(' ').map(read_entry).collect(), end: Ok(()) }),
    }
}

/// One answer for each file.
pub fn ask(oracle: &Oracle, files: &[Vec<u8>]) -> Vec<Said> {
    let lines: Vec<String> = files.iter().map(|file| format!("FASTA\t{}", hex(file))).collect();
    oracle.ask(&lines).iter().map(|answer| read(answer)).collect()
}

/// The same of files that the original reads.
pub fn ask_read(oracle: &Oracle, files: &[Vec<u8>]) -> Vec<Listed> {
    let listed = |said| match said {
        Said::Reads(listed) => listed,
        _ => panic!("the original reads these files"),
    };
    ask(oracle, files).into_iter().map(listed).collect()
}
