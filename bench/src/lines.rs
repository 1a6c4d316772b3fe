//! Times report lines: single calls of `sendumaal_report_line`, which is lent and tests the whole catalogue, all members and all
//! marks each time, and the original's look-up in a table that is made before.
use crate::clock::{least, seconds};
use crate::ffi::sendumaal_report_line;
use crate::inference::{sets, Ours, Set};
use crate::records::MEMBER;
use crate::rng::Rng;
use oracle::protein_grouping::probe;
use std::hint::black_box;

const TAG: &[u8] = b"rev_";
const LINES: usize = 1000;
const CALLS: usize = 7;

/// What every line of a set is written from.
struct Given<'a> {
    set: &'a Set,
    members: Vec<u8>,
    marks: Vec<u8>,
}

impl Given<'_> {
    /// The line of a peptide at the front of the buffer: its length.
    fn line(&self, peptide: usize, line: &mut [u8]) -> usize {
        let Given { set, members, marks } = black_box(self);
        let proteins = &set.shown[peptide];
        let (mut bytes, mut groups, mut place) = (0, 0, 0);
        #[rustfmt::skip]
        let number = unsafe {
            sendumaal_report_line(
                set.names.as_ptr(), set.names.len(), members.as_ptr(), members.len(), marks.as_ptr(), marks.len(),
                proteins.as_ptr(), proteins.len(), set.flags[peptide].into(), TAG.as_ptr(), TAG.len(), 1,
                line.as_mut_ptr(), line.len(), &mut bytes, &mut groups, &mut place,
            )
        };
        assert_eq!(number, 0, "ours refuses");
        black_box(line);
        bytes as usize
    }
}

/// The least time of some calls, for peptides that are far from each other; their lines are the original's.
fn ours(given: &Given, lookup: &probe::Lookup) -> f64 {
    let mut line = vec![1; 1 << 20];
    let mut least = f64::MAX;
    for call in 0..CALLS {
        let peptide = call * given.set.shown.len() / CALLS;
        let mut bytes = 0;
        least = least.min(seconds(|| bytes = given.line(peptide, &mut line)));
        let theirs = probe::line(&given.set.rust, lookup, peptide as u32).unwrap_or_default();
        assert!(line[..bytes] == *theirs.as_bytes(), "the lines of peptide {peptide} differ");
    }
    least
}

/// The time of a line, of many.
fn rust(set: &Set, lookup: &probe::Lookup) -> f64 {
    let seconds = least(CALLS, || {
        for peptide in 0..LINES as u32 {
            black_box(probe::line(black_box(&set.rust), lookup, peptide));
        }
    });
    seconds / LINES as f64
}

pub fn print() {
    println!("| set | names | members | Rust, one of 1,000 lines, µs | ours, one line, µs |");
    println!("|---|--:|--:|--:|--:|");
    for set in sets(&mut Rng::new(crate::SEED, "benchmark of protein groups")) {
        let (members, marks) = Ours::new(&set).members_and_marks(&set);
        let lookup = probe::lookup(&set.rust, set.peptides());
        let given = Given { set: &set, members, marks };
        let (ours, rust) = (ours(&given, &lookup) * 1e6, rust(&set, &lookup) * 1e6);
        println!(
            "| {} | {} | {} | {rust:.2} | {ours:.2} |",
            set.name,
            set.proteins(),
            given.members.len() / MEMBER
        );
    }
}
