//! Runs the same cases through the original Rust and through the proved library, and says how often they differ.
//!
//! `compare [SEED]` prints a line for each entry and fails if there is a difference; `compare until SUBJECT` does so for
//! the entries of one subject up to the first that differs; `compare vectors FOLDER` writes a sample of the original's
//! answers; `compare stack` prints how much stack each function takes. ORACLE and ORACLE_ALT are the programs that
//! oracle/setup has built. `run` does it all.
mod answer;
mod asked;
mod calls;
mod cover;
mod digest;
mod digest_groups;
mod digest_masses;
mod entry;
mod fasta;
mod ffi;
mod fields;
mod forms;
mod guard;
mod letters;
mod masses;
mod model;
mod names;
mod oracle;
mod passes;
mod peptide_letters;
mod peptides;
mod protein_groups;
mod refusals;
mod report_lines;
mod reversal;
mod rng;
mod room;
mod rule_records;
mod rule_texts;
mod sample;
mod shown;
mod small_letters;
mod stack;
mod table;
mod update;
mod vectors;

use entry::{Context, Entry};
use oracle::Oracle;
use std::process::ExitCode;

/// The entries by subject. A new entry is a function of this type, with its line here; quick ones stand first.
const SUBJECTS: &[(&str, &[Entry])] = &[
    ("letters", &[letters::set_operations, letters::first_bad_byte, letters::longest]),
    ("names", &[names::catalogues, names::large_catalogues]),
    (
        "fasta",
        &[
            fasta::limits::name_lengths,
            fasta::limits::every_byte,
            fasta::whole::catalogues,
            fasta::limits::letter_counts,
            fasta::limits::long_stretches,
            fasta::any_call,
            fasta::small_files,
            fasta::changed_files,
            fasta::whole::any_files,
            fasta::beyond::beyond_the_rust,
            fasta::whole::random_files,
            fasta::whole::longest_files,
            fasta::whole::model_files,
        ],
    ),
    (
        "rule texts",
        &[
            rule_texts::parse,
            rule_texts::small_letters,
            rule_texts::parse_alphabets,
            rule_texts::write,
            rule_texts::write_fields,
            rule_texts::text_round_trip,
            rule_texts::rule_round_trip,
            rule_texts::model_parse,
        ],
    ),
    (
        "rule records",
        &[rule_records::variable_test, rule_records::fixed_test, rule_records::read, rule_records::write],
    ),
    ("table", &[table::insertions, table::single_calls, table::model_insertions]),
    (
        "reversal",
        &[
            reversal::of_letters,
            reversal::of_small_letters,
            reversal::of_records,
            reversal::of_small_records,
            reversal::beyond_the_rust,
            reversal::any_letters,
            reversal::any_record,
            reversal::any_digest_letters,
            reversal::any_small_letters,
            reversal::model_letters,
        ],
    ),
    (
        "digest",
        &[
            digest::counts::examples,
            digest::ranges,
            digest::refusals::any_call,
            digest::refusals::any_small_letters,
            digest::small_letters,
            digest::beyond::beyond_the_rust,
            digest::counts::in_each_room,
            digest::counts::on_its_sites,
            digest::small_proteins,
            digest::random_proteins,
            digest::repetitive_proteins,
            digest::long_proteins,
            digest::counts::greatest,
            digest::long_small_letters,
            digest::hostile_proteins,
            digest::model_sites,
            digest::model_digests,
        ],
    ),
    (
        "masses",
        &[
            masses::any_call,
            masses::any_small_letters,
            masses::rust_table,
            masses::any_table,
            masses::small_letters,
            masses::beyond_the_rust,
            masses::model_sums,
        ],
    ),
    (
        "digest masses",
        &[
            digest_masses::any_call,
            digest_masses::single_reasons,
            digest_masses::any_small_letters,
            digest_masses::greatest,
            digest_masses::of_the_rust,
            digest_masses::small_letters,
        ],
    ),
    (
        "peptides",
        &[
            peptides::any_test,
            peptides::small_test,
            peptides::any_reversal,
            peptides::any_small_letters,
            peptides::reversal,
            peptides::small_letters,
            peptides::beyond_the_rust,
            peptides::model_reversal,
        ],
    ),
    (
        "forms",
        &[
            forms::examples,
            forms::refusals::any_call,
            forms::refusals::any_small_letters,
            forms::beyond::beyond_the_rust,
            forms::beyond::rules_without_use,
            forms::small_peptides,
            forms::small_letters,
            forms::random_peptides,
            forms::long_peptides,
            forms::model_forms,
            forms::beyond::longest_lists,
        ],
    ),
    (
        "digest groups",
        &[
            digest_groups::refusals::single_reasons,
            digest_groups::refusals::any_call,
            digest_groups::refusals::any_small_letters,
            digest_groups::small_letters,
            digest_groups::small_lists,
            digest_groups::random_lists,
            digest_groups::long_lists,
            digest_groups::model_lists,
            digest_groups::refusals::large,
            digest_groups::greatest_lists,
        ],
    ),
    (
        "cover",
        &[
            cover::examples,
            cover::refusals::any_call,
            cover::refusals::beyond_the_rust,
            cover::small_graphs,
            cover::random_graphs,
            cover::larger_graphs,
            cover::long_graphs,
            cover::model_marks,
            cover::refusals::large,
            cover::greatest_graphs,
        ],
    ),
    (
        "update",
        &[
            update::examples,
            update::refusals::any_call,
            update::small_changes,
            update::random_changes,
            update::larger_changes,
            update::model_marks,
            update::refusals::large,
            update::greatest_changes,
        ],
    ),
    (
        "protein groups",
        &[
            protein_groups::examples,
            protein_groups::refusals::single_reasons,
            protein_groups::refusals::any_call,
            protein_groups::without_pairs,
            protein_groups::small_lists,
            protein_groups::random_lists,
            protein_groups::larger_lists,
            protein_groups::long_lists,
            protein_groups::model_lists,
            protein_groups::refusals::large,
            protein_groups::greatest_lists,
        ],
    ),
    (
        "report lines",
        &[
            report_lines::refusals::single_reasons,
            report_lines::refusals::any_call,
            report_lines::small_calls,
            report_lines::random_calls,
            report_lines::larger_calls,
            report_lines::long_calls,
            report_lines::model_lines,
            report_lines::refusals::large,
            report_lines::greatest_calls,
        ],
    ),
    ("passes", &[passes::examples, passes::small_passes, passes::larger_passes, passes::annotated_rows]),
    ("stack", &[stack::every_function]),
];

const SEED: u64 = 1;

fn verdict(differences: u64) -> ExitCode {
    ExitCode::from(u8::from(differences > 0))
}

fn compare(context: &Context) -> ExitCode {
    println!("seed {}", context.seed);
    let (mut cases, mut differences) = (0, 0);
    for entry in SUBJECTS.iter().flat_map(|(_, entries)| *entries) {
        let tally = entry(context);
        println!("{tally}");
        cases += tally.cases;
        differences += tally.differences;
    }
    println!("{cases} cases, {differences} differences");
    verdict(differences)
}

/// The line of the entry that differs is the last.
fn compare_until(context: &Context, subject: &str) -> ExitCode {
    let Some((_, entries)) = SUBJECTS.iter().find(|(name, _)| *name == subject) else {
        return complain(&format!("there is no subject {subject}"));
    };
    for entry in *entries {
        let tally = entry(context);
        println!("{tally}");
        if tally.differences > 0 {
            return verdict(tally.differences);
        }
    }
    verdict(0)
}

fn write_vectors(context: &Context, folder: &str) -> ExitCode {
    match vectors::write(context, folder.as_ref()) {
        Ok(()) => ExitCode::SUCCESS,
        Err(e) => complain(&format!("{folder}: {e}")),
    }
}

fn complain(what: &str) -> ExitCode {
    eprintln!("compare: {what}");
    ExitCode::from(2)
}

fn program(variable: &str) -> Option<Oracle> {
    std::env::var(variable).ok().map(Oracle::new)
}

fn main() -> ExitCode {
    let (Some(oracle), Some(oracle_alt)) = (program("ORACLE"), program("ORACLE_ALT")) else {
        return complain("ORACLE and ORACLE_ALT do not name the programs that oracle/setup has built");
    };
    let context = |seed| Context { oracle, oracle_alt, seed };
    let words: Vec<String> = std::env::args().skip(1).collect();
    let words: Vec<&str> = words.iter().map(String::as_str).collect();
    match words[..] {
        [] => compare(&context(SEED)),
        ["until", subject] => compare_until(&context(SEED), subject),
        ["vectors", folder] => write_vectors(&context(SEED), folder),
        ["stack"] => {
            stack::print(&context(SEED));
            ExitCode::SUCCESS
        }
        [seed] => match seed.parse() {
            Ok(seed) => compare(&context(seed)),
            Err(_) => complain("the seed is a number"),
        },
        _ => complain("[SEED], or: until SUBJECT, or: vectors FOLDER, or: stack"),
    }
}
