//! One case a line on standard input, one answer a line on standard output: PROTOCOL.md.
mod digests;
mod fields;
mod peptides;
mod proteins;
mod rules;

use std::any::Any;
use std::io::{BufRead, BufWriter, Write};
use std::panic::{catch_unwind, AssertUnwindSafe};

fn answer(line: &str) -> String {
    let fields: Vec<&str> = line.split('\t').collect();
    let f = &fields[1..];
    match fields[0] {
        "SITES" => digests::sites(f),
        "DIGEST" => digests::digest(f),
        "GROUPD" => digests::group(f),
        "REVD" => digests::reverse(f),
        "PARSE" => rules::parse(f),
        "WRITE" => rules::write(f),
        "MODS" => rules::insertions(f),
        "MASS" => peptides::mass(f),
        #[cfg(feature = "altmass")]
        "SETMASS" => peptides::set_masses(f),
        "APPLY" => peptides::apply(f),
        "REVP" => peptides::reverse(f),
        "DISPLAY" => peptides::display(f),
        "GROUPP" => proteins::group(f),
        "COVER" => proteins::cover(f),
        "REPORT" => proteins::report(f),
        "LINES" => proteins::lines(f),
        "ANNOT" => proteins::annotate(f),
        "FASTA" => proteins::fasta(f),
        other => format!("UNKNOWN {other}"),
    }
}

fn panic_line(cause: Box<dyn Any + Send>) -> String {
    let message = match cause.downcast_ref::<String>() {
        Some(text) => text.as_str(),
        None => cause.downcast_ref::<&str>().copied().unwrap_or_default(),
    };
    format!("PANIC {}", message.replace('\n', " "))
}

fn main() {
    std::panic::set_hook(Box::new(|_| {}));
    let mut out = BufWriter::new(std::io::stdout().lock());
    for line in std::io::stdin().lock().lines() {
        let line = line.unwrap();
        let answer = catch_unwind(AssertUnwindSafe(|| answer(&line))).unwrap_or_else(panic_line);
        writeln!(out, "{answer}").unwrap();
    }
}
