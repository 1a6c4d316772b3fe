//! The original Rust as a child process: lines in, lines out (oracle/PROTOCOL.md).
use std::io::{self, BufRead, BufReader, BufWriter, Write};
use std::process::{Child, Command, Stdio};
use std::thread;

pub struct Oracle {
    program: String,
}

impl Oracle {
    pub fn new(program: String) -> Oracle {
        Oracle { program }
    }

    /// One answer for each line.
    pub fn ask(&self, lines: &[String]) -> Vec<String> {
        let answers = self.converse(lines).unwrap_or_else(|e| panic!("the oracle {}: {e}", self.program));
        assert_eq!(answers.len(), lines.len(), "the oracle {} left lines without an answer", self.program);
        answers
    }

    /// Lines are written by a thread of their own: a pipe that nobody reads fills up.
    fn converse(&self, lines: &[String]) -> io::Result<Vec<String>> {
        let mut child = self.start()?;
        let input = child.stdin.take().expect("a pipe");
        let output = child.stdout.take().expect("a pipe");
        let answers = thread::scope(|scope| {
            let writer = scope.spawn(|| write_lines(input, lines));
            let answers: io::Result<Vec<String>> = BufReader::new(output).lines().collect();
            writer.join().expect("the writer").and(answers)
        })?;
        match child.wait()?.success() {
            true => Ok(answers),
            false => Err(io::Error::other("it failed")),
        }
    }

    fn start(&self) -> io::Result<Child> {
        Command::new(&self.program).stdin(Stdio::piped()).stdout(Stdio::piped()).spawn()
    }
}

fn write_lines(pipe: impl Write, lines: &[String]) -> io::Result<()> {
    let mut pipe = BufWriter::new(pipe);
    for line in lines {
        writeln!(pipe, "{line}")?;
    }
    pipe.flush()
}

/// So many cases are asked about at a time: the answers to all would fill the memory.
const AT_ONCE: usize = 5000;

pub fn in_batches<T>(mut cases: impl Iterator<Item = T>, mut each: impl FnMut(&[T])) {
    loop {
        let batch: Vec<T> = cases.by_ref().take(AT_ONCE).collect();
        match batch.is_empty() {
            true => return,
            false => each(&batch),
        }
    }
}

pub fn panicked(answer: &str) -> bool {
    answer.starts_with("PANIC")
}

/// An answer that is no panic.
pub fn answered(answer: &str) -> &str {
    assert!(!panicked(answer), "the oracle said {answer}");
    answer
}

/// A text as a field of a line.
pub fn or_dash(text: String) -> String {
    match text.is_empty() {
        true => "-".into(),
        false => text,
    }
}

/// Bytes as a field of a line.
pub fn hex(bytes: &[u8]) -> String {
    or_dash(bytes.iter().map(|byte| format!("{byte:02x}")).collect())
}

pub fn unhex(field: &str) -> Vec<u8> {
    let digits = if field == "-" { "" } else { field };
    let byte = |at: usize| u8::from_str_radix(&digits[at..at + 2], 16).expect("hexadecimal");
    (0..digits.len()).step_by(2).map(byte).collect()
}
