//! What an entry of the comparison is given, and what it reports.
use crate::answer::{Checked, Fault};
use crate::oracle::Oracle;
use crate::rng::Rng;
use std::fmt::{self, Debug, Display};

pub struct Context {
    pub oracle: Oracle,
    /// Its masses can be set.
    pub oracle_alt: Oracle,
    pub seed: u64,
}

impl Context {
    pub fn rng(&self, stream: &str) -> Rng {
        Rng::new(self.seed, stream)
    }
}

/// A comparison of one function, or of a few that belong together.
pub type Entry = fn(&Context) -> Tally;

/// Who else answers the cases. The original is asked about letters as capitals; the model is document 01, and what document 02
/// adds, written in Rust anew, for what the original does not have.
#[derive(Clone, Copy)]
pub enum Against {
    Rust,
    Model,
}

impl Display for Against {
    fn fmt(&self, f: &mut fmt::Formatter<'_>) -> fmt::Result {
        f.pad(match self {
            Against::Rust => "Rust",
            Against::Model => "model",
        })
    }
}

/// The differing cases that are printed.
const SHOWN: usize = 5;

pub struct Tally {
    name: &'static str,
    against: Against,
    pub cases: u64,
    intended: Vec<(&'static str, u64)>,
    pub differences: u64,
    shown: Vec<String>,
}

impl Tally {
    pub fn new(name: &'static str, against: Against) -> Tally {
        Tally { name, against, cases: 0, intended: vec![], differences: 0, shown: vec![] }
    }

    /// Counts a case in which two answers are held together.
    pub fn case<T: PartialEq + Debug>(&mut self, input: &dyn Debug, ours: &Checked<T>, wanted: &T) {
        self.cases += 1;
        match ours {
            Ok(answer) if answer == wanted => {}
            Ok(answer) => self.differ(input, &format!("ours {answer:x?}, wanted {wanted:x?}")),
            Err(Fault(fault)) => self.differ(input, &format!("{fault}, wanted {wanted:x?}")),
        }
    }

    /// The same; of answers that differ only a part is shown.
    pub fn case_in_part<T: PartialEq + Debug>(
        &mut self,
        input: &dyn Debug,
        ours: Checked<T>,
        wanted: &T,
        part: impl FnOnce(T, &T) -> (T, T),
    ) {
        match ours {
            Ok(ours) if ours != *wanted => {
                let (ours, wanted) = part(ours, wanted);
                self.case(input, &Ok(ours), &wanted);
            }
            ours => self.case(input, &ours, wanted),
        }
    }

    /// Counts a case that cannot be held against anything.
    pub fn fail(&mut self, input: &dyn Debug, what: &str) {
        self.cases += 1;
        self.differ(input, what);
    }

    /// Says of the case just counted that the documents want another answer than the Rust's.
    pub fn intended(&mut self, reason: &'static str) {
        match self.intended.iter_mut().find(|(known, _)| *known == reason) {
            Some((_, count)) => *count += 1,
            None => self.intended.push((reason, 1)),
        }
    }

    fn differ(&mut self, input: &dyn Debug, what: &str) {
        self.differences += 1;
        if self.shown.len() < SHOWN {
            self.shown.push(format!("{input:x?}: {what}"));
        }
    }
}

impl Display for Tally {
    fn fmt(&self, f: &mut fmt::Formatter<'_>) -> fmt::Result {
        write!(
            f,
            "{:38} {:5} {:>9} cases {:>7} differences",
            self.name, self.against, self.cases, self.differences
        )?;
        for (place, (reason, count)) in self.intended.iter().enumerate() {
            let lead = if place == 0 { "; intended:" } else { "," };
            write!(f, "{lead} {count} {reason}")?;
        }
        for line in &self.shown {
            write!(f, "\n    {line}")?;
        }
        Ok(())
    }
}
