//! The lines of a file that are taken.

/// How many lines and bytes a file may have, and how long a line may be. Of lines of one sort and of long ones there are few,
/// so that many others fit into the file.
pub struct Limits {
    pub lines: usize,
    pub bytes: usize,
    pub longest: usize,
    pub of_the_sort: usize,
    pub long: usize,
    /// The bytes of a line that is not long.
    pub short: usize,
}

/// The lines that are taken, and how many may still be taken of each sort.
pub struct Sample {
    pub lines: String,
    left: Limits,
}

impl Sample {
    pub fn new(limits: Limits) -> Sample {
        Sample { lines: String::new(), left: limits }
    }

    /// Takes a line if it may; it says whether it is of the sort of which there are few.
    pub fn add(&mut self, line: &str, of_the_sort: bool) {
        let left = &mut self.left;
        let long = line.len() > left.short;
        let none_left = left.lines == 0 || of_the_sort && left.of_the_sort == 0 || long && left.long == 0;
        if none_left || line.len() > left.longest || self.lines.len() + line.len() >= left.bytes {
            return;
        }
        self.lines += line;
        left.lines -= 1;
        left.of_the_sort -= usize::from(of_the_sort);
        left.long -= usize::from(long);
    }
}

const LINES: usize = 600;
const MOST_BYTES: usize = 50_000;
const LONGEST: usize = 400;

/// As many lines as fit, none of them too long.
pub fn sample(lines: impl Iterator<Item = String>) -> String {
    let mut sample = String::new();
    for line in lines.filter(|line| line.len() <= LONGEST).take(LINES) {
        if sample.len() + line.len() < MOST_BYTES {
            sample += &line;
        }
    }
    sample
}
