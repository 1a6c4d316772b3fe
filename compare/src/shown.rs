//! What is shown of two outcomes that differ.
use crate::answer::Filled;

/// How many items two lists have in common at their fronts.
pub fn common<T: PartialEq>(ours: impl IntoIterator<Item = T>, wanted: impl IntoIterator<Item = T>) -> usize {
    ours.into_iter().zip(wanted).take_while(|(ours, wanted)| ours == wanted).count()
}

pub fn part<T: Clone>(list: &[T], from: usize, count: usize) -> Vec<T> {
    list.iter().skip(from).take(count).cloned().collect()
}

/// Both answers, and both buffers from so many bytes before the first that differs.
pub fn from_difference<T: Clone>(
    mut ours: Filled<T>,
    wanted: &Filled<T>,
    before: usize,
) -> (Filled<T>, Filled<T>) {
    let mut wanted = wanted.clone();
    let from = common(&ours.buffer, &wanted.buffer).saturating_sub(before);
    for outcome in [&mut ours, &mut wanted] {
        outcome.buffer = part(&outcome.buffer, from, 40);
    }
    (ours, wanted)
}
