//! What the refusals of all functions share: a table of reasons, calls that are given some of them, and the turns in which
//! these calls are held against the model, which says what is refused, at which place, and what stays as it was.
use crate::entry::{Against, Context, Tally};
use crate::rng::Rng;
use crate::small_letters::{make_small, Lettered};

/// Gives a call a reason for a refusal.
pub type Spoil<C> = fn(&mut Rng, &mut C);

/// Holds a call with some reasons, or with none; without enough room if that is asked.
pub type Hold<C> = fn(&mut Tally, &mut Rng, &[Spoil<C>], bool);

pub fn spoil<C>(rng: &mut Rng, call: &mut C, reasons: &[Spoil<C>]) {
    for reason in reasons {
        reason(rng, call);
    }
}

/// So many calls of an entry, drawn from one stream.
pub struct Turns {
    tally: Tally,
    rng: Rng,
    count: usize,
}

impl Turns {
    pub fn new(context: &Context, entry: &'static str, stream: &str, count: usize) -> Turns {
        Turns { tally: Tally::new(entry, Against::Model), rng: context.rng(stream), count }
    }

    /// Every choice of reasons, with room enough and without.
    pub fn every_choice<C>(self, reasons: &[Spoil<C>], hold: Hold<C>) -> Tally {
        self.choices(reasons, &[], hold)
    }

    /// The same of calls with small letters, which are no reason for a refusal.
    pub fn every_choice_small<C: Lettered>(self, reasons: &[Spoil<C>], hold: Hold<C>) -> Tally {
        self.choices(reasons, &[make_small], hold)
    }

    fn choices<C>(mut self, reasons: &[Spoil<C>], always: &[Spoil<C>], hold: Hold<C>) -> Tally {
        for number in 0..self.count {
            let chosen = |bit: &usize| number >> bit & 1 == 1;
            let some = (0..reasons.len()).filter(chosen).map(|bit| reasons[bit]);
            let all: Vec<Spoil<C>> = some.chain(always.iter().copied()).collect();
            hold(&mut self.tally, &mut self.rng, &all, chosen(&reasons.len()));
        }
        self.tally
    }

    /// A single reason at a time, or none.
    pub fn single_reasons<C>(mut self, reasons: &[Spoil<C>], hold: Hold<C>) -> Tally {
        for number in 0..self.count {
            let one: Vec<Spoil<C>> = reasons.get(number % (reasons.len() + 1)).copied().into_iter().collect();
            hold(&mut self.tally, &mut self.rng, &one, false);
        }
        self.tally
    }
}

/// Bad values at up to three places of a list: a refusal names the first.
pub fn scatter<T: Copy>(rng: &mut Rng, list: &mut [T], bad: &[T]) {
    for _ in 0..(1 + rng.below(3)).min(list.len()) {
        let place = rng.below(list.len());
        list[place] = rng.pick(bad);
    }
}

/// Makes a list end within a record.
pub fn cut_within(rng: &mut Rng, list: &mut Vec<u8>, size: usize) {
    let tail = 1 + rng.below(size - 1);
    list.extend(rng.bytes(tail));
}
