//! Cases that the original is asked about, in batches: entries that hold ours, or the model, against its answers.
use crate::entry::{Against, Context, Tally};
use crate::oracle::in_batches;
use crate::rng::Rng;

/// How the original is asked about cases of one sort, and how ours is held against its answers.
pub struct Asked<C: 'static, A: 'static = String> {
    pub ask: fn(&Context, &[C]) -> Vec<A>,
    pub hold: fn(&mut Tally, &mut Rng, &C, A),
    /// The stream of what calls are lent beyond their cases: rooms and work memory.
    pub rooms: &'static str,
}

/// The stream from which an entry's cases are drawn.
fn stream(entry: &str) -> String {
    match entry.split_once(": ") {
        Some(("model", subject)) => format!("{subject}, model"),
        Some((subject, cases)) => format!("{subject}, {cases}"),
        None => entry.into(),
    }
}

impl<C, A> Asked<C, A> {
    fn each(&self, context: &Context, cases: impl IntoIterator<Item = C>, mut each: impl FnMut(&C, A)) {
        in_batches(cases.into_iter(), |batch| {
            for (case, answer) in batch.iter().zip((self.ask)(context, batch)) {
                each(case, answer);
            }
        });
    }

    /// Holds cases, with rooms that go on from those before.
    pub fn hold_in(
        &self,
        tally: &mut Tally,
        context: &Context,
        rooms: &mut Rng,
        cases: impl IntoIterator<Item = C>,
    ) {
        self.each(context, cases, |case, answer| (self.hold)(tally, rooms, case, answer));
    }

    pub fn hold_all(&self, tally: &mut Tally, context: &Context, cases: impl IntoIterator<Item = C>) {
        self.hold_in(tally, context, &mut context.rng(self.rooms), cases);
    }

    pub fn entry<'a>(&'a self, context: &'a Context, name: &'static str) -> Cases<'a, C, A> {
        let rng = context.rng(&stream(name));
        Cases { asked: self, context, tally: Tally::new(name, Against::Rust), rng }
    }
}

/// The cases of an entry, made from its stream.
pub struct Cases<'a, C: 'static, A: 'static> {
    asked: &'a Asked<C, A>,
    context: &'a Context,
    tally: Tally,
    rng: Rng,
}

impl<C, A> Cases<'_, C, A> {
    pub fn made<I: IntoIterator<Item = C>>(mut self, cases: impl FnOnce(Rng) -> I) -> Tally {
        self.asked.hold_all(&mut self.tally, self.context, cases(self.rng));
        self.tally
    }

    /// So many cases, drawn one by one.
    pub fn drawn(self, count: usize, draw: fn(&mut Rng) -> C) -> Tally {
        self.made(|rng| drawn(rng, count, draw))
    }

    /// Cases so large that they are asked about one at a time, each with the first rooms.
    pub fn one_by_one<I: IntoIterator<Item = C>>(mut self, cases: impl FnOnce(Rng) -> I) -> Tally {
        for case in cases(self.rng) {
            self.asked.hold_all(&mut self.tally, self.context, [case]);
        }
        self.tally
    }

    /// Holds the model against the original.
    pub fn model<I>(mut self, cases: impl FnOnce(Rng) -> I, hold: fn(&mut Tally, &C, A)) -> Tally
    where
        I: IntoIterator<Item = C>,
    {
        self.asked.each(self.context, cases(self.rng), |case, answer| hold(&mut self.tally, case, answer));
        self.tally
    }
}

/// So many cases.
pub fn drawn<C>(mut rng: Rng, count: usize, draw: fn(&mut Rng) -> C) -> impl Iterator<Item = C> {
    (0..count).map(move |_| draw(&mut rng))
}

/// So many cases, of which each that is a multiple of a number is a larger one.
pub fn with_larger<C>(
    mut rng: Rng,
    count: usize,
    multiple: usize,
    larger: fn(&mut Rng) -> C,
    usual: fn(&mut Rng) -> C,
) -> impl Iterator<Item = C> {
    (0..count).map(move |number| if number % multiple == 0 { larger(&mut rng) } else { usual(&mut rng) })
}
