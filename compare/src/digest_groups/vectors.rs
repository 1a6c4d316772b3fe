//! A sample of the original's groups, of lists in which document 01 puts nothing right.
use super::cases::{random, STABLE};
use super::model::{Call, Lists, GROUP};
use super::said::{ask, read, Read};
use crate::asked::drawn;
use crate::digest::model::DIGEST;
use crate::entry::Context;
use crate::fields::{letters_field, list_field, names_field};
use crate::model::word;
use crate::oracle::hex;
use crate::rng::Rng;
use crate::sample::{Limits, Sample};

const LINES: usize = 300;
/// There are few lines without a group of several digests.
const LIMITS: Limits =
    Limits { lines: LINES, bytes: 63_000, longest: 800, of_the_sort: 40, long: 40, short: 220 };

fn line(call: &Call, lists: &Lists) -> String {
    let (names, letters) = (names_field(&call.names), letters_field(&call.letters));
    let given = format!("{names} {} {letters} {}", list_field(&call.bounds, "."), hex(&call.digests));
    let group = |record: &[u8; GROUP]| {
        let number = call.digests.chunks(DIGEST).position(|digest| digest == &record[..DIGEST]);
        format!("{}.{}.{}", number.expect("a digest"), word(record, DIGEST), word(record, DIGEST + 4))
    };
    let groups = list_field(lists.groups.iter().map(group), ";");
    format!("{given} {} {groups} {}\n", lists.groups.len(), list_field(&lists.proteins, "."))
}

fn some(rng: &mut Rng) -> Call {
    let most = rng.pick(&[4, 6, STABLE]);
    random(rng, 4, most)
}

pub fn lines(context: &Context) -> String {
    let drawn = drawn(context.rng("vectors: digest groups"), 20 * LINES, some);
    let calls: Vec<Call> = drawn.filter(|call| !call.digests.is_empty()).collect();
    let mut sample = Sample::new(LIMITS);
    for (call, answer) in calls.iter().zip(ask(&context.oracle, &calls)) {
        let Read { lists, unsorted, unstable } = read(call, &answer);
        if !unsorted && !unstable {
            sample.add(&line(call, &lists), lists.groups.len() == lists.proteins.len());
        }
    }
    sample.lines
}
