//! The insertions and calls that are tried.
use crate::model::{Modification, NO_NAME, RECORD};
use crate::rng::Rng;

/// Zeros, not-a-numbers of both signs, quiet and signalling, infinities, subnormals and the numbers at their ends.
pub const SPECIAL_MASSES: [u32; 20] = [
    0x0000_0000,
    0x8000_0000,
    0x7fc0_0000,
    0xffc0_0000,
    0x7f80_0001,
    0xff80_0001,
    0x7fff_ffff,
    0xffff_ffff,
    0x7fc0_0001,
    0x7f80_0000,
    0xff80_0000,
    0x7f7f_ffff,
    0xff7f_ffff,
    0x0000_0001,
    0x8000_0001,
    0x007f_ffff,
    0x807f_ffff,
    0x0080_0000,
    0x3f80_0000,
    0xbf80_0000,
];

/// Masses that are in use, each with its neighbours.
const COMMON_MASSES: [f32; 8] =
    [15.994915, 57.021464, 79.96633, 229.16293, 0.984016, 42.010565, -17.026548, 4.025107];

/// None and any numbers, among them some that are equal in 8 or in 16 bits.
const NAMES: [u32; 9] = [NO_NAME, NO_NAME, 0, 1, 2, 256, 65_535, 65_536, NO_NAME - 1];

fn mass(rng: &mut Rng) -> u32 {
    match rng.below(8) {
        0..=2 => rng.pick(&SPECIAL_MASSES),
        3..=6 => rng.pick(&COMMON_MASSES).to_bits().wrapping_add(rng.below(3) as u32).wrapping_sub(1),
        _ => rng.word(),
    }
}

fn modification(rng: &mut Rng) -> Modification {
    Modification { mass_bits: mass(rng), name: rng.pick(&NAMES) }
}

/// From a pool of some size: the smaller, the more often an entry is found.
pub fn from_pool(rng: &mut Rng, pool: usize, len: usize) -> Vec<Modification> {
    let pool: Vec<Modification> = (0..pool).map(|_| modification(rng)).collect();
    (0..len).map(|_| rng.pick(&pool)).collect()
}

/// So many different ones, in which earlier ones come again; then insertions of both kinds.
pub fn filling(rng: &mut Rng, different: u32, more: usize) -> Vec<Modification> {
    let fresh = |number: u32| Modification { mass_bits: (number as f32 + 0.25).to_bits(), name: number % 3 };
    let mut sequence = Vec::new();
    for number in 0..different {
        sequence.push(fresh(number));
        if rng.once_in(4) {
            sequence.push(rng.pick(&sequence));
        }
    }
    for _ in 0..more {
        sequence.push(match rng.below(3) {
            0 => rng.pick(&sequence),
            1 => fresh(1000 + rng.below(9) as u32),
            _ => modification(rng),
        });
    }
    sequence
}

/// Each special mass twice, under several names.
pub fn special() -> Vec<Modification> {
    let twice = SPECIAL_MASSES.into_iter().chain(SPECIAL_MASSES);
    let named = |name| twice.clone().map(move |mass_bits| Modification { mass_bits, name });
    [NO_NAME, 0, 65_536].into_iter().flat_map(named).collect()
}

/// Nothing equals a not-a-number, itself included: each is appended.
fn not_a_numbers(rng: &mut Rng, len: usize) -> Vec<Modification> {
    let nan = |rng: &mut Rng| 0x7f80_0001 | rng.word() & 0x807f_ffff;
    (0..len).map(|_| Modification { mass_bits: nan(rng), name: rng.pick(&NAMES) }).collect()
}

pub fn sequences(rng: &mut Rng) -> Vec<Vec<Modification>> {
    let mut sequences: Vec<Vec<Modification>> = (0..=40).map(|len| not_a_numbers(rng, len)).collect();
    sequences.extend([254, 255, 256, 300].map(|len| not_a_numbers(rng, len)));
    sequences.push(special());
    for different in (1..20).chain(250..=260).chain([400]) {
        sequences.extend((0..20).map(|_| filling(rng, different, 60)));
    }
    for _ in 0..1500 {
        let (pool, len) = (1 + rng.below(60), rng.below(60));
        sequences.push(from_pool(rng, pool, len));
        let (pool, len) = (1 + rng.below(500), rng.below(500));
        sequences.push(from_pool(rng, pool, len));
    }
    sequences
}

/// A call on a table that need not come from insertions: it may hold an entry twice.
pub struct Call {
    pub table: Vec<u8>,
    pub count: u32,
    pub given: Modification,
}

fn count(rng: &mut Rng) -> u32 {
    match rng.below(8) {
        0..=3 => rng.below(12) as u32,
        4..=5 => rng.below(256) as u32,
        6 => rng.pick(&[253, 254, 254, 255, 255, 255]),
        _ => rng.pick(&[255, 256, 257, 511, 512, 65_536, 1 << 29, 1 << 31, u32::MAX]),
    }
}

/// One of the entries, or nearly so: with one bit of its name's number changed; or another.
fn given(rng: &mut Rng, entries: &[Modification]) -> Modification {
    let entry = rng.pick(entries);
    match rng.below(8) {
        0..=3 => entry,
        4 => Modification { name: entry.name ^ 1 << rng.below(32), ..entry },
        _ => modification(rng),
    }
}

pub fn call(rng: &mut Rng) -> Call {
    let count = count(rng);
    let records = if count > 600 { rng.below(600) } else { count as usize };
    let pool = 1 + rng.below(2 * records + 2);
    let entries = from_pool(rng, pool, records + 1);
    let given = given(rng, &entries);
    let mut table: Vec<u8> = entries.iter().flat_map(|entry| entry.bytes()).collect();
    table.truncate(records * RECORD);
    table_length(rng, &mut table);
    Call { table, count, given }
}

/// Exact, or longer by bytes or records, or shorter by these.
fn table_length(rng: &mut Rng, table: &mut Vec<u8>) {
    let len = table.len();
    let len = match rng.below(8) {
        0 | 1 => len,
        2 | 3 => len + 1 + rng.below(RECORD),
        4 | 5 => len + rng.below(5 * RECORD),
        6 => len.saturating_sub(1 + rng.below(RECORD)),
        _ if rng.once_in(4) => rng.below(len + 1),
        _ => len + RECORD,
    };
    table.truncate(len);
    let more = rng.bytes(len - table.len());
    table.extend(more);
}
