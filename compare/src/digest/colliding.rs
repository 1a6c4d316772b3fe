//! Proteins whose peptides all have one place in a table that is addressed by a number made of their letters: in the chains of
//! equal hashes that DECISIONS 28 speaks of, and in the table that tells which sites stand alone.

/// The table's places, and the one that the peptides have in common.
const PLACES: u64 = 131_072;
const PLACE: u64 = 0;
/// Letters that neither cut nor forbid it, for KR not before P.
const LETTERS: &[u8; 23] = b"ABCDEFGHIJLMNOQSTUVWXYZ";
const PEPTIDE: usize = 8;

fn mixed(hash: u32, word: u32) -> u32 {
    let product = hash.wrapping_add(word).wrapping_mul(2_654_435_769);
    product.wrapping_add(product / 32_768)
}

fn place(hash: u32) -> u64 {
    hash as u64 * PLACES >> 32
}

/// Four letters by a number, the last one given where it is to cut.
fn word(mut number: usize, last: Option<u8>) -> u32 {
    let mut next = || {
        let letter = LETTERS[number % LETTERS.len()];
        number /= LETTERS.len();
        letter
    };
    let [a, b, c] = [next(), next(), next()];
    u32::from_le_bytes([a, b, c, last.unwrap_or_else(next)])
}

/// Peptides of eight letters that end in K and have that place, as many as are wanted.
fn peptides(count: usize) -> Vec<[u8; PEPTIDE]> {
    let ends: Vec<u32> = (0..LETTERS.len().pow(3)).map(|number| word(number, Some(b'K'))).collect();
    let mut found = Vec::new();
    for front in (0..LETTERS.len().pow(4)).map(|number| word(number, None)) {
        let hash = mixed(0, front);
        for end in ends.iter().filter(|end| place(mixed(hash, **end)) == PLACE) {
            let bytes = (front as u64 | (*end as u64) << 32).to_le_bytes();
            found.push(bytes);
        }
        if count <= found.len() {
            break;
        }
    }
    found.truncate(count);
    found
}

pub fn protein(len: usize) -> Vec<u8> {
    let mut letters = peptides(len.div_ceil(PEPTIDE)).concat();
    letters.truncate(len);
    letters
}

/// Letters of a site that has its code with all others: it is made of the first four letters, the last four and the length.
const ENDS: [u8; 4] = *b"AAAA";
const SITE: usize = 16;

/// Sites that differ in the middle alone, each of them twice.
pub fn of_one_code(len: usize) -> Vec<u8> {
    let different = len.div_ceil(2 * SITE);
    let middle = |number: usize| word(number % different * 7_919 % LETTERS.len().pow(4), None).to_le_bytes();
    let site = |number: usize| [ENDS, middle(number), ENDS, *b"AAAK"].concat();
    let mut letters = (0..2 * different).flat_map(site).collect::<Vec<u8>>();
    letters.truncate(len);
    letters
}
