//! include/sendumaal.h, function by function. Nothing checks these declarations against the header: keep them in step.
extern "C" {
    pub fn sendumaal_set_insert(set: u32, letter: u8) -> u32;
    pub fn sendumaal_set_contains(set: u32, letter: u8) -> u32;
}

/// Declares functions that accept or refuse. A slice stands for a pointer and a length, what is answered for a pointer; the
/// place of a refusal stands behind all.
macro_rules! functions {
    (@ $function:ident ($($done:tt)*)) => {
        extern "C" { pub fn $function($($done)* place: *mut usize) -> u32; }
    };
    (@ $function:ident ($($done:tt)*) $name:ident: &[$item:ty] $(, $($rest:tt)*)?) => {
        functions!(@ $function ($($done)* $name: *const $item, _: usize,) $($($rest)*)?);
    };
    (@ $function:ident ($($done:tt)*) $name:ident: &mut [$item:ty] $(, $($rest:tt)*)?) => {
        functions!(@ $function ($($done)* $name: *mut $item, _: usize,) $($($rest)*)?);
    };
    (@ $function:ident ($($done:tt)*) $name:ident: &mut $item:ty $(, $($rest:tt)*)?) => {
        functions!(@ $function ($($done)* $name: *mut $item,) $($($rest)*)?);
    };
    (@ $function:ident ($($done:tt)*) $name:ident: $item:ty $(, $($rest:tt)*)?) => {
        functions!(@ $function ($($done)* $name: $item,) $($($rest)*)?);
    };
    ($($function:ident($($arguments:tt)*);)*) => {
        $(functions!(@ $function () $($arguments)*);)*
    };
}

functions! {
    sendumaal_letters_test(letters: &[u8]);

    sendumaal_names_test(names: &[u8]);

    sendumaal_fasta_entry(
        bytes: &[u8], at: usize, name: &mut [u8], letters: &mut [u8],
        next: &mut usize, count: &mut u32, found: &mut u32
    );

    sendumaal_rule_parse(text: &[u8], alphabet: u32, kind: &mut u32, letter: &mut u32);
    sendumaal_rule_write(kind: u32, letter: u32, out: &mut [u8], count: &mut u32);
    sendumaal_variable_rules_test(rules: &[u8]);
    sendumaal_fixed_rules_test(rules: &[u8]);
    sendumaal_rule_read(
        rules: &[u8], index: usize, kind: &mut u32, letter: &mut u32, id: &mut u32, limit: &mut u32
    );
    sendumaal_rule_record(kind: u32, letter: u32, id: u32, limit: u32, out: &mut [u8]);

    sendumaal_modification_id(table: &mut [u8], count: u32, mass_bits: u32, name: u32, id: &mut u32);

    sendumaal_digest(
        letters: &[u8], alphabet: u32, kind: u32, cleave: u32, skip: u32, side: u32, semi: u32, missed: u32,
        minimum: u32, maximum: u32, protein: u32, out: &mut [u8], count: &mut u32
    );
    sendumaal_letters_reverse(letters: &mut [u8]);
    sendumaal_digest_reverse(record: &mut [u8]);
    sendumaal_digest_letters(letters: &[u8], record: &[u8], out: &mut [u8], count: &mut u32);

    sendumaal_base_mass(letters: &[u8], masses: &[f32], water: f32, mass: &mut f32);
    sendumaal_digest_mass(
        letters: &[u8], record: &[u8], masses: &[f32], water: f32, mass: &mut f32, position: &mut u32
    );
    sendumaal_peptide_test(letters: &[u8], masses: &[f32], position: u8);
    sendumaal_peptide_reverse(letters: &mut [u8], ids: &mut [u8], decoy: &mut u32);
    sendumaal_forms(
        letters: &[u8], ids: &[u8], nterm: u8, cterm: u8, position: u8, variable: &[u8], fixed: &[u8],
        limit: u32, cap: u32, out: &mut [u8], count: &mut u32
    );

    sendumaal_group_digests(
        names: &[u8], bounds: &[u32], letters: &[u8], digests: &[u8], work: &mut [u32],
        groups: &mut [u8], proteins: &mut [u32], count: &mut u32
    );

    sendumaal_group_proteins(
        pairs: &[u8], flags: &[u8], peptides: u32, proteins: u32, work: &mut [u32],
        edges: &mut [u8], members: &mut [u8],
        groups: &mut u32, metas: &mut u32, edge_count: &mut u32, member_count: &mut u32
    );

    sendumaal_cover(
        edges: &[u8], groups: u32, metas: u32, work: &mut [u32], marks: &mut [u8], count: &mut u32
    );
    sendumaal_update(
        old_edges: &[u8], new_edges: &[u8], groups: u32, metas: u32, given: &[u8], work: &mut [u32],
        marks: &mut [u8], count: &mut u32
    );

    sendumaal_report_line(
        names: &[u8], members: &[u8], marks: &[u8], proteins: &[u32], decoy: u32, tag: &[u8], generated: u32,
        line: &mut [u8], bytes: &mut u32, groups: &mut u32
    );
}
