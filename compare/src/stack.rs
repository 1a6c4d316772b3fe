//! How much stack every function takes at small sizes and at the greatest: no more than a thread of 1 MB has.
mod painted;

use crate::answer::{Answer, Checked, Refusal, NO_ROOM};
use crate::calls;
use crate::cover::model::{MOST_EDGES, MOST_GROUPS};
use crate::digest::cases::{few_enzymes, set_of, ALL_LETTERS};
use crate::digest::model::{Call, Enzyme, DIGEST, END, MOST_DIGESTS, MOST_LETTERS, NONE, SET};
use crate::digest_groups::model::{MOST_NAMES, NAME};
use crate::entry::{Against, Context, Tally};
use crate::forms::cases::{rules_on_m, unmodified};
use crate::model::{Record, Rule};
use crate::rng::Rng;
use crate::small_letters::make_half_small;
use crate::{cover, digest_groups, fasta, forms, peptides, protein_groups, report_lines, reversal, update};
use painted::used;

const MOST: usize = 1 << 20;
/// A report line's table of groups is not made smaller yet.
const OF_REPORT_LINES: usize = 1_600 * 1024;

/// A call, how much stack it may take, and the call itself, which says whether it was served: one that is refused early would
/// show nothing.
struct Run {
    name: String,
    most: usize,
    run: Box<dyn FnMut() -> bool>,
}

/// Accepted, or all of it done but for the room.
fn served<T>(answer: &Answer<T>) -> bool {
    matches!(answer, Ok(_) | Err(Refusal { number: NO_ROOM, .. }))
}

fn is_served<T>(said: Checked<Answer<T>>) -> bool {
    said.is_ok_and(|answer| served(&answer))
}

fn run(name: &str, run: impl FnMut() -> bool + 'static) -> Run {
    Run { name: name.into(), most: MOST, run: Box::new(run) }
}

fn ways() -> Vec<(&'static str, Enzyme)> {
    let [plain, ..] = few_enzymes()[..] else { unreachable!("there are some") };
    let (cleave, maximum) = (set_of(b"KR"), 128);
    let set = Enzyme { kind: SET, cleave, semi: 0, missed: 16, minimum: 1, maximum, ..plain };
    let semi = Enzyme { semi: 1, ..set };
    let none = Enzyme { kind: NONE, ..set };
    vec![("set", set), ("semi", semi), ("none", none), ("end", Enzyme { kind: END, maximum: 65_536, ..set })]
}

/// Letters that repeat much and little, capitals and small ones.
const POOLS: [(&str, &[u8]); 4] = [
    ("letters", b"ACDEFGHIKLMNPQRSTVWY"),
    ("letters", b"AK"),
    ("small letters", b"ACDEFGHIKLMNPQRSTVWYacdefghiklmnpqrstvwy"),
    ("small letters", b"AKak"),
];

/// Every way of cutting.
fn digests(rng: &mut Rng) -> Vec<Run> {
    let mut runs = Vec::new();
    for len in [8, 1_000, 8_000, MOST_LETTERS] {
        for (way, enzyme) in ways() {
            for (sort, pool) in POOLS {
                let letters = (0..len).map(|_| rng.pick(pool)).collect();
                let call = Call { letters, alphabet: ALL_LETTERS, enzyme, protein: 7 };
                let out = vec![0; MOST_DIGESTS * DIGEST];
                runs.push(run(&format!("digest, {way}, {len} {sort}"), move || {
                    calls::digest(&call, &out).is_ok_and(|filled| served(&filled.answer))
                }));
            }
        }
    }
    runs
}

fn digest_lists(rng: &mut Rng) -> Vec<Run> {
    let of = |name: &str, call: digest_groups::model::Call| {
        let count = call.digests.len() / DIGEST;
        let (groups, proteins) = (vec![0; count * digest_groups::model::GROUP], vec![0; count]);
        run(name, move || {
            calls::digest_groups::group_digests(&call, &groups, &proteins)
                .is_ok_and(|said| served(&said.answer))
        })
    };
    let small = digest_groups::cases::small(rng);
    let mut most = digest_groups::cases::most(rng);
    make_half_small(rng, &mut most.letters);
    vec![of("group_digests, small", small), of("group_digests, the most", most)]
}

fn covers(rng: &mut Rng) -> Vec<Run> {
    let mut runs = Vec::new();
    let small = cover::cases::random(rng);
    let most = cover::cases::greatest(rng).swap_remove(1);
    assert_eq!(most.0.len(), MOST_EDGES, "not the most edges");
    for (name, graph) in [("cover, small", small), ("cover, the most", most)] {
        let call = cover::call(rng, &graph);
        let marks = vec![0; call.groups];
        runs.push(run(name, move || {
            calls::cover::cover(&call, &marks).is_ok_and(|said| served(&said.answer))
        }));
    }
    for (name, length) in [("update, small", 9), ("update, the most", MOST_GROUPS)] {
        let change = update::cases::along_paths(rng, length);
        let call = update::call(rng, &change);
        let marks = vec![0; call.groups];
        runs.push(run(name, move || {
            calls::cover::update(&call, &marks).is_ok_and(|said| served(&said.answer))
        }));
    }
    runs
}

fn protein_lists(rng: &mut Rng) -> Vec<Run> {
    let mut runs = Vec::new();
    let small = protein_groups::cases::random(rng);
    let most = protein_groups::cases::greatest(rng).swap_remove(0);
    for (name, shown) in [("group_proteins, small", small), ("group_proteins, the most", most)] {
        let call = protein_groups::call(rng, &shown);
        let (edges, members) = (vec![0; shown.0.len() * 8], vec![0; MOST_GROUPS * 12]);
        runs.push(run(name, move || {
            calls::protein_groups::group_proteins(&call, &edges, &members)
                .is_ok_and(|said| served(&said.answer))
        }));
    }
    let small = report_lines::cases::random(rng);
    let most = report_lines::cases::greatest(rng).swap_remove(0);
    for (name, call) in [("report_line, small", small), ("report_line, the most", most)] {
        let line = vec![0; 1 << 24];
        let of_line = run(name, move || {
            calls::report_lines::report_line(&call, &line).is_ok_and(|said| served(&said.answer))
        });
        runs.push(Run { most: OF_REPORT_LINES, ..of_line });
    }
    runs
}

/// So many letters, every second one small.
fn letters(count: usize) -> Vec<u8> {
    b"Mm".iter().copied().cycle().take(count).collect()
}

fn of_peptides(rng: &mut Rng) -> Vec<Run> {
    let mut runs = Vec::new();
    for (name, len, limit) in [("forms, small", 2, 1), ("forms, the most", 64, 8)] {
        let call = unmodified(&letters(len), rules_on_m(&[1; 16]), limit);
        let out = vec![0; forms::model::MOST_FORMS * forms::model::FORM];
        runs.push(run(name, move || {
            calls::peptides::forms(&call, &out).is_ok_and(|said| served(&said.answer))
        }));
    }
    let (masses, long) = (vec![0x42f0_0000; 26], letters(MOST_LETTERS));
    let (of_mass, of_test) = (letters(64), letters(64));
    let (of_tests, of_digest) = (masses.clone(), masses.clone());
    let (protein, record) = (long.clone(), reversal::cases::record_of(rng, 0..64, 1));
    runs.push(run("base_mass", move || is_served(calls::peptides::base_mass(&of_mass, &masses, 0))));
    runs.push(run("digest_mass", move || {
        is_served(calls::peptides::digest_mass(&protein, &record, &of_digest, 0))
    }));
    runs.push(run("peptide_test", move || is_served(calls::peptides::peptide_test(&of_test, &of_tests, 2))));
    let good = peptides::cases::good(rng).swap_remove(0);
    runs.push(run("peptide_reverse", move || {
        calls::peptides::peptide_reverse(&good).is_ok_and(|(answer, _)| served(&answer))
    }));
    runs.push(run("letters_reverse", move || {
        calls::letters_reverse(&long).is_ok_and(|said| served(&said.answer))
    }));
    runs
}

/// Rule records of residue M, id 1, without a limit.
fn rules(count: usize) -> Vec<u8> {
    [0, b'M', 1, 0, 255, 255, 255, 255].repeat(count)
}

fn of_rules() -> Vec<Run> {
    let rule = Rule { kind: 0, letter: b'M'.into() };
    let record = Record { rule, id: 1, limit: u32::MAX };
    vec![
        run("rule_parse", || is_served(calls::rule_parse(b"^m", ALL_LETTERS))),
        run("rule_write", move || calls::rule_write(rule, &[0; 2]).is_ok_and(|said| served(&said.answer))),
        run("variable_rules_test", || is_served(calls::variable_rules_test(&rules(16)))),
        run("fixed_rules_test", || is_served(calls::fixed_rules_test(&rules(32)))),
        run("rule_read", || is_served(calls::rule_read(&rules(1), 0))),
        run("rule_record", move || {
            calls::rule_record(record, &[0; 8]).is_ok_and(|said| served(&said.answer))
        }),
        run("modification_id", || {
            calls::modification_id(&[0; 255 * 8], 254, 1, 1).is_ok_and(|said| served(&said.answer))
        }),
    ]
}

/// As many names as each table on the stack has places for.
fn catalogues(rng: &mut Rng) -> Vec<Run> {
    let of = |size: usize| {
        let names = digest_groups::cases::names(rng, size);
        run(&format!("names_test, {size} names"), move || is_served(calls::names_test(&names)))
    };
    [8, 256, 4_096, MOST_NAMES].map(of).into()
}

/// The most letters, each in a line of its own, and more line ends and ignored bytes than an entry has letters.
fn sequence_files() -> Vec<Run> {
    let of = |name: &str, file: Vec<u8>| {
        let letters = vec![0; MOST_LETTERS];
        run(name, move || {
            calls::fasta::entry(&file, 0, &[0; NAME], &letters).is_ok_and(|said| served(&said.answer))
        })
    };
    let many = |bytes: &[u8]| bytes.repeat(1 << 22);
    let most = fasta::limits::entry(&[b'x'; NAME], &letters(MOST_LETTERS), (1, b"\r\n"));
    let long = [&many(b"\r\n")[..], b">x ", &many(b"z>"), b"\nM", &many(b"\n"), b"m"].concat();
    vec![
        of("fasta_entry, small", b">x\nMm\n".to_vec()),
        of("fasta_entry, the most letters", most),
        of("fasta_entry, a long file", long),
    ]
}

fn of_records() -> Vec<Run> {
    let record = [0, 0, 0, 0, 0, 0, 1, 0, 0, 0, 2, 0, 0, 0, 0, 0, 1, 0, 0, 0].to_vec();
    let (again, letters, out) = (record.clone(), letters(MOST_LETTERS), vec![0; MOST_LETTERS]);
    vec![
        run("set_insert", || calls::set_insert(0, b'M') == 1 << 12),
        run("set_contains", || calls::set_contains(1 << 12, b'M') == 1),
        run("letters_test", || is_served(calls::letters_test(&self::letters(64)))),
        run("digest_reverse", move || calls::digest_reverse(&record).is_ok_and(|said| served(&said.answer))),
        run("digest_letters", move || {
            calls::digest_letters(&letters, &again, &out).is_ok_and(|said| served(&said.answer))
        }),
    ]
}

fn all(rng: &mut Rng) -> Vec<Run> {
    let parts = [
        digests(rng),
        digest_lists(rng),
        covers(rng),
        protein_lists(rng),
        of_peptides(rng),
        of_rules(),
        catalogues(rng),
        sequence_files(),
        of_records(),
    ];
    parts.into_iter().flatten().collect()
}

pub fn every_function(context: &Context) -> Tally {
    let mut tally = Tally::new("stack: every function", Against::Model);
    for Run { name, most, mut run } in all(&mut context.rng("stack")) {
        let mut done = false;
        let bytes = used(&mut || done = run());
        match (done, bytes <= most) {
            (true, true) => tally.case(&name, &Ok(()), &()),
            (false, _) => tally.fail(&name, "it was refused, so its stack says nothing"),
            (_, false) => tally.fail(&name, &format!("it takes {bytes} bytes of stack")),
        }
    }
    tally
}

/// A line for each call: its name and the KB that it takes.
pub fn print(context: &Context) {
    for Run { name, mut run, .. } in all(&mut context.rng("stack")) {
        let mut call = || {
            run();
        };
        println!("{:36} {:6} KB", name, used(&mut call).div_ceil(1024));
    }
}
