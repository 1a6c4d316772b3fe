//! Copies the original Rust byte for byte into the build folder and declares its modules there. Where a module keeps
//! private what the protocol asks for, a child module `probe` from src/probe is appended to the copy: a child sees its
//! parent's private items, so nothing of the original is changed.
//!
//! SAGE_SRC is the folder that holds enzyme.rs, peptide.rs and their neighbours.
use std::{env, fs, path::Path};

/// The modules of the original's lib.rs without fdr, isotopes, lfq, ml and tmt, which none of these uses.
const MODULES: [&str; 11] = [
    "database",
    "enzyme",
    "fasta",
    "heap",
    "ion_series",
    "mass",
    "modification",
    "peptide",
    "protein_grouping",
    "scoring",
    "spectrum",
];

fn main() {
    println!("cargo:rerun-if-env-changed=SAGE_SRC");
    let sage = env::var("SAGE_SRC").expect("SAGE_SRC: the folder with enzyme.rs, peptide.rs, ...");
    let here = env::var("CARGO_MANIFEST_DIR").unwrap();
    let out = env::var("OUT_DIR").unwrap();
    let mut declarations = String::new();
    for module in MODULES {
        let path = match module == "mass" && env::var("CARGO_FEATURE_ALTMASS").is_ok() {
            true => format!("{here}/src/mass_alt.rs"),
            false => copy(module, &sage, &here, &out),
        };
        declarations += &format!("#[path = {path:?}]\npub mod {module};\n");
    }
    fs::write(Path::new(&out).join("modules.rs"), declarations).unwrap();
}

/// The path of the copy of a module, its probe appended.
fn copy(module: &str, sage: &str, here: &str, out: &str) -> String {
    let mut text = read(&format!("{sage}/{module}.rs"));
    let probe = format!("{here}/src/probe/{module}.rs");
    if Path::new(&probe).exists() {
        text += "\npub mod probe {\n";
        text += &read(&probe);
        text += "}\n";
    }
    let copied = format!("{out}/{module}.rs");
    fs::write(&copied, text).unwrap();
    copied
}

fn read(path: &str) -> String {
    println!("cargo:rerun-if-changed={path}");
    fs::read_to_string(path).unwrap_or_else(|e| panic!("{path}: {e}"))
}
