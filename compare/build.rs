//! Links libsendumaal.a from the folder that SENDUMAAL_LIB names.
use std::env;

fn main() {
    println!("cargo:rerun-if-env-changed=SENDUMAAL_LIB");
    let folder = env::var("SENDUMAAL_LIB").expect("SENDUMAAL_LIB: the folder with libsendumaal.a");
    println!("cargo:rerun-if-changed={folder}/libsendumaal.a");
    println!("cargo:rustc-link-search=native={folder}");
    println!("cargo:rustc-link-lib=static=sendumaal");
}
