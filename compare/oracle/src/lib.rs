//! The original Rust's modules, as build.rs has declared them.
#![allow(warnings)]
include!(concat!(env!("OUT_DIR"), "/modules.rs"));
