//! The Rust that is ported, unchanged, by path: source document 000 is envelope.rs, 001 is curve.rs.
#![allow(dead_code, unexpected_cfgs)]
extern crate alloc;
include!(concat!(env!("OUT_DIR"), "/modules.rs"));
