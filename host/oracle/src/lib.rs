//! The Rust reference, each file as it is (build.rs), and beside it `reading`: its reader over bytes in memory.
#![allow(dead_code, unused_imports)]

include!(concat!(env!("OUT_DIR"), "/tree/lib.rs"));

#[path = "../glue/reading.rs"]
pub mod reading;
