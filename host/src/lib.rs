//! The port and the Rust side by side. `port` is a safe wrapper over the archive, `oracle` the Rust; both speak in the types of `plain`.
//! `frames`, `machine` and `layout` are written from document 01 and docs/LAYOUT.md alone. `cases` makes cases, `compare` runs all of them on the same ones.

pub mod cases;
pub mod compare;
pub mod frames;
pub mod layout;
pub mod machine;
pub mod oracle;
pub mod plain;
pub mod port;
pub mod random;
