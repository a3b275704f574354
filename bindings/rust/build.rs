//! Links `libmrecordlog.a`: of PORT_LIB_DIR, or where `rt lib` in crates/mrecordlog puts it.

use std::env;
use std::path::PathBuf;

fn main() {
    println!("cargo:rerun-if-env-changed=PORT_LIB_DIR");
    let here = PathBuf::from(env::var("CARGO_MANIFEST_DIR").unwrap());
    let folder = env::var("PORT_LIB_DIR").map(PathBuf::from).unwrap_or_else(|_| here.join("../../crates/mrecordlog/out"));
    println!("cargo:rerun-if-changed={}", folder.join("libmrecordlog.a").display());
    println!("cargo:rustc-link-search=native={}", folder.display());
    println!("cargo:rustc-link-lib=static:-bundle=mrecordlog");
}
