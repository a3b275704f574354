//! Lays out the Rust's source tree in OUT_DIR by symbolic links: each file of the reference as it is, and the module files that it lacks from glue/.

use std::env;
use std::fs;
use std::os::unix::fs::symlink;
use std::path::{Path, PathBuf};

/// The folder of the reference, seen from the root of the repository.
const DEFAULT: &str = "../shared/docs/src";

/// The module files that the reference lacks, and their glue.
const GLUE: [(&str, &str); 3] = [("frame/mod.rs", "frame.rs"), ("mem/mod.rs", "mem.rs"), ("recordlog/mod.rs", "recordlog.rs")];

fn link(from: &Path, to: &Path) {
    fs::create_dir_all(to.parent().unwrap()).unwrap();
    symlink(from, to).unwrap_or_else(|e| panic!("{} as {}: {e}", from.display(), to.display()));
}

fn link_all(from: &Path, to: &Path) {
    for entry in fs::read_dir(from).unwrap_or_else(|e| panic!("{}: {e}", from.display())) {
        let path = entry.unwrap().path();
        let place = to.join(path.file_name().unwrap());
        if path.is_dir() {
            link_all(&path, &place);
        } else {
            link(&path, &place);
        }
    }
}

fn main() {
    println!("cargo:rerun-if-env-changed=MRECORDLOG_SRC");
    let here = PathBuf::from(env::var("CARGO_MANIFEST_DIR").unwrap());
    let folder = env::var("MRECORDLOG_SRC").map(PathBuf::from).unwrap_or_else(|_| here.join("../..").join(DEFAULT));
    let source = folder.join("src").canonicalize().unwrap_or_else(|e| panic!("{}: {e}", folder.display()));
    println!("cargo:rerun-if-changed={}", source.display());
    println!("cargo:rerun-if-changed={}", here.join("glue").display());
    let tree = PathBuf::from(env::var("OUT_DIR").unwrap()).join("tree");
    let _ = fs::remove_dir_all(&tree);
    link_all(&source, &tree);
    for (place, glue) in GLUE {
        link(&here.join("glue").join(glue), &tree.join(place));
    }
}
