//! Links libdesk.a: from the folder that BROTHANCHOR_LIBRARY names, else from where tools/staticlib writes it.

use std::env;
use std::path::PathBuf;

fn main() {
    let usual = || PathBuf::from(env!("CARGO_MANIFEST_DIR")).join("../../target/staticlib");
    let folder = env::var_os("BROTHANCHOR_LIBRARY").map_or_else(usual, PathBuf::from);
    println!("cargo:rerun-if-env-changed=BROTHANCHOR_LIBRARY");
    println!("cargo:rerun-if-changed={}", folder.join("libdesk.a").display());
    println!("cargo:rustc-link-search=native={}", folder.display());
    println!("cargo:rustc-link-lib=static=desk");
}
