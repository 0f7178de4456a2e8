//! Links the archive that `rt lib` writes in `crates/exports`; `ARCHIVE` names the folder that holds it.

use std::env;

fn main() {
    println!("cargo:rerun-if-env-changed=ARCHIVE");
    let folder = env::var("ARCHIVE").unwrap_or_else(|_| "../crates/exports/out".to_owned());
    println!("cargo:rerun-if-changed={folder}/libexports.a");
    println!("cargo:rustc-link-search=native={folder}");
    println!("cargo:rustc-link-lib=static=exports");
}
