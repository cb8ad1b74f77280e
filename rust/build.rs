//! Finds the proved static library: in `BOLFREGA_LIB_DIR`, in the crate's own folder `lib`, where a release has it, or where
//! `tools/build archive` leaves it. Where it is in none of these, the documentation can be made all the same, and nothing else.

use std::env;
use std::path::{Path, PathBuf};

const VARIABLE: &str = "BOLFREGA_LIB_DIR";
const ARCHIVE: &str = "libbolfrega.a";

fn main() {
    println!("cargo::rerun-if-env-changed={VARIABLE}");
    println!("cargo::rerun-if-env-changed=DOCS_RS");
    println!("cargo::rustc-check-cfg=cfg(without_archive)");
    let folders = folders();
    // A file that isn't there is looked for again at the next build.
    let archives = || folders.iter().map(|folder| folder.join(ARCHIVE));
    archives().for_each(|archive| println!("cargo::rerun-if-changed={}", archive.display()));
    if let Some(folder) = folders.iter().find(|folder| folder.join(ARCHIVE).is_file()) {
        println!("cargo::rustc-link-search=native={}", folder.display());
        println!("cargo::rustc-link-lib=static=bolfrega");
    } else if env::var_os("DOCS_RS").is_none() {
        let missing: Vec<String> = archives().map(|archive| archive.display().to_string()).collect();
        println!("cargo::rustc-cfg=without_archive");
        println!("cargo::rustc-env=BOLFREGA_MISSING={}", missing.join(" or "));
    }
}

/// The folders that may have the archive: the one that was named, and else the two where it usually is.
fn folders() -> Vec<PathBuf> {
    match env::var_os(VARIABLE) {
        Some(folder) => vec![PathBuf::from(folder)],
        None => {
            let here = env::var_os("CARGO_MANIFEST_DIR").expect("cargo sets CARGO_MANIFEST_DIR");
            ["lib", "../target/staticlib"]
                .map(|folder| Path::new(&here).join(folder))
                .to_vec()
        }
    }
}
