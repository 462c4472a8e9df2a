//! Links the proved library, libvaruna_c.a. The folder that holds it is VARUNA_LIBRARY, or target/staticlib of the repository.

use std::path::PathBuf;

#[path = "src/sources.rs"]
mod sources;

fn main() {
    println!("cargo::rerun-if-env-changed=VARUNA_LIBRARY");
    let given = std::env::var_os("VARUNA_LIBRARY").map(PathBuf::from);
    let folder = given.unwrap_or_else(|| sources::in_repository("target/staticlib"));
    let file = folder.join("libvaruna_c.a");
    for path in [file.clone(), sources::in_repository("crates"), sources::in_repository("crates.txt")] {
        println!("cargo::rerun-if-changed={}", path.display());
    }
    if let Err(fault) = sources::check_made(&file, sources::MAKES_LIBRARY) {
        println!("cargo::error={fault}");
        println!("cargo::error=or set VARUNA_LIBRARY to the folder that holds libvaruna_c.a");
        return;
    }
    println!("cargo::rustc-link-search=native={}", folder.display());
    println!("cargo::rustc-link-lib=static=varuna_c");
}
