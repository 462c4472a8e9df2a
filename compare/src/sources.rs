//! The sources of the proved library and of the programs: one that is older than they are is of no use in a comparison.

use std::fs;
use std::path::{Path, PathBuf};
use std::time::SystemTime;

/// Makes libvaruna_c.a, in the repository.
pub const MAKES_LIBRARY: &str = "(cd crates/varuna_c && rt lib) && \
    install -D -m 644 crates/varuna_c/out/libvaruna_c.a target/staticlib/libvaruna_c.a";

/// A file of the repository.
pub fn in_repository(path: &str) -> PathBuf {
    Path::new(env!("CARGO_MANIFEST_DIR")).join("..").join(path)
}

/// The newest source: crates.txt, or a file .rt or .antt under crates/. What `rt` makes stands in crates/NAME/out and is none.
fn newest_source() -> (SystemTime, PathBuf) {
    let mut newest = (modified(&in_repository("crates.txt")), in_repository("crates.txt"));
    let mut folders = vec![in_repository("crates")];
    while let Some(folder) = folders.pop() {
        let files = fs::read_dir(&folder).unwrap_or_else(|error| panic!("{}: {error}", folder.display()));
        for path in files.map(|file| file.expect("a folder can be read").path()) {
            if path.is_dir() {
                if path.file_name().is_some_and(|name| name != "out") {
                    folders.push(path);
                }
            } else if path.extension().is_some_and(|extension| extension == "rt" || extension == "antt") {
                newest = newest.max((modified(&path), path));
            }
        }
    }
    newest
}

fn modified(path: &Path) -> SystemTime {
    let time = fs::metadata(path).and_then(|data| data.modified());
    time.unwrap_or_else(|error| panic!("{}: {error}", path.display()))
}

/// Says why a file that a command makes from the sources can't be used: it is not there, or older than a source.
pub fn check_made(file: &Path, command: &str) -> Result<(), String> {
    if !file.is_file() {
        return Err(format!("there is no {}: make it by `{command}` in the repository", file.display()));
    }
    let (time, source) = newest_source();
    if modified(file) < time {
        let (file, source) = (file.display(), source.display());
        return Err(format!("{file} is older than {source}: make it anew by `{command}` in the repository"));
    }
    Ok(())
}
