//! Books that the fuzzer found, in fuzz/kept.

use std::io;
use std::path::Path;

/// The books in a folder, by the names of their files. No folder has no books.
pub fn books(folder: &Path) -> io::Result<Vec<Vec<u8>>> {
    if !folder.exists() {
        return Ok(Vec::new());
    }
    let mut paths = Vec::new();
    for entry in std::fs::read_dir(folder)? {
        let path = entry?.path();
        if path
            .extension()
            .is_some_and(|extension| extension == "book")
        {
            paths.push(path);
        }
    }
    // A folder has no order of its own.
    paths.sort();
    paths.iter().map(std::fs::read).collect()
}
