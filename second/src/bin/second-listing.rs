//! second-listing [--first] [FILE]: prints the listing of one book, read from
//! the file named or from standard input; with --first the one line of its first
//! part.

use std::io::{Read, Write};

fn main() {
    let mut words = std::env::args_os().skip(1).peekable();
    let first = words.next_if(|word| word == "--first").is_some();
    let mut book = Vec::new();
    let read = match words.next() {
        Some(path) => std::fs::read(path).map(|bytes| book = bytes),
        None => std::io::stdin().read_to_end(&mut book).map(|_| ()),
    };
    if let Err(error) = read {
        eprintln!("second-listing: {error}");
        std::process::exit(2);
    }
    let text = if first {
        second::first_listing(&book)
    } else {
        second::listing(&book)
    };
    if let Err(error) = std::io::stdout().write_all(text.as_bytes()) {
        eprintln!("second-listing: {error}");
        std::process::exit(2);
    }
}
