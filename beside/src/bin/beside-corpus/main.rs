//! beside-corpus [--check | --split FOLDER]: writes the gate's corpus and what
//! the second planner says about it, or checks that the two files are as they
//! would be written, or writes each book to a file of its own. It is run at the
//! repository root and asks the second planner alone.

mod chains;
mod circles;
mod curves;
mod draft;
mod fields;
mod full;
mod kept;
mod outside;
mod parts;
mod random;
mod refusals;
mod ties;
mod twelve;

use beside::books::{bytes_with_count, data, MOST_BYTES};
use beside::printed::stdout;
use std::collections::HashSet;
use std::io;
use std::path::Path;

const DATA: &str = "crates/corpus/data/books";
const STDOUT: &str = "crates/corpus/stdout";
const KEPT: &str = "fuzz/kept";

fn main() {
    let words: Vec<String> = std::env::args().skip(1).collect();
    let words: Vec<&str> = words.iter().map(String::as_str).collect();
    if !Path::new("beside/Cargo.toml").exists() {
        stop("run it at the repository root");
    }
    let done = corpus().and_then(|books| match words[..] {
        [] => write(&books),
        ["--check"] => check(&books),
        ["--split", folder] => split(&books, Path::new(folder)),
        _ => stop("usage: beside-corpus [--check | --split FOLDER]"),
    });
    if let Err(error) = done {
        stop(&error.to_string());
    }
}

fn stop(words: &str) -> ! {
    eprintln!("beside-corpus: {words}");
    std::process::exit(2)
}

/// All books in their order, none of them twice.
fn corpus() -> io::Result<Vec<Vec<u8>>> {
    let mut corpus = Corpus::default();
    corpus.add("the twelve cases", twelve::books());
    corpus.add("refusals", refusals::books());
    corpus.add("fields", fields::books());
    corpus.add("curves", curves::books());
    corpus.add("ties", ties::books());
    corpus.add("what a part leaves", parts::books());
    corpus.add("chains", chains::books());
    corpus.add("circles", circles::books());
    corpus.add("full books", full::books());
    corpus.add("kept from the fuzzer", kept::books(Path::new(KEPT))?);
    // After all that stood here before R-7, whose numbers so stay.
    corpus.add("outside the curve", outside::books());
    if corpus.bytes > MOST_BYTES {
        stop(&format!(
            "that is over {MOST_BYTES} bytes: take some books out of {KEPT}"
        ));
    }
    // Made books take what room the others leave.
    corpus.add("made books", random::books(MOST_BYTES - corpus.bytes));
    println!(
        "in all {} books, {} bytes",
        corpus.books.len(),
        corpus.bytes
    );
    Ok(corpus.books)
}

#[derive(Default)]
struct Corpus {
    books: Vec<Vec<u8>>,
    seen: HashSet<Vec<u8>>,
    /// With the 2 bytes before each book.
    bytes: usize,
}

impl Corpus {
    fn add(&mut self, name: &str, books: Vec<Vec<u8>>) {
        let (count, bytes) = (self.books.len(), self.bytes);
        for book in books {
            if self.seen.insert(book.clone()) {
                self.bytes += bytes_with_count(&book);
                self.books.push(book);
            }
        }
        let (count, bytes) = (self.books.len() - count, self.bytes - bytes);
        println!("{name}: {count} books, {bytes} bytes");
    }
}

fn lent(books: &[Vec<u8>]) -> impl Iterator<Item = &[u8]> {
    books.iter().map(Vec::as_slice)
}

fn write(books: &[Vec<u8>]) -> io::Result<()> {
    for path in [DATA, STDOUT] {
        std::fs::create_dir_all(Path::new(path).parent().expect("both stand in a folder"))?;
    }
    std::fs::write(DATA, data(lent(books)))?;
    std::fs::write(STDOUT, stdout(lent(books)))?;
    println!("written: {DATA} and {STDOUT}");
    Ok(())
}

fn check(books: &[Vec<u8>]) -> io::Result<()> {
    let same = std::fs::read(DATA)? == data(lent(books))
        && std::fs::read(STDOUT)? == stdout(lent(books)).as_bytes();
    if !same {
        println!("{DATA} or {STDOUT} is not what would be written: run beside-corpus");
        std::process::exit(1);
    }
    println!("{DATA} and {STDOUT} are what would be written");
    Ok(())
}

/// One file for each book, as the fuzzer wants them to begin with.
fn split(books: &[Vec<u8>], folder: &Path) -> io::Result<()> {
    std::fs::create_dir_all(folder)?;
    for (number, book) in books.iter().enumerate() {
        std::fs::write(folder.join(format!("{number:03}.book")), book)?;
    }
    println!("written: {} files", books.len());
    Ok(())
}
