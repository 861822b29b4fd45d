//! Books in one file, as the corpus program reads them.

/// The corpus program has room for so much.
pub const MOST_BYTES: usize = 60_000;

/// What a book takes in the file.
pub fn bytes_with_count(book: &[u8]) -> usize {
    book.len() + 2
}

/// The books one after the other: a byte count of 2 bytes, then the book. The
/// count is our own, so that a book whose length field lies can stand here too.
pub fn data<'a>(books: impl IntoIterator<Item = &'a [u8]>) -> Vec<u8> {
    let mut data = Vec::new();
    for book in books {
        let count = u16::try_from(book.len()).expect("no book here is that long");
        data.extend(count.to_be_bytes());
        data.extend(book);
    }
    data
}
