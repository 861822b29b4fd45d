//! Which job numbers the record question is asked for.

use second::book::MOST_JOBS;

/// 0 to one past the count, and numbers far beyond. In a damaged book the
/// count may be anything.
pub fn job_numbers(book: &[u8]) -> Vec<usize> {
    let count = book.get(3).copied().map_or(0, usize::from);
    let mut numbers: Vec<usize> = (0..=count.min(MOST_JOBS as usize) + 1).collect();
    // 256, 2^16 and 2^32 would be job 0 if their upper bytes were lost.
    numbers.extend([255, 256, 1 << 16, 1 << 32]);
    numbers.push(usize::MAX);
    numbers
}
