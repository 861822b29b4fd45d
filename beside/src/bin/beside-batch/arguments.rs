//! The command line.

pub struct Arguments {
    pub batches: u64,
    pub seed: u64,
}

pub fn read() -> Arguments {
    let mut numbers = [10, 1];
    for (at, word) in std::env::args().skip(1).enumerate() {
        match (numbers.get_mut(at), word.parse()) {
            (Some(number), Ok(read)) => *number = read,
            _ => usage(&word),
        }
    }
    let [batches, seed] = numbers;
    Arguments { batches, seed }
}

fn usage(word: &str) -> ! {
    eprintln!("beside-batch: what is {word}?");
    eprintln!("usage: beside-batch [BATCHES] [SEED]");
    std::process::exit(2)
}
