//! The command line.

pub struct Arguments {
    pub count: u64,
    pub seed: u64,
    pub replay: bool,
}

pub fn read() -> Arguments {
    let mut arguments = Arguments {
        count: 10_000,
        seed: 1,
        replay: false,
    };
    let mut numbers = Vec::new();
    for word in std::env::args().skip(1) {
        match word.parse() {
            Ok(number) => numbers.push(number),
            Err(_) if word == "--replay" => arguments.replay = true,
            Err(_) => usage(&word),
        }
    }
    match numbers[..] {
        [] => {}
        [count] => arguments.count = count,
        [count, seed] => (arguments.count, arguments.seed) = (count, seed),
        [_, _, third, ..] => usage(&third.to_string()),
    }
    arguments
}

fn usage(word: &str) -> ! {
    eprintln!("beside-compare: what is {word}?");
    eprintln!("usage: beside-compare [COUNT] [SEED] [--replay]");
    std::process::exit(2)
}
