//! The words of a runner's command: `[--seed N] [--calls N] COMMAND [WORDS..]`.

use std::time::{SystemTime, UNIX_EPOCH};

pub struct Options {
    pub seed: u64,
    pub calls: u64,
    pub command: Vec<String>,
}

fn usage(runner: &str) -> ! {
    eprintln!("{runner} [--seed N] [--calls N] COMMAND [WORDS..]");
    std::process::exit(2)
}

impl Options {
    /// What this runner was called with; without a seed it is taken from the clock, and without a number of calls they are these.
    pub fn of_the_command(runner: &str, calls: u64) -> Options {
        let mut command: Vec<String> = std::env::args().skip(1).collect();
        let clock = SystemTime::now().duration_since(UNIX_EPOCH).map_or(0, |d| d.as_nanos() as u64);
        let (mut seed, mut calls) = (clock, calls);
        while command.len() > 1 && command[0].starts_with("--") {
            let words: Vec<String> = command.drain(..2).collect();
            let number = words[1].parse().unwrap_or_else(|_| usage(runner));
            match words[0].as_str() {
                "--seed" => seed = number,
                "--calls" => calls = number,
                _ => usage(runner),
            }
        }
        if command.is_empty() {
            usage(runner);
        }
        Options { seed, calls, command }
    }
}
