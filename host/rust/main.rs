//! Writes libsm's own answers to standard output, in the form of `record.rs`:
//!
//!   oracle list                 the fixed list that the program `rust_answers` replays
//!   oracle fresh SEED COUNT     so many short cases from a seed
//!   oracle long SEED            cases at the length limits
//!   oracle differences          the smallest inputs of docs/DIFFERENCES.md

mod differences;
mod field;
mod fresh;
mod list;
mod random;
mod record;
mod sealing;

use std::io::{stdout, BufWriter, Write};
use std::process::exit;

fn main() {
    record::report_own_panics();
    let words: Vec<String> = std::env::args().skip(1).collect();
    let words: Vec<&str> = words.iter().map(String::as_str).collect();
    let mut out = BufWriter::new(stdout().lock());
    let done = match words[..] {
        ["list"] => list::write_list(&mut out),
        ["fresh", seed, count] => {
            fresh::write_fresh(&mut out, number(seed), number(count) as usize)
        }
        ["long", seed] => fresh::write_long(&mut out, number(seed)),
        ["differences"] => differences::write_differences(&mut out),
        _ => usage(),
    };
    if let Err(error) = done.and_then(|()| out.flush()) {
        eprintln!("oracle: cannot write: {error}");
        exit(1);
    }
}

fn number(word: &str) -> u64 {
    word.parse().unwrap_or_else(|_| usage())
}

fn usage() -> ! {
    eprintln!("usage: oracle list | fresh SEED COUNT | long SEED | differences");
    exit(64);
}
