//! Writes records of random questions about images.

use std::io::{self, BufWriter, Write};
use std::process::ExitCode;

use peer::questions::question;
use peer::random::Random;

fn main() -> ExitCode {
    let words: Vec<_> = std::env::args().skip(1).collect();
    let Some((count, seed)) = parse(&words) else {
        eprintln!("questions N [SEED]");
        return ExitCode::from(2);
    };
    match write(count, seed) {
        Ok(()) => ExitCode::SUCCESS,
        Err(error) => {
            eprintln!("questions: {error}");
            ExitCode::FAILURE
        }
    }
}

fn parse(words: &[String]) -> Option<(u64, u64)> {
    match words {
        [count] => Some((count.parse().ok()?, 0)),
        [count, seed] => Some((count.parse().ok()?, seed.parse().ok()?)),
        _ => None,
    }
}

fn write(count: u64, seed: u64) -> io::Result<()> {
    let mut random = Random::new(seed);
    let mut out = BufWriter::new(io::stdout().lock());
    (0..count).try_for_each(|_| question(&mut random).write(&mut out))?;
    out.flush()
}
