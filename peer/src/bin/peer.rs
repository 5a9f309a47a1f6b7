//! The counter's job, by the peer: reads a script and prints its answers.

use std::io::{self, Read, Write};
use std::process::ExitCode;

use peer::program::{run, Words, USAGE};

fn main() -> ExitCode {
    let words: Vec<_> = std::env::args().skip(1).collect();
    let Some(words) = Words::parse(&words) else {
        eprintln!("{USAGE}");
        return ExitCode::from(2);
    };
    match answer(words) {
        Ok(()) => ExitCode::SUCCESS,
        Err(error) => {
            eprintln!("peer: {error}");
            ExitCode::FAILURE
        }
    }
}

fn answer(words: Words) -> io::Result<()> {
    let mut script = Vec::new();
    io::stdin().lock().read_to_end(&mut script)?;
    io::stdout()
        .lock()
        .write_all(run(words, &script).as_bytes())
}
