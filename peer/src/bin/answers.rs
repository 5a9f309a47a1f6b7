//! Reads records of questions about images and writes the peer's answers, a byte each. With the
//! word `census` it prints how often each answer occurs.

use std::io::{self, BufReader, Write};
use std::process::ExitCode;

use peer::access::answer;
use peer::census::Census;
use peer::questions::Question;

fn main() -> ExitCode {
    let words: Vec<_> = std::env::args().skip(1).collect();
    let with_census = match words.iter().map(String::as_str).collect::<Vec<_>>()[..] {
        [] => false,
        ["census"] => true,
        _ => {
            eprintln!("answers [census]");
            return ExitCode::from(2);
        }
    };
    match run(with_census) {
        Ok(()) => ExitCode::SUCCESS,
        Err(error) => {
            eprintln!("answers: {error}");
            ExitCode::FAILURE
        }
    }
}

fn run(with_census: bool) -> io::Result<()> {
    let mut input = BufReader::new(io::stdin().lock());
    let mut answers = Vec::new();
    while let Some(asked) = Question::read(&mut input)? {
        answers.push(answer(
            &asked.image,
            asked.user,
            asked.role,
            asked.privilege,
        ));
    }
    let mut out = io::stdout().lock();
    match with_census {
        true => writeln!(out, "{}", answers.into_iter().collect::<Census>()),
        false => out.write_all(&answers),
    }
}
