//! Prints a random script or a long one to measure with, or how often each answer occurs.

use std::io::{self, Write};
use std::process::ExitCode;

use peer::census::Census;
use peer::generator::{numbered, sample, Sample, KINDS};
use peer::load::{load, Load, Size};
use peer::program::{answers, Show};

const USAGE: &str = "scripts (tree | tiny | limits | malformed) SEED
scripts words (tree | tiny | limits | malformed) SEED
scripts census N [SEED]
scripts (load | load-census) COMMANDS EDGES SEED";

/// A script, the words that the counter is to be given with it, or a census.
enum Job {
    Script(Sample),
    Words(Sample),
    Census { count: u64, first: u64 },
    Load(Load),
    LoadCensus(Load),
}

impl Job {
    fn parse(words: &[&str]) -> Option<Self> {
        match words {
            ["census", count] => Some(Job::Census {
                count: count.parse().ok()?,
                first: 0,
            }),
            ["census", count, first] => Some(Job::Census {
                count: count.parse().ok()?,
                first: first.parse().ok()?,
            }),
            ["load", size @ ..] => Some(Job::Load(sized(size)?)),
            ["load-census", size @ ..] => Some(Job::LoadCensus(sized(size)?)),
            ["words", kind, seed] => Some(Job::Words(named(kind, seed)?)),
            [kind, seed] => Some(Job::Script(named(kind, seed)?)),
            _ => None,
        }
    }

    fn run(self) -> io::Result<()> {
        let mut out = io::stdout().lock();
        match self {
            Job::Script(sample) => out.write_all(&sample.script),
            Job::Load(load) => out.write_all(load.script.as_bytes()),
            Job::LoadCensus(load) => writeln!(out, "{load}"),
            Job::Words(sample) => {
                let words = sample.words(Show::Answers).to_arguments();
                writeln!(out, "{}", words.join(" "))
            }
            Job::Census { count, first } => {
                let census = census((0..count).map(|k| numbered(first.wrapping_add(k))));
                writeln!(out, "{} lines, answers: {census}", census.total())
            }
        }
    }
}

fn named(kind: &str, seed: &str) -> Option<Sample> {
    let (_, kind) = KINDS.iter().find(|(name, _)| *name == kind)?;
    Some(sample(*kind, seed.parse().ok()?))
}

/// A script for a policy of so few edges would have no room for what it needs.
const LEAST_EDGES: usize = 50;
const MOST_EDGES: usize = 502;

fn sized(words: &[&str]) -> Option<Load> {
    let [commands, edges, seed] = words else {
        return None;
    };
    let (commands, edges) = (commands.parse().ok()?, edges.parse().ok()?);
    let fits = (LEAST_EDGES..=MOST_EDGES).contains(&edges);
    fits.then(|| Some(load(Size { commands, edges }, seed.parse().ok()?)))?
}

fn census(samples: impl Iterator<Item = Sample>) -> Census {
    let mut census = Census::default();
    for sample in samples {
        let (answers, _) = answers(sample.words(Show::Answers), &sample.script);
        census.join(&answers.iter().map(|answer| answer.number()).collect());
    }
    census
}

fn main() -> ExitCode {
    let words: Vec<_> = std::env::args().skip(1).collect();
    let words: Vec<_> = words.iter().map(String::as_str).collect();
    let Some(job) = Job::parse(&words) else {
        eprintln!("{USAGE}");
        return ExitCode::from(2);
    };
    match job.run() {
        Ok(()) => ExitCode::SUCCESS,
        Err(error) => {
            eprintln!("scripts: {error}");
            ExitCode::FAILURE
        }
    }
}
