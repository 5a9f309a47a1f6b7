//! Gives random scripts to a counter and to the peer, and compares what they print.

use std::io::{self, Write};
use std::path::{Path, PathBuf};
use std::process::{Command, ExitCode, Stdio};
use std::sync::atomic::{AtomicBool, AtomicU64, Ordering};
use std::sync::Mutex;
use std::thread;

use peer::census::Census;
use peer::generator::{numbered, Sample};
use peer::program::{answers, print, Show, Words};

const USAGE: &str = "compare COUNTER N [SEED]";
const THREADS: usize = 2;
/// How many times a script is tried at most while it is made shorter.
const TRIES: usize = 4000;
/// Each so many scripts, the graph is asked for as well.
const GRAPH_EACH: u64 = 10;

struct Job {
    counter: PathBuf,
    count: u64,
    seed: u64,
}

impl Job {
    fn parse(words: &[String]) -> Option<Self> {
        let (counter, count, seed) = match words {
            [counter, count] => (counter, count, "0"),
            [counter, count, seed] => (counter, count, seed.as_str()),
            _ => return None,
        };
        Some(Job {
            counter: PathBuf::from(counter),
            count: count.parse().ok()?,
            seed: seed.parse().ok()?,
        })
    }
}

/// A script that the two answer differently, with the words that it was given with.
struct Difference {
    words: Words,
    script: Vec<u8>,
}

#[derive(Default)]
struct Tally {
    scripts: usize,
    census: Census,
    difference: Option<Difference>,
}

fn main() -> ExitCode {
    let words: Vec<_> = std::env::args().skip(1).collect();
    let Some(job) = Job::parse(&words) else {
        eprintln!("{USAGE}");
        return ExitCode::from(2);
    };
    match compare(&job) {
        Ok(true) => ExitCode::SUCCESS,
        Ok(false) => ExitCode::FAILURE,
        Err(error) => {
            eprintln!("compare: {}: {error}", job.counter.display());
            ExitCode::from(2)
        }
    }
}

fn compare(job: &Job) -> io::Result<bool> {
    let tally = Mutex::new(Tally::default());
    let next = AtomicU64::new(0);
    let stop = AtomicBool::new(false);
    thread::scope(|scope| {
        let workers: Vec<_> = (0..THREADS)
            .map(|_| scope.spawn(|| work(job, &next, &stop, &tally)))
            .collect();
        workers
            .into_iter()
            .try_for_each(|worker| worker.join().expect("a worker does not panic"))
    })?;

    let tally = tally.into_inner().expect("no worker panicked");
    match tally.difference {
        Some(difference) => {
            report(&job.counter, difference)?;
            Ok(false)
        }
        None => {
            let (lines, census) = (tally.census.total(), &tally.census);
            let scripts = tally.scripts;
            println!("compare: {scripts} scripts alike, {lines} lines, answers: {census}");
            Ok(true)
        }
    }
}

/// Takes scripts by number until there are no more, or somebody found a difference.
fn work(job: &Job, next: &AtomicU64, stop: &AtomicBool, tally: &Mutex<Tally>) -> io::Result<()> {
    while !stop.load(Ordering::Relaxed) {
        let place = next.fetch_add(1, Ordering::Relaxed);
        if place >= job.count {
            break;
        }
        let sample = numbered(job.seed.wrapping_add(place));
        let (census, difference) = match examine(&job.counter, &sample, place) {
            Ok(found) => found,
            Err(error) => {
                stop.store(true, Ordering::Relaxed);
                return Err(error);
            }
        };
        let mut tally = tally.lock().expect("no worker panicked");
        tally.scripts += 1;
        tally.census.join(&census);
        if difference.is_some() {
            stop.store(true, Ordering::Relaxed);
            tally.difference = tally.difference.take().or(difference);
        }
    }
    Ok(())
}

fn examine(
    counter: &Path,
    sample: &Sample,
    place: u64,
) -> io::Result<(Census, Option<Difference>)> {
    let (answers, installation) = answers(sample.words(Show::Tables), &sample.script);
    let census = answers.iter().map(|answer| answer.number()).collect();
    let with_graph = place % GRAPH_EACH == GRAPH_EACH - 1;
    let shows = [Some(Show::Tables), with_graph.then_some(Show::Graph)];
    for show in shows.into_iter().flatten() {
        let words = sample.words(show);
        let ours = print(words, &answers, &installation);
        if printed(counter, words, &sample.script)? != Printed::Whole(ours.into_bytes()) {
            let script = sample.script.clone();
            return Ok((census, Some(Difference { words, script })));
        }
    }
    Ok((census, None))
}

/// What a counter printed, or that it did not end well.
#[derive(PartialEq, Eq)]
enum Printed {
    Whole(Vec<u8>),
    Broken(String),
}

fn printed(counter: &Path, words: Words, script: &[u8]) -> io::Result<Printed> {
    let mut child = Command::new(counter)
        .args(words.to_arguments())
        .stdin(Stdio::piped())
        .stdout(Stdio::piped())
        .stderr(Stdio::piped())
        .spawn()?;
    let stdin = child.stdin.take();
    let output = thread::scope(|scope| {
        // A counter that ends early does not take everything; what it printed tells.
        scope.spawn(move || stdin.map(|mut stdin| stdin.write_all(script)));
        child.wait_with_output()
    })?;
    Ok(match output.status.success() {
        true => Printed::Whole(output.stdout),
        false => {
            let error = String::from_utf8_lossy(&output.stderr);
            Printed::Broken(format!("{}: {error}", output.status))
        }
    })
}

fn ours(words: Words, script: &[u8]) -> Vec<u8> {
    let (answers, installation) = answers(words, script);
    print(words, &answers, &installation).into_bytes()
}

fn differ(counter: &Path, words: Words, script: &[u8]) -> io::Result<bool> {
    Ok(printed(counter, words, script)? != Printed::Whole(ours(words, script)))
}

fn report(counter: &Path, difference: Difference) -> io::Result<()> {
    let words = difference.words;
    let script = shorten(counter, difference)?;
    let mut out = io::stdout().lock();
    let named = words.to_arguments().join(" ");
    writeln!(
        out,
        "compare: a script that is answered differently, with: {named}"
    )?;
    write!(out, "--- script\n{}--- counter\n", shown(&script))?;
    match printed(counter, words, &script)? {
        Printed::Whole(bytes) => out.write_all(&bytes)?,
        Printed::Broken(status) => writeln!(out, "{status}")?,
    }
    writeln!(out, "--- peer")?;
    out.write_all(&ours(words, &script))
}

/// A script as it can be shown: lines as lines, and other bytes that do not print escaped.
fn shown(script: &[u8]) -> String {
    let lines = script.split_inclusive(|byte| *byte == b'\n');
    lines.fold(String::new(), |mut shown, line| {
        match line.strip_suffix(b"\n") {
            Some(line) => shown.extend([line.escape_ascii().to_string().as_str(), "\n"]),
            None => shown.push_str(&format!("{} (without a byte 10)\n", line.escape_ascii())),
        }
        shown
    })
}

/// How scripts are tried while one is made shorter, and how many times more.
struct Shortening<'a> {
    counter: &'a Path,
    words: Words,
    tries: usize,
}

fn shorten(counter: &Path, difference: Difference) -> io::Result<Vec<u8>> {
    let mut shortening = Shortening {
        counter,
        words: difference.words,
        tries: TRIES,
    };
    let lines = difference.script.split_inclusive(|byte| *byte == b'\n');
    let mut lines: Vec<Vec<u8>> = lines.map(<[u8]>::to_vec).collect();
    shortening.drop_pieces(&mut lines, |lines| lines.concat())?;
    for place in 0..lines.len() {
        let mut bytes: Vec<_> = lines[place].clone();
        let (front, back) = (lines[..place].concat(), lines[place + 1..].concat());
        let join = |line: &[u8]| [&front, line, &back].concat();
        shortening.drop_pieces(&mut bytes, join)?;
        lines[place] = bytes;
    }
    Ok(lines.concat())
}

impl Shortening<'_> {
    /// Leaves out halves, quarters and so on, down to single pieces, as long as the difference
    /// stays.
    fn drop_pieces<T: Clone>(
        &mut self,
        pieces: &mut Vec<T>,
        join: impl Fn(&[T]) -> Vec<u8>,
    ) -> io::Result<()> {
        let mut size = pieces.len().div_ceil(2);
        while size > 0 {
            let mut start = 0;
            let mut dropped = false;
            while start < pieces.len() && self.tries > 0 {
                let end = pieces.len().min(start + size);
                let rest = [&pieces[..start], &pieces[end..]].concat();
                self.tries -= 1;
                if differ(self.counter, self.words, &join(&rest))? {
                    *pieces = rest;
                    dropped = true;
                } else {
                    start = end;
                }
            }
            // Once more with single pieces, if some could be left out.
            size = match size {
                1 if dropped && self.tries > 0 => 1,
                _ => size / 2,
            };
        }
        Ok(())
    }
}
