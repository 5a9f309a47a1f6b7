//! The counter's job: its words, and what it prints for a script.

use std::fmt::Write;

use crate::bank::Site;
use crate::installation::Installation;
use crate::listing;
use crate::ordering::Rule;
use crate::script::{answer_line, lines, Answer};

#[derive(Clone, Copy, Debug, PartialEq, Eq)]
pub enum Show {
    Answers,
    Tables,
    Graph,
    State,
}

#[derive(Clone, Copy, Debug, PartialEq, Eq)]
pub struct Words {
    pub show: Show,
    pub vaults: usize,
    pub store_limit: Option<usize>,
    pub link_limit: Option<usize>,
}

pub const USAGE: &str =
    "peer [tables | graph | state] [--vaults N] [--store-limit S] [--link-limit L]";

impl Words {
    pub fn new(show: Show) -> Self {
        Words {
            show,
            vaults: 2,
            store_limit: None,
            link_limit: None,
        }
    }

    /// Each word may be left out, but none may change its place. `None` for any other words.
    pub fn parse(words: &[String]) -> Option<Self> {
        let mut rest = words.iter().map(String::as_str).peekable();
        let mut take = |word: &str| rest.next_if(|next| *next == word).is_some();
        let shows = [
            ("tables", Show::Tables),
            ("graph", Show::Graph),
            ("state", Show::State),
        ];
        let show = shows.iter().find(|(word, _)| take(word));
        let mut words = Words::new(show.map_or(Show::Answers, |(_, show)| *show));
        if rest.next_if_eq(&"--vaults").is_some() {
            words.vaults = number(rest.next()?)?;
        }
        if rest.next_if_eq(&"--store-limit").is_some() {
            words.store_limit = Some(number(rest.next()?)?);
        }
        if rest.next_if_eq(&"--link-limit").is_some() {
            words.link_limit = Some(number(rest.next()?)?);
        }
        rest.next().is_none().then_some(words)
    }

    /// The words as the counter takes them.
    pub fn to_arguments(self) -> Vec<String> {
        let show = match self.show {
            Show::Answers => None,
            Show::Tables => Some("tables".to_string()),
            Show::Graph => Some("graph".to_string()),
            Show::State => Some("state".to_string()),
        };
        let limit = |word: &str, limit: Option<usize>| {
            limit.map_or(Vec::new(), |l| vec![word.to_string(), l.to_string()])
        };
        let mut words: Vec<_> = show.into_iter().collect();
        words.extend(limit("--store-limit", self.store_limit));
        words.extend(limit("--link-limit", self.link_limit));
        words
    }

    /// Nine vaults are as unfit as more are.
    fn bank(self) -> Vec<Site> {
        let site = Site::new(
            self.link_limit.unwrap_or(1024),
            self.store_limit.unwrap_or(512),
        );
        vec![site; self.vaults.min(9)]
    }
}

fn number(word: &str) -> Option<usize> {
    let digits = (1..=9).contains(&word.len()) && word.bytes().all(|b| b.is_ascii_digit());
    digits.then(|| word.parse().ok())?
}

/// Gives every line of the script; the answers and what is left in the end.
pub fn answers(words: Words, script: &[u8]) -> (Vec<Answer>, Installation) {
    let mut installation = Installation::begin(words.bank(), Rule::Full);
    let answers = lines(script)
        .map(|line| answer_line(&mut installation, line))
        .collect();
    (answers, installation)
}

/// What is printed for the script.
pub fn print(words: Words, answers: &[Answer], installation: &Installation) -> String {
    let mut out = String::new();
    if matches!(words.show, Show::Answers | Show::Tables) {
        for answer in answers {
            writeln!(out, "{answer}").expect("a string takes all that is written");
        }
    }
    let listed = match words.show {
        Show::Answers => Ok(()),
        Show::Tables => listing::tables(&mut out, installation),
        Show::Graph => listing::graph(&mut out, installation),
        Show::State => listing::state(&mut out, installation),
    };
    listed.expect("every vertex of an installation has a name");
    out
}

pub fn run(words: Words, script: &[u8]) -> String {
    let (answers, installation) = answers(words, script);
    print(words, &answers, &installation)
}

#[cfg(test)]
mod tests {
    use super::*;
    use std::path::PathBuf;

    fn parse(words: &str) -> Option<Words> {
        let words: Vec<_> = words.split_whitespace().map(str::to_string).collect();
        Words::parse(&words)
    }

    #[test]
    fn words_have_their_order() {
        let words = parse("tables --store-limit 5 --link-limit 999999999").unwrap();
        assert_eq!(words.show, Show::Tables);
        assert_eq!(words.store_limit, Some(5));
        assert_eq!(words.link_limit, Some(999_999_999));
        assert_eq!(parse(""), Some(Words::new(Show::Answers)));
        assert_eq!(parse("graph").unwrap().show, Show::Graph);
        for wrong in [
            "tables graph",
            "table",
            "--link-limit 5 --store-limit 5",
            "--store-limit",
            "--store-limit 1234567890",
            "--store-limit +5",
            "--store-limit 5 tables",
        ] {
            assert_eq!(parse(wrong), None, "{wrong}");
        }
    }

    #[test]
    fn tables_of_a_small_script() {
        let script = b"K p0 v0\nS r0 r1\nS r1 p0\nS u1 r0\nT v0\nT v0\n";
        let listed = "0\n0\n0\n0\n0\n0\nv0 waits + u1 r0\nv0 holds r0 r1\nv0 holds r1 p0\n";
        assert_eq!(run(Words::new(Show::Tables), script), listed);
        let mut turned_down = Words::new(Show::Tables);
        turned_down.store_limit = Some(0);
        assert_eq!(run(turned_down, script), "9\n0\n0\n0\n9\n9\n");
    }

    #[test]
    fn graph_of_a_small_script() {
        let script = b"D +(u2,r0)\nS r2 +(u2,r0)\nS r2 p0\nS u1 r2\n";
        let listed = r#"digraph policy {
    rankdir=LR;
    node [fontname="sans-serif"];
    "u1" [shape=ellipse];
    "r2" [shape=box];
    "p0" [shape=note];
    "+(u2,r0)" [shape=hexagon];
    "u1" -> "r2";
    "r2" -> "p0";
    "r2" -> "+(u2,r0)";
}
"#;
        assert_eq!(run(Words::new(Show::Graph), script), listed);
    }

    #[test]
    fn state_of_a_small_script() {
        let script = b"D -(u2,r0)\nK p1 v1\nS r2 p1\nS u1 r2\nT v1\n";
        let listed = "policy 1 66\npolicy 66 129\ndeclared 256 - 2 64\nkept 1 129\n\
                      told 1 1 66\ntold 1 66 129\nwait 1 + 1 66\ntable 1 66 129\n";
        assert_eq!(run(Words::new(Show::State), script), listed);
    }

    /// The examples lie beside the peer in the repository; elsewhere `EXAMPLES` says where.
    fn examples() -> PathBuf {
        let beside = PathBuf::from(env!("CARGO_MANIFEST_DIR")).join("../examples");
        match std::env::var_os("EXAMPLES") {
            Some(folder) if !beside.is_dir() => PathBuf::from(folder),
            _ => beside,
        }
    }

    #[test]
    fn examples_have_their_stored_answers() {
        let folder = std::fs::read_dir(examples()).expect("a folder of examples");
        let paths = folder.map(|entry| entry.unwrap().path());
        let scripts: Vec<_> = paths
            .filter(|path| path.extension().is_some_and(|e| e == "script"))
            .collect();
        assert!(!scripts.is_empty());
        for path in scripts {
            let script = std::fs::read(&path).unwrap();
            let stored = std::fs::read_to_string(path.with_extension("answers")).unwrap();
            let answers = run(Words::new(Show::Answers), &script);
            assert_eq!(answers, stored, "{}", path.display());
        }
    }
}
