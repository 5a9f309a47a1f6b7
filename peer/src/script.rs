//! What a script is answered, line by line.

use std::fmt;

use crate::faults::{Fault, Unread};
use crate::installation::{Call, Installation, Stage};
use crate::reader::read_call;

#[derive(Clone, Copy, Debug, PartialEq, Eq)]
pub enum Answer {
    Accepted,
    Refused(Fault),
    Unread(Unread),
}

impl Answer {
    pub fn number(self) -> u8 {
        match self {
            Answer::Accepted => 0,
            Answer::Refused(fault) => fault.number(),
            Answer::Unread(unread) => unread.fault.number(),
        }
    }
}

impl fmt::Display for Answer {
    fn fmt(&self, f: &mut fmt::Formatter<'_>) -> fmt::Result {
        match self {
            Answer::Accepted => write!(f, "0"),
            Answer::Refused(fault) => fault.fmt(f),
            Answer::Unread(unread) => unread.fmt(f),
        }
    }
}

/// The lines without their bytes 10. Behind the last such byte there is none, unless it has bytes.
pub fn lines(script: &[u8]) -> impl Iterator<Item = &[u8]> {
    script
        .split_inclusive(|byte| *byte == b'\n')
        .map(|line| line.strip_suffix(b"\n").unwrap_or(line))
}

/// A seat or an opening that can be read ends naming, also where it is refused then.
pub fn answer_line(installation: &mut Installation, line: &[u8]) -> Answer {
    let call = match read_call(line, installation.privileges()) {
        Ok(call) => call,
        Err(unread) => return Answer::Unread(unread),
    };
    let ends_naming = matches!(call, Call::Seat(_) | Call::Open);
    let ended = match installation.stage() {
        Stage::Naming if ends_naming => installation.give(Call::EndNaming),
        _ => Ok(0),
    };
    match ended.and_then(|_| installation.give(call)) {
        Ok(_) => Answer::Accepted,
        Err(fault) => Answer::Refused(fault),
    }
}

#[cfg(test)]
mod tests {
    use super::*;
    use crate::bank::Site;
    use crate::ordering::Rule;

    fn answers(script: &str) -> Vec<String> {
        let bank = vec![Site::new(1024, 512); 2];
        let mut installation = Installation::begin(bank, Rule::Full);
        lines(script.as_bytes())
            .map(|line| answer_line(&mut installation, line).to_string())
            .collect()
    }

    #[test]
    fn the_last_line_may_lack_its_end() {
        assert!(answers("").is_empty());
        assert_eq!(answers("\n"), ["15 0"]);
        assert_eq!(answers("O"), ["0"]);
        assert_eq!(answers("O\n\nO"), ["0", "15 0", "20"]);
    }

    #[test]
    fn what_ends_naming() {
        assert_eq!(answers("S u2 u3\nD +(u2,r0)"), ["2", "20"]);
        assert_eq!(answers("S u2 u64\nD +(u2,r0)"), ["16 5", "0"]);
        assert_eq!(answers("S r0 +(u2,r0)\nD +(u2,r0)"), ["17 5", "0"]);
        assert_eq!(
            answers("T v0\nu1 + u2 r1\nO\nO\nS r0 r0"),
            ["20", "20", "0", "20", "20"]
        );
        assert_eq!(answers("K p0 v2\nK u0 v2\nK u0 v0"), ["9", "9", "10"]);
    }
}
