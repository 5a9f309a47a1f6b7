//! The reader of script lines.

use crate::faults::{TextFault, Unread};
use crate::installation::Call;
use crate::privileges::Privileges;
use crate::terms::{Change, Edge, Sign, Vertex};

const LINE_BYTES: usize = 128;
const LEVELS: usize = 8;

/// A letter with its range, and what its number 0 is.
struct Letter {
    byte: u8,
    last: u16,
    zero: Vertex,
}

const USER: Letter = Letter {
    byte: b'u',
    last: 63,
    zero: Vertex(0),
};
const ROLE: Letter = Letter {
    byte: b'r',
    last: 63,
    zero: Vertex(64),
};
const RECORD: Letter = Letter {
    byte: b'p',
    last: 127,
    zero: Vertex(128),
};
const VAULT: Letter = Letter {
    byte: b'v',
    last: 7,
    zero: Vertex(0),
};

/// Reads a line of a script, without the byte 10 at its end.
pub fn read_call(line: &[u8], privileges: &Privileges) -> Result<Call, Unread> {
    read(line, privileges, |cursor| match cursor.peek() {
        Some(b'D') => cursor.declaration(),
        Some(b'K') => cursor.keeping(),
        Some(b'S') => cursor.seat(),
        Some(b'O') => cursor.opening(),
        Some(b'T') => cursor.delivery(),
        _ => cursor.command(),
    })
}

/// Reads a line where only a command may stand.
pub fn read_command(line: &[u8], privileges: &Privileges) -> Result<Call, Unread> {
    read(line, privileges, Cursor::command)
}

fn read<'a>(
    line: &'a [u8],
    privileges: &'a Privileges,
    form: impl FnOnce(&mut Cursor<'a>) -> Result<Call, Unread>,
) -> Result<Call, Unread> {
    let mut cursor = Cursor {
        bytes: &line[..line.len().min(LINE_BYTES)],
        column: 0,
        privileges,
        undeclared: None,
    };
    let call = form(&mut cursor)?;
    if cursor.column < line.len() {
        return Err(cursor.malformed());
    }
    match cursor.undeclared {
        Some(column) => Err(TextFault::Undeclared.at(column)),
        None => Ok(call),
    }
}

/// The first 128 bytes of a line and the place reached in them. `undeclared` is the smallest
/// column of a bracket that is not declared.
struct Cursor<'a> {
    bytes: &'a [u8],
    column: usize,
    privileges: &'a Privileges,
    undeclared: Option<usize>,
}

impl Cursor<'_> {
    fn peek(&self) -> Option<u8> {
        self.bytes.get(self.column).copied()
    }

    fn malformed(&self) -> Unread {
        TextFault::Malformed.at(self.column)
    }

    fn byte(&mut self, byte: u8) -> Result<(), Unread> {
        if self.peek() != Some(byte) {
            return Err(self.malformed());
        }
        self.column += 1;
        Ok(())
    }

    fn command(&mut self) -> Result<Call, Unread> {
        let user = self.lettered(&USER)?;
        self.byte(b' ')?;
        let sign = self.sign()?;
        self.byte(b' ')?;
        let edge = self.pair(b' ', LEVELS)?;
        Ok(Call::Command {
            user,
            change: Change { sign, edge },
        })
    }

    fn declaration(&mut self) -> Result<Call, Unread> {
        self.byte(b'D')?;
        self.byte(b' ')?;
        let change = self.bracket(LEVELS)?;
        Ok(Call::Declare(change))
    }

    fn keeping(&mut self) -> Result<Call, Unread> {
        self.byte(b'K')?;
        self.byte(b' ')?;
        let record = self.node(LEVELS)?;
        self.byte(b' ')?;
        let vault = self.vault()?;
        Ok(Call::Keep { record, vault })
    }

    fn seat(&mut self) -> Result<Call, Unread> {
        self.byte(b'S')?;
        self.byte(b' ')?;
        let edge = self.pair(b' ', LEVELS)?;
        Ok(Call::Seat(edge))
    }

    fn opening(&mut self) -> Result<Call, Unread> {
        self.byte(b'O')?;
        Ok(Call::Open)
    }

    fn delivery(&mut self) -> Result<Call, Unread> {
        self.byte(b'T')?;
        self.byte(b' ')?;
        let vault = self.vault()?;
        Ok(Call::Deliver { vault })
    }

    fn vault(&mut self) -> Result<usize, Unread> {
        Ok(usize::from(self.lettered(&VAULT)?.0))
    }

    fn sign(&mut self) -> Result<Sign, Unread> {
        let sign = self.peek().and_then(Sign::from_byte);
        let sign = sign.ok_or_else(|| self.malformed())?;
        self.column += 1;
        Ok(sign)
    }

    fn pair(&mut self, between: u8, levels: usize) -> Result<Edge, Unread> {
        let from = self.node(levels)?;
        self.byte(between)?;
        let to = self.node(levels)?;
        Ok(Edge { from, to })
    }

    /// A node with at most so many brackets in one another.
    fn node(&mut self, levels: usize) -> Result<Vertex, Unread> {
        match self.peek() {
            Some(b'u') => self.lettered(&USER),
            Some(b'r') => self.lettered(&ROLE),
            Some(b'p') => self.lettered(&RECORD),
            _ => self.right(levels),
        }
    }

    fn right(&mut self, levels: usize) -> Result<Vertex, Unread> {
        let column = self.column;
        let change = self.bracket(levels)?;
        let found = self.privileges.find(change);
        if found.is_none() {
            self.undeclared = Some(self.undeclared.map_or(column, |other| other.min(column)));
        }
        Ok(found.unwrap_or(NO_VERTEX))
    }

    fn bracket(&mut self, levels: usize) -> Result<Change, Unread> {
        let column = self.column;
        let sign = self.sign()?;
        let inner = levels.checked_sub(1);
        let inner = inner.ok_or(TextFault::TooDeep.at(column))?;
        self.byte(b'(')?;
        let edge = self.pair(b',', inner)?;
        self.byte(b')')?;
        Ok(Change { sign, edge })
    }

    fn lettered(&mut self, letter: &Letter) -> Result<Vertex, Unread> {
        let column = self.column;
        self.byte(letter.byte)?;
        match self.number()? {
            number if number <= letter.last => Ok(Vertex(letter.zero.0 + number)),
            _ => Err(TextFault::OutOfRange.at(column)),
        }
    }

    /// Behind a leading zero no digit belongs to the number any more.
    fn number(&mut self) -> Result<u16, Unread> {
        let first = self.digit().ok_or_else(|| self.malformed())?;
        let mut number = first;
        if first != 0 {
            while let Some(digit) = self.digit() {
                number = number.saturating_mul(10).saturating_add(digit);
            }
        }
        Ok(number)
    }

    fn digit(&mut self) -> Option<u16> {
        let digit = self.peek().filter(u8::is_ascii_digit)?;
        self.column += 1;
        Some(u16::from(digit - b'0'))
    }
}

/// Stands for a bracket that is not declared. No change about it is, so the brackets around it are
/// not declared either.
const NO_VERTEX: Vertex = Vertex(u16::MAX);

#[cfg(test)]
mod tests {
    use super::*;

    /// `None` for a line that is read.
    type Expected = Option<(u8, usize)>;

    fn told(answer: Result<Call, Unread>) -> Expected {
        answer.err().map(|u| (u.fault.number(), u.column))
    }

    fn with(declared: &[Change]) -> Privileges {
        let mut privileges = Privileges::default();
        for change in declared {
            privileges.declare(*change).unwrap();
        }
        privileges
    }

    fn check_bytes(line: &[u8], expected: Expected) {
        let answer = told(read_call(line, &Privileges::default()));
        let text = String::from_utf8_lossy(line);
        assert_eq!(answer, expected, "{text}");
    }

    fn check(cases: &[(&str, u8, usize)]) {
        for (line, number, column) in cases {
            check_bytes(line.as_bytes(), Some((*number, *column)));
        }
    }

    fn u2_r0() -> Change {
        Change::add(Edge::new(2, 64))
    }

    #[test]
    fn lines_that_say_calls() {
        let privileges = with(&[u2_r0()]);
        let read = |line: &str| read_call(line.as_bytes(), &privileges).unwrap();
        let command = |user, sign, from, to| Call::Command {
            user: Vertex(user),
            change: Change {
                sign,
                edge: Edge::new(from, to),
            },
        };
        assert_eq!(read("u1 + u2 r1"), command(1, Sign::Add, 2, 65));
        assert_eq!(read("u63 - r63 p127"), command(63, Sign::Remove, 127, 255));
        assert_eq!(read("u0 + r2 +(u2,r0)"), command(0, Sign::Add, 66, 256));
        assert_eq!(read("u9 - p0 u0"), command(9, Sign::Remove, 128, 0));
        assert_eq!(
            read("D +(r2,+(u2,r0))"),
            Call::Declare(Change::add(Edge::new(66, 256)))
        );
        let keep = |record, vault| Call::Keep {
            record: Vertex(record),
            vault,
        };
        assert_eq!(read("K p0 v1"), keep(128, 1));
        assert_eq!(read("K u3 v0"), keep(3, 0));
        assert_eq!(read("S r0 r1"), Call::Seat(Edge::new(64, 65)));
        assert_eq!(read("O"), Call::Open);
        assert_eq!(read("T v0"), Call::Deliver { vault: 0 });
        for vault in 2..8 {
            assert_eq!(read(&format!("T v{vault}")), Call::Deliver { vault });
        }
    }

    #[test]
    fn forms() {
        check(&[
            ("", 15, 0),
            ("X", 15, 0),
            ("d +(u2,r0)", 15, 0),
            ("K v0 v0", 15, 2),
            ("D u2", 15, 2),
            ("D+(u2,r0)", 15, 1),
        ]);
        let declare = read_command(b"D +(u2,r0)", &Privileges::default());
        assert_eq!(told(declare), Some((15, 0)));
    }

    #[test]
    fn numbers() {
        check(&[
            ("u01 + u2 r1", 15, 2),
            ("u064", 15, 2),
            ("u00 + u2 r1", 15, 2),
            ("T v08", 15, 4),
            ("K p0 v08", 15, 7),
            ("u + u2 r1", 15, 1),
            ("u64 + u2 r1", 16, 0),
            ("u64x", 16, 0),
            ("u63x", 15, 3),
            ("u100000000000000000000", 16, 0),
            ("u1 + r2 p128", 16, 8),
            ("u1 + r64 p1", 16, 5),
            ("u1 * u64 r1", 15, 3),
            ("u64 * u2 r1", 16, 0),
            ("T v8", 16, 2),
            ("K p0 v10", 16, 5),
            ("K p128 v0", 16, 2),
        ]);
    }

    #[test]
    fn wrong_bytes() {
        check(&[
            ("r1 + u2 r1", 15, 0),
            ("r64 + u2 r1", 15, 0),
            ("+(u2,r0) + u2 r1", 15, 0),
            (" u1 + u2 r1", 15, 0),
            ("u1  + u2 r1", 15, 3),
            ("u1 + u2 r1 ", 15, 10),
            ("u1 + u2 r1\r", 15, 10),
            ("u1 + u2 r1\n", 15, 10),
            ("u1\t+ u2 r1", 15, 2),
            ("u1 + U2 r1", 15, 5),
            ("u1 + u2,r1", 15, 7),
            ("u1 + +(u2, r0) r1", 15, 10),
            ("u1 + + u2", 15, 6),
            ("O ", 15, 1),
            ("D +(u2,r0", 15, 9),
            ("u1 + u2", 15, 7),
            ("u1 + u64", 16, 5),
        ]);
        check_bytes(b"u1 + u2 r\xb1", Some((15, 9)));
        let line = b"u1 + u2 r1";
        for length in 0..line.len() {
            check_bytes(&line[..length], Some((15, length)));
        }
    }

    #[test]
    fn nesting() {
        check(&[
            ("K +(+(+(+(+(+(+(+(+(", 7, 18),
            ("K +(+(+(+(+(+(+(+(+", 7, 18),
            ("K +(+(+(+(+(+(+(+(x", 15, 18),
            ("S r0 +(r0,+(r0,+(r0,+(r0,+(r0,+(r0,+(r0,+(r0,+x", 7, 45),
            ("D +(r0,+(r0,+(r0,+(r0,+(r0,+(r0,+(r0,+(r0,+(r0,p0)", 7, 42),
            ("S r64 +(r0,+(r0,+(r0,+(r0,+(r0,+(r0,+(r0,+(r0,+(", 16, 2),
        ]);
    }

    #[test]
    fn a_line_about_depth_eight_is_read() {
        let mut privileges = Privileges::default();
        let mut node = "p0".to_string();
        for _ in 0..8 {
            node = format!("+(r0,{node})");
            let line = format!("D {node}");
            let Ok(Call::Declare(change)) = read_call(line.as_bytes(), &privileges) else {
                panic!("{line}");
            };
            privileges.declare(change).unwrap();
        }
        let line = format!("u0 + r0 {node}");
        assert_eq!(told(read_call(line.as_bytes(), &privileges)), None);
    }

    /// Fills up with a nest of full brackets, so that the node behind it begins at `column`. A full
    /// nest of brackets is longer than any line.
    fn nest(levels: usize) -> String {
        match levels {
            0 => "r0".to_string(),
            _ => format!("+({},{})", nest(levels - 1), nest(levels - 1)),
        }
    }

    /// A line with nothing wrong in it whose next byte, at `column`, begins a node.
    fn front_to(column: usize) -> String {
        let nest = nest(7);
        let ends = |at: &usize| matches!(nest.as_bytes()[*at], b'(' | b',');
        let heads = [
            "S ",
            "S r0 ",
            "S r10 ",
            "u1 + r0 ",
            "u10 + r0 ",
            "u10 + r10 ",
        ];
        let found = heads.iter().find_map(|head| {
            let at = (0..nest.len()).find(|at| head.len() + at + 1 == column && ends(at))?;
            Some(format!("{head}{}", &nest[..=at]))
        });
        found.expect("some head leaves a node at the column")
    }

    #[test]
    fn only_128_bytes_are_read() {
        let with = |column, end: &str| format!("{}{end}", front_to(column)).into_bytes();
        check_bytes(&with(127, "x??"), Some((15, 127)));
        check_bytes(&with(125, "r64?"), Some((16, 125)));
        check_bytes(&with(126, "r64"), Some((15, 128)));
        check_bytes(&with(127, "r1"), Some((15, 128)));
        check_bytes(&with(125, "r64"), Some((16, 125)));
        check_bytes(&with(125, "r63"), Some((15, 128)));
    }

    #[test]
    fn a_line_of_128_bytes() {
        // A little too short, and made up to the length by numbers of two digits.
        let long = |length: usize| {
            let line = format!("S +({},{}) {}", nest(3), nest(2), nest(3));
            let missing = length - line.len();
            line.replacen("r0", "r10", missing)
        };
        let declared = told(read_call(long(128).as_bytes(), &Privileges::default()));
        assert_eq!(long(128).len(), 128);
        assert_eq!(declared, Some((17, 2)));
        check_bytes(format!("{}?", long(128)).as_bytes(), Some((15, 128)));
    }

    #[test]
    fn declarations() {
        let none = Privileges::default();
        let one = with(&[u2_r0()]);
        let cases = [
            (&none, "S r0 +(r1,+(u2,r0))", Some((17, 5))),
            (&one, "S r0 +(r1,+(u2,r0))", Some((17, 5))),
            (&none, "D +(r1,+(u2,r0))", Some((17, 7))),
            (&one, "D +(r1,+(u2,r0))", None),
            (&one, "D +(+(u2,r0),+(u4,r0))", Some((17, 13))),
            (&one, "u0 + r0 -(u2,r0)", Some((17, 8))),
            (&one, "u0 + r0 +(r0,u2)", Some((17, 8))),
            (&none, "S r0 +(r0,u2)", Some((17, 5))),
            (&none, "K +(u3,r0) v8", Some((16, 11))),
            (&none, "u0 + +(u3,r0) r64", Some((16, 14))),
            (&none, "S +(u1,r1) +(u2,r2)", Some((17, 2))),
            (&one, "S +(u2,r0) +(u2,r2)", Some((17, 11))),
        ];
        for (privileges, line, expected) in cases {
            let answer = told(read_call(line.as_bytes(), privileges));
            assert_eq!(answer, expected, "{line}");
        }
    }
}
