//! Vertices, edges and changes.

pub const USERS: u16 = 64;
pub const ROLES: u16 = 64;
pub const RECORDS: u16 = 128;
pub const RIGHTS: u16 = 128;

const FIRST_ROLE: u16 = USERS;
const FIRST_RECORD: u16 = FIRST_ROLE + ROLES;
const FIRST_RIGHT: u16 = FIRST_RECORD + RECORDS;
const END: u16 = FIRST_RIGHT + RIGHTS;

/// Any number that may be asked about; only those below 384 are vertices.
#[derive(Clone, Copy, Debug, PartialEq, Eq, PartialOrd, Ord, Hash)]
pub struct Vertex(pub u16);

/// What a vertex is, with its place among its like. A record is a user privilege, a right an
/// administrative one.
#[derive(Clone, Copy, Debug, PartialEq, Eq)]
pub enum Kind {
    User(u8),
    Role(u8),
    Record(u8),
    Right(u8),
}

impl Vertex {
    pub fn user(place: u8) -> Self {
        Vertex(u16::from(place))
    }

    pub fn role(place: u8) -> Self {
        Vertex(FIRST_ROLE + u16::from(place))
    }

    pub fn record(place: u8) -> Self {
        Vertex(FIRST_RECORD + u16::from(place))
    }

    pub fn right(place: u8) -> Self {
        Vertex(FIRST_RIGHT + u16::from(place))
    }

    pub fn kind(self) -> Option<Kind> {
        // Each difference is below 128, so it fits its byte.
        match self.0 {
            n if n < FIRST_ROLE => Some(Kind::User(n as u8)),
            n if n < FIRST_RECORD => Some(Kind::Role((n - FIRST_ROLE) as u8)),
            n if n < FIRST_RIGHT => Some(Kind::Record((n - FIRST_RECORD) as u8)),
            n if n < END => Some(Kind::Right((n - FIRST_RIGHT) as u8)),
            _ => None,
        }
    }

    pub fn is_user(self) -> bool {
        matches!(self.kind(), Some(Kind::User(_)))
    }

    pub fn is_role(self) -> bool {
        matches!(self.kind(), Some(Kind::Role(_)))
    }

    pub fn is_record(self) -> bool {
        matches!(self.kind(), Some(Kind::Record(_)))
    }
}

/// A pair of numbers; whether it is an edge is to be asked. Its derived order is that of the rules.
#[derive(Clone, Copy, Debug, PartialEq, Eq, PartialOrd, Ord, Hash)]
pub struct Edge {
    pub from: Vertex,
    pub to: Vertex,
}

impl Edge {
    pub fn new(from: u16, to: u16) -> Self {
        Edge {
            from: Vertex(from),
            to: Vertex(to),
        }
    }

    pub fn is_edge(self) -> bool {
        matches!(
            (self.from.kind(), self.to.kind()),
            (Some(Kind::User(_)), Some(Kind::Role(_)))
                | (
                    Some(Kind::Role(_)),
                    Some(Kind::Role(_) | Kind::Record(_) | Kind::Right(_))
                )
        )
    }

    pub fn is_vault_edge(self) -> bool {
        self.is_edge() && self.to.0 < FIRST_RIGHT
    }
}

#[derive(Clone, Copy, Debug, PartialEq, Eq, Hash)]
pub enum Sign {
    Add,
    Remove,
}

impl Sign {
    pub fn byte(self) -> u8 {
        match self {
            Sign::Add => b'+',
            Sign::Remove => b'-',
        }
    }

    pub fn from_byte(byte: u8) -> Option<Self> {
        match byte {
            b'+' => Some(Sign::Add),
            b'-' => Some(Sign::Remove),
            _ => None,
        }
    }
}

/// An edge to be added or to be removed.
#[derive(Clone, Copy, Debug, PartialEq, Eq, Hash)]
pub struct Change {
    pub sign: Sign,
    pub edge: Edge,
}

impl Change {
    pub fn add(edge: Edge) -> Self {
        Change {
            sign: Sign::Add,
            edge,
        }
    }

    pub fn remove(edge: Edge) -> Self {
        Change {
            sign: Sign::Remove,
            edge,
        }
    }
}

#[cfg(test)]
mod tests {
    use super::*;

    #[test]
    fn pairs() {
        for (from, to) in [(63, 64), (127, 127), (127, 255)] {
            assert!(Edge::new(from, to).is_vault_edge());
        }
        for (from, to) in [(64, 256), (127, 383)] {
            assert!(Edge::new(from, to).is_edge());
            assert!(!Edge::new(from, to).is_vault_edge());
        }
        for (from, to) in [(64, 63), (0, 128), (128, 64), (64, 384)] {
            assert!(!Edge::new(from, to).is_edge());
        }
    }
}
