//! The refusals and their numbers.

use std::fmt;

/// Why a call of the installation, of a link, a store or a bank is refused.
#[derive(Clone, Copy, Debug, PartialEq, Eq)]
pub enum Fault {
    NoUser,
    NoEdge,
    NotAllowed,
    PolicyFull,
    StoreShort { vault: usize },
    LinkShort { vault: usize },
    TooDeep,
    PrivilegesFull,
    NoVault,
    NotRecord,
    NothingWaits,
    StoreFull,
    LinkFull,
    UnfitBank,
    WrongStage,
}

impl Fault {
    pub fn number(self) -> u8 {
        match self {
            Fault::NoUser => 1,
            Fault::NoEdge => 2,
            Fault::NotAllowed => 3,
            Fault::PolicyFull => 4,
            Fault::StoreShort { .. } => 5,
            Fault::LinkShort { .. } => 6,
            Fault::TooDeep => 7,
            Fault::PrivilegesFull => 8,
            Fault::NoVault => 9,
            Fault::NotRecord => 10,
            Fault::NothingWaits => 11,
            Fault::StoreFull => 12,
            Fault::LinkFull => 13,
            Fault::UnfitBank => 19,
            Fault::WrongStage => 20,
        }
    }
}

impl fmt::Display for Fault {
    fn fmt(&self, f: &mut fmt::Formatter<'_>) -> fmt::Result {
        match self {
            Fault::StoreShort { vault } | Fault::LinkShort { vault } => {
                write!(f, "{} {vault}", self.number())
            }
            _ => write!(f, "{}", self.number()),
        }
    }
}

/// Why a line cannot be read.
#[derive(Clone, Copy, Debug, PartialEq, Eq)]
pub enum TextFault {
    Malformed,
    OutOfRange,
    TooDeep,
    Undeclared,
}

impl TextFault {
    pub fn number(self) -> u8 {
        match self {
            TextFault::TooDeep => 7,
            TextFault::Malformed => 15,
            TextFault::OutOfRange => 16,
            TextFault::Undeclared => 17,
        }
    }

    pub fn at(self, column: usize) -> Unread {
        Unread {
            fault: self,
            column,
        }
    }
}

/// A text fault with the column that it has.
#[derive(Clone, Copy, Debug, PartialEq, Eq)]
pub struct Unread {
    pub fault: TextFault,
    pub column: usize,
}

impl fmt::Display for Unread {
    fn fmt(&self, f: &mut fmt::Formatter<'_>) -> fmt::Result {
        write!(f, "{} {}", self.fault.number(), self.column)
    }
}
