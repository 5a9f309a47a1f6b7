//! The declared administrative privileges.

use crate::faults::Fault;
use crate::terms::{Change, Edge, Kind, Vertex, RIGHTS};

const MAX_DEPTH: u8 = 8;

#[derive(Clone, Debug, Default)]
pub struct Privileges {
    declared: Vec<Declared>,
}

#[derive(Clone, Copy, Debug)]
struct Declared {
    change: Change,
    depth: u8,
}

impl Privileges {
    /// The changes in the order of their numbers.
    pub fn iter(&self) -> impl Iterator<Item = Change> + '_ {
        self.declared.iter().map(|d| d.change)
    }

    pub fn len(&self) -> usize {
        self.declared.len()
    }

    pub fn is_empty(&self) -> bool {
        self.declared.is_empty()
    }

    pub fn change(&self, place: u8) -> Option<Change> {
        self.declared.get(usize::from(place)).map(|d| d.change)
    }

    pub fn find(&self, change: Change) -> Option<Vertex> {
        let place = self.declared.iter().position(|d| d.change == change)?;
        Some(Vertex::right(place as u8))
    }

    /// Is it an edge, and any administrative privilege in it declared?
    pub fn has_edge(&self, edge: Edge) -> bool {
        edge.is_edge()
            && match edge.to.kind() {
                Some(Kind::Right(place)) => usize::from(place) < self.declared.len(),
                _ => true,
            }
    }

    pub fn depth(&self, change: Change) -> u8 {
        let inner = match change.edge.to.kind() {
            Some(Kind::Right(place)) => self.declared.get(usize::from(place)),
            _ => None,
        };
        1 + inner.map_or(0, |d| d.depth)
    }

    pub fn declare(&mut self, change: Change) -> Result<Vertex, Fault> {
        if !self.has_edge(change.edge) {
            return Err(Fault::NoEdge);
        }
        if let Some(number) = self.find(change) {
            return Ok(number);
        }
        let depth = self.depth(change);
        if depth > MAX_DEPTH {
            return Err(Fault::TooDeep);
        }
        if self.declared.len() == usize::from(RIGHTS) {
            return Err(Fault::PrivilegesFull);
        }
        self.declared.push(Declared { change, depth });
        Ok(Vertex::right((self.declared.len() - 1) as u8))
    }
}

#[cfg(test)]
mod tests {
    use super::*;

    #[test]
    fn numbers_and_depths() {
        let mut privileges = Privileges::default();
        let first = Change::add(Edge::new(2, 64));
        let second = Change::add(Edge::new(66, 256));
        assert_eq!(privileges.declare(second), Err(Fault::NoEdge));
        assert_eq!(privileges.declare(first), Ok(Vertex(256)));
        assert_eq!(privileges.declare(second), Ok(Vertex(257)));
        assert_eq!(privileges.declare(first), Ok(Vertex(256)));
        assert_eq!((privileges.depth(first), privileges.depth(second)), (1, 2));
        assert_eq!(privileges.len(), 2);
    }

    #[test]
    fn eight_deep_and_no_more() {
        let mut privileges = Privileges::default();
        let mut inner = Vertex::record(0);
        for _ in 0..8 {
            let change = Change::add(Edge::new(64, inner.0));
            inner = privileges.declare(change).unwrap();
        }
        let ninth = Change::add(Edge::new(64, inner.0));
        assert_eq!(privileges.declare(ninth), Err(Fault::TooDeep));
    }

    #[test]
    fn no_more_than_128() {
        let mut privileges = Privileges::default();
        for k in 0..128 {
            let change = Change::remove(Edge::new(64, 128 + k));
            assert_eq!(privileges.declare(change), Ok(Vertex(256 + k)));
        }
        let more = Change::add(Edge::new(64, 128));
        assert_eq!(privileges.declare(more), Err(Fault::PrivilegesFull));
        let held = Change::remove(Edge::new(64, 255));
        assert_eq!(privileges.declare(held), Ok(Vertex(383)));
    }
}
