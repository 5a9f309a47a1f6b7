//! The policy of the centre: a set of edges, and which roles reach which.

use crate::edges::{bits, EdgeSet};
use crate::terms::{Edge, Kind, Vertex, ROLES};

const MAX_EDGES: usize = 512;

/// `reach` has for each role the roles that it reaches, itself included, by the edges held now.
#[derive(Clone, Debug)]
pub struct Policy {
    edges: EdgeSet,
    reach: [u64; ROLES as usize],
}

impl Default for Policy {
    fn default() -> Self {
        Policy {
            edges: EdgeSet::default(),
            reach: std::array::from_fn(|k| 1 << k),
        }
    }
}

impl Policy {
    pub fn edges(&self) -> &EdgeSet {
        &self.edges
    }

    pub fn contains(&self, edge: Edge) -> bool {
        self.edges.contains(edge)
    }

    pub fn has_room(&self) -> bool {
        self.edges.len() < MAX_EDGES
    }

    pub fn insert(&mut self, edge: Edge) {
        if !self.edges.insert(edge) {
            return;
        }
        if let (Some(Kind::Role(from)), Some(Kind::Role(to))) = (edge.from.kind(), edge.to.kind()) {
            let gained = self.reach[usize::from(to)];
            let before = self.reach.iter_mut().filter(|r| **r >> from & 1 == 1);
            before.for_each(|r| *r |= gained);
        }
    }

    pub fn remove(&mut self, edge: Edge) {
        if self.edges.remove(edge) && edge.from.is_role() && edge.to.is_role() {
            for place in 0..ROLES as u8 {
                self.reach[usize::from(place)] = self.edges.roles_from(Vertex::role(place));
            }
        }
    }

    /// The roles that the vertex reaches, itself included if it is one.
    pub fn roles_from(&self, vertex: Vertex) -> u64 {
        match vertex.kind() {
            Some(Kind::Role(place)) => self.reach[usize::from(place)],
            Some(Kind::User(_)) => bits(u128::from(self.edges.row(vertex).roles))
                .fold(0, |all, place| all | self.reach[usize::from(place)]),
            _ => 0,
        }
    }

    /// The roles that reach the vertex, which is a user or a role.
    pub fn roles_to(&self, vertex: Vertex) -> u64 {
        let Some(Kind::Role(place)) = vertex.kind() else {
            return 0;
        };
        (0..)
            .zip(&self.reach)
            .filter(|(_, r)| **r >> place & 1 == 1)
            .fold(0, |all, (from, _)| all | 1 << from)
    }

    /// Between users and roles alone.
    pub fn reaches(&self, from: Vertex, to: Vertex) -> bool {
        from == to
            || match to.kind() {
                Some(Kind::Role(place)) => self.roles_from(from) >> place & 1 == 1,
                _ => false,
            }
    }

    /// The user privileges that the vertex reaches.
    pub fn records_from(&self, vertex: Vertex) -> u128 {
        match vertex.kind() {
            Some(Kind::Record(place)) => 1 << place,
            _ => bits(u128::from(self.roles_from(vertex))).fold(0, |all, place| {
                all | self.edges.row(Vertex::role(place)).records
            }),
        }
    }

    /// The administrative privileges that a user or a role reaches.
    pub fn rights_from(&self, vertex: Vertex) -> u128 {
        bits(u128::from(self.roles_from(vertex))).fold(0, |all, place| {
            all | self.edges.row(Vertex::role(place)).rights
        })
    }
}

#[cfg(test)]
mod tests {
    use super::*;
    use crate::random::Random;

    #[test]
    fn reach_is_that_of_the_edges() {
        let mut random = Random::new(7);
        let mut policy = Policy::default();
        for _ in 0..2000 {
            let edge = Edge::new(64 + random.below(9) as u16, 64 + random.below(9) as u16);
            if random.chance(1, 2) {
                policy.insert(edge);
            } else {
                policy.remove(edge);
            }
            for role in (0..64).map(Vertex::role) {
                assert_eq!(policy.roles_from(role), policy.edges.roles_from(role));
            }
        }
    }
}
