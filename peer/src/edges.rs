//! A set of edges as rows of bits, and the search for paths over it.

use crate::terms::{Edge, Kind, Vertex, ROLES, USERS};

const ROWS: usize = (USERS + ROLES) as usize;

/// What one user or role has an edge to, a bit for each place.
#[derive(Clone, Copy, Debug, Default, PartialEq, Eq)]
pub struct Row {
    pub roles: u64,
    pub records: u128,
    pub rights: u128,
}

impl Row {
    fn targets(self) -> impl Iterator<Item = Vertex> {
        let roles = bits(u128::from(self.roles)).map(Vertex::role);
        let records = bits(self.records).map(Vertex::record);
        let rights = bits(self.rights).map(Vertex::right);
        roles.chain(records).chain(rights)
    }
}

/// The places of the set bits, the lowest first.
pub fn bits(mut word: u128) -> impl Iterator<Item = u8> {
    std::iter::from_fn(move || {
        let lowest = (word != 0).then(|| word.trailing_zeros() as u8)?;
        word &= word - 1;
        Some(lowest)
    })
}

/// A set of edges. Pairs that are no edges are never in it.
#[derive(Clone, Debug, PartialEq, Eq)]
pub struct EdgeSet {
    rows: Vec<Row>,
    len: usize,
}

impl Default for EdgeSet {
    fn default() -> Self {
        EdgeSet {
            rows: vec![Row::default(); ROWS],
            len: 0,
        }
    }
}

impl EdgeSet {
    pub fn len(&self) -> usize {
        self.len
    }

    pub fn is_empty(&self) -> bool {
        self.len == 0
    }

    /// Any pair may be asked.
    pub fn contains(&self, edge: Edge) -> bool {
        let Some(row) = self.rows.get(usize::from(edge.from.0)) else {
            return false;
        };
        match edge.to.kind() {
            Some(Kind::Role(k)) => row.roles >> k & 1 == 1,
            Some(Kind::Record(k)) => row.records >> k & 1 == 1,
            Some(Kind::Right(k)) => row.rights >> k & 1 == 1,
            Some(Kind::User(_)) | None => false,
        }
    }

    /// Says whether the set altered. A pair that is no edge alters nothing.
    pub fn insert(&mut self, edge: Edge) -> bool {
        let absent = edge.is_edge() && !self.contains(edge);
        if absent {
            self.turn(edge);
            self.len += 1;
        }
        absent
    }

    /// Says whether the set altered.
    pub fn remove(&mut self, edge: Edge) -> bool {
        let held = self.contains(edge);
        if held {
            self.turn(edge);
            self.len -= 1;
        }
        held
    }

    fn turn(&mut self, edge: Edge) {
        let row = &mut self.rows[usize::from(edge.from.0)];
        match edge.to.kind() {
            Some(Kind::Role(k)) => row.roles ^= 1 << k,
            Some(Kind::Record(k)) => row.records ^= 1 << k,
            Some(Kind::Right(k)) => row.rights ^= 1 << k,
            Some(Kind::User(_)) | None => {}
        }
    }

    /// All edges, ascending.
    pub fn iter(&self) -> impl Iterator<Item = Edge> + '_ {
        (0..).zip(&self.rows).flat_map(|(from, row)| {
            row.targets().map(move |to| Edge {
                from: Vertex(from),
                to,
            })
        })
    }

    /// The rows of all users and roles, ascending.
    pub fn rows(&self) -> &[Row] {
        &self.rows
    }

    pub fn row(&self, vertex: Vertex) -> Row {
        self.rows
            .get(usize::from(vertex.0))
            .copied()
            .unwrap_or_default()
    }

    /// The roles that the vertex reaches, itself included if it is one.
    pub fn roles_from(&self, vertex: Vertex) -> u64 {
        let mut seen = match vertex.kind() {
            Some(Kind::Role(k)) => 1 << k,
            _ => self.row(vertex).roles,
        };
        let mut followed = 0;
        while seen & !followed != 0 {
            let next = (seen & !followed).trailing_zeros();
            followed |= 1 << next;
            seen |= self.row(Vertex::role(next as u8)).roles;
        }
        seen
    }

    /// Any numbers may be asked about: each reaches itself.
    pub fn reaches(&self, from: Vertex, to: Vertex) -> bool {
        let roles = self.roles_from(from);
        let held = |to| {
            bits(u128::from(roles)).any(|k| {
                self.contains(Edge {
                    from: Vertex::role(k),
                    to,
                })
            })
        };
        from == to
            || match to.kind() {
                Some(Kind::Role(k)) => roles >> k & 1 == 1,
                Some(Kind::Record(_) | Kind::Right(_)) => held(to),
                Some(Kind::User(_)) | None => false,
            }
    }
}

impl FromIterator<Edge> for EdgeSet {
    fn from_iter<I: IntoIterator<Item = Edge>>(edges: I) -> Self {
        let mut set = EdgeSet::default();
        edges.into_iter().for_each(|edge| {
            set.insert(edge);
        });
        set
    }
}

#[cfg(test)]
mod tests {
    use super::*;

    #[test]
    fn edges_ascend_and_pairs_that_are_none_stay_out() {
        let pairs = [(65, 256), (65, 128), (65, 64), (1, 65), (1, 64), (64, 63)];
        let set: EdgeSet = pairs.into_iter().map(|(a, b)| Edge::new(a, b)).collect();
        let listed: Vec<_> = set.iter().map(|e| (e.from.0, e.to.0)).collect();
        assert_eq!(listed, [(1, 64), (1, 65), (65, 64), (65, 128), (65, 256)]);
        assert_eq!(set.len(), 5);
        assert!(!set.contains(Edge::new(500, 500)));
    }

    #[test]
    fn paths_go_round_cycles() {
        let pairs = [(1, 64), (64, 65), (65, 64), (65, 128)];
        let set: EdgeSet = pairs.into_iter().map(|(a, b)| Edge::new(a, b)).collect();
        assert!(set.reaches(Vertex(1), Vertex(128)));
        assert!(set.reaches(Vertex(65), Vertex(64)));
        assert!(!set.reaches(Vertex(1), Vertex(129)));
        assert!(!set.reaches(Vertex(64), Vertex(1)));
        assert!(set.reaches(Vertex(999), Vertex(999)));
        assert!(!set.reaches(Vertex(999), Vertex(64)));
        assert!(!set.reaches(Vertex(66), Vertex(65)));
    }
}
