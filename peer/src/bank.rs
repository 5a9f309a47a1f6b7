//! Links, stores, and the vaults that they make up.

use std::collections::VecDeque;
use std::ops::RangeInclusive;

use crate::edges::EdgeSet;
use crate::faults::Fault;
use crate::terms::{Change, Edge, Sign};

const LINK_LIMITS: RangeInclusive<usize> = 2..=1024;
const STORE_LIMITS: RangeInclusive<usize> = 1..=512;
const VAULTS: RangeInclusive<usize> = 1..=8;

/// The messages that wait for one vault, the oldest first.
#[derive(Clone, Debug)]
pub struct Link {
    waiting: VecDeque<Change>,
    limit: usize,
}

impl Link {
    /// A limit that no link may have makes one that takes nothing.
    pub fn new(limit: usize) -> Self {
        Link {
            waiting: VecDeque::new(),
            limit: if LINK_LIMITS.contains(&limit) {
                limit
            } else {
                0
            },
        }
    }

    /// Would it take these messages one after another?
    pub fn takes(&self, edges: &[Edge]) -> Result<(), Fault> {
        let mut room = self.limit - self.waiting.len();
        edges.iter().try_for_each(|edge| {
            if !edge.is_vault_edge() {
                return Err(Fault::NoEdge);
            }
            room = room.checked_sub(1).ok_or(Fault::LinkFull)?;
            Ok(())
        })
    }

    pub fn send(&mut self, message: Change) -> Result<(), Fault> {
        self.takes(&[message.edge])?;
        self.waiting.push_back(message);
        Ok(())
    }

    pub fn head(&self) -> Option<Change> {
        self.waiting.front().copied()
    }

    pub fn strike(&mut self) {
        self.waiting.pop_front();
    }

    pub fn waiting(&self) -> impl Iterator<Item = Change> + '_ {
        self.waiting.iter().copied()
    }

    pub fn count(&self) -> usize {
        self.waiting.len()
    }

    pub fn limit(&self) -> usize {
        self.limit
    }
}

/// A vault's table.
#[derive(Clone, Debug)]
pub struct Store {
    edges: EdgeSet,
    limit: usize,
}

impl Store {
    /// A limit that no store may have makes one that takes nothing.
    pub fn new(limit: usize) -> Self {
        Store {
            edges: EdgeSet::default(),
            limit: if STORE_LIMITS.contains(&limit) {
                limit
            } else {
                0
            },
        }
    }

    pub fn put(&mut self, edge: Edge) -> Result<(), Fault> {
        if !edge.is_vault_edge() {
            return Err(Fault::NoEdge);
        }
        if !self.edges.contains(edge) && self.edges.len() >= self.limit {
            return Err(Fault::StoreFull);
        }
        self.edges.insert(edge);
        Ok(())
    }

    pub fn drop(&mut self, edge: Edge) {
        self.edges.remove(edge);
    }

    pub fn perform(&mut self, message: Change) -> Result<(), Fault> {
        match message.sign {
            Sign::Add => self.put(message.edge),
            Sign::Remove => {
                self.drop(message.edge);
                Ok(())
            }
        }
    }

    pub fn edges(&self) -> &EdgeSet {
        &self.edges
    }

    pub fn limit(&self) -> usize {
        self.limit
    }
}

/// What stands at one vault of a bank.
#[derive(Clone, Debug)]
pub struct Site {
    pub link: Link,
    pub store: Store,
}

impl Site {
    pub fn new(link_limit: usize, store_limit: usize) -> Self {
        Site {
            link: Link::new(link_limit),
            store: Store::new(store_limit),
        }
    }

    fn is_fit(&self) -> bool {
        LINK_LIMITS.contains(&self.link.limit())
            && STORE_LIMITS.contains(&self.store.limit())
            && self.link.count() == 0
            && self.store.edges().is_empty()
    }
}

pub fn inspect(bank: &[Site]) -> Result<(), Fault> {
    if VAULTS.contains(&bank.len()) && bank.iter().all(Site::is_fit) {
        Ok(())
    } else {
        Err(Fault::UnfitBank)
    }
}

#[cfg(test)]
mod tests {
    use super::*;

    #[test]
    fn a_link_is_a_list_with_a_limit() {
        let mut link = Link::new(2);
        let message = Change::add(Edge::new(2, 64));
        assert_eq!(
            link.send(Change::add(Edge::new(64, 256))),
            Err(Fault::NoEdge)
        );
        assert_eq!(link.send(message), Ok(()));
        assert_eq!(link.send(Change::remove(message.edge)), Ok(()));
        assert_eq!(
            link.send(Change::add(Edge::new(64, 256))),
            Err(Fault::NoEdge)
        );
        assert_eq!(link.send(message), Err(Fault::LinkFull));
        assert_eq!(link.head(), Some(message));
        link.strike();
        link.strike();
        link.strike();
        assert_eq!(link.head(), None);
        for limit in [0, 1, 1025] {
            assert_eq!(Link::new(limit).limit(), 0);
        }
    }

    #[test]
    fn a_store_is_a_set_with_a_limit() {
        let mut store = Store::new(1);
        assert_eq!(store.put(Edge::new(64, 256)), Err(Fault::NoEdge));
        assert_eq!(store.put(Edge::new(2, 64)), Ok(()));
        assert_eq!(store.put(Edge::new(2, 64)), Ok(()));
        assert_eq!(store.put(Edge::new(2, 65)), Err(Fault::StoreFull));
        store.drop(Edge::new(9, 65));
        store.drop(Edge::new(2, 64));
        assert!(store.edges().is_empty());
        for limit in [0, 513] {
            assert_eq!(Store::new(limit).limit(), 0);
        }
    }

    #[test]
    fn which_banks_are_fit() {
        let fit = Site::new(2, 1);
        assert_eq!(inspect(&vec![fit.clone(); 8]), Ok(()));
        assert_eq!(inspect(&[]), Err(Fault::UnfitBank));
        assert_eq!(inspect(&vec![fit.clone(); 9]), Err(Fault::UnfitBank));
        assert_eq!(
            inspect(&[fit.clone(), Site::new(1, 1)]),
            Err(Fault::UnfitBank)
        );
        let mut used = fit;
        used.store.put(Edge::new(2, 64)).unwrap();
        assert_eq!(inspect(&[used]), Err(Fault::UnfitBank));
    }
}
