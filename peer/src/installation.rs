//! The centre with its vaults: the stages and all calls.

use crate::bank::{inspect, Link, Site, Store};
use crate::edges::{bits, EdgeSet};
use crate::faults::Fault;
use crate::ordering::{is_allowed, Rule};
use crate::policy::Policy;
use crate::privileges::Privileges;
use crate::terms::{Change, Edge, Kind, Sign, Vertex};

#[derive(Clone, Copy, Debug, PartialEq, Eq)]
pub enum Stage {
    Naming,
    Seating,
    Service,
}

#[derive(Clone, Copy, Debug, PartialEq, Eq)]
pub enum Call {
    Declare(Change),
    Keep { record: Vertex, vault: usize },
    EndNaming,
    Seat(Edge),
    Open,
    Command { user: Vertex, change: Change },
    Apply { vault: usize },
    Deliver { vault: usize },
}

impl Call {
    fn is_of(self, stage: Stage) -> bool {
        match self {
            Call::Declare(_) | Call::Keep { .. } | Call::EndNaming => stage == Stage::Naming,
            Call::Seat(_) | Call::Open => stage == Stage::Seating,
            Call::Command { .. } => stage == Stage::Service,
            Call::Apply { .. } | Call::Deliver { .. } => stage != Stage::Naming,
        }
    }
}

/// A vault as the centre knows it. What is told is always a part of the policy.
#[derive(Clone, Debug)]
pub struct Vault {
    keeps: u128,
    told: EdgeSet,
    link: Link,
    store: Store,
}

impl Vault {
    fn new(site: Site) -> Self {
        Vault {
            keeps: 0,
            told: EdgeSet::default(),
            link: site.link,
            store: site.store,
        }
    }

    /// The user privileges that it keeps, ascending.
    pub fn kept(&self) -> impl Iterator<Item = Vertex> {
        bits(self.keeps).map(Vertex::record)
    }

    pub fn told(&self) -> &EdgeSet {
        &self.told
    }

    pub fn link(&self) -> &Link {
        &self.link
    }

    pub fn table(&self) -> &EdgeSet {
        self.store.edges()
    }

    /// What an addition of `edge` sends here, ascending, where `behind` are the roles that reach
    /// its beginning. Nothing is told of the new edge, as it is absent.
    fn due(&self, policy: &Policy, edge: Edge, behind: u64) -> Vec<Edge> {
        let rows = policy.edges().rows().iter().zip(self.told.rows());
        let mut due: Vec<_> = (0..)
            .zip(rows)
            .flat_map(|(from, (held, told))| {
                let roles = held.roles & behind & !told.roles;
                bits(u128::from(roles)).map(move |to| Edge {
                    from: Vertex(from),
                    to: Vertex::role(to),
                })
            })
            .collect();
        due.insert(due.partition_point(|other| *other < edge), edge);
        due
    }

    fn store_has_room(&self, due: &[Edge]) -> bool {
        self.told.len() + due.len() <= self.store.limit()
    }

    fn link_has_room(&self, due: &[Edge]) -> bool {
        self.link.count() + self.told.len() + 2 * due.len() <= self.link.limit()
    }
}

#[derive(Clone, Debug)]
pub struct Installation {
    stage: Stage,
    rule: Rule,
    privileges: Privileges,
    policy: Policy,
    vaults: Vec<Vault>,
}

impl Installation {
    /// A bank that inspection turns down leaves it without vaults.
    pub fn begin(bank: Vec<Site>, rule: Rule) -> Self {
        let bank = match inspect(&bank) {
            Ok(()) => bank,
            Err(_) => Vec::new(),
        };
        Installation {
            stage: Stage::Naming,
            rule,
            privileges: Privileges::default(),
            policy: Policy::default(),
            vaults: bank.into_iter().map(Vault::new).collect(),
        }
    }

    pub fn stage(&self) -> Stage {
        self.stage
    }

    pub fn privileges(&self) -> &Privileges {
        &self.privileges
    }

    pub fn policy(&self) -> &Policy {
        &self.policy
    }

    pub fn vaults(&self) -> &[Vault] {
        &self.vaults
    }

    /// Answers the number of a declaration, and 0 for every other call. A refused call alters
    /// nothing.
    pub fn give(&mut self, call: Call) -> Result<u16, Fault> {
        if !call.is_of(self.stage) {
            return Err(Fault::WrongStage);
        }
        match call {
            Call::Declare(change) => return Ok(self.privileges.declare(change)?.0),
            Call::Keep { record, vault } => self.keep(record, vault)?,
            Call::EndNaming => self.stage = Stage::Seating,
            Call::Seat(edge) => self.seat(edge)?,
            Call::Open => self.stage = Stage::Service,
            Call::Command { user, change } => self.command(user, change)?,
            Call::Apply { vault } => self.perform(vault)?,
            Call::Deliver { vault } => {
                self.perform(vault)?;
                self.vaults[vault].link.strike();
            }
        }
        Ok(0)
    }

    /// Carries out commands one after another, each as if given alone. The answer is the first
    /// refusal, with the number of its command.
    pub fn work(&mut self, commands: &mut [Work]) -> Result<(), (usize, Fault)> {
        let mut first = Ok(());
        for (number, work) in commands.iter_mut().enumerate() {
            let call = Call::Command {
                user: work.user,
                change: work.change,
            };
            work.answer = Some(self.give(call).map(|_| ()));
            if let (Ok(()), Some(Err(fault))) = (first, work.answer) {
                first = Err((number, fault));
            }
        }
        first
    }

    fn keep(&mut self, record: Vertex, vault: usize) -> Result<(), Fault> {
        let vault = self.vaults.get_mut(vault).ok_or(Fault::NoVault)?;
        let Some(Kind::Record(place)) = record.kind() else {
            return Err(Fault::NotRecord);
        };
        vault.keeps |= 1 << place;
        Ok(())
    }

    fn seat(&mut self, edge: Edge) -> Result<(), Fault> {
        self.ask_edge(edge)?;
        self.add(edge)
    }

    fn command(&mut self, user: Vertex, change: Change) -> Result<(), Fault> {
        if !user.is_user() {
            return Err(Fault::NoUser);
        }
        self.ask_edge(change.edge)?;
        if !is_allowed(self.rule, &self.privileges, &self.policy, user, change) {
            return Err(Fault::NotAllowed);
        }
        match change.sign {
            Sign::Add => self.add(change.edge),
            Sign::Remove => self.withdraw(change.edge),
        }
    }

    fn ask_edge(&self, edge: Edge) -> Result<(), Fault> {
        if self.privileges.has_edge(edge) {
            Ok(())
        } else {
            Err(Fault::NoEdge)
        }
    }

    fn add(&mut self, edge: Edge) -> Result<(), Fault> {
        if self.policy.contains(edge) {
            return Ok(());
        }
        if !self.policy.has_room() {
            return Err(Fault::PolicyFull);
        }
        let due = self.due(edge);
        self.ask_room(&due)?;
        self.policy.insert(edge);
        for (vault, due) in self.vaults.iter_mut().zip(due) {
            for edge in due {
                vault.link.send(Change::add(edge))?;
                vault.told.insert(edge);
            }
        }
        Ok(())
    }

    /// What goes to each vault. One that keeps nothing which the edge's end reaches is sent none.
    fn due(&self, edge: Edge) -> Vec<Vec<Edge>> {
        let records = self.policy.records_from(edge.to);
        let behind = self.policy.roles_to(edge.from);
        let due = |vault: &Vault| match vault.keeps & records {
            0 => Vec::new(),
            _ => vault.due(&self.policy, edge, behind),
        };
        self.vaults.iter().map(due).collect()
    }

    /// All stores are asked before any link.
    fn ask_room(&self, due: &[Vec<Edge>]) -> Result<(), Fault> {
        let sendings = || self.vaults.iter().zip(due);
        if let Some(vault) = sendings().position(|(v, due)| !v.store_has_room(due)) {
            return Err(Fault::StoreShort { vault });
        }
        if let Some(vault) = sendings().position(|(v, due)| !v.link_has_room(due)) {
            return Err(Fault::LinkShort { vault });
        }
        sendings().try_for_each(|(v, due)| v.link.takes(due))
    }

    fn withdraw(&mut self, edge: Edge) -> Result<(), Fault> {
        if !self.policy.contains(edge) {
            return Ok(());
        }
        let is_told = |vault: &&Vault| vault.told.contains(edge);
        let mut told = self.vaults.iter().filter(is_told);
        told.try_for_each(|vault| vault.link.takes(&[edge]))?;
        self.policy.remove(edge);
        for vault in &mut self.vaults {
            if vault.told.remove(edge) {
                vault.link.send(Change::remove(edge))?;
            }
        }
        Ok(())
    }

    fn perform(&mut self, vault: usize) -> Result<(), Fault> {
        let vault = self.vaults.get_mut(vault).ok_or(Fault::NoVault)?;
        let message = vault.link.head().ok_or(Fault::NothingWaits)?;
        vault.store.perform(message)
    }
}

/// A command of a work list, with its answer once it was carried out.
#[derive(Clone, Copy, Debug)]
pub struct Work {
    pub user: Vertex,
    pub change: Change,
    pub answer: Option<Result<(), Fault>>,
}

#[cfg(test)]
mod tests {
    use super::*;

    const A: u16 = 256;

    fn add(from: u16, to: u16) -> Change {
        Change::add(Edge::new(from, to))
    }

    fn remove(from: u16, to: u16) -> Change {
        Change::remove(Edge::new(from, to))
    }

    fn command(user: u16, change: Change) -> Call {
        Call::Command {
            user: Vertex(user),
            change,
        }
    }

    fn worked(rule: Rule, store: usize, link: usize, seats: &[(u16, u16)]) -> Installation {
        let mut it = Installation::begin(vec![Site::new(link, store)], rule);
        let declared = [add(2, 64), add(66, A), add(2, 65), remove(65, 128)];
        for (number, change) in (A..).zip(declared) {
            assert_eq!(it.give(Call::Declare(change)), Ok(number));
        }
        let record = Vertex(128);
        assert_eq!(it.give(Call::Keep { record, vault: 0 }), Ok(0));
        assert_eq!(it.give(Call::EndNaming), Ok(0));
        for &(from, to) in seats {
            assert_eq!(it.give(Call::Seat(Edge::new(from, to))), Ok(0));
        }
        assert_eq!(it.give(Call::Open), Ok(0));
        it
    }

    const SEATS: [(u16, u16); 7] = [
        (64, 65),
        (65, 128),
        (1, 66),
        (66, 256),
        (0, 67),
        (67, 257),
        (67, 259),
    ];

    fn waiting(it: &Installation) -> Vec<Change> {
        it.vaults[0].link.waiting().collect()
    }

    fn answer(rule: Rule, store: usize, link: usize, call: Call) -> Result<u16, Fault> {
        worked(rule, store, link, &SEATS).give(call)
    }

    #[test]
    fn worked_examples() {
        let full = |call| answer(Rule::Full, 512, 1024, call);
        let plain = |call| answer(Rule::Plain, 512, 1024, call);
        let number = |answer: Result<u16, Fault>| answer.map_err(Fault::number);

        let mut it = worked(Rule::Full, 512, 1024, &SEATS);
        assert_eq!(waiting(&it), [add(64, 65), add(65, 128)]);
        assert_eq!(it.vaults[0].told.len(), 2);
        assert_eq!(it.give(command(1, add(2, 64))), Ok(0));
        assert_eq!(waiting(&it)[2..], [add(2, 64)]);

        assert_eq!(full(command(1, add(2, 65))), Ok(0));
        assert_eq!(number(plain(command(1, add(2, 65)))), Err(3));
        assert_eq!(number(full(command(1, remove(2, 64)))), Err(3));
        assert_eq!(number(full(command(1, add(2, 128)))), Err(2));
        assert_eq!(number(full(command(64, add(2, 64)))), Err(1));

        let mut it = worked(Rule::Full, 512, 1024, &SEATS);
        assert_eq!(it.give(command(0, add(66, 258))), Ok(0));
        assert_eq!(waiting(&it).len(), 2);
        assert_eq!(number(plain(command(0, add(66, 258)))), Err(3));
        let mut it = worked(Rule::Full, 512, 1024, &SEATS[1..]);
        assert_eq!(number(it.give(command(0, add(66, 258)))), Err(3));
    }

    #[test]
    fn worked_examples_at_limits() {
        let call = command(1, add(2, 64));
        let short = Fault::LinkShort { vault: 0 };
        assert_eq!(answer(Rule::Full, 512, 5, call), Err(short));
        let mut it = worked(Rule::Full, 512, 6, &SEATS);
        assert_eq!(it.give(call), Ok(0));
        assert_eq!(it.give(command(0, remove(65, 128))), Ok(0));
        assert_eq!((waiting(&it).len(), it.vaults[0].told.len()), (4, 2));
        let short = Fault::StoreShort { vault: 0 };
        assert_eq!(answer(Rule::Full, 2, 1024, call), Err(short));
        assert_eq!(answer(Rule::Full, 3, 1024, call), Ok(0));
    }

    #[test]
    fn worked_example_delivered() {
        let mut it = worked(Rule::Full, 512, 1024, &SEATS);
        it.give(command(1, add(2, 64))).unwrap();
        for _ in 0..3 {
            assert_eq!(it.give(Call::Deliver { vault: 0 }), Ok(0));
        }
        let again = it.give(Call::Deliver { vault: 0 });
        assert_eq!(again, Err(Fault::NothingWaits));
        let table: Vec<_> = it.vaults[0].table().iter().collect();
        let edges = [(2, 64), (64, 65), (65, 128)];
        assert_eq!(table, edges.map(|(from, to)| Edge::new(from, to)));
    }

    #[test]
    fn stages_have_their_calls() {
        let fit = || Installation::begin(vec![Site::new(2, 1)], Rule::Full);
        let calls = [
            Call::Declare(add(2, 64)),
            Call::Keep {
                record: Vertex(128),
                vault: 9,
            },
            Call::Seat(Edge::new(64, 64)),
            command(64, add(2, 64)),
            Call::Apply { vault: 0 },
            Call::Deliver { vault: 9 },
        ];
        let answers = |mut it: Installation| {
            calls.map(|call| it.give(call).map_or_else(Fault::number, |_| 0))
        };
        assert_eq!(answers(fit()), [0, 9, 20, 20, 20, 20]);
        let mut seating = fit();
        seating.give(Call::EndNaming).unwrap();
        assert_eq!(seating.give(Call::EndNaming), Err(Fault::WrongStage));
        assert_eq!(answers(seating.clone()), [20, 20, 0, 20, 11, 9]);
        seating.give(Call::Open).unwrap();
        assert_eq!(seating.give(Call::Open), Err(Fault::WrongStage));
        assert_eq!(answers(seating), [20, 20, 20, 1, 11, 9]);
    }

    #[test]
    fn a_bank_turned_down_has_no_vaults() {
        let mut it = Installation::begin(vec![Site::new(1, 1)], Rule::Full);
        let record = Vertex(64);
        let keep = it.give(Call::Keep { record, vault: 0 });
        assert_eq!(keep, Err(Fault::NoVault));
        assert!(it.vaults().is_empty());
    }

    #[test]
    fn applying_leaves_the_message() {
        let mut it = worked(Rule::Full, 512, 1024, &SEATS);
        assert_eq!(it.give(Call::Apply { vault: 0 }), Ok(0));
        assert_eq!(it.give(Call::Apply { vault: 0 }), Ok(0));
        assert_eq!(waiting(&it).len(), 2);
        assert_eq!(it.vaults[0].table().len(), 1);
    }

    #[test]
    fn a_work_list_goes_on_behind_a_refusal() {
        let mut it = worked(Rule::Full, 512, 1024, &SEATS);
        let work = |user, change| Work {
            user: Vertex(user),
            change,
            answer: None,
        };
        let mut list = [
            work(1, add(2, 64)),
            work(1, remove(2, 64)),
            work(64, add(2, 64)),
            work(1, add(2, 65)),
        ];
        assert_eq!(it.work(&mut list), Err((1, Fault::NotAllowed)));
        assert_eq!(
            list.map(|w| w.answer),
            [
                Some(Ok(())),
                Some(Err(Fault::NotAllowed)),
                Some(Err(Fault::NoUser)),
                Some(Ok(()))
            ]
        );
    }
}
