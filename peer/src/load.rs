//! Long scripts to measure with: the policy stays about as large as it is wanted, and most commands are
//! accepted. The peer's own centre answers each line as it is written, so that the next one fits.

use std::fmt;

use crate::bank::Site;
use crate::census::Census;
use crate::faults::Fault;
use crate::installation::{Call, Installation};
use crate::listing::write_name;
use crate::ordering::{is_allowed, Rule};
use crate::random::Random;
use crate::terms::{Change, Edge, Sign, Vertex, RIGHTS, ROLES, USERS};

/// How many commands a script has, and about how many edges its policy.
#[derive(Clone, Copy, Debug)]
pub struct Size {
    pub commands: usize,
    pub edges: usize,
}

/// A script, and what the peer saw of it.
#[derive(Clone, Debug, Default)]
pub struct Load {
    pub script: String,
    pub census: Census,
    /// Commands that were accepted and that the plain rule would have refused.
    pub by_precedence: usize,
    /// The fewest and the most edges that the policy had in service.
    pub edges: Option<(usize, usize)>,
    /// The most messages that waited for a vault in service.
    pub waiting: usize,
}

impl fmt::Display for Load {
    fn fmt(&self, f: &mut fmt::Formatter<'_>) -> fmt::Result {
        let lines = self.census.total();
        writeln!(f, "{lines} lines, answers: {}", self.census)?;
        writeln!(f, "accepted by precedence alone: {}", self.by_precedence)?;
        if let Some((least, most)) = self.edges {
            writeln!(f, "edges of the policy: {least} to {most}")?;
        }
        write!(f, "messages that waited at once: {}", self.waiting)
    }
}

/// The same size and seed bring the same script, and fewer commands the front of it.
pub fn load(size: Size, seed: u64) -> Load {
    let mut maker = Maker {
        random: Random::new(seed),
        centre: Installation::begin(vec![Site::new(1024, 512); VAULTS], Rule::Full),
        load: Load::default(),
    };
    let plan = maker.begin(size.edges);
    for _ in 0..size.commands {
        let (user, change) = maker.wish(&plan);
        maker.command(user, change);
        maker.deliver_some();
    }
    maker.load
}

const VAULTS: usize = 2;
const RECORDS: u8 = 48;
/// No more messages than these wait behind a command.
const FEW: usize = 32;
/// How deep the last privilege of a chain is nested.
const DEEPEST: usize = 8;

/// How many there are of everything.
struct Shape {
    offices: usize,
    roles: usize,
    users: usize,
    moving: usize,
    staying: usize,
}

impl Shape {
    fn of(edges: usize) -> Self {
        let moving = 7 + edges / 15;
        Shape {
            offices: 2 + (edges / 80).min(6),
            roles: (2 + edges / 11).min(47),
            users: (edges / 8).min(usize::from(USERS) - 8),
            moving,
            // Three of four edges that come and go are there when service begins.
            staying: edges.saturating_sub(moving * 3 / 4),
        }
    }

    /// The administrators are the first users, each in an office of his own.
    fn administrator(&self, random: &mut Random) -> Vertex {
        Vertex::user(random.below(self.offices) as u8)
    }

    fn user(&self, number: usize) -> Vertex {
        Vertex::user((self.offices + number % self.users) as u8)
    }

    fn some_user(&self, random: &mut Random) -> Vertex {
        self.user(random.below(self.users))
    }

    /// Offices are the last roles.
    fn office(&self, number: usize) -> Vertex {
        Vertex::role((usize::from(ROLES) - 1 - number % self.offices) as u8)
    }

    /// Role 0 reaches all others that are no offices, and all of them the last.
    fn top(&self) -> Vertex {
        Vertex::role(0)
    }

    fn bottom(&self) -> Vertex {
        Vertex::role(self.roles as u8 - 1)
    }

    fn some_role(&self, random: &mut Random) -> Vertex {
        Vertex::role(random.below(self.roles) as u8)
    }

    fn some_edge(&self, random: &mut Random) -> Edge {
        let role = self.some_role(random);
        let (from, to) = match random.below(3) {
            0 => (self.some_user(random), role),
            1 => (role, self.some_role(random)),
            _ => (role, some_record(random)),
        };
        Edge { from, to }
    }
}

fn some_record(random: &mut Random) -> Vertex {
    Vertex::record(random.below(usize::from(RECORDS)) as u8)
}

struct Plan {
    shape: Shape,
    /// The edges that come and go. Each may be withdrawn by a privilege of its own.
    moving: Vec<Edge>,
    /// The edges that nobody may withdraw.
    staying: Vec<Edge>,
}

impl Plan {
    /// An edge that is drawn until it is a new one.
    fn fresh(&self, draw: impl FnMut() -> Edge) -> Edge {
        let known = |edge: &Edge| self.moving.contains(edge) || self.staying.contains(edge);
        std::iter::repeat_with(draw)
            .find(|edge| !known(edge))
            .expect("there are more edges than are known")
    }
}

struct Maker {
    random: Random,
    centre: Installation,
    load: Load,
}

/// The lines, each with its answer.
impl Maker {
    fn name(&self, vertex: Vertex) -> String {
        let mut name = String::new();
        write_name(&mut name, self.centre.privileges(), vertex)
            .expect("only declared privileges are named");
        name
    }

    fn give(&mut self, line: fmt::Arguments<'_>, call: Call) -> Result<u16, Fault> {
        self.load.script += &format!("{line}\n");
        let answer = self.centre.give(call);
        let number = answer.map_or_else(Fault::number, |_| 0);
        self.load.census.count(number);
        answer
    }

    fn declare(&mut self, change: Change) -> Vertex {
        let (from, to) = (self.name(change.edge.from), self.name(change.edge.to));
        let sign = char::from(change.sign.byte());
        let line = format_args!("D {sign}({from},{to})");
        let number = self.give(line, Call::Declare(change));
        Vertex(number.expect("it is no more and no deeper than may be"))
    }

    fn keep(&mut self, place: u8, vault: usize) {
        let record = Vertex::record(place);
        self.give(
            format_args!("K p{place} v{vault}"),
            Call::Keep { record, vault },
        )
        .expect("there is such a vault");
    }

    /// What is due is delivered before the next seat.
    fn seat(&mut self, edge: Edge) {
        let (from, to) = (self.name(edge.from), self.name(edge.to));
        self.give(format_args!("S {from} {to}"), Call::Seat(edge))
            .expect("there is room");
        (0..VAULTS).for_each(|vault| self.deliver_down_to(vault, 0));
    }

    fn command(&mut self, user: Vertex, change: Change) {
        let plainly = self.allows(Rule::Plain, user, change);
        let [user_name, from, to] = [user, change.edge.from, change.edge.to].map(|v| self.name(v));
        let sign = char::from(change.sign.byte());
        let line = format_args!("{user_name} {sign} {from} {to}");
        let answer = self.give(line, Call::Command { user, change });
        self.load.by_precedence += usize::from(answer.is_ok() && !plainly);
        let edges = self.centre.policy().edges().len();
        let (least, most) = self.load.edges.unwrap_or((edges, edges));
        self.load.edges = Some((least.min(edges), most.max(edges)));
    }

    fn deliver(&mut self, vault: usize) {
        self.give(format_args!("T v{vault}"), Call::Deliver { vault })
            .expect("something waits");
    }

    fn deliver_down_to(&mut self, vault: usize, count: usize) {
        while self.waiting(vault) > count {
            self.deliver(vault);
        }
    }

    fn deliver_some(&mut self) {
        for vault in 0..VAULTS {
            self.load.waiting = self.load.waiting.max(self.waiting(vault));
            if self.waiting(vault) > 0 && self.random.chance(2, 3) {
                self.deliver(vault);
            }
            self.deliver_down_to(vault, FEW);
        }
    }

    fn waiting(&self, vault: usize) -> usize {
        self.centre.vaults()[vault].link().count()
    }

    fn allows(&self, rule: Rule, user: Vertex, change: Change) -> bool {
        let (privileges, policy) = (self.centre.privileges(), self.centre.policy());
        is_allowed(rule, privileges, policy, user, change)
    }
}

/// Naming and seating.
impl Maker {
    fn begin(&mut self, edges: usize) -> Plan {
        let mut plan = Plan {
            shape: Shape::of(edges),
            moving: Vec::new(),
            staying: Vec::new(),
        };
        seat_roles(&mut plan);
        let strong = self.declare_strong(&plan.shape);
        let nested = self.declare_nested(&plan.shape);
        self.draw_moving(&mut plan, &nested);
        let rights = [strong, self.declare_for(&plan)].concat();
        self.declare_others();
        for place in 0..RECORDS {
            // One of three is kept at both vaults, one at the first, one at the second.
            (0..VAULTS)
                .filter(|vault| usize::from(place) % 3 != vault + 1)
                .for_each(|vault| self.keep(place, vault));
        }
        seat_offices(&mut plan, &rights);
        self.draw_staying(&mut plan);
        // The first seat ends naming; no line says so.
        self.centre.give(Call::EndNaming).expect("it was naming");
        let seats = plan.moving.len() * 3 / 4;
        for edge in plan.staying.iter().chain(&plan.moving[..seats]) {
            self.seat(*edge);
        }
        self.give(format_args!("O"), Call::Open)
            .expect("it was seating");
        plan
    }

    /// A privilege that stands over all additions among users and roles that are no offices, the
    /// privilege to give that, and so on.
    fn declare_strong(&mut self, shape: &Shape) -> Vec<Vertex> {
        let from = shape.bottom();
        let mut to = shape.top();
        (0..DEEPEST)
            .map(|_| {
                to = self.declare(Change::add(Edge { from, to }));
                to
            })
            .collect()
    }

    /// Two more chains, as the first one stands over them. All but the deepest are answered, as what takes
    /// one of them away is deeper.
    fn declare_nested(&mut self, shape: &Shape) -> Vec<Vertex> {
        let mut nested = Vec::new();
        for _ in 0..2 {
            let mut edge = Edge {
                from: shape.some_user(&mut self.random),
                to: shape.some_role(&mut self.random),
            };
            for _ in 0..DEEPEST - 1 {
                let to = self.declare(Change::add(edge));
                nested.push(to);
                let from = shape.some_role(&mut self.random);
                edge = Edge { from, to };
            }
            self.declare(Change::add(edge));
        }
        nested
    }

    fn draw_moving(&mut self, plan: &mut Plan, nested: &[Vertex]) {
        let random = &mut self.random;
        for number in 0..plan.shape.moving {
            let edge = plan.fresh(|| {
                let role = plan.shape.some_role(random);
                let (from, to) = match number % 5 {
                    0 | 1 => (plan.shape.some_user(random), role),
                    2 => (role, plan.shape.some_role(random)),
                    3 => (role, some_record(random)),
                    _ => (role, *random.pick(nested)),
                };
                Edge { from, to }
            });
            plan.moving.push(edge);
        }
    }

    /// What allows edges to come and go. Every second one comes by precedence alone: that to a record by
    /// a privilege for it, the others by the strong ones.
    fn declare_for(&mut self, plan: &Plan) -> Vec<Vertex> {
        let mut rights = Vec::new();
        for (number, edge) in plan.moving.iter().enumerate() {
            rights.push(self.declare(Change::remove(*edge)));
            if number % 2 == 0 {
                rights.push(self.declare(Change::add(*edge)));
            } else if edge.to.is_record() {
                let from = plan.shape.bottom();
                rights.push(self.declare(Change::add(Edge { from, ..*edge })));
            }
        }
        rights
    }

    /// Privileges that nobody has, until there are as many as may be.
    fn declare_others(&mut self) {
        while self.centre.privileges().len() < usize::from(RIGHTS) {
            let edge = Edge {
                from: Vertex::user(self.random.below(usize::from(USERS)) as u8),
                to: Vertex::role(self.random.below(usize::from(ROLES)) as u8),
            };
            let sign = *self.random.pick(&[Sign::Add, Sign::Remove]);
            self.declare(Change { sign, edge });
        }
    }

    /// Of the edges that are left a third goes to records; each user is in some role.
    fn draw_staying(&mut self, plan: &mut Plan) {
        let random = &mut self.random;
        let left = plan.shape.staying.saturating_sub(plan.staying.len());
        for number in 0..left {
            let edge = plan.fresh(|| {
                let role = plan.shape.some_role(random);
                let (from, to) = match number {
                    _ if number < left / 3 => (role, some_record(random)),
                    _ => (plan.shape.user(number - left / 3), role),
                };
                Edge { from, to }
            });
            plan.staying.push(edge);
        }
    }
}

/// Chains of roles below role 0. Those that no role is below have the last one below them.
fn seat_roles(plan: &mut Plan) {
    let Shape { roles, .. } = plan.shape;
    let bottom = plan.shape.bottom();
    for place in 1..roles as u8 {
        let above = place.saturating_sub(1 + place % 3);
        let (from, to) = (Vertex::role(above), Vertex::role(place));
        plan.staying.push(Edge { from, to });
    }
    for role in (0..roles as u8 - 1).map(Vertex::role) {
        if !plan.staying.iter().any(|edge| edge.from == role) {
            let (from, to) = (role, bottom);
            plan.staying.push(Edge { from, to });
        }
    }
}

/// The first half of the offices stand over one another. The strong privileges come first, so each of them
/// goes to the first office; the others are dealt out.
fn seat_offices(plan: &mut Plan, rights: &[Vertex]) {
    let shape = &plan.shape;
    let edge = |from, to| Edge { from, to };
    let users = (0..shape.offices).map(|k| edge(Vertex::user(k as u8), shape.office(k)));
    let chain = (1..shape.offices.div_ceil(2)).map(|k| edge(shape.office(k - 1), shape.office(k)));
    let held = rights.iter().enumerate().map(|(k, right)| {
        let office = if k < DEEPEST { 0 } else { k };
        edge(shape.office(office), *right)
    });
    let seats: Vec<_> = users.chain(chain).chain(held).collect();
    plan.staying.extend(seats);
}

/// Commands.
impl Maker {
    fn wish(&mut self, plan: &Plan) -> (Vertex, Change) {
        match self.random.below(100) {
            0..=54 => self.allowed(plan, true),
            55..=62 => self.allowed(plan, false),
            63..=97 => self.refused(plan),
            _ => {
                let user = plan.shape.administrator(&mut self.random);
                let (from, to) = (user, some_record(&mut self.random));
                (user, Change::add(Edge { from, to }))
            }
        }
    }

    /// A change of an edge that comes and goes, with somebody who may do it. If it does nothing, an edge
    /// that is held is added or an absent one withdrawn.
    fn allowed(&mut self, plan: &Plan, does_something: bool) -> (Vertex, Change) {
        let edge = *self.random.pick(&plan.moving);
        let sign = match self.centre.policy().contains(edge) == does_something {
            true => Sign::Remove,
            false => Sign::Add,
        };
        let change = Change { sign, edge };
        loop {
            let user = plan.shape.administrator(&mut self.random);
            if self.allows(Rule::Full, user, change) {
                return (user, change);
            }
        }
    }

    /// Something that the user may not do.
    fn refused(&mut self, plan: &Plan) -> (Vertex, Change) {
        loop {
            let random = &mut self.random;
            let (user, change) = match random.below(7) {
                0..=2 => {
                    let edge = plan.shape.some_edge(random);
                    (plan.shape.some_user(random), Change::add(edge))
                }
                3..=4 => {
                    let edge = plan.shape.some_edge(random);
                    (plan.shape.administrator(random), Change::add(edge))
                }
                _ => {
                    let edge = *random.pick(&plan.staying);
                    (plan.shape.administrator(random), Change::remove(edge))
                }
            };
            if !self.allows(Rule::Full, user, change) {
                return (user, change);
            }
        }
    }
}

#[cfg(test)]
mod tests {
    use super::*;
    use crate::program::{answers, Show, Words};

    #[test]
    fn scripts_are_what_is_wanted() {
        for (edges, range) in [(500, 450..=512), (50, 40..=60)] {
            let commands = 3000;
            let load = load(Size { commands, edges }, 1);
            let (least, most) = load.edges.unwrap();
            assert!(range.contains(&least) && range.contains(&most));
            assert!(load.waiting < 100 && load.by_precedence > commands / 20);
            let (told, centre) = answers(Words::new(Show::Answers), load.script.as_bytes());
            let census: Census = told.iter().map(|answer| answer.number()).collect();
            assert_eq!(census.to_string(), load.census.to_string());
            assert_eq!(centre.privileges().len(), usize::from(RIGHTS));
        }
    }

    #[test]
    fn fewer_commands_are_the_front() {
        let script = |commands| {
            load(
                Size {
                    commands,
                    edges: 500,
                },
                7,
            )
            .script
        };
        assert!(script(50).starts_with(&script(0)));
    }
}
