//! Random scripts. The same kind and seed bring the same script.

use std::fmt;

use crate::program::{Show, Words};
use crate::random::Random;

#[derive(Clone, Copy, Debug, PartialEq, Eq)]
pub enum Kind {
    /// Deep role trees, nested privileges and users at several depths; most commands are accepted.
    Tree,
    /// So few names that cycles, re-additions and commands by precedence come about by themselves.
    Tiny,
    /// Something is at its limit.
    Limits,
    /// Many lines are damaged.
    Malformed,
}

pub const KINDS: [(&str, Kind); 4] = [
    ("tree", Kind::Tree),
    ("tiny", Kind::Tiny),
    ("limits", Kind::Limits),
    ("malformed", Kind::Malformed),
];

/// A script with the limits that it is meant for.
#[derive(Clone, Debug)]
pub struct Sample {
    pub script: Vec<u8>,
    pub store_limit: Option<usize>,
    pub link_limit: Option<usize>,
}

impl Sample {
    pub fn words(&self, show: Show) -> Words {
        Words {
            store_limit: self.store_limit,
            link_limit: self.link_limit,
            ..Words::new(show)
        }
    }
}

/// The sample of a number: the kinds come in turn.
pub fn numbered(number: u64) -> Sample {
    let (_, kind) = KINDS[(number % KINDS.len() as u64) as usize];
    sample(kind, number)
}

pub fn sample(kind: Kind, seed: u64) -> Sample {
    let mut random = Random::new(seed);
    let mut sample = match kind {
        Kind::Tree => plain(tree(&mut random)),
        Kind::Tiny => plain(tiny(&mut random)),
        Kind::Limits => limits(&mut random),
        Kind::Malformed => {
            let lines = match random.chance(1, 2) {
                true => tree(&mut random),
                false => tiny(&mut random),
            };
            let lines = damaged(&mut random, lines);
            Sample {
                script: lines.concat(),
                store_limit: None,
                link_limit: None,
            }
        }
    };
    if kind != Kind::Limits && random.chance(1, 8) {
        sample.store_limit = some_limit(&mut random, 1, 30, &[0, 1, 512, 513, 999_999_999]);
        sample.link_limit = some_limit(&mut random, 2, 60, &[0, 1, 2, 1024, 1025]);
    }
    sample
}

fn plain(lines: Vec<String>) -> Sample {
    Sample {
        script: lines.join("\n").into_bytes(),
        store_limit: None,
        link_limit: None,
    }
}

fn some_limit(random: &mut Random, first: usize, last: usize, corners: &[usize]) -> Option<usize> {
    match random.below(8) {
        0 => Some(*random.pick(corners)),
        1 => None,
        _ => Some(random.between(first, last)),
    }
}

/// A vertex as a line names it. Rights are numbered by the list that they stand in.
#[derive(Clone, Copy, Debug, PartialEq, Eq)]
enum Node {
    User(usize),
    Role(usize),
    Record(usize),
    Right(usize),
}

#[derive(Clone, Copy, Debug, PartialEq, Eq)]
struct Right {
    adds: bool,
    from: Node,
    to: Node,
}

impl Right {
    fn sign(self) -> char {
        match self.adds {
            true => '+',
            false => '-',
        }
    }
}

/// What a script has named and done so far.
struct Plan {
    users: usize,
    roles: usize,
    records: usize,
    vaults: usize,
    /// The role above each role of the tree; that of role 0 is role 0.
    above: Vec<usize>,
    rights: Vec<Right>,
    /// Who may use which right, as far as the seats say.
    holders: Vec<(usize, usize)>,
    seated: Vec<(usize, usize)>,
    lines: Vec<String>,
}

impl Plan {
    fn say(&mut self, line: fmt::Arguments<'_>) {
        self.lines.push(line.to_string());
    }

    fn text(&self, node: Node) -> String {
        match node {
            Node::User(k) => format!("u{k}"),
            Node::Role(k) => format!("r{k}"),
            Node::Record(k) => format!("p{k}"),
            Node::Right(k) => {
                let right = self.rights[k];
                let (from, to) = (self.text(right.from), self.text(right.to));
                format!("{}({from},{to})", right.sign())
            }
        }
    }

    fn depth(&self, node: Node) -> usize {
        match node {
            Node::Right(k) => 1 + self.depth(self.rights[k].to),
            _ => 0,
        }
    }

    fn declare(&mut self, right: Right) -> usize {
        if let Some(place) = self.rights.iter().position(|r| *r == right) {
            return place;
        }
        self.rights.push(right);
        let place = self.rights.len() - 1;
        let text = self.text(Node::Right(place));
        self.say(format_args!("D {text}"));
        place
    }

    fn seat(&mut self, from: Node, to: Node) {
        let (from_text, to_text) = (self.text(from), self.text(to));
        self.say(format_args!("S {from_text} {to_text}"));
        match (from, to) {
            (Node::User(user), Node::Role(role)) => self.seated.push((user, role)),
            (Node::Role(role), Node::Right(right)) => self.hold(role, right),
            _ => {}
        }
    }

    fn hold(&mut self, role: usize, right: usize) {
        let users = self.seated.iter().filter(|(_, r)| *r == role);
        let holders: Vec<_> = users.map(|(user, _)| (*user, right)).collect();
        self.holders.extend(holders);
    }

    fn command(&mut self, user: usize, adds: bool, from: Node, to: Node) {
        let (from, to) = (self.text(from), self.text(to));
        let sign = if adds { '+' } else { '-' };
        self.say(format_args!("u{user} {sign} {from} {to}"));
    }

    fn deliver(&mut self, vault: usize) {
        self.say(format_args!("T v{vault}"));
    }

    fn user(&self, random: &mut Random) -> Node {
        Node::User(random.below(self.users))
    }

    fn role(&self, random: &mut Random) -> Node {
        Node::Role(random.below(self.roles))
    }

    fn record(&self, random: &mut Random) -> Node {
        Node::Record(random.below(self.records))
    }

    /// Some edge, of a right that is declared if it is one to a right.
    fn edge(&self, random: &mut Random) -> (Node, Node) {
        match random.below(8) {
            0..=3 => (self.user(random), self.role(random)),
            4..=5 => (self.role(random), self.role(random)),
            6 if !self.rights.is_empty() => {
                let right = random.below(self.rights.len());
                (self.role(random), Node::Right(right))
            }
            _ => (self.role(random), self.record(random)),
        }
    }

    /// A right that may be declared next; one round another right often goes round the newest.
    fn right(&self, random: &mut Random, most_nested: usize) -> Right {
        let adds = random.chance(3, 4);
        let nested = !self.rights.is_empty() && random.chance(2, 5);
        let inner = match random.chance(1, 2) {
            true => self.rights.len().saturating_sub(1),
            false => random.below(self.rights.len().max(1)),
        };
        if nested && self.depth(Node::Right(inner)) < most_nested {
            let (from, to) = (self.role(random), Node::Right(inner));
            return Right { adds, from, to };
        }
        let (from, to) = match random.below(5) {
            0..=2 => (self.user(random), self.role(random)),
            3 => (self.role(random), self.role(random)),
            _ => (self.role(random), self.record(random)),
        };
        Right { adds, from, to }
    }

    /// The role itself or one above it in the tree.
    fn higher(&self, random: &mut Random, mut role: usize) -> usize {
        while random.chance(1, 2) {
            role = self.above.get(role).copied().unwrap_or(role);
        }
        role
    }

    /// The role itself or one below it in the tree.
    fn lower(&self, random: &mut Random, mut role: usize) -> usize {
        while random.chance(2, 3) {
            let below: Vec<_> = (1..self.above.len())
                .filter(|k| self.above[*k] == role)
                .collect();
            if below.is_empty() {
                break;
            }
            role = *random.pick(&below);
        }
        role
    }

    /// What the right may stand over, if the tree stands as it was planned.
    fn weaker(&self, random: &mut Random, right: Right) -> (Node, Node) {
        let from = match right.from {
            Node::Role(role) => Node::Role(self.higher(random, role)),
            other => other,
        };
        let to = match right.to {
            Node::Role(role) => Node::Role(self.lower(random, role)),
            Node::Right(inner) => {
                let adding = |k: &usize| self.rights[*k].adds;
                let others: Vec<_> = (0..self.rights.len()).filter(adding).collect();
                match others.is_empty() || random.chance(1, 3) {
                    true => Node::Right(inner),
                    false => Node::Right(*random.pick(&others)),
                }
            }
            other => other,
        };
        (from, to)
    }

    /// A command that somebody is likely to be allowed.
    fn useful_command(&mut self, random: &mut Random) {
        if self.holders.is_empty() {
            return self.any_command(random);
        }
        let (user, place) = *random.pick(&self.holders);
        let right = self.rights[place];
        let (from, to) = match right.adds && random.chance(2, 5) {
            true => self.weaker(random, right),
            false => (right.from, right.to),
        };
        let adds = right.adds != random.chance(1, 12);
        self.command(user, adds, from, to);
        // Whoever is in a role that was given a right is likely to use it.
        if let (true, Node::Role(role), Node::Right(inner)) = (adds, from, to) {
            self.hold(role, inner);
        }
    }

    fn any_command(&mut self, random: &mut Random) {
        let user = random.below(self.users);
        let (from, to) = self.edge(random);
        let adds = random.chance(2, 3);
        self.command(user, adds, from, to);
    }

    /// A line that is likely to be refused, or read and refused, whatever the state.
    fn odd_line(&mut self, random: &mut Random) {
        let user = random.below(self.users);
        let role = random.below(self.roles);
        match random.below(13) {
            0 => self.say(format_args!("K p0 v0")),
            1 => self.say(format_args!("D +(u{user},r{role})")),
            2 => self.say(format_args!("O")),
            3 => self.say(format_args!("S u{user} r{role}")),
            4 => self.say(format_args!("T v{}", random.between(2, 9))),
            5 => self.say(format_args!("u{user} + p0 r{role}")),
            6 => self.say(format_args!("u{user} + u{user} p0")),
            7 => self.say(format_args!("u{user} - r{role} u{user}")),
            8 => self.say(format_args!("u{user} + r{role} -(r{role},r63)")),
            9 => self.say(format_args!(
                "u{} + u{user} r{role}",
                random.between(60, 70)
            )),
            10 => self.say(format_args!(
                "u{user} + u{user} r{}",
                random.between(60, 70)
            )),
            11 => self.say(format_args!(
                "u{user} + r{role} p{}",
                random.between(120, 135)
            )),
            _ => self.say(format_args!("")),
        }
    }

    fn odd_naming_line(&mut self, random: &mut Random) {
        match random.below(9) {
            0 => self.say(format_args!("K u0 v0")),
            1 => self.say(format_args!("K p0 v{}", random.between(2, 9))),
            2 => self.say(format_args!("D +(r0,u0)")),
            3 => self.say(format_args!("D +(r1,-(r0,r63))")),
            4 => self.say(format_args!("T v0")),
            5 => self.say(format_args!("u0 + u1 r0")),
            6 if !self.rights.is_empty() => {
                let again = random.below(self.rights.len());
                let text = self.text(Node::Right(again));
                self.say(format_args!("D {text}"));
            }
            7 if !self.rights.is_empty() => {
                let inner = random.below(self.rights.len());
                let text = self.text(Node::Right(inner));
                self.say(format_args!("D +({text},r0)"));
            }
            _ => self.say(format_args!("D p0")),
        }
    }

    fn keep(&mut self, random: &mut Random) {
        for record in 0..self.records {
            for vault in 0..self.vaults {
                if random.chance(3, 5) {
                    self.say(format_args!("K p{record} v{vault}"));
                }
            }
        }
    }

    fn serve(&mut self, random: &mut Random, count: usize) {
        for _ in 0..count {
            match random.below(20) {
                0..=10 => self.useful_command(random),
                11..=12 => self.any_command(random),
                13 => self.odd_line(random),
                14 => self.deliver(0),
                15 => self.deliver(1),
                _ => {
                    let vault = random.below(2);
                    (0..random.between(1, 4)).for_each(|_| self.deliver(vault));
                }
            }
        }
    }
}

/// The administrators' roles stand apart from the tree.
const FIRST_OFFICE: usize = 40;

fn tree(random: &mut Random) -> Vec<String> {
    let roles = random.between(4, 20);
    let above = (0..roles)
        .map(|k: usize| k.saturating_sub(random.between(1, 2)))
        .collect();
    let mut plan = Plan {
        users: random.between(4, 12),
        roles,
        records: random.between(1, 5),
        vaults: 2,
        above,
        rights: Vec::new(),
        holders: Vec::new(),
        seated: Vec::new(),
        lines: Vec::new(),
    };
    for _ in 0..random.between(3, 16) {
        let right = plan.right(random, 8);
        plan.declare(right);
        if right.adds && random.chance(1, 2) {
            plan.declare(Right {
                adds: false,
                ..right
            });
        }
        if random.chance(1, 12) {
            plan.odd_naming_line(random);
        }
    }
    plan.keep(random);
    seat_tree(&mut plan, random);
    plan.say(format_args!("O"));
    let count = random.between(10, 100);
    plan.serve(random, count);
    plan.lines
}

fn seat_tree(plan: &mut Plan, random: &mut Random) {
    let mut seats = Vec::new();
    for role in 1..plan.roles {
        seats.push((Node::Role(plan.above[role]), Node::Role(role)));
    }
    for record in 0..plan.records {
        // Near the leaves, so that they are far from the top.
        let role = plan.roles - 1 - random.below(plan.roles.min(4));
        seats.push((Node::Role(role), Node::Record(record)));
    }
    for user in 0..plan.users {
        if random.chance(2, 3) {
            seats.push((Node::User(user), plan.role(random)));
        }
    }
    if random.chance(1, 2) {
        let at = random.below(seats.len());
        let last = seats.len() - 1;
        seats.swap(at, last);
    }
    for (from, to) in seats {
        plan.seat(from, to);
        if random.chance(1, 20) {
            plan.odd_line(random);
        }
    }
    seat_offices(plan, random);
}

/// Each right goes to an office, and each office has users. A first office may stand over a second.
fn seat_offices(plan: &mut Plan, random: &mut Random) {
    let offices = random.between(1, 4);
    let office = |random: &mut Random| Node::Role(FIRST_OFFICE + random.below(offices));
    for k in 0..offices {
        let user = plan.user(random);
        plan.seat(user, Node::Role(FIRST_OFFICE + k));
    }
    if offices > 1 && random.chance(1, 2) {
        plan.seat(Node::Role(FIRST_OFFICE), Node::Role(FIRST_OFFICE + 1));
    }
    for right in 0..plan.rights.len() {
        if random.chance(6, 7) {
            let holder = office(random);
            plan.seat(holder, Node::Right(right));
        }
    }
}

fn tiny(random: &mut Random) -> Vec<String> {
    let roles = random.between(2, 4);
    let mut plan = Plan {
        users: random.between(2, 4),
        roles,
        records: random.between(1, 3),
        vaults: 2,
        above: (0..roles).map(|k: usize| k.saturating_sub(1)).collect(),
        rights: Vec::new(),
        holders: Vec::new(),
        seated: Vec::new(),
        lines: Vec::new(),
    };
    for _ in 0..random.between(3, 14) {
        let right = plan.right(random, 8);
        plan.declare(right);
        if random.chance(1, 15) {
            plan.odd_naming_line(random);
        }
    }
    plan.keep(random);
    for user in 0..plan.users {
        let role = plan.role(random);
        plan.seat(Node::User(user), role);
    }
    for right in 0..plan.rights.len() {
        if random.chance(3, 4) {
            let role = plan.role(random);
            plan.seat(role, Node::Right(right));
        }
    }
    for record in 0..plan.records {
        let role = plan.role(random);
        plan.seat(role, Node::Record(record));
    }
    for _ in 0..random.between(2, 10) {
        let (from, to) = plan.edge(random);
        plan.seat(from, to);
    }
    plan.say(format_args!("O"));
    let count = random.between(15, 130);
    plan.serve(random, count);
    plan.lines
}

fn limits(random: &mut Random) -> Sample {
    match random.below(8) {
        0..=2 => Sample {
            store_limit: some_limit(random, 1, 14, &[0, 1, 512, 513]),
            link_limit: some_limit(random, 2, 30, &[0, 1, 2, 1024, 1025]),
            ..plain(tree(random))
        },
        3..=4 => Sample {
            store_limit: some_limit(random, 1, 6, &[0, 1, 513, 999_999_999]),
            link_limit: some_limit(random, 2, 14, &[0, 1, 2, 3, 1025]),
            ..plain(tiny(random))
        },
        5 => plain(many_edges(random)),
        6 => plain(many_rights(random)),
        _ => Sample {
            link_limit: some_limit(random, 12, 60, &[12, 1024]),
            ..plain(full_link(random))
        },
    }
}

/// The policy comes up to its 512 edges. A record is kept now and then, which fills links too.
fn many_edges(random: &mut Random) -> Vec<String> {
    let mut lines: Vec<_> = ["D +(u9,r0)", "D -(u9,r0)", "D -(u8,r1)", "D +(r0,p7)"]
        .map(String::from)
        .to_vec();
    if random.chance(1, 2) {
        lines.push("K p0 v1".to_string());
    }
    let rights = ["+(u9,r0)", "-(u9,r0)", "-(u8,r1)", "+(r0,p7)"];
    lines.extend(rights.map(|right| format!("S r63 {right}")));
    lines.push("S u0 r63".to_string());
    lines.push("S u8 r1".to_string());
    let wanted = random.between(500, 509);
    let record_at = random.below(wanted);
    for k in 0..wanted {
        // Users from 10 on are in roles from 20 on.
        lines.push(format!("S u{} r{}", 10 + k % 54, 20 + k / 54));
        if k == record_at {
            lines.push(format!("S r{} p0", 20 + random.below(10)));
        }
        if random.chance(1, 8) {
            lines.push("T v1".to_string());
        }
    }
    lines.push("O".to_string());
    let commands = [
        "u0 + u9 r0",
        "u0 - u9 r0",
        "u0 - u8 r1",
        "u0 + r0 p7",
        "u0 + r63 p7",
        "T v1",
    ];
    lines.extend((0..random.between(5, 20)).map(|_| random.pick(&commands).to_string()));
    lines
}

/// More rights are declared than may be, some of them as deep as may be, or one deeper.
fn many_rights(random: &mut Random) -> Vec<String> {
    let mut lines = Vec::new();
    let mut nest = "p0".to_string();
    for depth in 0..random.between(1, 10) {
        nest = format!("+(r{depth},{nest})");
        lines.push(format!("D {nest}"));
    }
    let wanted = random.between(115, 132);
    for k in 0..wanted {
        let sign = random.pick(&['+', '-']);
        lines.push(format!("D {sign}(u{},r{})", k % 16, k / 16));
    }
    lines.push("K p0 v0".to_string());
    lines.push(format!("S r20 {nest}"));
    lines.push("S u20 r20".to_string());
    for _ in 0..random.between(3, 12) {
        let declared = random.below(wanted);
        let line: String = lines[lines.len() - 4 - declared.min(100)].clone();
        let right = line.strip_prefix("D ").unwrap_or("r1");
        lines.push(format!("S r20 {right}"));
    }
    lines.push("O".to_string());
    for _ in 0..random.between(5, 30) {
        let sign = random.pick(&['+', '-']);
        let (user, role) = (random.below(16), random.below(8));
        lines.push(format!("u20 {sign} u{user} r{role}"));
    }
    lines
}

/// One user goes in and out until the link has no more room.
fn full_link(random: &mut Random) -> Vec<String> {
    let mut lines: Vec<_> = ["D +(u1,r1)", "D -(u1,r1)", "D -(u2,r1)", "K p0 v0"]
        .map(String::from)
        .to_vec();
    if random.chance(1, 2) {
        lines.push("K p0 v1".to_string());
    }
    let seats = [
        "u0 r0",
        "r0 +(u1,r1)",
        "r0 -(u1,r1)",
        "r0 -(u2,r1)",
        "r1 r2",
        "r2 r1",
        "r2 p0",
        "u2 r1",
        "u3 r2",
    ];
    lines.extend(seats.map(|seat| format!("S {seat}")));
    lines.push("O".to_string());
    for _ in 0..random.between(10, 60) {
        lines.push("u0 + u1 r1".to_string());
        match random.below(8) {
            0 => lines.push("T v0".to_string()),
            1 => lines.push("u0 - u2 r1".to_string()),
            2 => lines.push(format!("T v{}", random.below(3))),
            _ => lines.push("u0 - u1 r1".to_string()),
        }
    }
    lines
}

/// Lines with their ends, many of them damaged.
fn damaged(random: &mut Random, lines: Vec<String>) -> Vec<Vec<u8>> {
    let often = random.between(2, 6);
    let mut damaged = Vec::new();
    for line in lines {
        let mut line = line.into_bytes();
        if random.chance(1, often) {
            // The line itself stands by half the time, and the opening always, so that the script
            // goes on.
            if random.chance(1, 2) || line == b"O" {
                damaged.push([&line[..], b"\n"].concat());
            }
            damage(random, &mut line);
        }
        line.push(b'\n');
        damaged.push(line);
    }
    if let (true, Some(last)) = (random.chance(1, 2), damaged.last_mut()) {
        last.pop();
    }
    damaged
}

const LIKELY: &[u8] = b" +-(),0123456789urpvDKSOTX\r\t\x00\xff";

fn damage(random: &mut Random, line: &mut Vec<u8>) {
    match random.below(12) {
        0 => change_byte(random, line),
        1 => line.truncate(random.below(line.len() + 1)),
        2 => {
            let at = random.below(line.len() + 1);
            let byte = *random.pick(LIKELY);
            line.insert(at, byte);
        }
        3 => {
            let space = line.iter().position(|byte| *byte == b' ');
            line.insert(space.unwrap_or(0), b' ');
        }
        4 => {
            if !line.is_empty() {
                line.remove(random.below(line.len()));
            }
        }
        5 => lengthen_number(random, line),
        6 => *line = long_line(random),
        7 => *line = deep_line(random),
        8 => {
            let length = random.below(140);
            line.resize_with(length, || random.byte());
        }
        9 => {
            *line = (0..random.below(20))
                .map(|_| *random.pick(LIKELY))
                .collect()
        }
        10 => *line = number_line(random),
        _ => {
            change_byte(random, line);
            change_byte(random, line);
        }
    }
}

fn change_byte(random: &mut Random, line: &mut [u8]) {
    if line.is_empty() {
        return;
    }
    let at = random.below(line.len());
    line[at] = match random.chance(2, 3) {
        true => *random.pick(LIKELY),
        false => random.byte(),
    };
}

/// Puts digits behind some digit of the line.
fn lengthen_number(random: &mut Random, line: &mut Vec<u8>) {
    let digits: Vec<_> = (0..line.len())
        .filter(|at| line[*at].is_ascii_digit())
        .collect();
    if digits.is_empty() {
        return;
    }
    let at = 1 + *random.pick(&digits);
    let count = match random.chance(1, 4) {
        true => random.between(10, 130),
        false => random.between(1, 2),
    };
    let more: Vec<_> = (0..count).map(|_| b'0' + random.below(10) as u8).collect();
    line.splice(at..at, more);
}

/// A line with numbers about the ends of their ranges.
fn number_line(random: &mut Random) -> Vec<u8> {
    let ends = [
        0, 1, 9, 10, 62, 63, 64, 65, 99, 100, 126, 127, 128, 129, 255, 256,
    ];
    let ends = [
        &ends[..],
        &[630, 640, 999, 65536, 65599, 4_294_967_296_usize],
    ]
    .concat();
    let mut number = |letter: char| format!("{letter}{}", random.pick(&ends));
    let [user, role, record] = ['u', 'r', 'p'].map(&mut number);
    let zero = random.pick(&["", "", "", "0"]);
    let vault = random.between(0, 12);
    let forms = [
        format!("{user} + {user} {role}"),
        format!("u1 - {role} {record}"),
        format!("S {user} r{zero}1"),
        format!("K {record} v{zero}{vault}"),
        format!("T v{zero}{vault}"),
        format!("u2 + +({user},{role}) {record}"),
        format!("D -({role},{record})"),
    ];
    random.pick(&forms).clone().into_bytes()
}

/// Brackets in brackets, so that the line is long; cut off at about 128 bytes.
fn long_line(random: &mut Random) -> Vec<u8> {
    let heads = ["S ", "S r0 ", "S r10 ", "u1 + ", "u10 - r0 ", "K ", "D "];
    let mut line = random.pick(&heads).to_string();
    let levels = random.between(4, 8);
    push_nest(random, &mut line, levels);
    if random.chance(1, 2) {
        line.push_str(" r1");
    }
    let mut line = line.into_bytes();
    if random.chance(3, 4) {
        line.truncate(random.between(120, 134));
    }
    if random.chance(1, 2) {
        let at = 115 + random.below(18);
        let end = [&b"r64"[..], b"r1", b"u9", b"p128", b"x", b",", b")"];
        let end = *random.pick(&end);
        line.truncate(at);
        line.extend_from_slice(end);
    }
    line
}

/// A bracket whose nodes are brackets too, most of the time.
fn push_nest(random: &mut Random, line: &mut String, levels: usize) {
    if levels == 0 || line.len() > 200 || random.chance(1, 8) {
        let letter = *random.pick(&['u', 'r', 'p']);
        line.push_str(&format!("{letter}{}", random.below(20)));
        return;
    }
    line.push(*random.pick(&['+', '-']));
    line.push('(');
    push_nest(random, line, levels - 1);
    line.push(',');
    push_nest(random, line, levels - 1);
    line.push(')');
}

/// Signs in one another, about as deep as they may be.
fn deep_line(random: &mut Random) -> Vec<u8> {
    let heads = ["S r0 ", "S r64 ", "K ", "D ", "u0 + r0 ", "u0 + "];
    let mut line = random.pick(&heads).to_string();
    let levels = random.between(6, 11);
    let (first, second) = (random.chance(1, 2), random.below(70));
    for _ in 0..levels {
        line.push_str(match first {
            true => "+(",
            false => "-(r1,",
        });
    }
    line.push_str(&format!("r{second}"));
    let closed = random.below(levels + 2);
    (0..closed).for_each(|_| line.push_str(if first { ",p0)" } else { ")" }));
    line.into_bytes()
}

#[cfg(test)]
mod tests {
    use super::*;
    use crate::program::answers;

    #[test]
    fn the_same_seed_brings_the_same_script() {
        for number in 0..40 {
            assert_eq!(numbered(number).script, numbered(number).script);
        }
    }

    /// 1, 12 to 14, 18, 19 and 21 are for calls that no line says, or for states that no script
    /// brings about.
    #[test]
    fn every_answer_that_a_script_can_have_occurs() {
        let mut seen = std::collections::BTreeSet::new();
        for number in 0..400 {
            let sample = numbered(number);
            let (answers, _) = answers(sample.words(Show::Answers), &sample.script);
            seen.extend(answers.iter().map(|answer| answer.number()));
        }
        let expected = [0, 2, 3, 4, 5, 6, 7, 8, 9, 10, 11, 15, 16, 17, 20];
        assert_eq!(seen.into_iter().collect::<Vec<_>>(), expected);
    }
}
