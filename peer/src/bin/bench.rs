//! The jobs of `crates/bench`, done by the peer over its own types, with the nanoseconds that each call
//! took. A table is a set of edges in rows of bits; an opened image is one, too. With the word `answers`
//! it shows what was asked and what came of it.

use std::hint::black_box;
use std::process::ExitCode;
use std::time::Instant;

use peer::access::answer;
use peer::bank::{Link, Store};
use peer::edges::EdgeSet;
use peer::image;
use peer::policy::Policy;
use peer::terms::{Change, Edge, Vertex};

/// How large a table is: as many users as roles; how many roles each user is in; how many of the roles,
/// which stand in one chain, have a short cut, and over how many it goes; how many privileges each has,
/// and how many roles have one more.
#[derive(Clone, Copy)]
struct Size {
    roles: u16,
    memberships: u16,
    cuts: u16,
    cut: u16,
    grants: u16,
    more: u16,
}

const SIZES: [Size; 2] = [
    Size {
        roles: 64,
        memberships: 4,
        cuts: 37,
        cut: 27,
        grants: 2,
        more: 16,
    },
    Size {
        roles: 16,
        memberships: 1,
        cuts: 3,
        cut: 7,
        grants: 1,
        more: 0,
    },
];

impl Size {
    fn table(self) -> EdgeSet {
        let users = (0..self.roles).flat_map(|user| {
            (0..self.memberships)
                .map(move |k| Edge::new(user, 64 + (user * 7 + k * 13) % self.roles))
        });
        let roles = (0..self.roles).flat_map(|k| {
            let below = (k + 1 < self.roles).then_some(65 + k);
            let cut = (k < self.cuts).then_some(64 + self.cut + k);
            let grants = (0..self.grants).map(move |j| 128 + j + k * self.grants);
            let more = (k < self.more).then_some(133 + k * 2);
            let ends = below.into_iter().chain(cut).chain(grants).chain(more);
            ends.map(move |to| Edge::new(64 + k, to))
        });
        users.chain(roles).collect()
    }
}

/// How many calls a job made, and what it counted.
#[derive(Clone, Copy, Debug, PartialEq, Eq)]
struct Tally {
    asked: usize,
    counted: usize,
}

impl FromIterator<bool> for Tally {
    fn from_iter<I: IntoIterator<Item = bool>>(answers: I) -> Self {
        let zero = Tally {
            asked: 0,
            counted: 0,
        };
        answers.into_iter().fold(zero, |tally, yes| Tally {
            asked: tally.asked + 1,
            counted: tally.counted + usize::from(yes),
        })
    }
}

/// The users, beginning with another one each turn.
fn users(size: Size, turn: u16) -> impl Iterator<Item = u16> {
    (0..size.roles).map(move |step| (step + turn) % size.roles)
}

/// For every user privilege, each user in his first role.
fn questions(size: Size, turn: u16, ask: impl Fn(u16, u16, u16) -> bool) -> Tally {
    (128..256)
        .flat_map(|record| {
            users(size, turn).map(move |user| (user, 64 + user * 7 % size.roles, record))
        })
        .map(|(user, role, record)| ask(user, role, record))
        .collect()
}

/// A session with one question: three searches, each of the table as it is then.
fn session(table: &EdgeSet, user: u16, role: u16, record: u16) -> bool {
    let [user, role, record] = black_box([user, role, record]).map(Vertex);
    let is_in_role = |table: &EdgeSet| role.is_role() && table.reaches(user, role);
    let is_active = user.is_user() && is_in_role(black_box(table));
    let asks = is_active && record.is_record() && is_in_role(black_box(table));
    asks && black_box(table).reaches(role, record)
}

fn sessions(table: &EdgeSet, size: Size, turn: u16) -> Tally {
    questions(size, turn, |user, role, record| {
        session(table, user, role, record)
    })
}

/// The roles that each user reaches; yes where role 0 is one.
fn closures(reached: impl Fn(Vertex) -> u64, size: Size, turn: u16) -> Tally {
    users(size, turn)
        .map(|user| black_box(reached(black_box(Vertex(user)))) & 1 == 1)
        .collect()
}

fn calls(image: &[u8], size: Size, turn: u16) -> Tally {
    questions(size, turn, |user, role, record| {
        let [user, role, record] = black_box([user, role, record]).map(u32::from);
        answer(black_box(image), user, role, record) == 1
    })
}

/// Each edge is dropped and put back; counted is what is held in the end.
fn changes(store: &mut Store, edges: &[Edge]) -> Tally {
    for edge in edges {
        black_box(&mut *store).drop(*edge);
        black_box(&mut *store)
            .put(*edge)
            .expect("there is room again");
    }
    Tally {
        asked: 2 * edges.len(),
        counted: store.edges().len(),
    }
}

/// Each message is sent on an empty link, and then as many are struck.
fn messages(link: &mut Link, messages: &[Change]) -> Tally {
    for message in messages {
        black_box(&mut *link)
            .send(*message)
            .expect("it has room for as many");
    }
    let waited = link.count();
    for _ in messages {
        black_box(&mut *link).strike();
    }
    Tally {
        asked: 2 * messages.len(),
        counted: waited - link.count(),
    }
}

#[derive(Clone, Copy)]
enum Shown {
    Answers,
    Times,
}

/// How often a job is done, and how often all that is timed.
const TURNS: u16 = 10;
const ROUNDS: u16 = 10;

fn round(job: &mut dyn FnMut(u16) -> Tally) -> f64 {
    let start = Instant::now();
    let asked: usize = (0..TURNS).map(|turn| job(turn).asked).sum();
    start.elapsed().as_secs_f64() * 1e9 / asked as f64
}

/// What came of a job, or the time of the fastest round.
fn show(shown: Shown, name: &str, counted: &str, job: &mut dyn FnMut(u16) -> Tally) {
    match shown {
        Shown::Answers => {
            let tally = job(0);
            println!(
                "    {name}: {} asked, {} {counted}",
                tally.asked, tally.counted
            );
        }
        Shown::Times => {
            let least = (0..ROUNDS).map(|_| round(job)).fold(f64::MAX, f64::min);
            println!("    {name}: {least:.1} ns");
        }
    }
}

fn show_reader(shown: Shown, name: &str, table: &EdgeSet, size: Size) {
    println!("  {name}");
    show(shown, "session with one question", "yes", &mut |turn| {
        sessions(table, size, turn)
    });
    show(shown, "closure of a user", "yes", &mut |turn| {
        closures(|user| table.roles_from(user), size, turn)
    });
}

fn all(shown: Shown, size: Size) {
    let table = size.table();
    let edges: Vec<_> = table.iter().collect();
    let mut store = Store::new(512);
    let mut policy = Policy::default();
    for edge in &edges {
        store.put(*edge).expect("there is room");
        policy.insert(*edge);
    }
    println!("{} edges", edges.len());
    show_reader(shown, "table", store.edges(), size);
    show(shown, "drop and put", "held in the end", &mut |_| {
        changes(&mut store, &edges)
    });

    let mut buffer = [0; image::BUFFER_BYTES];
    let length = image::write(&table, &mut buffer).expect("the buffer is as long as any image");
    let image = &buffer[..length];
    let opened = image::open(image).expect("it was written as an image");
    show_reader(shown, "image", &opened, size);
    show(shown, "call for C, image validated", "yes", &mut |turn| {
        calls(image, size, turn)
    });

    println!("  link");
    let mut link = Link::new(1024);
    let additions = edges.iter().cycle().map(|edge| Change::add(*edge));
    let additions: Vec<_> = additions.take(link.limit()).collect();
    show(shown, "send and strike", "came and went", &mut |_| {
        messages(&mut link, &additions)
    });

    // The policy keeps for each role what it reaches, so this looks up and searches nothing.
    println!("  policy");
    show(shown, "closure of a user", "yes", &mut |turn| {
        closures(|user| policy.roles_from(user), size, turn)
    });
}

fn main() -> ExitCode {
    let words: Vec<_> = std::env::args().skip(1).collect();
    let shown = match words.iter().map(String::as_str).collect::<Vec<_>>()[..] {
        [] => Shown::Times,
        ["answers"] => Shown::Answers,
        _ => {
            eprintln!("bench [answers]");
            return ExitCode::from(2);
        }
    };
    SIZES.iter().for_each(|size| all(shown, *size));
    ExitCode::SUCCESS
}
