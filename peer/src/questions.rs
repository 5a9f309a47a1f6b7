//! Random questions about images, most of them good ones, and how they are written as records.

use std::io::{self, Read, Write};

use crate::edges::{bits, EdgeSet};
use crate::image::{bytes, runs, Run};
use crate::random::Random;
use crate::terms::{Edge, Vertex};

/// A record is: the length of the image, its bytes, user, role, privilege; numbers in four bytes,
/// the low one first.
#[derive(Clone, Debug, PartialEq, Eq)]
pub struct Question {
    pub image: Vec<u8>,
    pub user: u32,
    pub role: u32,
    pub privilege: u32,
}

impl Question {
    pub fn write(&self, out: &mut impl Write) -> io::Result<()> {
        out.write_all(&(self.image.len() as u32).to_le_bytes())?;
        out.write_all(&self.image)?;
        [self.user, self.role, self.privilege]
            .iter()
            .try_for_each(|number| out.write_all(&number.to_le_bytes()))
    }

    /// `None` where the input ends, at the end of a record.
    pub fn read(input: &mut impl Read) -> io::Result<Option<Self>> {
        let mut first = [0];
        if input.read(&mut first)? == 0 {
            return Ok(None);
        }
        let mut others = [0; 3];
        input.read_exact(&mut others)?;
        let length = u32::from_le_bytes([first[0], others[0], others[1], others[2]]);
        let mut image = vec![0; length as usize];
        input.read_exact(&mut image)?;
        let [user, role, privilege] = [number(input)?, number(input)?, number(input)?];
        Ok(Some(Question {
            image,
            user,
            role,
            privilege,
        }))
    }
}

fn number(input: &mut impl Read) -> io::Result<u32> {
    let mut bytes = [0; 4];
    input.read_exact(&mut bytes)?;
    Ok(u32::from_le_bytes(bytes))
}

pub fn question(random: &mut Random) -> Question {
    let table = table(random);
    let image = match random.chance(1, 3) {
        true => damaged_image(random, &table),
        false => bytes(&runs(&table)),
    };
    let [user, role, privilege] = numbers(random, &table);
    Question {
        image,
        user,
        role,
        privilege,
    }
}

/// A table of 0 to 512 edges among some of the vertices: the fewer vertices, the more paths.
fn table(random: &mut Random) -> EdgeSet {
    let wanted = match random.below(8) {
        0 => random.below(4),
        1 => random.between(400, 512),
        2 => 512,
        3 => random.between(50, 400),
        _ => random.between(4, 50),
    };
    let [users, roles, records] = [64, 64, 128].map(|all| match random.below(4) {
        0 => all,
        1 => random.between(1, all),
        _ => random.between(1, 8),
    });
    // So that tables of few vertices may be full, and an end of trying.
    let mut table = EdgeSet::default();
    for _ in 0..4 * wanted {
        if table.len() == wanted {
            break;
        }
        let user = random.below(users) as u8;
        let [from, to] = [0; 2].map(|_| random.below(roles) as u8);
        let record = Vertex::record(random.below(records) as u8);
        let edge = |from, to| Edge { from, to };
        let added = match random.below(4) {
            0 => edge(Vertex::user(user), Vertex::role(to)),
            1 => edge(Vertex::role(from), Vertex::role(to)),
            _ => edge(Vertex::role(from), record),
        };
        fill(random, &mut table, added, wanted);
    }
    table
}

/// Puts the edge, and now and then its neighbours, which makes long runs.
fn fill(random: &mut Random, table: &mut EdgeSet, first: Edge, wanted: usize) {
    let neighbours = match random.chance(1, 6) {
        true => random.between(1, 192),
        false => 1,
    };
    (0..neighbours as u16)
        .map(|k| Edge::new(first.from.0, first.to.0 + k))
        .take_while(|edge| edge.is_vault_edge())
        .take(wanted - table.len())
        .for_each(|edge| {
            table.insert(edge);
        });
}

/// User, role and privilege, often such as reach each other.
fn numbers(random: &mut Random, table: &EdgeSet) -> [u32; 3] {
    let users: Vec<_> = (0..64)
        .map(Vertex::user)
        .filter(|user| table.row(*user).roles != 0)
        .collect();
    let user = match users.is_empty() || random.chance(1, 16) {
        true => Vertex::user(random.below(64) as u8),
        false => *random.pick(&users),
    };
    let reached: Vec<_> = bits(u128::from(table.roles_from(user))).collect();
    let useful: Vec<_> = reached
        .iter()
        .copied()
        .filter(|role| records_from(table, Vertex::role(*role)) != 0)
        .collect();
    let roles = match useful.is_empty() || random.chance(1, 4) {
        true => reached,
        false => useful,
    };
    let role = match roles.is_empty() || random.chance(1, 8) {
        true => Vertex::role(random.below(64) as u8),
        false => Vertex::role(*random.pick(&roles)),
    };
    let records = records_from(table, role);
    let records: Vec<_> = bits(records).collect();
    let record = match records.is_empty() || random.chance(1, 3) {
        true => Vertex::record(random.below(128) as u8),
        false => Vertex::record(*random.pick(&records)),
    };
    [user, role, record].map(|vertex| spoilt(random, u32::from(vertex.0)))
}

fn records_from(table: &EdgeSet, role: Vertex) -> u128 {
    bits(u128::from(table.roles_from(role)))
        .fold(0, |all, k| all | table.row(Vertex::role(k)).records)
}

/// The number itself most of the time, or another one.
fn spoilt(random: &mut Random, number: u32) -> u32 {
    match random.below(40) {
        0 => random.word() as u32,
        1 => random.below(70) as u32 + [0, 60, 120, 250][random.below(4)],
        2 => *random.pick(&[0, 63, 64, 127, 128, 255, 256, 383, 384, 65535, u32::MAX]),
        3 => number + 65536 * random.between(1, 5) as u32,
        4 => number.wrapping_add(1 << random.between(6, 31)),
        _ => number,
    }
}

/// Bytes that are seldom an image any more.
fn damaged_image(random: &mut Random, table: &EdgeSet) -> Vec<u8> {
    let mut listed = runs(table);
    match random.below(13) {
        0 => return changed(random, bytes(&listed)),
        1 => {
            let mut image = bytes(&listed);
            image.truncate(random.below(image.len()));
            return image;
        }
        2 => {
            let mut image = bytes(&listed);
            let more = random.between(1, 9);
            image.resize_with(image.len() + more, || random.byte());
            return image;
        }
        3 => return Vec::new(),
        4 => return miscounted(random, bytes(&listed)),
        5 => split_run(random, &mut listed),
        6 => swap_runs(random, &mut listed),
        7 => repeat_run(random, &mut listed),
        8 => lengthen_run(random, &mut listed),
        9 => empty_run(random, &mut listed),
        10 => stray_run(random, &mut listed),
        11 => listed = too_many(random),
        _ => {
            let count = random.below(30);
            listed.resize_with(count, || Run {
                first: random.word() as u16,
                length: random.below(4) as u16,
            });
        }
    }
    bytes(&listed)
}

fn changed(random: &mut Random, mut image: Vec<u8>) -> Vec<u8> {
    let at = random.below(image.len());
    image[at] = match random.chance(1, 2) {
        true => random.byte(),
        false => image[at] ^ 1 << random.below(8),
    };
    image
}

/// The count is one too many, one too few, or anything.
fn miscounted(random: &mut Random, mut image: Vec<u8>) -> Vec<u8> {
    let count = u16::from_be_bytes([image[0], image[1]]);
    let wrong = match random.below(3) {
        0 => count.wrapping_add(1),
        1 => count.wrapping_sub(1),
        _ => random.word() as u16,
    };
    image[..2].copy_from_slice(&wrong.to_be_bytes());
    image
}

/// Makes two runs that touch out of one.
fn split_run(random: &mut Random, runs: &mut Vec<Run>) {
    let long: Vec<_> = (0..runs.len()).filter(|k| runs[*k].length > 1).collect();
    if long.is_empty() {
        return stray_run(random, runs);
    }
    let at = *random.pick(&long);
    let Run { first, length } = runs[at];
    let front = random.between(1, usize::from(length) - 1) as u16;
    runs[at].length = front;
    let back = Run {
        first: first + front,
        length: length - front,
    };
    runs.insert(at + 1, back);
}

fn swap_runs(random: &mut Random, runs: &mut [Run]) {
    if runs.len() > 1 {
        let at = random.between(1, runs.len() - 1);
        runs.swap(at - 1, at);
    }
}

fn repeat_run(random: &mut Random, runs: &mut Vec<Run>) {
    if !runs.is_empty() {
        let at = random.below(runs.len());
        runs.insert(at, runs[at]);
    }
}

/// The run may end behind its row, in the run behind it, or right before that.
fn lengthen_run(random: &mut Random, runs: &mut [Run]) {
    if runs.is_empty() {
        return;
    }
    let at = random.below(runs.len());
    let run = runs[at];
    let end = u32::from(run.first) + u32::from(run.length);
    let gap = runs
        .get(at + 1)
        .map_or(1, |next| u32::from(next.first) - end);
    let more = match random.below(4) {
        0 => gap,
        1 => gap + 1,
        2 => gap.saturating_sub(1),
        _ => random.below(300) as u32,
    };
    runs[at].length = run.length.saturating_add(more as u16);
}

fn empty_run(random: &mut Random, runs: &mut Vec<Run>) {
    let at = random.below(runs.len() + 1);
    let first = match (runs.get(at), random.chance(1, 2)) {
        (Some(run), true) => run.first - 1,
        (_, _) => random.below(128 * 256) as u16,
    };
    runs.insert(at, Run { first, length: 0 });
}

/// Puts a run in its place whose cells are those of no vault edges, or may be.
fn stray_run(random: &mut Random, runs: &mut Vec<Run>) {
    let (from, to) = match random.below(4) {
        0 => (random.below(64), random.between(128, 255)),
        1 => (random.below(128), random.below(64)),
        2 => (random.between(128, 255), random.below(256)),
        _ => (random.below(256), random.below(256)),
    };
    let first = (from * 256 + to) as u16;
    let length = random.between(1, 3) as u16;
    let at = runs.partition_point(|run| run.first < first);
    runs.insert(at, Run { first, length });
}

/// Rows of roles that hold about 512 cells together.
fn too_many(random: &mut Random) -> Vec<Run> {
    let mut left = random.between(511, 520);
    let mut row = 64 + random.below(40);
    let mut runs = Vec::new();
    while left > 0 && row < 128 {
        let length = random.between(1, 192).min(left);
        runs.push(Run {
            first: (row * 256 + 64) as u16,
            length: length as u16,
        });
        left -= length;
        row += 1;
    }
    runs
}

#[cfg(test)]
mod tests {
    use super::*;
    use crate::access::answer;
    use std::collections::BTreeSet;

    #[test]
    fn records_come_back_and_all_answers_occur() {
        let mut random = Random::new(1);
        let questions: Vec<_> = (0..2000).map(|_| question(&mut random)).collect();
        let mut records = Vec::new();
        questions
            .iter()
            .for_each(|q| q.write(&mut records).unwrap());
        let mut input = &records[..];
        let mut answers = BTreeSet::new();
        for asked in &questions {
            assert_eq!(Question::read(&mut input).unwrap().as_ref(), Some(asked));
            answers.insert(answer(
                &asked.image,
                asked.user,
                asked.role,
                asked.privilege,
            ));
        }
        assert_eq!(Question::read(&mut input).unwrap(), None);
        assert!(answers.into_iter().eq([0, 1, 101, 110, 114, 118]));
    }
}
