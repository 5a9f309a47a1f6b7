//! A table as bytes.

use crate::edges::EdgeSet;
use crate::terms::{Edge, Vertex};

const MAX_EDGES: usize = 512;

/// As long as the longest image.
pub const BUFFER_BYTES: usize = 2050;

#[derive(Clone, Copy, Debug, PartialEq, Eq)]
pub enum ImageFault {
    NoImage,
    ShortBuffer,
}

impl ImageFault {
    pub fn number(self) -> u8 {
        match self {
            ImageFault::NoImage => 18,
            ImageFault::ShortBuffer => 21,
        }
    }
}

/// Neighbouring cells.
#[derive(Clone, Copy, Debug, PartialEq, Eq)]
pub struct Run {
    pub first: u16,
    pub length: u16,
}

fn cell(edge: Edge) -> u16 {
    edge.from.0 * 256 + edge.to.0
}

fn edge(cell: u16) -> Edge {
    Edge {
        from: Vertex(cell / 256),
        to: Vertex(cell % 256),
    }
}

/// The runs of a table, ascending. No two of them touch.
pub fn runs(table: &EdgeSet) -> Vec<Run> {
    let mut runs: Vec<Run> = Vec::new();
    for cell in table.iter().map(cell) {
        match runs.last_mut() {
            Some(run) if run.first + run.length == cell => run.length += 1,
            _ => runs.push(Run {
                first: cell,
                length: 1,
            }),
        }
    }
    runs
}

/// The bytes of runs, whatever they are.
pub fn bytes(runs: &[Run]) -> Vec<u8> {
    let count = runs.len() as u16;
    let words = runs.iter().flat_map(|run| [run.first, run.length]);
    std::iter::once(count)
        .chain(words)
        .flat_map(u16::to_be_bytes)
        .collect()
}

/// Writes the image at the start of the buffer and tells how long it is. The table has at most 512
/// edges, all of them vault edges.
pub fn write(table: &EdgeSet, buffer: &mut [u8]) -> Result<usize, ImageFault> {
    if buffer.len() < BUFFER_BYTES {
        return Err(ImageFault::ShortBuffer);
    }
    let image = bytes(&runs(table));
    buffer[..image.len()].copy_from_slice(&image);
    Ok(image.len())
}

pub fn open(image: &[u8]) -> Result<EdgeSet, ImageFault> {
    read(image).ok_or(ImageFault::NoImage)
}

fn read(image: &[u8]) -> Option<EdgeSet> {
    let (count, runs) = image.split_first_chunk()?;
    if runs.len() != 4 * usize::from(u16::from_be_bytes(*count)) {
        return None;
    }
    let mut table = EdgeSet::default();
    // The lowest cell that the next run may begin with.
    let mut least = 0;
    for run in runs.chunks_exact(4) {
        let first = u32::from(u16::from_be_bytes([run[0], run[1]]));
        let length = u32::from(u16::from_be_bytes([run[2], run[3]]));
        let end = first + length;
        if first < least || length == 0 {
            return None;
        }
        least = end + 1;
        for cell in first..end {
            let edge = edge(u16::try_from(cell).ok()?);
            if !edge.is_vault_edge() || table.len() == MAX_EDGES {
                return None;
            }
            table.insert(edge);
        }
    }
    Some(table)
}

#[cfg(test)]
mod tests {
    use super::*;

    const WORKED: [u8; 14] = [0, 3, 0x02, 0x40, 0, 1, 0x40, 0x41, 0, 1, 0x41, 0x80, 0, 1];

    fn table(pairs: &[(u16, u16)]) -> EdgeSet {
        pairs.iter().map(|&(a, b)| Edge::new(a, b)).collect()
    }

    fn image(runs: &[(u16, u16)]) -> Vec<u8> {
        let runs: Vec<_> = runs
            .iter()
            .map(|&(first, length)| Run { first, length })
            .collect();
        bytes(&runs)
    }

    #[test]
    fn the_worked_image() {
        let worked = table(&[(2, 64), (64, 65), (65, 128)]);
        let mut buffer = [7; BUFFER_BYTES];
        assert_eq!(write(&worked, &mut buffer), Ok(14));
        assert_eq!(buffer[..14], WORKED);
        assert!(buffer[14..].iter().all(|byte| *byte == 7));
        assert_eq!(open(&WORKED), Ok(worked));
        let short = write(&EdgeSet::default(), &mut buffer[1..]);
        assert_eq!(short, Err(ImageFault::ShortBuffer));
    }

    #[test]
    fn what_is_no_image() {
        let longer = [&WORKED[..], &[0]].concat();
        let wrong = [
            Vec::new(),
            vec![0],
            WORKED[..13].to_vec(),
            longer,
            image(&[(0x0240, 0)]),
            image(&[(0x0240, 1), (0x0241, 1)]),
            image(&[(0x0240, 2), (0x0241, 1)]),
            image(&[(0x0340, 1), (0x0240, 1)]),
            image(&[(0x0240, 1), (0x0240, 1)]),
            image(&[(0x0280, 1)]),
            image(&[(0x027f, 2)]),
            image(&[(0x8040, 1)]),
            image(&[(0xffff, 0xffff)]),
            image(&[(0x4040, 192), (0x4140, 192), (0x4240, 129)]),
        ];
        for bytes in wrong {
            assert_eq!(open(&bytes), Err(ImageFault::NoImage), "{bytes:?}");
        }
    }

    #[test]
    fn the_longest_images() {
        let few = image(&[(0x4040, 192), (0x4140, 192), (0x4240, 128)]);
        assert_eq!(open(&few).unwrap().len(), 512);
        let apart: EdgeSet = (0..16)
            .flat_map(|user| (0..32).map(move |k| Edge::new(user, 64 + 2 * k)))
            .collect();
        let mut buffer = [0; BUFFER_BYTES];
        assert_eq!(write(&apart, &mut buffer), Ok(BUFFER_BYTES));
        assert_eq!(open(&buffer), Ok(apart));
        assert_eq!(open(&[0, 0]), Ok(EdgeSet::default()));
    }
}
