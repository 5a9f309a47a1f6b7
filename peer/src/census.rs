//! How often each number is answered.

use std::collections::BTreeMap;
use std::fmt;

#[derive(Clone, Debug, Default)]
pub struct Census(BTreeMap<u8, usize>);

impl Census {
    pub fn count(&mut self, answer: u8) {
        *self.0.entry(answer).or_default() += 1;
    }

    pub fn join(&mut self, other: &Census) {
        for (answer, times) in &other.0 {
            *self.0.entry(*answer).or_default() += times;
        }
    }

    pub fn total(&self) -> usize {
        self.0.values().sum()
    }
}

impl FromIterator<u8> for Census {
    fn from_iter<I: IntoIterator<Item = u8>>(answers: I) -> Self {
        let mut census = Census::default();
        answers.into_iter().for_each(|answer| census.count(answer));
        census
    }
}

impl fmt::Display for Census {
    fn fmt(&self, f: &mut fmt::Formatter<'_>) -> fmt::Result {
        for (place, (answer, times)) in self.0.iter().enumerate() {
            let comma = if place == 0 { "" } else { ", " };
            write!(f, "{comma}{answer} x {times}")?;
        }
        Ok(())
    }
}
