//! A second hand at the rules of the centre and its vaults, written from the documents alone.

pub mod access;
pub mod bank;
pub mod census;
pub mod edges;
pub mod faults;
pub mod generator;
pub mod image;
pub mod installation;
pub mod listing;
pub mod load;
pub mod ordering;
pub mod policy;
pub mod privileges;
pub mod program;
pub mod questions;
pub mod random;
pub mod reader;
pub mod script;
pub mod terms;
