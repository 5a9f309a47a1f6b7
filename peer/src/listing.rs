//! What the counter's words print of an installation.

use std::fmt::{self, Write};

use crate::installation::Installation;
use crate::privileges::Privileges;
use crate::terms::{Kind, Vertex};

/// A vertex as it is named in a line.
pub fn write_name(out: &mut String, privileges: &Privileges, vertex: Vertex) -> fmt::Result {
    match vertex.kind() {
        Some(Kind::User(k)) => write!(out, "u{k}"),
        Some(Kind::Role(k)) => write!(out, "r{k}"),
        Some(Kind::Record(k)) => write!(out, "p{k}"),
        Some(Kind::Right(k)) => match privileges.change(k) {
            Some(change) => {
                write!(out, "{}(", char::from(change.sign.byte()))?;
                write_name(out, privileges, change.edge.from)?;
                out.write_char(',')?;
                write_name(out, privileges, change.edge.to)?;
                out.write_char(')')
            }
            None => Err(fmt::Error),
        },
        None => Err(fmt::Error),
    }
}

/// What waits at each vault and what its table holds.
pub fn tables(out: &mut String, installation: &Installation) -> fmt::Result {
    let privileges = installation.privileges();
    for (number, vault) in installation.vaults().iter().enumerate() {
        for message in vault.link().waiting() {
            let sign = char::from(message.sign.byte());
            write!(out, "v{number} waits {sign} ")?;
            write_name(out, privileges, message.edge.from)?;
            out.write_char(' ')?;
            write_name(out, privileges, message.edge.to)?;
            out.write_char('\n')?;
        }
        for edge in vault.table().iter() {
            write!(out, "v{number} holds ")?;
            write_name(out, privileges, edge.from)?;
            out.write_char(' ')?;
            write_name(out, privileges, edge.to)?;
            out.write_char('\n')?;
        }
    }
    Ok(())
}

/// The policy in Graphviz's language.
pub fn graph(out: &mut String, installation: &Installation) -> fmt::Result {
    let privileges = installation.privileges();
    let edges = installation.policy().edges();
    let mut vertices: Vec<_> = edges.iter().flat_map(|e| [e.from, e.to]).collect();
    vertices.sort_unstable();
    vertices.dedup();

    out.push_str("digraph policy {\n    rankdir=LR;\n    node [fontname=\"sans-serif\"];\n");
    for vertex in vertices {
        out.push_str("    \"");
        write_name(out, privileges, vertex)?;
        writeln!(out, "\" [shape={}];", shape(vertex))?;
    }
    for edge in edges.iter() {
        out.push_str("    \"");
        write_name(out, privileges, edge.from)?;
        out.push_str("\" -> \"");
        write_name(out, privileges, edge.to)?;
        out.push_str("\";\n");
    }
    out.push_str("}\n");
    Ok(())
}

fn shape(vertex: Vertex) -> &'static str {
    match vertex.kind() {
        Some(Kind::User(_)) => "ellipse",
        Some(Kind::Role(_)) => "box",
        Some(Kind::Record(_)) => "note",
        Some(Kind::Right(_)) | None => "hexagon",
    }
}

/// The whole state by numbers, a line for each fact.
pub fn state(out: &mut String, installation: &Installation) -> fmt::Result {
    for edge in installation.policy().edges().iter() {
        writeln!(out, "policy {} {}", edge.from.0, edge.to.0)?;
    }
    for (place, change) in (0..).zip(installation.privileges().iter()) {
        let (number, sign) = (Vertex::right(place).0, char::from(change.sign.byte()));
        let edge = change.edge;
        writeln!(
            out,
            "declared {number} {sign} {} {}",
            edge.from.0, edge.to.0
        )?;
    }
    for (number, vault) in installation.vaults().iter().enumerate() {
        for record in vault.kept() {
            writeln!(out, "kept {number} {}", record.0)?;
        }
    }
    for (number, vault) in installation.vaults().iter().enumerate() {
        for edge in vault.told().iter() {
            writeln!(out, "told {number} {} {}", edge.from.0, edge.to.0)?;
        }
        for message in vault.link().waiting() {
            let (sign, edge) = (char::from(message.sign.byte()), message.edge);
            writeln!(out, "wait {number} {sign} {} {}", edge.from.0, edge.to.0)?;
        }
        for edge in vault.table().iter() {
            writeln!(out, "table {number} {} {}", edge.from.0, edge.to.0)?;
        }
    }
    Ok(())
}
