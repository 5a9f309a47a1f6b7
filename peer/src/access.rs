//! The question that a C host asks about an image.

use crate::image;
use crate::terms::Vertex;

#[derive(Clone, Copy, Debug, PartialEq, Eq)]
pub enum AccessFault {
    NoUser,
    NotRecord,
    NoImage,
    NoRole,
}

impl AccessFault {
    pub fn number(self) -> u8 {
        match self {
            AccessFault::NoUser => 1,
            AccessFault::NotRecord => 10,
            AccessFault::NoImage => 18,
            AccessFault::NoRole => 14,
        }
    }
}

/// A number too large for a vertex is none, and is not cut off.
fn vertex(number: u32) -> Option<Vertex> {
    u16::try_from(number).ok().map(Vertex)
}

pub fn access(bytes: &[u8], user: u32, role: u32, privilege: u32) -> Result<bool, AccessFault> {
    let user = vertex(user)
        .filter(|v| v.is_user())
        .ok_or(AccessFault::NoUser)?;
    let record = vertex(privilege)
        .filter(|v| v.is_record())
        .ok_or(AccessFault::NotRecord)?;
    let table = image::open(bytes).map_err(|_| AccessFault::NoImage)?;
    let role = vertex(role)
        .filter(|v| v.is_role() && table.reaches(user, *v))
        .ok_or(AccessFault::NoRole)?;
    Ok(table.reaches(role, record))
}

/// As the C call tells it: 0, 1, or 100 and the refusal.
pub fn answer(bytes: &[u8], user: u32, role: u32, privilege: u32) -> u8 {
    match access(bytes, user, role, privilege) {
        Ok(yes) => u8::from(yes),
        Err(fault) => 100 + fault.number(),
    }
}

#[cfg(test)]
mod tests {
    use super::*;

    const IMAGE: [u8; 14] = [0, 3, 0x02, 0x40, 0, 1, 0x40, 0x41, 0, 1, 0x41, 0x80, 0, 1];

    #[test]
    fn answers_in_their_order() {
        let cases = [
            (&IMAGE[..], 2, 64, 128, 1),
            (&IMAGE[..], 2, 65, 128, 1),
            (&IMAGE[..], 2, 64, 129, 0),
            (&IMAGE[..], 2, 66, 128, 114),
            (&IMAGE[..], 2, 2, 128, 114),
            (&IMAGE[..], 2, 65536 + 64, 128, 114),
            (&IMAGE[..], 3, 64, 128, 114),
            (&IMAGE[1..], 2, 9, 128, 118),
            (&IMAGE[1..], 2, 64, 127, 110),
            (&IMAGE[..], 2, 64, 65536 + 128, 110),
            (&IMAGE[1..], 64, 64, 256, 101),
            (&IMAGE[..], u32::MAX, 64, 128, 101),
            (&IMAGE[..], 65536 + 2, 64, 128, 101),
        ];
        for (bytes, user, role, privilege, expected) in cases {
            let told = answer(bytes, user, role, privilege);
            assert_eq!(told, expected, "{user} {role} {privilege}");
        }
    }
}
