//! Which declared privilege stands over which wanted change.

use crate::edges::bits;
use crate::policy::Policy;
use crate::privileges::Privileges;
use crate::terms::{Change, Kind, Sign, Vertex};

#[derive(Clone, Copy, Debug, PartialEq, Eq)]
pub enum Rule {
    Plain,
    Full,
}

impl Rule {
    pub fn puts_over(
        self,
        privileges: &Privileges,
        policy: &Policy,
        strong: Change,
        wanted: Change,
    ) -> bool {
        match self {
            Rule::Plain => strong == wanted,
            Rule::Full => stands_over(privileges, policy, strong, wanted),
        }
    }
}

/// The privilege ordering. Both changes are about edges, what is inside them is declared.
fn stands_over(privileges: &Privileges, policy: &Policy, strong: Change, wanted: Change) -> bool {
    if strong == wanted {
        return true;
    }
    if strong.sign == Sign::Remove || wanted.sign == Sign::Remove {
        return false;
    }
    let (strong, wanted) = (strong.edge, wanted.edge);
    let above = |m, n| match (privileges.change(m), privileges.change(n)) {
        (Some(m), Some(n)) => stands_over(privileges, policy, m, n),
        _ => false,
    };
    policy.reaches(wanted.from, strong.from)
        && match (strong.to.kind(), wanted.to.kind()) {
            (Some(Kind::Role(_)), Some(Kind::Role(_))) => policy.reaches(strong.to, wanted.to),
            (Some(Kind::Record(p)), Some(Kind::Record(q))) => p == q,
            (Some(Kind::Right(m)), Some(Kind::Right(n))) => above(m, n),
            _ => false,
        }
}

/// Does the user reach a declared privilege that the rule puts over the wanted change?
pub fn is_allowed(
    rule: Rule,
    privileges: &Privileges,
    policy: &Policy,
    user: Vertex,
    wanted: Change,
) -> bool {
    bits(policy.rights_from(user))
        .filter_map(|place| privileges.change(place))
        .any(|strong| rule.puts_over(privileges, policy, strong, wanted))
}
