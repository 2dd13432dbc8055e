//! crates/choice/specs/Choice

use crate::wire::Name;
use plain::Side;

pub fn listed(name: Name, list: &[Name]) -> bool {
    list.contains(&name)
}

/// "the client's first name that the server lists"
pub fn first_shared<'a>(client: &[Name<'a>], server: &[Name]) -> Option<Name<'a>> {
    client.iter().copied().find(|name| listed(name, server))
}

/// at either end, over the own list and the peer's
pub fn chosen<'a>(side: Side, own: &[Name<'a>], peer: &[Name<'a>]) -> Option<Name<'a>> {
    match side {
        Side::Client => first_shared(own, peer),
        Side::Server => first_shared(peer, own),
    }
}

/// "“Both first” holds if that is the first entry of each list."
pub fn both_first(own: &[Name], peer: &[Name]) -> bool {
    match (own, peer) {
        ([a, ..], [b, ..]) => a == b,
        _ => false,
    }
}
