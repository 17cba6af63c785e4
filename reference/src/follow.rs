//! The call that follows a path. It crosses one edge for each component and
//! never looks for another.

use std::fmt;

use crate::model::Model;
use crate::names::{Name, PlacedComponent, Role};
use crate::verdict::{load, Refusal};
use crate::walk::{is_open, Bindings};

/// What the call answers.
#[derive(Clone, Copy, Debug, PartialEq, Eq)]
pub enum FollowAnswer {
    Accepted,
    No,
    Refused(Refusal),
}

impl fmt::Display for FollowAnswer {
    fn fmt(&self, f: &mut fmt::Formatter<'_>) -> fmt::Result {
        match self {
            FollowAnswer::Accepted => write!(f, "accepted"),
            FollowAnswer::No => write!(f, "no"),
            FollowAnswer::Refused(refusal) => refusal.fmt(f),
        }
    }
}

/// Whether the path leads the packet, and then the key, to nodes of which the
/// first lists the second as a signer.
pub fn follow(model: &[u8], packet: &[u8], key: &[u8], path: &[u16]) -> FollowAnswer {
    try_follow(model, packet, key, path).unwrap_or_else(FollowAnswer::Refused)
}

fn try_follow(
    model: &[u8],
    packet: &[u8],
    key: &[u8],
    path: &[u16],
) -> Result<FollowAnswer, Refusal> {
    let model = load(model)?;
    let packet = Name::load(packet, Role::Packet)?;
    let key = Name::load(key, Role::Key)?;
    if leads_to_signer(&model, &packet, &key, path) {
        Ok(FollowAnswer::Accepted)
    } else {
        Ok(FollowAnswer::No)
    }
}

/// The same for inputs that have been tested.
pub fn leads_to_signer<'n>(model: &Model, packet: &Name<'n>, key: &Name<'n>, path: &[u16]) -> bool {
    if path.len() != packet.components.len() + key.components.len() {
        return false;
    }
    let (of_packet, of_key) = path.split_at(packet.components.len());
    // the key is walked under what the packet bound
    let bindings = &mut Bindings::default();
    let Some(packet_node) = end_of(model, &packet.components, of_packet, bindings) else {
        return false;
    };
    let Some(key_node) = end_of(model, &key.components, of_key, bindings) else {
        return false;
    };
    model.nodes[packet_node as usize]
        .signers
        .contains(&key_node)
}

/// The node that a name comes to by these edges, one for each component; `None`
/// where the node has no such edge or it may not be crossed.
pub fn end_of<'n>(
    model: &Model,
    name: &[PlacedComponent<'n>],
    path: &[u16],
    bindings: &mut Bindings<'n>,
) -> Option<u64> {
    let mut id = model.start;
    for (placed, &ordinal) in name.iter().zip(path) {
        let edge = model.nodes[id as usize].edge(ordinal)?;
        if !is_open(edge, placed.component, bindings) {
            return None;
        }
        bindings.bind_by(model, edge, *placed);
        id = edge.destination();
    }
    Some(id)
}
