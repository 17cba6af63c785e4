//! The tests of a model, and refusals.

use std::fmt;

use crate::model::{Argument, Model, Node, Term, Unreadable};

/// The longest model, in bytes.
pub const MAX_MODEL_BYTES: usize = 32_768;
/// The largest number of nodes.
pub const MAX_NODES: usize = 256;
/// The largest Tag; the smallest is 1.
pub const MAX_TAG: u64 = 128;

/// Why an input is refused; the discriminant is the refusal number.
#[derive(Clone, Copy, Debug, PartialEq, Eq)]
#[repr(u8)]
pub enum Reason {
    ModelTooLong = 1,
    ModelMalformed = 2,
    UnsupportedVersion = 3,
    TooManyNodes = 4,
    TagOutOfRange = 5,
    NodeIdNotIndex = 6,
    StartMissing = 7,
    DestinationMissing = 8,
    SignerMissing = 9,
    OptionNotSingle = 10,
    ParentNotSource = 11,
    CallUnknown = 12,
    /// The start has a Parent, so it could be reached again.
    StartHasParent = 13,
    /// Two edges of a node lead to the same destination.
    ParallelEdges = 14,
    PacketTooLong = 21,
    PacketMalformed = 22,
    PacketComponents = 23,
    KeyTooLong = 24,
    KeyMalformed = 25,
    KeyComponents = 26,
    BufferTooShort = 27,
    /// Lists that form no description, or that are too short for one.
    NoDescription = 30,
    OutputTooShort = 31,
    /// An entry of a list of certificates can't be cut or is no key name.
    EntryNoKeyName = 32,
    TooManyEntries = 33,
    /// Fewer words than the two names have components.
    PathTooShort = 34,
}

/// A refusal: its reason and the index of the first node or entry at fault. Of a
/// malformed model it is the place of its first fault, otherwise 0.
#[derive(Clone, Copy, Debug, PartialEq, Eq)]
pub struct Refusal {
    pub reason: Reason,
    pub index: usize,
}

impl Refusal {
    pub fn number(&self) -> u8 {
        self.reason as u8
    }
}

impl From<Reason> for Refusal {
    fn from(reason: Reason) -> Self {
        Refusal { reason, index: 0 }
    }
}

impl fmt::Display for Refusal {
    fn fmt(&self, f: &mut fmt::Formatter<'_>) -> fmt::Result {
        write!(f, "refused {} {}", self.number(), self.index)
    }
}

/// What the verdict call answers.
#[derive(Clone, Copy, Debug, PartialEq, Eq)]
pub enum Verdict {
    /// The model is accepted and has this many nodes.
    Accepted(usize),
    Refused(Refusal),
}

impl fmt::Display for Verdict {
    fn fmt(&self, f: &mut fmt::Formatter<'_>) -> fmt::Result {
        match self {
            Verdict::Accepted(nodes) => write!(f, "accepted {nodes}"),
            Verdict::Refused(refusal) => refusal.fmt(f),
        }
    }
}

/// Judges the bytes of a model.
pub fn verdict(model: &[u8]) -> Verdict {
    match load(model) {
        Ok(model) => Verdict::Accepted(model.nodes.len()),
        Err(refusal) => Verdict::Refused(refusal),
    }
}

/// Reads a model and makes all tests of it.
pub fn load(bytes: &[u8]) -> Result<Model<'_>, Refusal> {
    let model = load_readable(bytes)?;
    test_node_count(&model)?;
    test_tags(&model)?;
    test_node_ids(&model)?;
    test_start(&model)?;
    test_destinations(&model)?;
    test_signers(&model)?;
    test_options(&model)?;
    test_parents(&model)?;
    test_calls(&model)?;
    test_start_parent(&model)?;
    test_parallel_edges(&model)?;
    Ok(model)
}

/// Reads a model and makes only the tests 1 to 3.
pub fn load_readable(bytes: &[u8]) -> Result<Model<'_>, Refusal> {
    if bytes.len() > MAX_MODEL_BYTES {
        return Err(Reason::ModelTooLong.into());
    }
    Model::parse(bytes).map_err(|fault| match fault {
        Unreadable::Malformed(fault) => Refusal {
            reason: Reason::ModelMalformed,
            index: fault.place,
        },
        Unreadable::UnsupportedVersion => Reason::UnsupportedVersion.into(),
    })
}

fn test_node_count(model: &Model) -> Result<(), Refusal> {
    if model.nodes.len() > MAX_NODES {
        return Err(Reason::TooManyNodes.into());
    }
    Ok(())
}

fn test_tags(model: &Model) -> Result<(), Refusal> {
    let in_symbols = model.tag_symbols.iter().all(|symbol| is_tag(symbol.tag));
    if in_symbols && model.nodes.iter().all(has_good_tags) {
        return Ok(());
    }
    Err(Reason::TagOutOfRange.into())
}

fn is_tag(number: u64) -> bool {
    (1..=MAX_TAG).contains(&number)
}

/// Whether the Tags of the edges, their options and the options' calls are good.
fn has_good_tags(node: &Node) -> bool {
    node.pattern_edges.iter().all(|edge| is_tag(edge.tag))
        && node
            .options()
            .flat_map(|option| &option.terms)
            .all(term_has_good_tags)
}

fn term_has_good_tags(term: &Term) -> bool {
    match term {
        Term::Value(_) => true,
        Term::Tag(tag) => is_tag(*tag),
        Term::Call(call) => call.arguments.iter().all(|argument| match argument {
            Argument::Value(_) => true,
            Argument::Tag(tag) => is_tag(*tag),
        }),
    }
}

fn test_node_ids(model: &Model) -> Result<(), Refusal> {
    refuse_first(model, Reason::NodeIdNotIndex, |index, node| {
        node.id != index as u64
    })
}

fn test_start(model: &Model) -> Result<(), Refusal> {
    if names_node(model, model.start) {
        return Ok(());
    }
    Err(Reason::StartMissing.into())
}

fn test_destinations(model: &Model) -> Result<(), Refusal> {
    refuse_first(model, Reason::DestinationMissing, |_, node| {
        node.destinations()
            .any(|destination| !names_node(model, destination))
    })
}

fn test_signers(model: &Model) -> Result<(), Refusal> {
    refuse_first(model, Reason::SignerMissing, |_, node| {
        node.signers
            .iter()
            .any(|&signer| !names_node(model, signer))
    })
}

fn test_options(model: &Model) -> Result<(), Refusal> {
    refuse_first(model, Reason::OptionNotSingle, |_, node| {
        node.options().any(|option| option.terms.len() != 1)
    })
}

/// Needs destinations that name nodes.
fn test_parents(model: &Model) -> Result<(), Refusal> {
    let parent = |id: u64| model.nodes[id as usize].parent;
    refuse_first(model, Reason::ParentNotSource, |index, node| {
        node.destinations()
            .any(|destination| parent(destination) != Some(index as u64))
    })
}

fn test_calls(model: &Model) -> Result<(), Refusal> {
    refuse_first(model, Reason::CallUnknown, |_, node| {
        node.options()
            .flat_map(|option| &option.terms)
            .any(|term| matches!(term, Term::Call(call) if !call.is_callable()))
    })
}

/// Needs a start that names a node. Whatever its Parent names is too much.
fn test_start_parent(model: &Model) -> Result<(), Refusal> {
    refuse_first(model, Reason::StartHasParent, |index, node| {
        index as u64 == model.start && node.parent.is_some()
    })
}

fn test_parallel_edges(model: &Model) -> Result<(), Refusal> {
    refuse_first(model, Reason::ParallelEdges, |_, node| {
        let mut destinations: Vec<u64> = node.destinations().collect();
        destinations.sort_unstable();
        destinations.windows(2).any(|pair| pair[0] == pair[1])
    })
}

/// Whether a node has this id, given that ids are indexes.
fn names_node(model: &Model, id: u64) -> bool {
    id < model.nodes.len() as u64
}

/// Refuses with the position of the first node at fault.
fn refuse_first<'a>(
    model: &Model<'a>,
    reason: Reason,
    is_faulty: impl Fn(usize, &Node<'a>) -> bool,
) -> Result<(), Refusal> {
    let mut nodes = model.nodes.iter().enumerate();
    match nodes.find(|(index, node)| is_faulty(*index, node)) {
        Some((index, _)) => Err(Refusal { reason, index }),
        None => Ok(()),
    }
}
