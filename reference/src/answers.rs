//! The calls that match, sign, write and describe, and what they answer.

use std::fmt;
use std::ops::ControlFlow;

use crate::description::NoDescription;
use crate::model::Model;
use crate::names::{Name, Role};
use crate::verdict::{load, Reason, Refusal, MAX_TAG};
use crate::walk::{visit_matches, Bindings, Trace};

/// The words that each Tag has in a binding buffer: start, length and origin.
const WORDS_OF_TAG: usize = 3;
/// The words that a binding buffer needs.
pub const BINDING_WORDS: usize = WORDS_OF_TAG * MAX_TAG as usize;

/// What the match call answers.
#[derive(Clone, Copy, Debug, PartialEq, Eq)]
pub enum MatchAnswer {
    /// The first match: its node and how many Tags are bound.
    Match {
        node: usize,
        bound: usize,
    },
    NoMatch,
    Refused(Refusal),
}

impl fmt::Display for MatchAnswer {
    fn fmt(&self, f: &mut fmt::Formatter<'_>) -> fmt::Result {
        match self {
            MatchAnswer::Match { node, bound } => write!(f, "match {node} {bound}"),
            MatchAnswer::NoMatch => write!(f, "no match"),
            MatchAnswer::Refused(refusal) => refusal.fmt(f),
        }
    }
}

/// What the signing call answers.
#[derive(Clone, Copy, Debug, PartialEq, Eq)]
pub enum SignAnswer {
    /// The first pair of a packet node and a key node among its signers.
    Allowed {
        packet: usize,
        key: usize,
    },
    NotAllowed,
    Refused(Refusal),
}

impl fmt::Display for SignAnswer {
    fn fmt(&self, f: &mut fmt::Formatter<'_>) -> fmt::Result {
        match self {
            SignAnswer::Allowed { packet, key } => write!(f, "allowed {packet} {key}"),
            SignAnswer::NotAllowed => write!(f, "not allowed"),
            SignAnswer::Refused(refusal) => refusal.fmt(f),
        }
    }
}

/// The first match of a name. On a match the buffer's first words hold each
/// Tag's start, length and origin, all 0 if unbound; otherwise it is kept.
pub fn match_name(model: &[u8], name: &[u8], buffer: &mut [u32]) -> MatchAnswer {
    try_match(model, name, buffer).unwrap_or_else(MatchAnswer::Refused)
}

fn try_match(model: &[u8], name: &[u8], buffer: &mut [u32]) -> Result<MatchAnswer, Refusal> {
    let model = load(model)?;
    let name = Name::load(name, Role::Packet)?;
    let words = binding_words(buffer)?;
    let first = visit_matches(
        &model,
        &name.components,
        &mut Trace::default(),
        &mut |node, trace| {
            write_bindings(&trace.bindings, words);
            ControlFlow::Break(MatchAnswer::Match {
                node,
                bound: trace.bindings.count(),
            })
        },
    );
    Ok(first.break_value().unwrap_or(MatchAnswer::NoMatch))
}

/// The words of a lent buffer that bindings are written to.
fn binding_words(buffer: &mut [u32]) -> Result<&mut [u32], Refusal> {
    let words = buffer.get_mut(..BINDING_WORDS);
    words.ok_or(Reason::BufferTooShort.into())
}

#[inline(never)] // so that tools/speed.py can tell it from the walk that it is called in
fn write_bindings(bindings: &Bindings, words: &mut [u32]) {
    let places = words.chunks_exact_mut(WORDS_OF_TAG);
    for (slot, place) in bindings.slots().iter().zip(places) {
        place.copy_from_slice(&slot.map_or([0; WORDS_OF_TAG], |bound| {
            [bound.start, bound.length, bound.role.origin()]
        }));
    }
}

/// Whether a key of this name may sign a packet of that name. If it may, the
/// buffer's first words hold the bindings of the pair that is answered, as after
/// a match, and the first words of the path one for each component of the
/// packet's name, then one for each of the key's. Those behind are kept, and
/// otherwise all are.
pub fn sign(
    model: &[u8],
    packet: &[u8],
    key: &[u8],
    buffer: &mut [u32],
    path: &mut [u16],
) -> SignAnswer {
    try_sign(model, packet, key, buffer, path).unwrap_or_else(SignAnswer::Refused)
}

fn try_sign(
    model: &[u8],
    packet: &[u8],
    key: &[u8],
    buffer: &mut [u32],
    path: &mut [u16],
) -> Result<SignAnswer, Refusal> {
    let model = load(model)?;
    let packet = Name::load(packet, Role::Packet)?;
    let key = Name::load(key, Role::Key)?;
    let words = binding_words(buffer)?;
    let path = path
        .get_mut(..packet.components.len() + key.components.len())
        .ok_or(Reason::PathTooShort)?;
    let first = visit_allowed(&model, &packet, &key, &mut |pair| {
        write_bindings(&pair.trace.bindings, words);
        path.copy_from_slice(&pair.trace.path);
        ControlFlow::Break(SignAnswer::Allowed {
            packet: pair.packet,
            key: pair.key,
        })
    });
    Ok(first.break_value().unwrap_or(SignAnswer::NotAllowed))
}

/// A match of a packet, with one of a key under its bindings.
#[derive(Clone, Copy, Debug)]
pub struct Pair<'t, 'n> {
    /// The nodes that are matched.
    pub packet: usize,
    pub key: usize,
    /// What both walks bound and crossed, the packet's and then the key's.
    pub trace: &'t Trace<'n>,
}

impl Pair<'_, '_> {
    /// Whether the packet's node lists the key's among its signers.
    pub fn is_allowed(&self, model: &Model) -> bool {
        let signers = &model.nodes[self.packet].signers;
        signers.contains(&(self.key as u64))
    }
}

/// Whether a pair is allowed, for inputs that have been tested.
pub fn may_sign<'n>(model: &Model, packet: &Name<'n>, key: &Name<'n>) -> bool {
    visit_allowed(model, packet, key, &mut |_| ControlFlow::Break(())).is_break()
}

/// Visits the pairs that are allowed in their order, while the visitor says so.
pub fn visit_allowed<'n, T>(
    model: &Model,
    packet: &Name<'n>,
    key: &Name<'n>,
    visit: &mut impl FnMut(Pair<'_, 'n>) -> ControlFlow<T>,
) -> ControlFlow<T> {
    visit_pairs(model, packet, key, &mut |pair| {
        if pair.is_allowed(model) {
            visit(pair)
        } else {
            ControlFlow::Continue(())
        }
    })
}

/// The same for all pairs, allowed or not.
pub fn visit_pairs<'n, T>(
    model: &Model,
    packet: &Name<'n>,
    key: &Name<'n>,
    visit: &mut impl FnMut(Pair<'_, 'n>) -> ControlFlow<T>,
) -> ControlFlow<T> {
    let trace = &mut Trace::default();
    visit_matches(model, &packet.components, trace, &mut |packet, trace| {
        visit_matches(model, &key.components, trace, &mut |key, trace| {
            visit(Pair { packet, key, trace })
        })
    })
}

/// What the writing call answers.
#[derive(Clone, Copy, Debug, PartialEq, Eq)]
pub enum WriteAnswer {
    /// The model is written and has this many bytes.
    Written(usize),
    Refused(Refusal),
}

impl fmt::Display for WriteAnswer {
    fn fmt(&self, f: &mut fmt::Formatter<'_>) -> fmt::Result {
        match self {
            WriteAnswer::Written(length) => write!(f, "written {length}"),
            WriteAnswer::Refused(refusal) => refusal.fmt(f),
        }
    }
}

/// What the describing call answers.
#[derive(Clone, Copy, Debug, PartialEq, Eq)]
pub enum DescribeAnswer {
    /// The description has this many numbers and this many bytes of texts.
    Described {
        numbers: usize,
        texts: usize,
    },
    Refused(Refusal),
}

impl fmt::Display for DescribeAnswer {
    fn fmt(&self, f: &mut fmt::Formatter<'_>) -> fmt::Result {
        match self {
            DescribeAnswer::Described { numbers, texts } => {
                write!(f, "described {numbers} {texts}")
            }
            DescribeAnswer::Refused(refusal) => refusal.fmt(f),
        }
    }
}

impl From<NoDescription> for Refusal {
    fn from(NoDescription: NoDescription) -> Self {
        Reason::NoDescription.into()
    }
}

/// Writes the model that two lists describe. Bytes behind it are kept, and all
/// of them if the call refuses.
pub fn write_model(numbers: &[u64], texts: &[u8], output: &mut [u8]) -> WriteAnswer {
    try_write(numbers, texts, output).unwrap_or_else(WriteAnswer::Refused)
}

fn try_write(numbers: &[u64], texts: &[u8], output: &mut [u8]) -> Result<WriteAnswer, Refusal> {
    let bytes = Model::from_lists(numbers, texts)?.encode();
    load(&bytes)?;
    let place = output
        .get_mut(..bytes.len())
        .ok_or(Reason::OutputTooShort)?;
    place.copy_from_slice(&bytes);
    Ok(WriteAnswer::Written(bytes.len()))
}

/// Describes a model in two lists. What is behind the description is kept, and
/// both lists are if the call refuses.
pub fn describe(model: &[u8], numbers: &mut [u64], texts: &mut [u8]) -> DescribeAnswer {
    try_describe(model, numbers, texts).unwrap_or_else(DescribeAnswer::Refused)
}

fn try_describe(
    model: &[u8],
    numbers: &mut [u64],
    texts: &mut [u8],
) -> Result<DescribeAnswer, Refusal> {
    let lists = load(model)?.to_lists();
    let number_place = numbers
        .get_mut(..lists.numbers.len())
        .ok_or(NoDescription)?;
    let text_place = texts.get_mut(..lists.texts.len()).ok_or(NoDescription)?;
    number_place.copy_from_slice(&lists.numbers);
    text_place.copy_from_slice(&lists.texts);
    Ok(DescribeAnswer::Described {
        numbers: lists.numbers.len(),
        texts: lists.texts.len(),
    })
}
