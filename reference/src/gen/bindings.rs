//! Signing calls that are allowed, by what they bind.

use std::ops::ControlFlow;

use super::models::{write, Sample};
use super::names::{lengthened, Signing, Style};
use super::random::Random;
use super::sound;
use super::work::Models;
use super::{sign_case, signing, MAX_WORK};
use crate::answers::visit_pairs;
use crate::cases::Case;
use crate::model::{Edge, Model};
use crate::names::{Name, PlacedComponent, Role};
use crate::verdict::{MAX_MODEL_BYTES, MAX_TAG};
use crate::walk::Bindings;

/// So many models are looked through for what a case is to have, and so many
/// pairs of names for each of them.
const MODELS: usize = 12;
const NAMES: usize = 4;

/// What is to be said of the bindings of a case.
#[derive(Clone, Copy, Debug)]
enum Aim {
    /// The key binds a Tag.
    OfKey,
    /// The key meets a Tag that the packet bound, at another place of its name.
    MetAgain,
    /// Both of these.
    Both,
    /// The key meets a Tag that it bound itself.
    MetTwice,
    /// A pair that comes before the answered one has a binding that it lacks.
    Dropped,
    /// A pair that comes before has a Tag bound in the other name.
    Moved,
}

const AIMS: [(usize, Aim); 6] = [
    (20, Aim::OfKey),
    (15, Aim::MetAgain),
    (25, Aim::Both),
    (15, Aim::MetTwice),
    (13, Aim::Dropped),
    (12, Aim::Moved),
];

const NAME_STYLES: [(usize, Style); 3] = [
    (92, Style::Exact),
    (6, Style::AtByteLimit),
    (2, Style::AtComponentLimit),
];

/// A signing call with such bindings, or one with this model if none is found.
pub fn binding_case(random: &mut Random, otherwise: Sample) -> Case {
    let aim = random.weighted(&AIMS);
    for _ in 0..MODELS {
        let sound = model_for(random, aim);
        let bytes = sound.clone();
        let sample = Sample { sound, bytes };
        let models = Models::of(&sample);
        for _ in 0..NAMES {
            let (mut packet, mut key) = names(random, &models);
            if is_met(aim, &models.source, &packet, &key) {
                if random.chance(40) {
                    lengthen(random, aim, &models.source, &mut packet, &mut key);
                }
                return signing(random, sample.bytes, packet, key);
            }
        }
    }
    sign_case(random, otherwise)
}

/// An accepted model. Where an aim takes several bindings, it often has no temporary
/// Tags, and often the same edges several times.
fn model_for(random: &mut Random, aim: Aim) -> Vec<u8> {
    let (all_named_percent, repeating_percent) = match aim {
        Aim::OfKey | Aim::MetAgain => (0, 0),
        Aim::MetTwice => (40, 60),
        _ => (40, 30),
    };
    loop {
        let mut plan = match random.chance(repeating_percent) {
            true => sound::repeating_plan(random),
            false => sound::plan(random),
        };
        if random.chance(all_named_percent) {
            let edges = plan.nodes.iter().flat_map(|node| &node.pattern_edges);
            let largest = edges.map(|edge| edge.tag).max().unwrap_or(1);
            plan.named_pattern_count = *random.pick(&[largest, largest + 1, MAX_TAG]);
        }
        let bytes = write(random, &plan);
        if bytes.len() <= MAX_MODEL_BYTES {
            return bytes;
        }
    }
}

/// A packet name and a key name, made for each other.
fn names(random: &mut Random, models: &Models) -> (Vec<u8>, Vec<u8>) {
    let signing = Signing::new(random, &models.source);
    let mut packet = signing.packet_name(random, &NAME_STYLES);
    let mut key = signing.key_name(random, &NAME_STYLES);
    models.shorten_both(&mut packet, &mut key, MAX_WORK);
    (packet, key)
}

/// Makes a component of the names longer, so that there are large starts behind it,
/// if one is found that may be.
fn lengthen(random: &mut Random, aim: Aim, model: &Model, packet: &mut Vec<u8>, key: &mut Vec<u8>) {
    for _ in 0..NAMES {
        let [of_packet, of_key] = [(&packet, Role::Packet), (&key, Role::Key)]
            .map(|(name, role)| Name::load(name, role).expect("no aim is met by a refused name"));
        let [longer_packet, longer_key] = lengthened(random, &of_packet, &of_key);
        if is_met(aim, model, &longer_packet, &longer_key) {
            (*packet, *key) = (longer_packet, longer_key);
            return;
        }
    }
}

/// Whether the names are allowed, and the aim is met by their first pair.
fn is_met(aim: Aim, model: &Model, packet: &[u8], key: &[u8]) -> bool {
    let packet = Name::load(packet, Role::Packet);
    let key = Name::load(key, Role::Key);
    let (Ok(packet), Ok(key)) = (packet, key) else {
        return false;
    };
    let mut before = Vec::new();
    let first = visit_pairs(model, &packet, &key, &mut |pair| {
        let bindings = &pair.trace.bindings;
        if pair.is_allowed(model) {
            let crossed = patterns_crossed(model, &packet, &key, &pair.trace.path);
            return ControlFlow::Break(has_bindings(aim, bindings, &crossed, &before));
        }
        before.push(bindings.clone());
        ControlFlow::Continue(())
    });
    first.break_value().unwrap_or(false)
}

/// Whether the aim is met by these bindings, the named Tags that were crossed with
/// them and the bindings of the pairs before.
fn has_bindings(
    aim: Aim,
    bindings: &Bindings,
    crossed: &[(u64, PlacedComponent)],
    before: &[Bindings],
) -> bool {
    let slots = bindings.slots();
    let is_of_key = slots.iter().flatten().any(|bound| bound.role == Role::Key);
    let is_met_by_key = |first: Role| {
        crossed.iter().any(|(tag, placed)| {
            let bound = slots[*tag as usize - 1];
            placed.role == Role::Key
                && bound.is_some_and(|bound| bound.role == first && bound.start != placed.start)
        })
    };
    let is_before = |differs: fn(Option<Role>, Role) -> bool| {
        before.iter().any(|earlier| {
            let both = slots.iter().zip(earlier.slots());
            both.filter_map(|(now, then)| Some((now, (*then)?)))
                .any(|(now, then)| differs(now.map(|bound| bound.role), then.role))
        })
    };
    match aim {
        Aim::OfKey => is_of_key,
        Aim::MetAgain => is_met_by_key(Role::Packet),
        Aim::Both => is_of_key && is_met_by_key(Role::Packet),
        Aim::MetTwice => is_met_by_key(Role::Key),
        Aim::Dropped => is_before(|now, _| now.is_none()),
        Aim::Moved => is_before(|now, then| now.is_some_and(|now| now != then)),
    }
}

/// The named Tags of the PatternEdges of a path, with the components that crossed
/// them.
fn patterns_crossed<'n>(
    model: &Model,
    packet: &Name<'n>,
    key: &Name<'n>,
    path: &[u16],
) -> Vec<(u64, PlacedComponent<'n>)> {
    let mut crossed = Vec::new();
    let (of_packet, of_key) = path.split_at(packet.components.len());
    for (name, ordinals) in [(packet, of_packet), (key, of_key)] {
        let mut node = &model.nodes[model.start as usize];
        for (&placed, &ordinal) in name.components.iter().zip(ordinals) {
            let edge = node.edge(ordinal).expect("the edges of a path are there");
            if let Edge::Pattern(edge) = edge {
                crossed.extend(model.is_named(edge.tag).then_some((edge.tag, placed)));
            }
            node = &model.nodes[edge.destination() as usize];
        }
    }
    crossed
}
