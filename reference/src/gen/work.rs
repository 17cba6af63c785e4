//! How much a walk may have to look at, so that no case takes long.
//!
//! Counts every path that equal ValueEdges and any PatternEdges allow; a walk
//! looks at no more, whatever its Tags and Constraints shut. In an accepted model
//! that is no more than its edges, once for each name that is walked. But faulty
//! names and models are counted as if they were sound, so that a checker that
//! refuses too little comes to an end as well: parallel edges double the paths, and
//! on a loop through the start they do so at each turn.

use super::models::Sample;
use crate::elements::{append_element, kind};
use crate::model::{Model, Node};
use crate::names::Component;
use crate::verdict::{load, load_readable};

/// Components behind these are not counted.
const MAX_COUNTED: usize = 40;

/// The models in which the walks of a case are counted.
pub struct Models<'m> {
    /// The sound model that the case's own was made from.
    pub source: Model<'m>,
    /// The case's own, if it is another one that can be walked, refused or not.
    altered: Option<Model<'m>>,
}

impl<'m> Models<'m> {
    pub fn of(sample: &'m Sample) -> Self {
        let Sample { sound, bytes } = sample;
        let is_altered = bytes != sound;
        Models {
            source: load(sound).expect("sound models are accepted"),
            altered: is_altered.then(|| load_walkable(bytes)).flatten(),
        }
    }

    /// The edges that a match call looks at, at most.
    pub fn match_work(&self, name: &[u8]) -> u64 {
        let components = readable_components(name);
        self.most(|model| edges_tried(model, &components))
    }

    /// The edges that a signing call looks at, at most.
    pub fn signing_work(&self, packet: &[u8], key: &[u8]) -> u64 {
        self.keys_work(packet, &[readable_components(key)])
    }

    /// The edges that signing calls look at, at most, with each entry of a list
    /// as the key.
    pub fn list_work(&self, packet: &[u8], list: &[u8]) -> u64 {
        let mut keys = Vec::new();
        let mut rest = list;
        while let Some((_, behind)) = read_leniently(rest) {
            keys.push(readable_components(rest));
            rest = behind;
        }
        self.keys_work(packet, &keys)
    }

    fn keys_work(&self, packet: &[u8], keys: &[Vec<Component>]) -> u64 {
        let packet = readable_components(packet);
        self.most(|model| {
            let matches = arrivals(model, &packet).pop().unwrap_or_default();
            let matches = matches.into_iter().fold(0, u64::saturating_add);
            let of_packet = edges_tried(model, &packet);
            let of_key = |key: &Vec<Component>| {
                let of_matches = matches.saturating_mul(edges_tried(model, key));
                of_packet.saturating_add(of_matches)
            };
            keys.iter().map(of_key).fold(0, u64::saturating_add)
        })
    }

    fn most(&self, count: impl Fn(&Model) -> u64) -> u64 {
        let in_altered = self.altered.as_ref().map_or(0, &count);
        in_altered.max(count(&self.source))
    }

    /// Makes the names of a signing call shorter, the longer one first, until
    /// the call looks at no more edges than this.
    pub fn shorten_both(&self, packet: &mut Vec<u8>, key: &mut Vec<u8>, most: u64) {
        while self.signing_work(packet, key) > most {
            let longer = if packet.len() > key.len() {
                &mut *packet
            } else {
                &mut *key
            };
            *longer = shortened(longer);
        }
    }
}

/// A model in which a walk is defined, whatever else is wrong with it.
fn load_walkable(bytes: &[u8]) -> Option<Model<'_>> {
    load_readable(bytes).ok().filter(is_walkable)
}

fn is_walkable(model: &Model) -> bool {
    let is_node = |id: u64| id < model.nodes.len() as u64;
    let mut destinations = model.nodes.iter().flat_map(Node::destinations);
    is_node(model.start) && destinations.all(is_node)
}

/// A sound name with the first half of the components.
pub fn shortened(name: &[u8]) -> Vec<u8> {
    let components = readable_components(name);
    let mut inside = Vec::new();
    for component in &components[..components.len() / 2] {
        append_element(&mut inside, component.kind, component.value);
    }
    let mut out = Vec::new();
    append_element(&mut out, kind::NAME, &inside);
    out
}

/// How many components a name may be taken to have, however faulty; of very many
/// only some are counted.
pub fn component_count(name: &[u8]) -> usize {
    readable_components(name).len()
}

/// What may be taken for the components of a name, however faulty.
fn readable_components(name: &[u8]) -> Vec<Component<'_>> {
    let mut components = Vec::new();
    let mut rest = read_leniently(name).map_or(&[][..], |(name, _)| name.value);
    while let Some((component, behind)) = read_leniently(rest) {
        components.push(component);
        rest = behind;
    }
    components.truncate(MAX_COUNTED);
    components
}

/// Reads an element in any form; a length past the end reaches to the end.
fn read_leniently(bytes: &[u8]) -> Option<(Component<'_>, &[u8])> {
    let (kind, rest) = read_number_leniently(bytes)?;
    let (length, rest) = read_number_leniently(rest)?;
    let length = usize::try_from(length).map_or(rest.len(), |length| length.min(rest.len()));
    let (value, rest) = rest.split_at(length);
    let kind = u64::from(kind as u16).max(1);
    Some((Component { kind, value }, rest))
}

fn read_number_leniently(bytes: &[u8]) -> Option<(u64, &[u8])> {
    let (&first, rest) = bytes.split_first()?;
    let width = match first {
        253 => 2,
        254 => 4,
        255 => 8,
        number => return Some((number.into(), rest)),
    };
    let (digits, rest) = rest.split_at_checked(width)?;
    let number = digits
        .iter()
        .fold(0, |number, &digit| number << 8 | u64::from(digit));
    Some((number, rest))
}

fn edges_tried(model: &Model, components: &[Component]) -> u64 {
    let counts = arrivals(model, components);
    let tried = |reached: &Vec<u64>| {
        let edges = model
            .nodes
            .iter()
            .map(|node| node.destinations().count() as u64);
        let work = reached
            .iter()
            .zip(edges)
            .map(|(&times, edges)| times.saturating_mul(edges));
        work.fold(0, u64::saturating_add)
    };
    counts[..components.len()]
        .iter()
        .map(tried)
        .fold(0, u64::saturating_add)
}

/// How often each node may be reached, before each component and at the end.
fn arrivals(model: &Model, components: &[Component]) -> Vec<Vec<u64>> {
    let mut reached = vec![0; model.nodes.len()];
    reached[model.start as usize] = 1;
    let mut all = vec![reached];
    for &component in components {
        let next = next_arrivals(model, component, &all[all.len() - 1]);
        all.push(next);
    }
    all
}

/// How often each node may be reached by one more component.
fn next_arrivals(model: &Model, component: Component, reached: &[u64]) -> Vec<u64> {
    let mut next = vec![0u64; model.nodes.len()];
    let nodes = model.nodes.iter().zip(reached);
    for (node, &times) in nodes.filter(|(_, &times)| times > 0) {
        let values = node.value_edges.iter();
        let by_value = values
            .filter(|edge| edge.value == component)
            .map(|edge| edge.destination);
        let by_pattern = node.pattern_edges.iter().map(|edge| edge.destination);
        for destination in by_value.chain(by_pattern) {
            let count = &mut next[destination as usize];
            *count = count.saturating_add(times);
        }
    }
    next
}
