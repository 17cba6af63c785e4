//! Cases with paths, most of them of the call that follows one.

use std::ops::ControlFlow;

use super::certificates::mostly_sound_model;
use super::lent;
use super::models::{write, Sample};
use super::names::{restyled, Signing, Style};
use super::random::Random;
use super::sound;
use super::work::{component_count, Models};
use super::MAX_WORK;
use crate::answers::visit_pairs;
use crate::cases::{Case, MAX_PATH_WORDS};
use crate::follow::{end_of, leads_to_signer};
use crate::model::{Edge, Model, Node};
use crate::names::{Name, PlacedComponent, Role};
use crate::verdict::MAX_MODEL_BYTES;
use crate::walk::{is_open, visit_matches, Bindings, Trace};

/// Sets these cases apart from the other ones of the same seed.
const STREAM: u64 = 0x7061_7468_2077_6F72;

/// So many models are looked through for what a case is to have, and so many
/// pairs of names for each of them.
const MODELS: usize = 6;
const NAMES: usize = 4;

/// Of many pairs that names have in a model, so many of each sort are kept.
const MAX_PAIRS: usize = 64;

/// What is to be said of the path of a case.
#[derive(Clone, Copy, Debug)]
enum Aim {
    /// It is that of the first allowed pair.
    First,
    /// It is that of another allowed pair.
    Later,
    /// It is that of an allowed pair whose key needs what the packet bound.
    Dependent,
    OneWord,
    Longer,
    Shorter,
    /// Its edges are numbered in another way.
    Numbering,
    /// One of its edges isn't there.
    OutOfRange,
    /// All its edges may be crossed, but its end is no signer.
    Unlisted,
    /// Only what the packet bound keeps it from being good.
    Unbound,
    /// Only the Constraints of one edge keep it from being good.
    Shut,
    OtherNames,
    /// The packet's part and the key's have changed places, at times the names too,
    /// or one part is there twice.
    Parts,
    Random,
}

const AIMS: [(usize, Aim); 14] = [
    (32, Aim::First),
    (14, Aim::Later),
    (4, Aim::Dependent),
    (12, Aim::OneWord),
    (7, Aim::Longer),
    (6, Aim::Shorter),
    (9, Aim::Numbering),
    (5, Aim::OutOfRange),
    (6, Aim::Unlisted),
    (7, Aim::Unbound),
    (5, Aim::Shut),
    (6, Aim::OtherNames),
    (3, Aim::Parts),
    (2, Aim::Random),
];

const NAME_STYLES: [(usize, Style); 3] = [
    (960, Style::Exact),
    (10, Style::AtByteLimit),
    (30, Style::AtComponentLimit),
];

const BAD_STYLES: [(usize, Style); 3] = [
    (40, Style::Malformed),
    (30, Style::TooLong),
    (30, Style::TooManyComponents),
];

/// The case with this index.
pub fn path_case(seed: u64, index: u64) -> Case {
    let random = &mut Random::for_case(seed ^ STREAM, index);
    let aim = random.weighted(&AIMS);
    for _ in 0..MODELS {
        let sample = model_for_paths(random);
        if let Some(inputs) = inputs_in(random, &sample, aim) {
            return finished(random, sample, inputs);
        }
    }
    let sample = model_for_paths(random);
    let inputs = PathInputs::at_random(random, &Models::of(&sample));
    finished(random, sample, inputs)
}

/// Few models are refused, and some have ordinals that need all bits of a byte.
fn model_for_paths(random: &mut Random) -> Sample {
    if random.chance(90) {
        return mostly_sound_model(random);
    }
    loop {
        let mut plan = sound::plan(random);
        sound::widen(random, &mut plan);
        let sound = write(random, &plan);
        if sound.len() <= MAX_MODEL_BYTES {
            let bytes = sound.clone();
            return Sample { sound, bytes };
        }
    }
}

/// Names and a path for them.
#[derive(Clone)]
struct PathInputs {
    packet: Vec<u8>,
    key: Vec<u8>,
    path: Vec<u16>,
}

fn inputs_in(random: &mut Random, sample: &Sample, aim: Aim) -> Option<PathInputs> {
    let models = Models::of(sample);
    (0..NAMES).find_map(|_| match aim {
        Aim::Random => Some(PathInputs::at_random(random, &models)),
        Aim::Unlisted | Aim::Unbound | Aim::Shut => failing_inputs(random, &models, aim),
        _ => good_inputs(random, &models, aim),
    })
}

/// A packet name and a key name, made for each other.
fn names(random: &mut Random, models: &Models, aim: Aim) -> (Vec<u8>, Vec<u8>) {
    let signing = Signing::new(random, &models.source);
    let mut packet = signing.packet_name(random, &NAME_STYLES);
    let mut key = match aim {
        Aim::Unbound => signing.unbound_key_name(random),
        _ => signing.key_name(random, &NAME_STYLES),
    };
    models.shorten_both(&mut packet, &mut key, MAX_WORK);
    (packet, key)
}

/// A path that may be followed, altered as the aim says.
fn good_inputs(random: &mut Random, models: &Models, aim: Aim) -> Option<PathInputs> {
    let (packet, key) = names(random, models, aim);
    let route = Route::find(&models.source, &packet, &key, |pairs| match aim {
        Aim::Later => random_item(random, pairs.allowed.get(1..)?),
        Aim::First => pairs.allowed.into_iter().next(),
        Aim::Dependent => random_item(random, &pairs.dependent),
        _ => random_item(random, &pairs.allowed),
    })?;
    let right = route.path.clone();
    let is_altered = !matches!(
        aim,
        Aim::First | Aim::Later | Aim::Dependent | Aim::OtherNames
    );
    let path = match aim {
        Aim::OneWord => route.with_other_word(random)?,
        Aim::Longer => route.longer(random),
        Aim::Shorter => route.shorter(random)?,
        Aim::Numbering => route.numbered_otherwise(random),
        Aim::OutOfRange => route.out_of_range(random)?,
        Aim::Parts => route.exchanged(random),
        _ => route.path,
    };
    if is_altered && path == right {
        return None;
    }
    let inputs = PathInputs { packet, key, path };
    match aim {
        Aim::OtherNames => inputs.for_other_names(random, models),
        Aim::Parts if random.chance(40) => inputs.with_exchanged_names(models),
        _ => Some(inputs),
    }
}

/// A path that isn't accepted, though all would be well but for one thing.
fn failing_inputs(random: &mut Random, models: &Models, aim: Aim) -> Option<PathInputs> {
    let (packet, key) = names(random, models, aim);
    let route = Route::find(&models.source, &packet, &key, |pairs| match aim {
        Aim::Unbound => random_item(random, &pairs.unbound),
        Aim::Shut => random_item(random, &pairs.shut),
        _ => random_item(random, &pairs.unlisted),
    })?;
    let path = route.path;
    Some(PathInputs { packet, key, path })
}

fn random_item(random: &mut Random, paths: &[Vec<u16>]) -> Option<Vec<u16>> {
    (!paths.is_empty()).then(|| random.pick(paths).clone())
}

impl PathInputs {
    /// Any small words, mostly as many as there should be.
    fn at_random(random: &mut Random, models: &Models) -> Self {
        let (packet, key) = names(random, models, Aim::Random);
        let needed = component_count(&packet) + component_count(&key);
        let length = needed + random.weighted(&[(90, 0), (10, 1)]);
        let most = *random.pick(&[1, 2, 3, 6]);
        let path = (0..length).map(|_| random.below(most) as u16).collect();
        PathInputs { packet, key, path }
    }

    /// The path with names that it wasn't made for, if possible as long ones.
    fn for_other_names(self, random: &mut Random, models: &Models) -> Option<Self> {
        if random.chance(50) {
            return self.for_near_names(random, models);
        }
        let mut others = (0..6).map(|_| names(random, models, Aim::OtherNames));
        let (packet, key) = others.find(|(packet, key)| {
            let needed = component_count(packet) + component_count(key);
            (packet, key) != (&self.packet, &self.key) && needed == self.path.len()
        })?;
        let path = self.path;
        Some(PathInputs { packet, key, path })
    }

    /// The path with one of the names a little altered.
    fn for_near_names(self, random: &mut Random, models: &Models) -> Option<Self> {
        let PathInputs { packet, key, path } = &self;
        let mut made = self.clone();
        if random.chance(50) {
            let name = Name::load(packet, Role::Packet).ok()?;
            made.packet = restyled(random, &models.source, &name, Style::Near);
        } else {
            let name = Name::load(key, Role::Key).ok()?;
            made.key = restyled(random, &models.source, &name, Style::Near);
        }
        let needed = component_count(&made.packet) + component_count(&made.key);
        let is_as_long = needed == path.len();
        let is_cheap = models.signing_work(&made.packet, &made.key) <= MAX_WORK;
        ((is_as_long || random.chance(20)) && is_cheap).then_some(made)
    }

    /// The packet's name as the key's and the reverse, so that a path whose parts
    /// are exchanged fits them.
    fn with_exchanged_names(self, models: &Models) -> Option<Self> {
        let PathInputs { packet, key, path } = self;
        let (packet, key) = (key, packet);
        let is_cheap = models.signing_work(&packet, &key) <= MAX_WORK;
        is_cheap.then_some(PathInputs { packet, key, path })
    }

    /// One of the names, or both, made such that it is refused.
    fn spoil(&mut self, random: &mut Random, models: &Models) {
        let which = random.weighted(&[(40, 1), (40, 2), (20, 3)]);
        let faulty = |name: &[u8], role: Role, random: &mut Random| {
            let Ok(sound) = Name::load(name, role) else {
                return name.to_vec();
            };
            let style = random.weighted(&BAD_STYLES);
            restyled(random, &models.source, &sound, style)
        };
        if which & 1 != 0 {
            self.packet = faulty(&self.packet, Role::Packet, random);
        }
        if which & 2 != 0 {
            self.key = faulty(&self.key, Role::Key, random);
        }
        models.shorten_both(&mut self.packet, &mut self.key, MAX_WORK);
    }
}

/// The case for these inputs: mostly it is followed, at times the path is asked for.
fn finished(random: &mut Random, sample: Sample, mut inputs: PathInputs) -> Case {
    if random.chance(8) {
        inputs.spoil(random, &Models::of(&sample));
    }
    let PathInputs {
        packet,
        key,
        mut path,
    } = inputs;
    let model = sample.bytes;
    if random.chance(90) {
        return Case::Follow {
            model,
            packet,
            key,
            path,
        };
    }
    let needed = component_count(&packet) + component_count(&key);
    let mut lent_path = lent::path_words(random, needed);
    if random.chance(30) {
        // what is there already mustn't matter
        path.truncate(lent_path.len());
        lent_path[..path.len()].copy_from_slice(&path);
    }
    Case::Sign {
        model,
        packet,
        key,
        words: lent::binding_words(random),
        path: lent_path,
    }
}

/// The paths that two names have in a model, by what keeps them from being
/// accepted.
#[derive(Default)]
struct Pairs {
    /// Nothing does; in their order.
    allowed: Vec<Vec<u16>>,
    /// Those of them whose key can't be walked without the packet's bindings.
    dependent: Vec<Vec<u16>>,
    /// The packet's node doesn't list the key's.
    unlisted: Vec<Vec<u16>>,
    /// The key can't be walked under the packet's bindings, only without.
    unbound: Vec<Vec<u16>>,
    /// The Constraints of one PatternEdge don't hold.
    shut: Vec<Vec<u16>>,
}

impl Pairs {
    fn of<'n>(model: &Model, packet: &Name<'n>, key: &Name<'n>) -> Self {
        let mut pairs = Pairs::default();
        let _ = visit_pairs::<()>(model, packet, key, &mut |pair| {
            if !pair.is_allowed(model) {
                keep(&mut pairs.unlisted, &pair.trace.path);
                return ControlFlow::Continue(());
            }
            keep(&mut pairs.allowed, &pair.trace.path);
            let of_key = &pair.trace.path[packet.components.len()..];
            let afresh = &mut Bindings::default();
            if end_of(model, &key.components, of_key, afresh).is_none() {
                keep(&mut pairs.dependent, &pair.trace.path);
            }
            ControlFlow::Continue(())
        });
        pairs.find_unbound(model, packet, key);
        let mut trespass = Trespass {
            model,
            components: [&packet.components[..], &key.components].concat(),
            of_packet: packet.components.len(),
            found: &mut pairs.shut,
        };
        trespass.go_on([model.start; 2], false, &mut Trace::default());
        pairs
    }

    fn find_unbound<'n>(&mut self, model: &Model, packet: &Name<'n>, key: &Name<'n>) {
        let visit_packet = &mut |packet_node: usize, trace: &mut Trace<'n>| {
            let mut afresh = Trace {
                path: trace.path.clone(),
                ..Trace::default()
            };
            let signers = &model.nodes[packet_node].signers;
            visit_matches(model, &key.components, &mut afresh, &mut |node, trace| {
                let is_listed = signers.contains(&(node as u64));
                if is_listed && !leads_to_signer(model, packet, key, &trace.path) {
                    keep(&mut self.unbound, &trace.path);
                }
                ControlFlow::<()>::Continue(())
            })
        };
        let trace = &mut Trace::default();
        let _ = visit_matches(model, &packet.components, trace, visit_packet);
    }
}

/// A search for paths to a listed signer on which one PatternEdge is crossed
/// though its Constraints don't hold.
struct Trespass<'s, 'm, 'n> {
    model: &'s Model<'m>,
    /// The packet's, then the key's.
    components: Vec<PlacedComponent<'n>>,
    of_packet: usize,
    found: &'s mut Vec<Vec<u16>>,
}

impl<'n> Trespass<'_, '_, 'n> {
    /// Goes on from the packet's node and, behind its last component, the key's.
    fn go_on(&mut self, nodes: [u64; 2], has_trespassed: bool, trace: &mut Trace<'n>) {
        let model = self.model;
        let place = trace.path.len();
        let [packet_node, key_node] = nodes;
        let Some(&placed) = self.components.get(place) else {
            let signers = &model.nodes[packet_node as usize].signers;
            if has_trespassed && signers.contains(&key_node) {
                keep(self.found, &trace.path);
            }
            return;
        };
        let walked = usize::from(place >= self.of_packet);
        for (ordinal, edge) in (0..).zip(model.nodes[nodes[walked] as usize].edges()) {
            let is_shut = !is_open(edge, placed.component, &trace.bindings);
            if is_shut && (has_trespassed || !has_fitting_tag(edge, placed, &trace.bindings)) {
                continue;
            }
            let mut next = nodes;
            next[walked] = edge.destination();
            let bound = trace.bindings.bind_by(model, edge, placed);
            trace.path.push(ordinal);
            self.go_on(next, has_trespassed || is_shut, trace);
            trace.path.pop();
            if let Some(tag) = bound {
                trace.bindings.unbind(tag);
            }
        }
    }
}

/// Whether an edge is a PatternEdge that only its Constraints may shut.
fn has_fitting_tag(edge: Edge, placed: PlacedComponent, bindings: &Bindings) -> bool {
    match edge {
        Edge::Value(_) => false,
        Edge::Pattern(edge) => bindings
            .get(edge.tag)
            .is_none_or(|bound| bound == placed.component),
    }
}

fn keep(paths: &mut Vec<Vec<u16>>, path: &[u16]) {
    if paths.len() < MAX_PAIRS {
        paths.push(path.to_vec());
    }
}

/// A path whose edges are all there, and the nodes that they start from.
struct Route<'m> {
    model: &'m Model<'m>,
    path: Vec<u16>,
    nodes: Vec<&'m Node<'m>>,
    /// How many of them are the packet's.
    of_packet: usize,
}

impl<'m> Route<'m> {
    /// The path that is chosen among all those of two names.
    fn find(
        model: &'m Model<'m>,
        packet: &[u8],
        key: &[u8],
        choose: impl FnOnce(Pairs) -> Option<Vec<u16>>,
    ) -> Option<Self> {
        let packet = Name::load(packet, Role::Packet).ok()?;
        let key = Name::load(key, Role::Key).ok()?;
        let path = choose(Pairs::of(model, &packet, &key))?;
        let of_packet = packet.components.len();
        let mut nodes = Vec::new();
        for part in [&path[..of_packet], &path[of_packet..]] {
            let mut node = &model.nodes[model.start as usize];
            for &ordinal in part {
                nodes.push(node);
                node = &model.nodes[node.edge(ordinal)?.destination() as usize];
            }
        }
        Some(Route {
            model,
            path,
            nodes,
            of_packet,
        })
    }

    /// A place in the path, more often one where something begins or ends.
    fn place(&self, random: &mut Random) -> Option<usize> {
        let last = self.path.len().checked_sub(1)?;
        let place = match random.below(8) {
            0 => 0,
            1 => last,
            2 => self.of_packet,
            3 => self.of_packet.saturating_sub(1),
            _ => random.between(0, last),
        };
        Some(place.min(last))
    }

    /// Another word, mostly that of another edge of the same node.
    fn with_other_word(&self, random: &mut Random) -> Option<Vec<u16>> {
        let place = self.place(random)?;
        let old = self.path[place];
        let edges = self.nodes[place].edges().count();
        let mut path = self.path.clone();
        path[place] = match random.below(10) {
            0..=5 => random.below(edges.max(2)) as u16,
            6 => old.wrapping_add(1),
            7 => old.wrapping_sub(1),
            8 => old ^ 1 << random.below(16),
            _ => random.number() as u16,
        };
        Some(path)
    }

    /// A word for which the node has no edge.
    fn out_of_range(&self, random: &mut Random) -> Option<Vec<u16>> {
        let place = self.place(random)?;
        let old = self.path[place];
        let node = self.nodes[place];
        let edges = node.edges().count() as u16;
        let mut path = self.path.clone();
        path[place] = match random.below(10) {
            0 | 1 => edges,
            2 => edges + 1,
            3 => edges + old,
            4 => edges + node.value_edges.len() as u16,
            5 => u16::MAX,
            6 => u16::MAX - old,
            // the same low bits, the same byte at the other place
            7 => old + *random.pick(&[256, 4_096]),
            8 => old | 1 << 15,
            _ => old.swap_bytes().max(256),
        };
        Some(path)
    }

    fn longer(&self, random: &mut Random) -> Vec<u16> {
        let mut path = self.path.clone();
        let most = MAX_PATH_WORDS - path.len();
        let more = match random.below(20) {
            0..=12 => 1,
            13..=15 => random.between(2, 6),
            16 => path.len().max(1),
            17 => 64 - path.len().min(63),
            18 => random.between(7, 300),
            _ => *random.pick(&[256 - path.len(), most]),
        };
        let place = match random.below(10) {
            0 => 0,
            1 => self.of_packet,
            _ => path.len(),
        };
        let word = match random.below(4) {
            0 => random.number() as u16,
            1 => path.last().copied().unwrap_or(0),
            _ => random.below(2) as u16,
        };
        path.splice(place..place, vec![word; more]);
        path
    }

    fn shorter(&self, random: &mut Random) -> Option<Vec<u16>> {
        let (of_packet, of_key) = self.path.split_at(self.of_packet);
        let last = self.path.len().checked_sub(1)?;
        Some(match random.below(10) {
            0..=3 => self.path[..last].to_vec(),
            4 => self.path[1..].to_vec(),
            5 => {
                let mut path = self.path.clone();
                path.remove(self.of_packet.min(last));
                path
            }
            6 => vec![],
            7 => of_packet.to_vec(),
            8 => of_key.to_vec(),
            _ => self.path[..random.below(last + 1)].to_vec(),
        })
    }

    fn exchanged(&self, random: &mut Random) -> Vec<u16> {
        let (of_packet, of_key) = self.path.split_at(self.of_packet);
        let parts = match random.below(5) {
            0..=2 => [of_key, of_packet],
            3 => [of_packet, of_packet],
            _ => [of_key, of_key],
        };
        parts.concat()
    }

    /// The same edges by other numbers, in the whole path or in one part of it.
    fn numbered_otherwise(&self, random: &mut Random) -> Vec<u16> {
        let number: fn(&Model, &Node, u16) -> u16 = match random.below(12) {
            0..=5 => number_of_its_kind,
            6 | 7 => number_behind_patterns,
            8 => |_, _, ordinal| ordinal + 1,
            9 => |_, node, ordinal| node.edges().count() as u16 - 1 - ordinal,
            10 => |_, node, ordinal| edge_of(node, ordinal).destination() as u16,
            _ => number_in_model,
        };
        let part = match random.below(5) {
            0 => 0..self.of_packet,
            1 => self.of_packet..self.path.len(),
            _ => 0..self.path.len(),
        };
        let mut path = self.path.clone();
        for place in part {
            path[place] = number(self.model, self.nodes[place], path[place]);
        }
        path
    }
}

fn edge_of<'m>(node: &'m Node<'m>, ordinal: u16) -> Edge<'m, 'm> {
    let edge = node.edge(ordinal);
    edge.expect("the edges of a route are there")
}

/// PatternEdges counted from 0 as well.
fn number_of_its_kind(_: &Model, node: &Node, ordinal: u16) -> u16 {
    let values = node.value_edges.len() as u16;
    ordinal.checked_sub(values).unwrap_or(ordinal)
}

/// PatternEdges counted before ValueEdges.
fn number_behind_patterns(_: &Model, node: &Node, ordinal: u16) -> u16 {
    let values = node.value_edges.len() as u16;
    let patterns = node.pattern_edges.len() as u16;
    ordinal.checked_sub(values).unwrap_or(ordinal + patterns)
}

/// Edges counted on from Node to Node.
fn number_in_model(model: &Model, node: &Node, ordinal: u16) -> u16 {
    let before = model.nodes.iter().take_while(|other| other.id < node.id);
    let edges: usize = before.map(|other| other.edges().count()).sum();
    edges as u16 + ordinal
}
