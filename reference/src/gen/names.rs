//! Names that walk a model, names that nearly do, and faulty names.

use super::damage::alter_bytes;
use super::plan::OwnedComponent;
use super::random::Random;
use super::sound;
use crate::cases::MAX_NAME_FIELD;
use crate::elements::{append_element, append_number, kind};
use crate::model::{Argument, Edge, Model, PatternEdge, Term};
use crate::names::{Component, Name, PlacedComponent, Role, MAX_COMPONENTS, MAX_NAME_BYTES};
use crate::walk::{may_cross, Bindings};

/// More candidates than this aren't tried for one edge.
const MAX_CANDIDATES: usize = 40;

/// What becomes of the components of a walk.
#[derive(Clone, Copy, Debug)]
pub enum Style {
    Exact,
    Near,
    Random,
    Malformed,
    TooLong,
    AtByteLimit,
    TooManyComponents,
    AtComponentLimit,
}

/// A packet name for a match call.
pub fn match_name(random: &mut Random, model: &Model) -> Vec<u8> {
    let walker = Walker::new(model);
    let components = walker.match_walk(random);
    let style = random.weighted(&[
        (570, Style::Exact),
        (190, Style::Near),
        (50, Style::Random),
        (80, Style::Malformed),
        (30, Style::TooLong),
        (20, Style::AtByteLimit),
        (35, Style::TooManyComponents),
        (25, Style::AtComponentLimit),
    ]);
    finish(random, model, &components, style)
}

/// A packet name and a key name for a signing call.
pub fn sign_names(random: &mut Random, model: &Model) -> (Vec<u8>, Vec<u8>) {
    let signing = Signing::new(random, model);
    let key = signing.key_walk(random);
    let styles = [
        (780, Style::Exact),
        (80, Style::Near),
        (15, Style::Random),
        (45, Style::Malformed),
        (30, Style::TooLong),
        (10, Style::AtByteLimit),
        (30, Style::TooManyComponents),
        (10, Style::AtComponentLimit),
    ];
    let packet_style = random.weighted(&styles);
    let key_style = random.weighted(&styles);
    (
        finish(random, model, &signing.packet, packet_style),
        finish(random, model, &key, key_style),
    )
}

/// A name made from the components of another one.
pub fn restyled(random: &mut Random, model: &Model, name: &Name, style: Style) -> Vec<u8> {
    let placed = name.components.iter();
    let walk: Vec<Component> = placed.map(|placed| placed.component).collect();
    finish(random, model, &walk, style)
}

/// Two names with one of their components made longer, wherever it stands.
pub fn lengthened(random: &mut Random, packet: &Name, key: &Name) -> [Vec<u8>; 2] {
    let both = packet.components.iter().chain(&key.components);
    let components: Vec<Component> = both.map(|placed| placed.component).collect();
    if components.is_empty() {
        return [packet, key].map(|_| encode(&[]));
    }
    let short = *random.pick(&components);
    let mut long = OwnedComponent::from(short);
    let length = random.between(200, 700);
    long.value.extend(vec![b'y'; length]);
    [packet, key].map(|name| {
        let placed = name.components.iter();
        let replaced = placed.map(|placed| match placed.component == short {
            true => long.clone(),
            false => placed.component.into(),
        });
        encode(&replaced.collect::<Vec<_>>())
    })
}

/// The walk of a packet that has signers, if any packet has, and what is
/// needed to find its keys.
pub struct Signing<'m> {
    walker: Walker<'m>,
    packet: Vec<Component<'m>>,
    trail: Trail<'m>,
    signers: &'m [u64],
}

impl<'m> Signing<'m> {
    pub fn new(random: &mut Random, model: &'m Model<'m>) -> Self {
        let walker = Walker::new(model);
        let mut trail = Trail::new(random);
        let (packet, signers) = match walker.path_to_signed_node(random, &trail) {
            Some(path) => {
                let signers = &model.nodes[path[path.len() - 1]].signers[..];
                (walker.walk_along(random, &path, &mut trail), signers)
            }
            None => (walker.any_walk(random, &mut trail), &[][..]),
        };
        Signing {
            walker,
            packet,
            trail,
            signers,
        }
    }

    /// A name made from the packet's walk.
    pub fn packet_name(&self, random: &mut Random, styles: &[(usize, Style)]) -> Vec<u8> {
        let style = random.weighted(styles);
        finish(random, self.walker.model, &self.packet, style)
    }

    /// A name made from the walk of a key.
    pub fn key_name(&self, random: &mut Random, styles: &[(usize, Style)]) -> Vec<u8> {
        let walk = self.key_walk(random);
        let style = random.weighted(styles);
        finish(random, self.walker.model, &walk, style)
    }

    /// The name of a key of one among the signers, if there are any, made without
    /// regard to what the packet bound.
    pub fn unbound_key_name(&self, random: &mut Random) -> Vec<u8> {
        let mut trail = self.trail.clone();
        trail.clear();
        let walk = self.walk_to_signer(random, trail);
        finish(random, self.walker.model, &walk, Style::Exact)
    }

    /// The components of a key, mostly of one among the signers and under the
    /// packet's bindings.
    fn key_walk(&self, random: &mut Random) -> Vec<Component<'m>> {
        let mut trail = self.trail.clone();
        if self.signers.is_empty() {
            return self.walker.any_walk(random, &mut trail);
        }
        if random.chance(6) {
            trail.clear();
        }
        trail.slip_percent = *random.pick(&[0, 0, 30]);
        self.walk_to_signer(random, trail)
    }

    fn walk_to_signer(&self, random: &mut Random, mut trail: Trail<'m>) -> Vec<Component<'m>> {
        if self.signers.is_empty() {
            return self.walker.any_walk(random, &mut trail);
        }
        let signer = *random.pick(self.signers) as usize;
        match self.walker.path_to(signer) {
            Some(path) if random.chance(92) => self.walker.walk_along(random, &path, &mut trail),
            _ => self.walker.any_walk(random, &mut trail),
        }
    }
}

/// What a walk has bound.
#[derive(Clone)]
struct Trail<'m> {
    bindings: Bindings<'m>,
    /// What it would have bound if temporary Tags were bound as well. Components
    /// that only one of the two lets through are worth trying.
    with_temporary: Bindings<'m>,
    /// Whether components are chosen as if temporary Tags were bound.
    is_as_if_bound: bool,
    /// How often a Tag that is bound gets another component.
    slip_percent: usize,
}

impl<'m> Trail<'m> {
    fn new(random: &mut Random) -> Self {
        Trail {
            bindings: Bindings::default(),
            with_temporary: Bindings::default(),
            is_as_if_bound: random.chance(25),
            slip_percent: 3,
        }
    }

    /// The component that the Tag's edges ask for, if any.
    fn bound(&self, tag: u64) -> Option<Component<'m>> {
        if self.is_as_if_bound {
            return self.with_temporary.get(tag);
        }
        self.bindings.get(tag)
    }

    fn bind(&mut self, model: &Model, edge: &PatternEdge, component: Component<'m>) {
        let component = PlacedComponent {
            component,
            role: Role::Packet,
            start: 0,
            length: 0,
        };
        self.bindings.bind_crossed(model, edge, component);
        self.with_temporary.bind_if_unbound(edge.tag, component);
    }

    /// Takes all bindings away.
    fn clear(&mut self) {
        self.bindings = Bindings::default();
        if self.is_as_if_bound {
            self.with_temporary = Bindings::default();
        }
    }

    /// Whether a component is wanted for an edge.
    fn fits(&self, edge: &PatternEdge, component: Component, aim: Aim) -> bool {
        let crosses = may_cross(edge, component, &self.bindings);
        let crosses_if_bound = may_cross(edge, component, &self.with_temporary);
        match aim {
            Aim::Crossing => crosses,
            Aim::Repeated => crosses && self.with_temporary.get(edge.tag) == Some(component),
            Aim::AsTemporaryOnly => crosses && !crosses_if_bound,
            Aim::AsIfBound => crosses_if_bound,
            Aim::AsIfBoundOnly => crosses_if_bound && !crosses,
            Aim::Stopped => !crosses,
        }
    }
}

/// Which components are wanted for an edge.
#[derive(Clone, Copy, Debug)]
enum Aim {
    Crossing,
    /// The component that crossed an edge with the same Tag first.
    Repeated,
    /// Those that would be stopped if temporary Tags were bound.
    AsTemporaryOnly,
    /// Those that would cross if temporary Tags were bound.
    AsIfBound,
    /// Those of them that don't cross.
    AsIfBoundOnly,
    Stopped,
}

const AIMS: [(usize, Aim); 4] = [
    (60, Aim::Crossing),
    (10, Aim::Repeated),
    (27, Aim::AsTemporaryOnly),
    (3, Aim::Stopped),
];

const AIMS_AS_IF_BOUND: [(usize, Aim); 2] = [(40, Aim::AsIfBound), (60, Aim::AsIfBoundOnly)];

/// Finds names by walking a model.
struct Walker<'m> {
    model: &'m Model<'m>,
    candidates: Vec<Component<'m>>,
}

impl<'m> Walker<'m> {
    fn new(model: &'m Model<'m>) -> Self {
        Walker {
            model,
            candidates: candidates(model),
        }
    }

    /// The components of a packet that is to be matched. Where they are chosen as
    /// if temporary Tags were bound, they lead to options that name one.
    fn match_walk(&self, random: &mut Random) -> Vec<Component<'m>> {
        let mut trail = Trail::new(random);
        if trail.is_as_if_bound {
            let nodes = 0..self.model.nodes.len();
            let aimed: Vec<usize> = nodes
                .filter(|&node| self.is_below_reference(node))
                .collect();
            if !aimed.is_empty() {
                let target = *random.pick(&aimed);
                if let Some(path) = self.path_to(target) {
                    return self.walk_along(random, &path, &mut trail);
                }
            }
        }
        self.any_walk(random, &mut trail)
    }

    /// Whether an edge on the way to the node has an option that names a
    /// temporary Tag.
    fn is_below_reference(&self, node: usize) -> bool {
        let mut below = node;
        for _ in 0..MAX_COMPONENTS {
            let Some(above) = self.crossed_parent(below) else {
                return false;
            };
            let edges = self.model.nodes[above].pattern_edges.iter();
            let mut crossed = edges.filter(|edge| edge.destination == below as u64);
            if crossed.any(|edge| self.names_temporary(edge)) {
                return true;
            }
            below = above;
        }
        false
    }

    /// Whether an option of the edge names a temporary Tag, itself or as its
    /// argument.
    fn names_temporary(&self, edge: &PatternEdge) -> bool {
        let mut terms = edge.options().flat_map(|option| &option.terms);
        terms.any(|term| match term {
            Term::Value(_) => false,
            Term::Tag(tag) => !self.model.is_named(*tag),
            Term::Call(call) => match call.arguments.first() {
                Some(Argument::Tag(tag)) => !self.model.is_named(*tag),
                _ => false,
            },
        })
    }

    /// Crosses edges at random and stops somewhere.
    fn any_walk(&self, random: &mut Random, trail: &mut Trail<'m>) -> Vec<Component<'m>> {
        let stop_percent = *random.pick(&[0, 5, 20, 40]);
        let mut node = self.model.start as usize;
        let mut components = Vec::new();
        while components.len() < MAX_COMPONENTS && !random.chance(stop_percent) {
            let destinations: Vec<u64> = self.model.nodes[node].destinations().collect();
            if destinations.is_empty() {
                break;
            }
            let next = *random.pick(&destinations) as usize;
            components.push(self.component_between(random, node, next, trail));
            node = next;
        }
        components
    }

    /// Crosses an edge between each two nodes of the path.
    fn walk_along(
        &self,
        random: &mut Random,
        path: &[usize],
        trail: &mut Trail<'m>,
    ) -> Vec<Component<'m>> {
        path.windows(2)
            .map(|pair| self.component_between(random, pair[0], pair[1], trail))
            .collect()
    }

    /// A component that crosses the edge between two nodes, if any does.
    fn component_between(
        &self,
        random: &mut Random,
        from: usize,
        to: usize,
        trail: &mut Trail<'m>,
    ) -> Component<'m> {
        let mut edges = self.model.nodes[from].edges();
        let edge = edges.find(|edge| edge.destination() == to as u64);
        match edge.expect("an edge leads from node to node") {
            Edge::Value(edge) => edge.value,
            Edge::Pattern(edge) => self.cross(random, edge, trail),
        }
    }

    fn cross(
        &self,
        random: &mut Random,
        edge: &PatternEdge,
        trail: &mut Trail<'m>,
    ) -> Component<'m> {
        let component = self.component_for(random, edge, trail);
        trail.bind(self.model, edge, component);
        component
    }

    fn component_for(
        &self,
        random: &mut Random,
        edge: &PatternEdge,
        trail: &Trail<'m>,
    ) -> Component<'m> {
        if let Some(bound) = trail.bound(edge.tag) {
            if random.chance(trail.slip_percent) {
                return *random.pick(&self.candidates);
            }
            return bound;
        }
        let slots = trail.with_temporary.slots().iter().flatten();
        let known: Vec<Component> = slots
            .map(|slot| slot.component)
            .chain(self.candidates.iter().copied())
            .collect();
        let (aim, second_aim) = if trail.is_as_if_bound {
            (random.weighted(&AIMS_AS_IF_BOUND), Aim::AsIfBound)
        } else {
            (random.weighted(&AIMS), Aim::Crossing)
        };
        for aim in [aim, second_aim] {
            let all = known.iter().copied();
            let fitting = all.filter(|&component| trail.fits(edge, component, aim));
            let fitting: Vec<Component> = fitting.collect();
            if !fitting.is_empty() {
                return *random.pick(&fitting);
            }
        }
        *random.pick(&known)
    }

    fn path_to_signed_node(&self, random: &mut Random, trail: &Trail) -> Option<Vec<usize>> {
        let nodes = self.model.nodes.iter().enumerate();
        let signed = nodes.filter(|(_, node)| !node.signers.is_empty());
        let mut signed: Vec<usize> = signed.map(|(index, _)| index).collect();
        random.shuffle(&mut signed);
        if trail.is_as_if_bound {
            signed.sort_by_cached_key(|&index| {
                let signers = self.model.nodes[index].signers.iter();
                let mut both = signers.map(|&id| id as usize).chain([index]);
                !both.any(|node| self.is_below_reference(node))
            });
        }
        signed
            .into_iter()
            .take(6)
            .find_map(|index| self.path_to(index))
    }

    /// The nodes from the start to this one, if it can be reached.
    fn path_to(&self, target: usize) -> Option<Vec<usize>> {
        let start = self.model.start as usize;
        let mut path = vec![target];
        let mut node = target;
        // away from the start there may be loops
        while node != start && path.len() <= MAX_COMPONENTS {
            node = self.crossed_parent(node)?;
            path.push(node);
        }
        path.reverse();
        (node == start).then_some(path)
    }

    /// The node's parent, if an edge leads from it to the node.
    fn crossed_parent(&self, node: usize) -> Option<usize> {
        let parent = usize::try_from(self.model.nodes[node].parent?).ok()?;
        let mut destinations = self.model.nodes.get(parent)?.destinations();
        destinations
            .any(|destination| destination == node as u64)
            .then_some(parent)
    }
}

/// Components that are likely to cross an edge of this model.
fn candidates<'m>(model: &Model<'m>) -> Vec<Component<'m>> {
    const ALWAYS: [&[u8]; 6] = [b"a", b"b", b"2022", b"1999", b"100001", b"200002"];
    let in_options = model.nodes.iter().flat_map(|node| node.options());
    let in_terms = in_options
        .flat_map(|option| &option.terms)
        .filter_map(|term| match term {
            Term::Value(value) => Some(*value),
            Term::Tag(_) => None,
            Term::Call(call) => match call.arguments.first()? {
                Argument::Value(value) => Some(*value),
                Argument::Tag(_) => None,
            },
        });
    let on_edges = model
        .nodes
        .iter()
        .flat_map(|node| &node.value_edges)
        .map(|edge| edge.value);
    let always = ALWAYS.iter().map(|value| Component { kind: 8, value });
    always
        .chain(in_terms)
        .chain(on_edges)
        .take(MAX_CANDIDATES)
        .collect()
}

/// Turns components into the bytes of a name, in some style.
fn finish(random: &mut Random, model: &Model, walk: &[Component], style: Style) -> Vec<u8> {
    let mut name = styled(random, model, walk, style);
    name.truncate(MAX_NAME_FIELD);
    name
}

fn styled(random: &mut Random, model: &Model, walk: &[Component], style: Style) -> Vec<u8> {
    let mut components: Vec<OwnedComponent> =
        walk.iter().map(|&component| component.into()).collect();
    match style {
        Style::Exact => {}
        Style::Near => alter_components(random, model, &mut components),
        Style::Random => {
            let count = random.below(7);
            components = (0..count).map(|_| any_component(random, model)).collect();
        }
        Style::Malformed => {
            if random.chance(10) {
                fill_up(random, model, &mut components, MAX_COMPONENTS + 1);
            }
            return malformed(random, components);
        }
        Style::TooLong => return too_long(random, components),
        Style::AtByteLimit => {
            if components.is_empty() || random.chance(20) {
                components.push(any_component(random, model));
            }
            return with_length(components, MAX_NAME_BYTES);
        }
        Style::TooManyComponents => {
            let count = *random.pick(&[33, 33, 33, 34, 40, 100]);
            fill_up(random, model, &mut components, count);
        }
        Style::AtComponentLimit => fill_up(random, model, &mut components, MAX_COMPONENTS),
    }
    encode(&components)
}

fn any_component(random: &mut Random, model: &Model) -> OwnedComponent {
    if random.chance(30) {
        return sound::component(random);
    }
    (*random.pick(&candidates(model))).into()
}

fn fill_up(random: &mut Random, model: &Model, components: &mut Vec<OwnedComponent>, count: usize) {
    components.retain(|component| component.value.len() < 20);
    let repeated = components.clone();
    while components.len() < count {
        let next = match repeated.get(components.len() % repeated.len().max(1)) {
            Some(component) if random.chance(95) => component.clone(),
            _ => OwnedComponent::generic(*random.pick(&["a", "b", ""])),
        };
        components.push(next);
    }
    if random.chance(5) {
        alter_components(random, model, components);
    }
}

/// Changes the components a little.
fn alter_components(random: &mut Random, model: &Model, components: &mut Vec<OwnedComponent>) {
    let place = random.below(components.len() + 1);
    let other = random.below(components.len() + 1);
    let choice = random.below(8);
    if choice < 2 || place == components.len() {
        components.insert(place, any_component(random, model));
        return;
    }
    match choice {
        2 => {
            components.remove(place);
        }
        3 => components[place] = any_component(random, model),
        4 => components[place].kind = *random.pick(&[1, 7, 8, 9, 0x21, 253, 264, 65_535]),
        5 => alter_bytes(random, &mut components[place].value),
        6 if other < components.len() => components.swap(place, other),
        _ => components.truncate(place),
    }
}

fn encode(components: &[OwnedComponent]) -> Vec<u8> {
    let mut inside = Vec::new();
    for component in components {
        append_element(&mut inside, component.kind, &component.value);
    }
    let mut name = Vec::new();
    append_element(&mut name, kind::NAME, &inside);
    name
}

/// A name of this many bytes, made so by the length of its last component.
fn with_length(mut components: Vec<OwnedComponent>, length: usize) -> Vec<u8> {
    while encode(&components).len() > length {
        components.pop();
    }
    if components.is_empty() {
        components.push(OwnedComponent::generic("a"));
    }
    loop {
        let name = encode(&components);
        let missing = length.saturating_sub(name.len());
        let Some(last) = components.last_mut().filter(|_| missing > 0) else {
            return name;
        };
        let step = if missing > 8 { missing - 8 } else { 1 };
        last.value.extend(vec![b'y'; step]);
    }
}

fn too_long(random: &mut Random, components: Vec<OwnedComponent>) -> Vec<u8> {
    let length = *random.pick(&[1_025, 1_025, 1_025, 1_026, 1_100, 2_048, MAX_NAME_FIELD]);
    if random.chance(20) {
        return random.bytes(length);
    }
    let mut name = with_length(components, length);
    name.resize(length.max(name.len()), 0);
    name
}

fn malformed(random: &mut Random, components: Vec<OwnedComponent>) -> Vec<u8> {
    let mut name = encode(&components);
    match random.below(12) {
        0 => {
            name.pop();
        }
        1 => name.push(*random.pick(&[0, 7, 8])),
        2 => name[0] = *random.pick(&[0, 6, 8, 0x21, 0x80, 253]),
        3 => name.clear(),
        4 => name = around_component(&[0, 0]),
        5 => name = around_component(&[254, 0, 1, 0, 0, 0]),
        6 => name = around_component(&not_shortest_component(random)),
        7 => name = wide_header(random, &components),
        8 => name = with_cut_component(&components),
        9 => {
            let length = random.between(1, 12);
            name = random.bytes(length);
        }
        _ => alter_bytes(random, &mut name),
    }
    name
}

/// A name that holds just these bytes.
fn around_component(component: &[u8]) -> Vec<u8> {
    let mut name = Vec::new();
    append_element(&mut name, kind::NAME, component);
    name
}

/// A component whose type or length could be written in fewer bytes.
fn not_shortest_component(random: &mut Random) -> Vec<u8> {
    let headers: [&[u8]; 6] = [
        &[253, 0, 8, 0],
        &[253, 0, 252, 0],
        &[254, 0, 0, 255, 255, 0],
        &[255, 0, 0, 0, 1, 0, 0, 0, 8, 0],
        &[8, 253, 0, 0],
        &[8, 253, 0, 252],
    ];
    let header = *random.pick(&headers);
    let length = usize::from(header[header.len() - 1]);
    [header, &vec![b'x'; length]].concat()
}

/// A name whose type or length isn't in the shortest form, or is far too large.
fn wide_header(random: &mut Random, components: &[OwnedComponent]) -> Vec<u8> {
    let name = encode(components);
    let (header, inside) = name.split_at(if name[1] < 253 { 2 } else { 4 });
    let length = inside.len() as u64;
    let mut out = Vec::new();
    match random.below(4) {
        0 => {
            out.extend([253, 0, 7]);
            append_number(&mut out, length);
        }
        1 => {
            out.extend([7, 254]);
            out.extend((length as u32).to_be_bytes());
        }
        2 => {
            out.extend([7, 255]);
            out.extend(length.to_be_bytes());
        }
        _ => {
            out.push(header[0]);
            append_number(
                &mut out,
                *random.pick(&[u64::MAX, 1 << 32, length + 1, 1 << 31]),
            );
        }
    }
    out.extend_from_slice(inside);
    out
}

/// A name whose last component claims one byte more than the name holds.
fn with_cut_component(components: &[OwnedComponent]) -> Vec<u8> {
    let whole = encode(components);
    let inside = if whole[1] < 253 {
        &whole[2..]
    } else {
        &whole[4..]
    };
    let mut inside = inside.to_vec();
    inside.extend([8, 2, b'a']);
    around_component(&inside)
}
