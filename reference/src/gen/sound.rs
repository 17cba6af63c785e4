//! Descriptions of models that are accepted.

use std::iter;

use super::counts::named_pattern_count;
use super::plan::{
    ArgumentPlan, ConstraintPlan, NodePlan, OwnedComponent, PatternEdgePlan, Plan, SymbolPlan,
    TermPlan, ValueEdgePlan,
};
use super::random::Random;
use crate::verdict::MAX_NODES;

/// How the nodes that the start leads to hang together. They form a tree; three of
/// the shapes are drawn as graphs with parallel edges or loops, and then unrolled.
#[derive(Clone, Copy, Debug)]
enum Shape {
    Few,
    Chain,
    Fan,
    Tree,
    /// Few nodes with parallel edges, few Tags: unrolled, much going back.
    Dense,
    /// Any node may be any node's parent, its own too: unrolled, the same edges
    /// over and over.
    Cyclic,
    /// Two nodes that are each other's parent, unrolled.
    Pair,
    /// About as many nodes as are allowed.
    Many,
    /// A node with very many edges.
    Wide,
    /// Roles that sign one another, as in a compiled schema.
    Hierarchy,
}

impl Shape {
    fn is_unrolled(self) -> bool {
        matches!(self, Shape::Dense | Shape::Cyclic | Shape::Pair)
    }
}

const SHAPES: [(usize, Shape); 10] = [
    (10, Shape::Few),
    (9, Shape::Chain),
    (7, Shape::Fan),
    (18, Shape::Tree),
    (18, Shape::Dense),
    (12, Shape::Cyclic),
    (6, Shape::Pair),
    (1, Shape::Many),
    (1, Shape::Wide),
    (19, Shape::Hierarchy),
];

const GENERIC_VALUES: [&str; 16] = [
    "", "a", "b", "c", "aa", "ab", "ba", "A", "KEY", "key", "2022", "2023", "100001", "100002",
    "1000", "author",
];

const COMPONENT_KINDS: [u64; 16] = [
    1, 2, 7, 9, 0x20, 0x21, 0x23, 0x25, 0x36, 0x80, 252, 253, 255, 256, 0x8000, 0xFFFF,
];

const RULE_NAMES: [&str; 5] = ["#a", "#_", "#site", "#KEY", "#a_9Z"];
const IDENTIFIERS: [&str; 5] = ["a", "_", "author", "ID", "z_0"];

/// So many nodes an unrolled graph has at most.
const UNROLLED: [usize; 6] = [6, 10, 16, 24, 34, 40];

/// How many ValueEdges a wide node gets, if there is room for as many nodes.
const WIDE: [usize; 6] = [60, 127, 128, 200, 255, 255];

/// A description that is accepted.
pub fn plan(random: &mut Random) -> Plan {
    let shape = random.weighted(&SHAPES);
    plan_of(random, shape)
}

/// The same, of a shape that has the same edges several times.
pub fn repeating_plan(random: &mut Random) -> Plan {
    let shape = *random.pick(&[Shape::Dense, Shape::Cyclic, Shape::Pair]);
    plan_of(random, shape)
}

fn plan_of(random: &mut Random, shape: Shape) -> Plan {
    let mut plan = match shape {
        Shape::Hierarchy => hierarchy(random),
        _ if shape.is_unrolled() => {
            let graph = graph(random, shape);
            unrolled(random, &graph)
        }
        _ => tree(random, shape),
    };
    if random.chance(15) {
        add_apart(random, &mut plan);
    }
    // a hierarchy has temporary Tags of its own, behind the named ones
    if !matches!(shape, Shape::Hierarchy) || random.chance(40) {
        plan.named_pattern_count = named_pattern_count(random, &plan);
    }
    if random.chance(30) {
        renumber(random, &mut plan);
    }
    add_extras(random, &mut plan);
    plan
}

/// What the edges of one model are drawn from.
struct EdgeParameters {
    components: Vec<OwnedComponent>,
    tags: Tags,
    pattern_percent: usize,
    constraint_percent: usize,
}

/// Where Tags come from.
enum Tags {
    Shared(Vec<u64>),
    Distinct { next: u64 },
}

impl EdgeParameters {
    fn new(random: &mut Random, shape: Shape) -> Self {
        let is_dense = matches!(shape, Shape::Dense);
        let most = if is_dense { 3 } else { 5 };
        let count = random.between(2, most);
        let mut components: Vec<_> = (0..count).map(|_| component(random)).collect();
        if random.chance(20) {
            components.push(of_other_kind(random, &components[0]));
        }
        EdgeParameters {
            components,
            tags: tags(random, is_dense),
            pattern_percent: if is_dense {
                80
            } else {
                *random.pick(&[15, 50, 50, 75, 100])
            },
            constraint_percent: *random.pick(&[0, 15, 30, 60]),
        }
    }

    fn component(&self, random: &mut Random) -> OwnedComponent {
        random.pick(&self.components).clone()
    }

    /// The Tag for a new edge.
    fn edge_tag(&mut self, random: &mut Random) -> u64 {
        match &mut self.tags {
            Tags::Shared(pool) => *random.pick(pool),
            Tags::Distinct { next } => {
                *next = *next % 128 + 1;
                *next
            }
        }
    }

    /// A Tag for an option or argument.
    fn other_tag(&self, random: &mut Random) -> u64 {
        match &self.tags {
            Tags::Shared(pool) => *random.pick(pool),
            Tags::Distinct { next } => random.between(1, 1 + *next as usize).min(128) as u64,
        }
    }
}

fn tags(random: &mut Random, is_dense: bool) -> Tags {
    let pool = if is_dense {
        (1..=random.between(1, 4) as u64).collect()
    } else {
        match random.weighted(&[(10, 0), (20, 1), (22, 2), (16, 3), (14, 4), (18, 5)]) {
            0 => vec![1],
            1 => vec![1, 2],
            2 => (1..=5).collect(),
            3 => (125..=128).collect(),
            4 => (1..=128).collect(),
            _ => return Tags::Distinct { next: 0 },
        }
    };
    Tags::Shared(pool)
}

/// A component that others are likely to equal, or nearly.
pub fn component(random: &mut Random) -> OwnedComponent {
    let kind = if random.chance(80) {
        8
    } else {
        *random.pick(&COMPONENT_KINDS)
    };
    if random.chance(2) {
        let length = *random.pick(&[250, 251, 252, 253, 254, 300]);
        return OwnedComponent::new(kind, vec![b'x'; length]);
    }
    if random.chance(4) {
        let length = random.below(8);
        return OwnedComponent::new(kind, random.bytes(length));
    }
    OwnedComponent::new(kind, *random.pick(&GENERIC_VALUES))
}

/// A component that differs from this one by its type only.
fn of_other_kind(random: &mut Random, component: &OwnedComponent) -> OwnedComponent {
    let kinds = [1, 8, 9, component.kind ^ 1, component.kind ^ 0x100];
    let other = kinds
        .into_iter()
        .filter(|&kind| kind != component.kind && kind != 0);
    let other: Vec<u64> = other.collect();
    OwnedComponent::new(*random.pick(&other), component.value.clone())
}

/// Nodes with edges and signers, of which all or most are reached from the start.
fn graph(random: &mut Random, shape: Shape) -> Plan {
    let mut plan = Plan::new();
    for parent in parents(random, shape) {
        plan.add_node(parent);
    }
    let mut parameters = EdgeParameters::new(random, shape);
    add_edges(random, shape, &mut plan, &mut parameters);
    if !shape.is_unrolled() && !matches!(shape, Shape::Wide) {
        add_dead_ends(random, &mut plan, &mut parameters);
    }
    if matches!(shape, Shape::Cyclic | Shape::Pair) {
        plan.start = random.below(plan.nodes.len()) as u64;
    }
    if random.chance(70) {
        refer_back(random, &mut plan);
    }
    if random.chance(35) {
        add_reference(random, &mut plan, &parameters);
    }
    add_signers(random, &mut plan);
    plan
}

/// A graph without loops or parallel edges, at times with another node than its root as
/// the start.
fn tree(random: &mut Random, shape: Shape) -> Plan {
    let mut plan = graph(random, shape);
    if matches!(shape, Shape::Wide) {
        widen(random, &mut plan);
    } else if random.chance(5) {
        plan.start = random.below(plan.nodes.len()) as u64;
        detach_start(&mut plan);
    }
    plan
}

/// Takes the start's Parent away, and the edge that leads to it.
fn detach_start(plan: &mut Plan) {
    let start = plan.start;
    plan.nodes[start as usize].parent = None;
    for node in &mut plan.nodes {
        node.value_edges.retain(|edge| edge.destination != start);
        node.pattern_edges.retain(|edge| edge.destination != start);
    }
}

/// Gives some nodes one more child, at which nothing goes on.
fn add_dead_ends(random: &mut Random, plan: &mut Plan, parameters: &mut EdgeParameters) {
    for index in 0..plan.nodes.len() {
        if plan.nodes.len() < MAX_NODES && random.chance(12) {
            let leaf = plan.add_node(Some(index as u64));
            add_edge(random, &mut plan.nodes[index], leaf, parameters);
        }
    }
}

/// The tree of the paths that lead from a graph's start, short ones first, as far
/// as so many nodes go. Parallel edges become siblings that look alike, and a loop
/// becomes a branch on which the same edges come again.
fn unrolled(random: &mut Random, graph: &Plan) -> Plan {
    let most = *random.pick(&UNROLLED);
    let mut plan = Plan::new();
    plan.add_node(None);
    let mut originals = vec![graph.start];
    let mut id = 0;
    while let Some(&original) = originals.get(id) {
        let destinations = copy_edges(&graph.nodes[original as usize], &mut plan, id, most);
        originals.extend(destinations);
        id += 1;
    }
    for (node, &original) in plan.nodes.iter_mut().zip(&originals) {
        let signers = graph.nodes[original as usize].signers.iter();
        node.signers = signers
            .flat_map(|&signer| copies_of(random, &originals, signer))
            .collect();
    }
    plan
}

/// Gives a node the edges of another plan's, each to a new node, while there are
/// fewer nodes than this; tells where the edges led there.
fn copy_edges(original: &NodePlan, plan: &mut Plan, id: usize, most: usize) -> Vec<u64> {
    let room = most - plan.nodes.len();
    for edge in original.value_edges.iter().take(room) {
        let destination = plan.add_node(Some(id as u64));
        let value = edge.value.clone();
        let edges = &mut plan.nodes[id].value_edges;
        edges.push(ValueEdgePlan { destination, value });
    }
    let room_left = most - plan.nodes.len();
    for edge in original.pattern_edges.iter().take(room_left) {
        let destination = plan.add_node(Some(id as u64));
        plan.nodes[id].pattern_edges.push(PatternEdgePlan {
            destination,
            ..edge.clone()
        });
    }
    original.destinations().take(room).collect()
}

/// The nodes that a graph's node has become; of many, at times only some.
fn copies_of(random: &mut Random, originals: &[u64], node: u64) -> Vec<u64> {
    let ids = 0..originals.len();
    let copies = ids.filter(|&id| originals[id] == node);
    let mut copies: Vec<u64> = copies.map(|id| id as u64).collect();
    if copies.len() > 6 && random.chance(50) {
        random.shuffle(&mut copies);
        copies.truncate(4);
    }
    copies
}

/// Adds a few nodes that the start doesn't lead to. Some of them sign, or are signed.
fn add_apart(random: &mut Random, plan: &mut Plan) {
    let first = plan.nodes.len();
    let count = random.between(1, 4);
    if first + count > MAX_NODES {
        return;
    }
    for parent in parents_apart(random, first, count) {
        plan.add_node(parent);
    }
    let mut parameters = EdgeParameters::new(random, Shape::Tree);
    for child in first..first + count {
        let parent = plan.nodes[child].parent.unwrap_or(0) as usize;
        if parent >= first && random.chance(90) {
            let node = &mut plan.nodes[parent];
            add_edge(random, node, child as u64, &mut parameters);
        }
        let signer = random.below(first + count) as u64;
        plan.nodes[child].signers.push(signer);
    }
    let signed = random.below(first);
    plan.nodes[signed].signers.push(first as u64);
}

/// The parents of so many nodes behind others: they form a loop, down to a node that
/// is its own parent, or a tree, or name only parents among the others.
fn parents_apart(random: &mut Random, first: usize, count: usize) -> Vec<Option<u64>> {
    let nth = |place: usize| Some((first + place) as u64);
    match random.below(6) {
        0..=2 => (0..count)
            .map(|place| nth((place + count - 1) % count))
            .collect(),
        3 | 4 => {
            let root = random.chance(50).then(|| random.below(first) as u64);
            let below = (1..count).map(|place| nth(random.below(place)));
            iter::once(root).chain(below).collect()
        }
        _ => (0..count)
            .map(|_| Some(random.below(first) as u64))
            .collect(),
    }
}

/// Puts ValueEdges that few names cross, to new nodes, in front of the edges of a
/// node, mostly of the start. (PatternEdges would count as crossed by any name.)
pub fn widen(random: &mut Random, plan: &mut Plan) {
    let index = match random.chance(70) {
        true => plan.start as usize,
        false => random.below(plan.nodes.len()),
    };
    let count = *random.pick(&WIDE);
    let room = MAX_NODES.saturating_sub(plan.nodes.len());
    let rare: Vec<ValueEdgePlan> = (0..count.min(room))
        .map(|number| ValueEdgePlan {
            destination: plan.add_node(Some(index as u64)),
            value: OwnedComponent::generic(format!("~{number}")),
        })
        .collect();
    plan.nodes[index].value_edges.splice(0..0, rare);
}

/// Lets most options and arguments that name a Tag name one that is crossed on
/// the way to their edge.
fn refer_back(random: &mut Random, plan: &mut Plan) {
    for index in 0..plan.nodes.len() {
        let crossed = tags_above(plan, index);
        if crossed.is_empty() {
            continue;
        }
        let edges = plan.nodes[index].pattern_edges.iter_mut();
        let options = edges.flat_map(|edge| &mut edge.constraints).flatten();
        for tag in options.flatten().filter_map(tag_in_term) {
            if random.chance(75) {
                *tag = *random.pick(&crossed);
            }
        }
    }
}

/// Adds a Constraint with an option that names a Tag crossed on the way, at
/// times beside a Value.
fn add_reference(random: &mut Random, plan: &mut Plan, parameters: &EdgeParameters) {
    let indexes = (0..plan.nodes.len()).map(|index| (index, tags_above(plan, index)));
    let referring: Vec<(usize, Vec<u64>)> = indexes
        .filter(|(index, tags)| !tags.is_empty() && !plan.nodes[*index].pattern_edges.is_empty())
        .collect();
    if referring.is_empty() {
        return;
    }
    let (index, tags) = random.pick(&referring);
    let tag = *random.pick(tags);
    let mut options = vec![vec![reference(random, tag)]];
    if random.chance(40) {
        let value = TermPlan::Value(parameters.component(random));
        options.insert(random.below(2), vec![value]);
    }
    let edges = &mut plan.nodes[*index].pattern_edges;
    let edge = random.below(edges.len());
    edges[edge].constraints.push(options);
}

/// An option that names this Tag.
fn reference(random: &mut Random, tag: u64) -> TermPlan {
    let function = match random.below(4) {
        0 | 1 => return TermPlan::Tag(tag),
        2 => "$eq",
        _ => "$eq_type",
    };
    TermPlan::Call {
        function: function.into(),
        arguments: vec![ArgumentPlan::Tag(tag)],
    }
}

/// The Tag that an option names, itself or as its argument.
fn tag_in_term(term: &mut TermPlan) -> Option<&mut u64> {
    match term {
        TermPlan::Value(_) => None,
        TermPlan::Tag(tag) => Some(tag),
        TermPlan::Call { arguments, .. } => match arguments.first_mut()? {
            ArgumentPlan::Value(_) => None,
            ArgumentPlan::Tag(tag) => Some(tag),
        },
    }
}

/// The Tags of the edges that lead to a node from the few above it.
fn tags_above(plan: &Plan, index: usize) -> Vec<u64> {
    let mut tags = Vec::new();
    let mut node = index;
    for _ in 0..4 {
        let Some(parent) = plan.nodes[node].parent else {
            break;
        };
        let parent = parent as usize;
        let edges = plan.nodes[parent].pattern_edges.iter();
        let crossed = edges.filter(|edge| edge.destination == node as u64);
        tags.extend(crossed.map(|edge| edge.tag));
        node = parent;
    }
    tags
}

/// Each node's parent; an edge may only lead from a node's parent to it.
fn parents(random: &mut Random, shape: Shape) -> Vec<Option<u64>> {
    let count = match shape {
        Shape::Few => random.between(1, 3),
        Shape::Chain => *random.pick(&[2, 3, 4, 6, 10, 31, 32, 33, 34, 35]),
        Shape::Fan => random.between(2, 30),
        Shape::Tree => random.between(3, 20),
        Shape::Wide => random.between(1, 6),
        Shape::Dense => random.between(4, 12),
        Shape::Cyclic => random.between(1, 8),
        Shape::Pair => return vec![Some(1), Some(0)],
        Shape::Many | Shape::Hierarchy => *random.pick(&[254, 255, 256, 256]),
    };
    (0..count)
        .map(|index| parent(random, shape, index, count))
        .collect()
}

fn parent(random: &mut Random, shape: Shape, index: usize, count: usize) -> Option<u64> {
    if matches!(shape, Shape::Cyclic) {
        return random.chance(85).then(|| random.below(count) as u64);
    }
    if index == 0 {
        return None;
    }
    Some(match shape {
        Shape::Chain => index - 1,
        Shape::Fan | Shape::Wide => 0,
        Shape::Dense => random.between(index.saturating_sub(3), index - 1),
        _ => random.below(index),
    } as u64)
}

fn add_edges(random: &mut Random, shape: Shape, plan: &mut Plan, parameters: &mut EdgeParameters) {
    let mut children: Vec<usize> = (0..plan.nodes.len()).collect();
    if random.chance(50) {
        random.shuffle(&mut children);
    }
    for child in children {
        let Some(parent) = plan.nodes[child].parent else {
            continue;
        };
        for _ in 0..edge_count(random, shape) {
            add_edge(
                random,
                &mut plan.nodes[parent as usize],
                child as u64,
                parameters,
            );
        }
    }
}

/// How many edges lead from a parent to its child; only graphs that are unrolled
/// may have several.
fn edge_count(random: &mut Random, shape: Shape) -> usize {
    match shape {
        Shape::Dense => random.weighted(&[(50, 1), (35, 2), (15, 3)]),
        Shape::Pair => random.weighted(&[(60, 1), (30, 2), (10, 3)]),
        Shape::Cyclic => random.weighted(&[(3, 0), (82, 1), (12, 2), (3, 3)]),
        _ => random.weighted(&[(3, 0), (97, 1)]),
    }
}

fn add_edge(
    random: &mut Random,
    node: &mut NodePlan,
    destination: u64,
    parameters: &mut EdgeParameters,
) {
    if random.chance(parameters.pattern_percent) {
        let tag = parameters.edge_tag(random);
        let constraints = constraints(random, parameters, tag);
        node.pattern_edges.push(PatternEdgePlan {
            destination,
            tag,
            constraints,
        });
    } else {
        let value = parameters.component(random);
        node.value_edges.push(ValueEdgePlan { destination, value });
    }
}

fn constraints(
    random: &mut Random,
    parameters: &EdgeParameters,
    own_tag: u64,
) -> Vec<ConstraintPlan> {
    if !random.chance(parameters.constraint_percent) {
        return Vec::new();
    }
    let count = random.weighted(&[(70, 1), (25, 2), (5, 3)]);
    (0..count)
        .map(|_| constraint(random, parameters, own_tag))
        .collect()
}

fn constraint(random: &mut Random, parameters: &EdgeParameters, own_tag: u64) -> ConstraintPlan {
    let count = random.weighted(&[(3, 0), (45, 1), (35, 2), (12, 3), (5, 4)]);
    (0..count)
        .map(|_| vec![term(random, parameters, own_tag)])
        .collect()
}

fn term(random: &mut Random, parameters: &EdgeParameters, own_tag: u64) -> TermPlan {
    match random.weighted(&[(45, 0), (20, 1), (8, 2), (27, 3)]) {
        0 => TermPlan::Value(parameters.component(random)),
        1 => TermPlan::Tag(parameters.other_tag(random)),
        2 => TermPlan::Tag(own_tag),
        _ => call(random, parameters),
    }
}

fn call(random: &mut Random, parameters: &EdgeParameters) -> TermPlan {
    let (name, count) = *random.pick(&[
        ("$eq", 1),
        ("$eq_type", 1),
        ("$isValidID", 0),
        ("$isValidYear", 0),
    ]);
    let arguments = (0..count).map(|_| argument(random, parameters)).collect();
    TermPlan::Call {
        function: name.into(),
        arguments,
    }
}

fn argument(random: &mut Random, parameters: &EdgeParameters) -> ArgumentPlan {
    if random.chance(50) {
        ArgumentPlan::Value(parameters.component(random))
    } else {
        ArgumentPlan::Tag(parameters.other_tag(random))
    }
}

fn add_signers(random: &mut Random, plan: &mut Plan) {
    let count = plan.nodes.len();
    for node in &mut plan.nodes {
        let signers = random.weighted(&[(30, 0), (35, 1), (20, 2), (15, 3)]);
        node.signers = (0..signers).map(|_| random.below(count) as u64).collect();
    }
}

/// One step of a rule's name.
#[derive(Clone)]
enum Step {
    Value(OwnedComponent),
    Pattern {
        tag: u64,
        constraints: Vec<ConstraintPlan>,
    },
}

/// Which temporary patterns of a schema have the same Tag.
#[derive(Clone, Copy, Debug)]
enum Numbering {
    /// None.
    Each,
    /// Those in the same place of different rules.
    Places,
    /// All.
    One,
}

/// The Tags of a schema's patterns.
struct SchemaTags {
    id: u64,
    other_id: u64,
    year: u64,
    /// How many are named, from 1.
    named: u64,
    /// How many temporary patterns there are.
    temporary: u64,
    numbering: Numbering,
}

impl SchemaTags {
    /// The Tag of the next temporary pattern, which stands in this place of its rule.
    fn temporary(&mut self, place: usize) -> u64 {
        self.temporary += 1;
        self.named
            + match self.numbering {
                Numbering::Each => self.temporary,
                Numbering::Places => 1 + place as u64,
                Numbering::One => 1,
            }
    }

    /// The Tag of any pattern so far, more often of a temporary one.
    fn any(&self, random: &mut Random) -> u64 {
        if self.temporary == 0 || random.chance(40) {
            return random.between(1, self.named as usize) as u64;
        }
        let temporary = match self.numbering {
            Numbering::Each => self.temporary,
            Numbering::Places => 4,
            Numbering::One => 1,
        };
        self.named + random.between(1, temporary as usize) as u64
    }
}

fn hierarchy(random: &mut Random) -> Plan {
    let mut plan = Plan::new();
    let root = plan.add_node(None);
    let mut tags = SchemaTags {
        id: 1,
        other_id: 2,
        year: 3,
        named: 3,
        temporary: 0,
        numbering: random.weighted(&[
            (30, Numbering::Each),
            (45, Numbering::Places),
            (25, Numbering::One),
        ]),
    };
    plan.named_pattern_count = tags.named;
    let mut prefix = root;
    for word in ["ndn", "blog"].into_iter().take(random.between(1, 2)) {
        prefix = follow(
            &mut plan,
            prefix,
            &Step::Value(OwnedComponent::generic(word)),
        );
    }
    let key_length = random.between(1, 3);
    let mut roles = Vec::new();
    for role in ["root", "admin", "author", "reader"]
        .into_iter()
        .take(random.between(2, 4))
    {
        let steps = role_steps(random, &mut tags, role, key_length);
        roles.push(follow_all(&mut plan, prefix, &steps));
    }
    for (rank, &role) in roles.iter().enumerate().skip(1) {
        let above = roles[random.between(rank.saturating_sub(2), rank - 1)];
        plan.nodes[role as usize].signers.push(above);
    }
    for _ in 0..random.between(1, 2) {
        let steps = article_steps(random, &tags);
        let article = follow_all(&mut plan, prefix, &steps);
        for _ in 0..random.between(1, 2) {
            plan.nodes[article as usize]
                .signers
                .push(*random.pick(&roles));
        }
    }
    plan
}

fn role_steps(random: &mut Random, tags: &mut SchemaTags, role: &str, length: usize) -> Vec<Step> {
    let name = OwnedComponent::generic(role);
    let mut steps = vec![if random.chance(50) {
        Step::Value(name)
    } else {
        let mut options = vec![vec![TermPlan::Value(name)]];
        if random.chance(40) {
            options.push(vec![TermPlan::Value(OwnedComponent::generic("author"))]);
        }
        Step::Pattern {
            tag: tags.temporary(0),
            constraints: vec![options],
        }
    }];
    let id = *random.pick(&[tags.id, tags.id, tags.other_id]);
    steps.push(checked_pattern(random, id, "$isValidID"));
    steps.push(Step::Value(OwnedComponent::generic("KEY")));
    for place in 1..=length {
        let tag = tags.temporary(place);
        let constraints = if random.chance(15) {
            vec![key_constraint(random, tags)]
        } else {
            Vec::new()
        };
        steps.push(Step::Pattern { tag, constraints });
    }
    steps
}

/// A Constraint for a part of a key, of one to three options.
fn key_constraint(random: &mut Random, tags: &SchemaTags) -> ConstraintPlan {
    let count = random.weighted(&[(30, 1), (50, 2), (20, 3)]);
    (0..count).map(|_| vec![key_term(random, tags)]).collect()
}

fn key_term(random: &mut Random, tags: &SchemaTags) -> TermPlan {
    let tag = tags.any(random);
    if random.chance(35) {
        return TermPlan::Value(OwnedComponent::generic(*random.pick(&["a", "b"])));
    }
    reference(random, tag)
}

fn article_steps(random: &mut Random, tags: &SchemaTags) -> Vec<Step> {
    let mut steps = vec![checked_pattern(random, tags.id, "$isValidID")];
    steps.push(Step::Value(OwnedComponent::generic("post")));
    steps.push(checked_pattern(random, tags.year, "$isValidYear"));
    if random.chance(50) {
        steps.push(Step::Pattern {
            tag: tags.other_id,
            constraints: Vec::new(),
        });
    }
    steps
}

fn checked_pattern(random: &mut Random, tag: u64, function: &str) -> Step {
    let call = TermPlan::Call {
        function: function.into(),
        arguments: Vec::new(),
    };
    let constraints = if random.chance(60) {
        vec![vec![vec![call]]]
    } else {
        Vec::new()
    };
    Step::Pattern { tag, constraints }
}

fn follow_all(plan: &mut Plan, from: u64, steps: &[Step]) -> u64 {
    steps
        .iter()
        .fold(from, |node, step| follow(plan, node, step))
}

/// The node that a step leads to; an equal ValueEdge is used again.
fn follow(plan: &mut Plan, from: u64, step: &Step) -> u64 {
    if let Step::Value(value) = step {
        let edges = &plan.nodes[from as usize].value_edges;
        if let Some(edge) = edges.iter().find(|edge| edge.value == *value) {
            return edge.destination;
        }
    }
    let destination = plan.add_node(Some(from));
    let node = &mut plan.nodes[from as usize];
    match step.clone() {
        Step::Value(value) => node.value_edges.push(ValueEdgePlan { destination, value }),
        Step::Pattern { tag, constraints } => {
            node.pattern_edges.push(PatternEdgePlan {
                destination,
                tag,
                constraints,
            });
        }
    }
    destination
}

/// Puts the nodes in another order, with ids and references to fit.
fn renumber(random: &mut Random, plan: &mut Plan) {
    let mut order: Vec<usize> = (0..plan.nodes.len()).collect();
    random.shuffle(&mut order);
    let mut new_ids = vec![0; order.len()];
    for (new, &old) in order.iter().enumerate() {
        new_ids[old] = new as u64;
    }
    let renamed = |id: u64| new_ids[id as usize];
    plan.start = renamed(plan.start);
    plan.nodes = order.iter().map(|&old| plan.nodes[old].clone()).collect();
    for node in &mut plan.nodes {
        node.id = renamed(node.id);
        node.parent = node.parent.map(renamed);
        for edge in &mut node.value_edges {
            edge.destination = renamed(edge.destination);
        }
        for edge in &mut node.pattern_edges {
            edge.destination = renamed(edge.destination);
        }
        for signer in &mut node.signers {
            *signer = renamed(*signer);
        }
    }
}

/// Adds what doesn't change a walk.
fn add_extras(random: &mut Random, plan: &mut Plan) {
    plan.has_wide_integers = random.chance(25);
    if random.chance(25) {
        for node in &mut plan.nodes {
            let count = random.below(3);
            node.rule_names = (0..count)
                .map(|_| (*random.pick(&RULE_NAMES)).into())
                .collect();
        }
    }
    if random.chance(25) {
        let count = random.between(1, 3);
        plan.symbols = (0..count).map(|_| symbol(random)).collect();
    }
    if random.chance(10) {
        set_unused_parent(random, plan, &[0, 1, 255, 256, 1 << 32, u64::MAX]);
    }
}

fn symbol(random: &mut Random) -> SymbolPlan {
    let tag = *random.pick(&[1, 2, 3, 64, 127, 128]);
    SymbolPlan {
        tag,
        identifier: (*random.pick(&IDENTIFIERS)).into(),
    }
}

/// Gives a node that no edge leads to, other than the start, one of these numbers as
/// its Parent; adds such a node if there is none.
pub fn set_unused_parent(random: &mut Random, plan: &mut Plan, parents: &[u64]) {
    let is_destination = |id: u64| plan.nodes.iter().any(|node| node.leads_to(id));
    let ids = 0..plan.nodes.len() as u64;
    let mut unused: Vec<u64> = ids
        .filter(|&id| id != plan.start && !is_destination(id))
        .collect();
    if unused.is_empty() && plan.nodes.len() < MAX_NODES {
        unused.push(plan.add_node(None));
    }
    if !unused.is_empty() {
        let id = *random.pick(&unused);
        plan.nodes[id as usize].parent = Some(*random.pick(parents));
    }
}
