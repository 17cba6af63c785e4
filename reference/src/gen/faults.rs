//! Faults planted in the description of an accepted model.

use super::plan::{
    ArgumentPlan, NodePlan, OwnedComponent, PatternEdgePlan, Plan, SymbolPlan, TermPlan,
    ValueEdgePlan,
};
use super::random::Random;
use crate::verdict::MAX_NODES;

/// The refusal numbers of the faults that a description can have.
pub const NUMBERS: [u8; 13] = [2, 3, 4, 5, 6, 7, 8, 9, 10, 11, 12, 13, 14];

/// So many of these numbers. Two of tests that come one after the other are drawn more
/// often than others, as they show the order of the tests.
pub fn some_of(random: &mut Random, numbers: &[u8], count: usize) -> Vec<u8> {
    if count == 2 && random.chance(30) {
        let place = random.below(numbers.len() - 1);
        return numbers[place..place + 2].to_vec();
    }
    (0..count).map(|_| *random.pick(numbers)).collect()
}

/// Plants the fault that is refused with this number, at times in two nodes.
pub fn plant(random: &mut Random, plan: &mut Plan, number: u8) {
    let times = if random.chance(25) { 2 } else { 1 };
    for _ in 0..times {
        plant_once(random, plan, number);
    }
}

fn plant_once(random: &mut Random, plan: &mut Plan, number: u8) {
    match number {
        2 => spoil_text(random, plan),
        3 => change_version(random, plan),
        4 => add_nodes(random, plan),
        5 => spoil_tag(random, plan),
        6 => spoil_node_id(random, plan),
        7 => plan.start = missing_id(random, plan),
        8 => spoil_destination(random, plan),
        9 => spoil_signer(random, plan),
        10 => spoil_option(random, plan),
        11 => spoil_parent(random, plan),
        12 => spoil_call(random, plan),
        13 => give_start_a_parent(random, plan),
        14 => plant_parallel_edges(random, plan),
        _ => {}
    }
}

/// Makes an identifier malformed, or Version.
fn spoil_text(random: &mut Random, plan: &mut Plan) {
    let index = random.below(plan.nodes.len());
    match random.below(7) {
        0..=2 => {
            let name = bad_identifier(random, "#");
            plan.nodes[index].rule_names.push(name);
        }
        3 | 4 => {
            let function = bad_identifier(random, "$");
            let arguments = Vec::new();
            add_option(
                random,
                plan,
                vec![TermPlan::Call {
                    function,
                    arguments,
                }],
            );
        }
        5 => {
            let identifier = bad_identifier(random, "");
            plan.symbols.push(SymbolPlan { tag: 1, identifier });
        }
        _ => {
            let width = *random.pick(&[0, 1, 2, 3, 5, 8]);
            let start = plan.version.len().saturating_sub(width);
            plan.version.drain(..start);
            while plan.version.len() < width {
                plan.version.insert(0, 0);
            }
        }
    }
}

/// Bytes next to those that an identifier may have, and some others.
const BAD_BYTES: [u8; 16] = [
    0, b' ', b'#', b'$', b'-', b'/', b':', b'@', b'[', b'^', b'`', b'{', 0x7F, 0x80, 0xC3, 0xFF,
];

/// What isn't the prefix and an identifier.
pub fn bad_identifier(random: &mut Random, prefix: &str) -> Vec<u8> {
    let mut text = prefix.as_bytes().to_vec();
    match random.below(6) {
        0 => {}
        1 => text.extend(b"9a"),
        2 => text = [b"a", &text[..], b"a"].concat(),
        3 => text.extend([*random.pick(&BAD_BYTES), b'a']),
        4 => text.extend([b'a', *random.pick(&BAD_BYTES)]),
        _ => text.extend([b'_', *random.pick(&BAD_BYTES), b'0']),
    }
    if text == b"aa" {
        text.clear();
    }
    text
}

fn change_version(random: &mut Random, plan: &mut Plan) {
    let other = [
        0,
        1,
        0x0001_0000,
        0x0001_0FFF,
        0x0001_1001,
        0x0001_1100,
        0x0101_1000,
        u32::MAX,
    ];
    plan.version = random.pick(&other).to_be_bytes().to_vec();
}

fn add_nodes(random: &mut Random, plan: &mut Plan) {
    let count = *random.pick(&[257, 257, 258, 300]);
    while plan.nodes.len() < count {
        plan.add_node(None);
    }
}

/// A number that is no Tag, though its low bytes may be one.
fn bad_tag(random: &mut Random) -> u64 {
    let bad = [
        0,
        0,
        129,
        129,
        130,
        255,
        256,
        257,
        65_537,
        1 << 31,
        1 << 32,
        (1 << 32) + 1,
    ];
    if random.chance(5) {
        return u64::MAX;
    }
    *random.pick(&bad)
}

fn spoil_tag(random: &mut Random, plan: &mut Plan) {
    let tag = bad_tag(random);
    match random.below(4) {
        0 => pattern_edge(random, plan).tag = tag,
        1 => add_option(random, plan, vec![TermPlan::Tag(tag)]),
        2 => {
            let arguments = vec![ArgumentPlan::Tag(tag)];
            add_option(
                random,
                plan,
                vec![TermPlan::Call {
                    function: "$eq".into(),
                    arguments,
                }],
            );
        }
        _ => plan.symbols.push(SymbolPlan {
            tag,
            identifier: "a".into(),
        }),
    }
}

fn spoil_node_id(random: &mut Random, plan: &mut Plan) {
    let count = plan.nodes.len();
    let index = random.below(count);
    match random.below(5) {
        0 => {
            let other = random.below(count);
            let id = plan.nodes[other].id;
            plan.nodes[other].id = plan.nodes[index].id;
            plan.nodes[index].id = id;
        }
        1 => {
            for node in &mut plan.nodes {
                node.id = node.id.wrapping_add(1);
            }
        }
        2 => plan.nodes[index].id = plan.nodes[index].id.wrapping_add(1 << 32),
        3 => plan.nodes[index].id = plan.nodes[index].id.wrapping_add(256),
        _ => plan.nodes[index].id = missing_id(random, plan),
    }
}

/// A number that is no node's id, though its low bytes may be one.
fn missing_id(random: &mut Random, plan: &Plan) -> u64 {
    let count = plan.nodes.len() as u64;
    let offset = random.below(plan.nodes.len().max(1)) as u64;
    match random.below(6) {
        0 | 1 => count,
        2 => count + 1 + offset,
        3 => count.max(256) + offset,
        4 => (1 << 32) + offset,
        _ => u64::MAX,
    }
}

fn spoil_destination(random: &mut Random, plan: &mut Plan) {
    let missing = missing_id(random, plan);
    if random.chance(50) {
        let value = OwnedComponent::generic("a");
        let edge = ValueEdgePlan {
            destination: missing,
            value,
        };
        let index = random.below(plan.nodes.len());
        plan.nodes[index].value_edges.push(edge);
    } else {
        pattern_edge(random, plan).destination = missing;
    }
}

fn spoil_signer(random: &mut Random, plan: &mut Plan) {
    let missing = missing_id(random, plan);
    let index = random.below(plan.nodes.len());
    let signers = &mut plan.nodes[index].signers;
    let place = random.below(signers.len() + 1);
    signers.insert(place, missing);
}

fn spoil_option(random: &mut Random, plan: &mut Plan) {
    let value = || TermPlan::Value(OwnedComponent::generic("a"));
    let tag = || TermPlan::Tag(1);
    let call = |name: &str| TermPlan::Call {
        function: name.into(),
        arguments: Vec::new(),
    };
    let terms = match random.below(8) {
        0 | 1 => vec![],
        2 => vec![value(), value()],
        3 => vec![value(), tag()],
        4 => vec![tag(), call("$isValidID")],
        5 => vec![call("$isValidID"), value()],
        6 => vec![call("$unknown"), tag()],
        _ => vec![tag(), value(), call("$isValidYear")],
    };
    add_option(random, plan, terms);
}

fn spoil_parent(random: &mut Random, plan: &mut Plan) {
    if random.chance(25) {
        return add_foreign_edge(random, plan);
    }
    let destination = pattern_edge(random, plan).destination;
    let missing = missing_id(random, plan);
    let other = random.below(plan.nodes.len()) as u64;
    let Some(node) = plan.nodes.get_mut(destination as usize) else {
        return;
    };
    node.parent = match random.below(5) {
        0 | 1 => None,
        2 => node.parent.map(|parent| parent.wrapping_add(1 << 32)),
        3 => Some(missing),
        _ if node.parent == Some(other) => None,
        _ => Some(other),
    };
}

/// Adds an edge from a node that isn't the destination's parent. If the parent has
/// one too, edges of two nodes lead to one destination.
fn add_foreign_edge(random: &mut Random, plan: &mut Plan) {
    let destination = random.below(plan.nodes.len());
    let parent = plan.nodes[destination].parent;
    let others = (0..plan.nodes.len()).filter(|&index| Some(index as u64) != parent);
    let others: Vec<usize> = others.collect();
    if !others.is_empty() {
        let from = *random.pick(&others);
        add_edge(random, &mut plan.nodes[from], destination as u64);
    }
}

fn spoil_call(random: &mut Random, plan: &mut Plan) {
    let unknown = [
        "$fn",
        "$eq_",
        "$eq_typ",
        "$eq_type_",
        "$EQ",
        "$isValidId",
        "$isvalidYear",
        "$_",
    ];
    let value = || ArgumentPlan::Value(OwnedComponent::generic("a"));
    let (function, arguments) = match random.below(6) {
        0 => (*random.pick(&unknown), vec![]),
        1 => (*random.pick(&unknown), vec![value()]),
        2 => (*random.pick(&["$eq", "$eq_type"]), vec![]),
        3 => (
            *random.pick(&["$eq", "$eq_type"]),
            vec![value(), ArgumentPlan::Tag(1)],
        ),
        4 => (*random.pick(&["$isValidID", "$isValidYear"]), vec![value()]),
        _ => (
            *random.pick(&["$isValidID", "$isValidYear"]),
            vec![ArgumentPlan::Tag(1)],
        ),
    };
    add_option(
        random,
        plan,
        vec![TermPlan::Call {
            function: function.into(),
            arguments,
        }],
    );
}

/// Gives the start a Parent, with or without an edge that leads back, or makes a node
/// that has one the start.
fn give_start_a_parent(random: &mut Random, plan: &mut Plan) {
    let start = plan.start;
    let count = plan.nodes.len() as u64;
    let is_destination = plan.nodes.iter().any(|node| node.leads_to(start));
    if start >= count || is_destination {
        return;
    }
    let destinations = plan.nodes[start as usize].destinations();
    let children: Vec<u64> = destinations.filter(|&id| id < count).collect();
    let any = random.below(plan.nodes.len()) as u64;
    let (parent, leads_back) = match random.below(10) {
        0 => (start, false),
        1 => (start, true),
        2 => (missing_id(random, plan), false),
        3 => (any, false),
        4 => (any, true),
        5 | 6 => return move_start(random, plan),
        7 if !children.is_empty() => (*random.pick(&children), false),
        _ if !children.is_empty() => (*random.pick(&children), true),
        _ => (any, true),
    };
    plan.nodes[start as usize].parent = Some(parent);
    if leads_back {
        add_edge(random, &mut plan.nodes[parent as usize], start);
    }
}

/// Makes a node that has a Parent the start, if there is one.
fn move_start(random: &mut Random, plan: &mut Plan) {
    let ids = 0..plan.nodes.len();
    let with_parent: Vec<usize> = ids.filter(|&id| plan.nodes[id].parent.is_some()).collect();
    if !with_parent.is_empty() {
        plan.start = *random.pick(&with_parent) as u64;
    }
}

/// Adds an edge of either kind, anywhere among the others of its kind.
fn add_edge(random: &mut Random, node: &mut NodePlan, destination: u64) {
    if random.chance(50) {
        add_value_edge(random, node, destination);
    } else {
        add_pattern_edge(random, node, destination);
    }
}

/// Adds a ValueEdge: the first, the last or any; at times with the value of another.
fn add_value_edge(random: &mut Random, node: &mut NodePlan, destination: u64) {
    let edges = &mut node.value_edges;
    let value = match edges.is_empty() || random.chance(50) {
        true => OwnedComponent::generic(*random.pick(&["a", "b", "twin"])),
        false => random.pick(edges).value.clone(),
    };
    let place = any_place(random, edges.len() + 1);
    edges.insert(place, ValueEdgePlan { destination, value });
}

/// The same for a PatternEdge and its Tag and Constraints.
fn add_pattern_edge(random: &mut Random, node: &mut NodePlan, destination: u64) {
    let edges = &mut node.pattern_edges;
    let mut edge = match edges.is_empty() || random.chance(50) {
        true => plain_edge(random.between(1, 128) as u64),
        false => random.pick(edges).clone(),
    };
    edge.destination = destination;
    let place = any_place(random, edges.len() + 1);
    edges.insert(place, edge);
}

/// The first of so many places, the last, or any.
fn any_place(random: &mut Random, count: usize) -> usize {
    match random.below(3) {
        0 => 0,
        1 => count - 1,
        _ => random.below(count),
    }
}

/// Lets two edges of a node, or more, lead to the same destination.
fn plant_parallel_edges(random: &mut Random, plan: &mut Plan) {
    let indexes = 0..plan.nodes.len();
    let mut with_edges: Vec<usize> = indexes
        .filter(|&index| plan.nodes[index].destinations().next().is_some())
        .collect();
    if with_edges.is_empty() {
        with_edges.push(make_edge(random, plan));
    }
    let index = *random.pick(&with_edges);
    if random.chance(20) {
        add_leaves(random, plan, index);
    }
    for _ in 0..random.weighted(&[(75, 1), (15, 2), (10, 5)]) {
        add_parallel_edge(random, &mut plan.nodes[index]);
    }
}

/// Gives a node more children, so that there is room between parallel edges.
fn add_leaves(random: &mut Random, plan: &mut Plan, index: usize) {
    let most = MAX_NODES.saturating_sub(plan.nodes.len());
    for _ in 0..random.between(1, 40).min(most) {
        let leaf = plan.add_node(Some(index as u64));
        add_edge(random, &mut plan.nodes[index], leaf);
    }
}

/// Adds an edge to where another one of the node leads, or lets one lead there that
/// led elsewhere.
fn add_parallel_edge(random: &mut Random, node: &mut NodePlan) {
    let destinations: Vec<u64> = node.destinations().collect();
    let destination = destinations[any_place(random, destinations.len())];
    let values = node.value_edges.iter_mut();
    let patterns = node.pattern_edges.iter_mut();
    let mut others: Vec<&mut u64> = values
        .map(|edge| &mut edge.destination)
        .chain(patterns.map(|edge| &mut edge.destination))
        .filter(|other| **other != destination)
        .collect();
    if others.is_empty() || random.chance(65) {
        add_edge(random, node, destination);
        return;
    }
    let place = any_place(random, others.len());
    *others[place] = destination;
}

/// Adds an option to one of the model's edges.
pub fn add_option(random: &mut Random, plan: &mut Plan, terms: Vec<TermPlan>) {
    let in_new_constraint = random.chance(50);
    let place = random.number() as usize;
    let constraints = &mut pattern_edge(random, plan).constraints;
    if constraints.is_empty() || in_new_constraint {
        constraints.insert(place % (constraints.len() + 1), Vec::new());
    }
    let index = place % constraints.len();
    let options = &mut constraints[index];
    options.insert(place % (options.len() + 1), terms);
}

/// One of the model's PatternEdges; makes one if there is none.
fn pattern_edge<'p>(random: &mut Random, plan: &'p mut Plan) -> &'p mut PatternEdgePlan {
    let mut places = pattern_edge_places(plan);
    if places.is_empty() {
        make_pattern_edge(random, plan);
        places = pattern_edge_places(plan);
    }
    let (node, edge) = *random.pick(&places);
    &mut plan.nodes[node].pattern_edges[edge]
}

fn pattern_edge_places(plan: &Plan) -> Vec<(usize, usize)> {
    let nodes = plan.nodes.iter().enumerate();
    nodes
        .flat_map(|(index, node)| (0..node.pattern_edges.len()).map(move |edge| (index, edge)))
        .collect()
}

/// Turns a ValueEdge into a PatternEdge; without one, makes an edge.
fn make_pattern_edge(random: &mut Random, plan: &mut Plan) {
    let mut nodes = plan.nodes.iter_mut();
    if let Some(node) = nodes.find(|node| !node.value_edges.is_empty()) {
        let ValueEdgePlan { destination, .. } = node.value_edges.remove(0);
        node.pattern_edges.push(PatternEdgePlan {
            destination,
            ..plain_edge(1)
        });
        return;
    }
    make_edge(random, plan);
}

/// Adds a PatternEdge to a model without edges, from any node to one that isn't the
/// start; answers the index of the first. The model stays an accepted one.
fn make_edge(random: &mut Random, plan: &mut Plan) -> usize {
    let mut ids = 0..plan.nodes.len() as u64;
    let child = ids.find(|&id| id != plan.start);
    let child = child.unwrap_or_else(|| plan.add_node(None));
    let index = random.below(plan.nodes.len());
    plan.nodes[child as usize].parent = Some(index as u64);
    plan.nodes[index].pattern_edges.push(PatternEdgePlan {
        destination: child,
        ..plain_edge(1)
    });
    index
}

/// A PatternEdge that is open to any component, for a destination that is yet to be
/// named.
fn plain_edge(tag: u64) -> PatternEdgePlan {
    PatternEdgePlan {
        destination: 0,
        tag,
        constraints: Vec::new(),
    }
}
