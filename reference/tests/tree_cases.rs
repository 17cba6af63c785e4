//! Generated models: those that are accepted are trees where a walk goes, of many
//! shapes, and starts with a Parent and parallel edges come up in every form.

use std::collections::{BTreeMap, BTreeSet};

use lvs_reference::cases::Case;
use lvs_reference::gen::{
    self, certificate_case, damaged_case, description_case, path_case, sample, sound_model, Random,
};
use lvs_reference::model::{Model, Node};
use lvs_reference::verdict::{load, load_readable};
use lvs_reference::{verdict, Verdict};

const MODELS: u64 = 20_000;

type Counts = BTreeMap<&'static str, usize>;

/// Counts those of the names whose condition holds.
fn count(counts: &mut Counts, kinds: &[(&'static str, bool)]) {
    for (name, _) in kinds.iter().filter(|(_, is_there)| *is_there) {
        *counts.entry(name).or_default() += 1;
    }
}

/// How often a walk that goes on as long as it can comes to each node; no more than
/// as many steps as there are nodes are taken.
fn arrivals(model: &Model) -> Vec<usize> {
    let mut all = vec![0; model.nodes.len()];
    let mut reached = vec![model.start];
    for _ in 0..=model.nodes.len() {
        let next = reached.iter().flat_map(|&id| {
            all[id as usize] += 1;
            model.nodes[id as usize].destinations()
        });
        reached = next.collect();
    }
    assert!(reached.is_empty(), "the walk goes around a loop");
    all
}

fn is_destination(model: &Model, id: u64) -> bool {
    let mut destinations = model.nodes.iter().flat_map(Node::destinations);
    destinations.any(|destination| destination == id)
}

/// Whether a node and its parent have edges to each other.
fn is_mutual(model: &Model, node: &Node) -> bool {
    let parent = node.parent.and_then(|id| model.nodes.get(id as usize));
    let leads = |from: &Node, to: u64| from.destinations().any(|id| id == to);
    parent.is_some_and(|parent| leads(parent, node.id) && leads(node, parent.id))
}

/// How long the longest name is that is walked from a node.
fn depth(model: &Model, id: u64) -> usize {
    let below = model.nodes[id as usize].destinations();
    below.map(|to| 1 + depth(model, to)).max().unwrap_or(0)
}

/// What is worth seeing often in an accepted model.
fn shapes(model: &Model) -> Vec<(&'static str, bool)> {
    let arrivals = arrivals(model);
    assert!(arrivals.iter().all(|&times| times <= 1));
    let count = model.nodes.len() as u64;
    let start = model.start;
    let depth = depth(model, start);
    let has_node = |is_such: &dyn Fn(&Node) -> bool| model.nodes.iter().any(is_such);
    let is_all_reached = !has_node(&|node| arrivals[node.id as usize] == 0);
    let is_own_parent = |node: &Node| node.parent == Some(node.id);
    let has_idle_parent = |node: &Node| {
        let is_node = node.parent.is_some_and(|parent| parent < count);
        is_node && !is_destination(model, node.id)
    };
    let edges = |node: &Node| node.edges().count();
    let most_edges = model.nodes.iter().map(edges).max().unwrap_or(0);
    vec![
        ("all nodes reached", is_all_reached),
        ("some not reached", !is_all_reached),
        (
            "a loop of two",
            has_node(&|node| is_mutual(model, node) && !is_own_parent(node)),
        ),
        (
            "a node with an edge to itself",
            has_node(&|node| is_mutual(model, node) && is_own_parent(node)),
        ),
        ("a Parent without an edge", has_node(&has_idle_parent)),
        (
            "a Parent that is no node",
            has_node(&|node| node.parent.is_some_and(|parent| parent >= count)),
        ),
        ("the start is node 0", start == 0),
        ("the start is another node", start > 0),
        (
            "the start is the last node",
            start > 0 && start + 1 == count,
        ),
        (
            "the start is a leaf of several nodes",
            count > 1 && depth == 0,
        ),
        ("as deep as the longest name", depth == 32),
        ("deeper", depth > 32),
        ("one node", count == 1),
        ("256 nodes", count == 256),
        ("more than 127 edges", most_edges > 127),
        ("255 edges", most_edges == 255),
        (
            "both kinds at a node",
            has_node(&|node| !node.value_edges.is_empty() && !node.pattern_edges.is_empty()),
        ),
        (
            "three PatternEdges at a node",
            has_node(&|node| node.pattern_edges.len() > 2),
        ),
        ("equal ValueEdges to two nodes", has_node(&has_equal_values)),
    ]
}

#[test]
fn sound_models_are_trees_of_every_shape() {
    let mut counts = Counts::new();
    for index in 0..MODELS {
        let bytes = sound_model(&mut Random::for_case(21, index));
        count(&mut counts, &shapes(&load(&bytes).unwrap()));
    }
    assert!(counts.values().all(|&count| count >= 20), "{counts:#?}");
    assert_eq!(counts.len(), 19, "{counts:#?}");
    let share = |name: &str| 100 * counts[name] / MODELS as usize;
    assert!(share("all nodes reached") >= 60, "{counts:#?}");
    assert!(share("some not reached") >= 15, "{counts:#?}");
    assert!(share("the start is another node") >= 20, "{counts:#?}");
    assert!(share("three PatternEdges at a node") >= 20, "{counts:#?}");
}

fn has_equal_values(node: &Node) -> bool {
    let edges = node.value_edges.iter().enumerate();
    let mut pairs = edges.flat_map(|(place, edge)| {
        let others = node.value_edges[place + 1..].iter();
        others.map(move |other| (edge, other))
    });
    pairs.any(|(edge, other)| edge.value == other.value)
}

/// The kinds of two edges of a node to one destination, and how they stand.
#[derive(Default)]
struct Parallel {
    kinds: BTreeSet<&'static str>,
    adjacent: bool,
    /// With at least ten edges between them.
    far_apart: bool,
    first_and_last: bool,
    three: bool,
}

impl Parallel {
    fn of(node: &Node) -> Self {
        let destinations: Vec<u64> = node.destinations().collect();
        let values = node.value_edges.len();
        let mut parallel = Parallel::default();
        for second in 0..destinations.len() {
            let to = destinations[second];
            let earlier = (0..second).filter(|&first| destinations[first] == to);
            for first in earlier.clone() {
                parallel
                    .kinds
                    .insert(match (first < values, second < values) {
                        (_, true) => "two ValueEdges",
                        (false, _) => "two PatternEdges",
                        _ => "one of each",
                    });
                parallel.adjacent |= second == first + 1;
                parallel.far_apart |= second > first + 10;
                parallel.first_and_last |=
                    first == 0 && second + 1 == destinations.len() && second > 2;
            }
            parallel.three |= earlier.count() > 1;
        }
        parallel
    }

    fn are_there(&self) -> bool {
        !self.kinds.is_empty()
    }
}

fn count_parallel(counts: &mut Counts, model: &Model, index: usize) {
    let of_nodes: Vec<Parallel> = model.nodes.iter().map(Parallel::of).collect();
    let first = &of_nodes[index];
    assert!(of_nodes[..index]
        .iter()
        .all(|parallel| !parallel.are_there()));
    let with_parallel = of_nodes
        .iter()
        .filter(|parallel| parallel.are_there())
        .count();
    let has = |kind: &str| first.kinds.contains(kind);
    let edges = model.nodes[index].edges().count();
    count(
        counts,
        &[
            ("14: two ValueEdges", has("two ValueEdges")),
            ("14: two PatternEdges", has("two PatternEdges")),
            ("14: one of each kind", has("one of each")),
            ("14: none of them adjacent", !first.adjacent),
            ("14: far apart", first.far_apart),
            ("14: the first and the last", first.first_and_last),
            ("14: three to one destination", first.three),
            ("14: only two edges", edges == 2),
            ("14: at several nodes", with_parallel > 1),
            ("14: at node 0", index == 0),
            ("14: at another node", index > 0),
            ("14: not at the start", index as u64 != model.start),
        ],
    );
}

fn count_start(counts: &mut Counts, model: &Model, index: usize) {
    let start = &model.nodes[index];
    assert_eq!(start.id, model.start);
    let parent = start.parent.unwrap();
    let leads_back = is_destination(model, start.id);
    let is_child = start.destinations().any(|id| id == parent);
    let is_node = parent < model.nodes.len() as u64;
    let has_parallel = model
        .nodes
        .iter()
        .any(|node| Parallel::of(node).are_there());
    count(
        counts,
        &[
            ("13: itself", parent == start.id && !leads_back),
            ("13: itself, with an edge", parent == start.id && leads_back),
            ("13: a child of the start", is_child && !leads_back),
            (
                "13: mutual parents",
                is_child && leads_back && parent != start.id,
            ),
            (
                "13: another node",
                is_node && !is_child && !leads_back && parent != start.id,
            ),
            ("13: another node, with an edge", !is_child && leads_back),
            ("13: no node", !is_node),
            ("13: node 0", index == 0),
            ("13: not node 0", index > 0),
            ("13: with 14", has_parallel),
            (
                "13: no other node has a Parent",
                model
                    .nodes
                    .iter()
                    .filter(|node| node.parent.is_some())
                    .count()
                    == 1,
            ),
        ],
    );
}

/// What else is wrong with models that are refused with 11 or 12.
fn count_others(counts: &mut Counts, model: &Model, number: u8) {
    let has_parallel = model
        .nodes
        .iter()
        .any(|node| Parallel::of(node).are_there());
    let has_parent = model.nodes[model.start as usize].parent.is_some();
    let from_two_nodes = (0..model.nodes.len() as u64).any(|id| {
        let leads = |node: &&Node| node.destinations().any(|to| to == id);
        model.nodes.iter().filter(leads).count() > 1
    });
    count(
        counts,
        &[
            ("11: with 13", number == 11 && has_parent),
            ("11: with 14", number == 11 && has_parallel),
            (
                "11: edges of two nodes to one",
                number == 11 && from_two_nodes,
            ),
            ("12: with 13", number == 12 && has_parent),
            ("12: with 14", number == 12 && has_parallel),
        ],
    );
}

#[test]
fn faults_of_the_start_and_parallel_edges_come_up_in_every_form() {
    let mut counts = Counts::new();
    for index in 0..3 * MODELS {
        let bytes = sample(&mut Random::for_case(22, index)).bytes;
        let Verdict::Refused(refusal) = verdict(&bytes) else {
            continue;
        };
        let model = load_readable(&bytes);
        match (refusal.number(), model) {
            (13, Ok(model)) => count_start(&mut counts, &model, refusal.index),
            (14, Ok(model)) => count_parallel(&mut counts, &model, refusal.index),
            (number @ (11 | 12), Ok(model)) => count_others(&mut counts, &model, number),
            _ => {}
        }
    }
    assert!(counts.values().all(|&count| count >= 10), "{counts:#?}");
    assert_eq!(counts.len(), 12 + 11 + 5, "{counts:#?}");
}

/// The refusal number of a case's line, if it has one.
fn refusal_of(case: Case) -> Option<u8> {
    let mut line = Vec::new();
    case.answer(&mut line).unwrap();
    let line = String::from_utf8(line).unwrap();
    let number = line.strip_prefix("refused ")?.split(' ').next()?;
    number.parse().ok()
}

/// 13 and 14 come up about as often as 11 and 12, whatever the program.
#[test]
fn every_program_has_both() {
    let programs: [fn(u64, u64) -> Case; 5] = [
        gen::case,
        description_case,
        certificate_case,
        path_case,
        damaged_case,
    ];
    for (place, program) in programs.into_iter().enumerate() {
        let mut counts = BTreeMap::new();
        for index in 0..MODELS {
            if let Some(number) = refusal_of(program(23, index)) {
                *counts.entry(number).or_insert(0) += 1;
            }
        }
        let before = (counts[&11] + counts[&12]) / 2;
        for number in [13, 14] {
            let often = counts
                .get(&number)
                .is_some_and(|&count| 2 * count >= before);
            assert!(often, "{place}: {number}: {counts:?}");
        }
    }
}
