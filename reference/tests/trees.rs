//! No cycles through the start and no parallel edges: refusals 13 and 14, their nodes and
//! their order; and the models that remain.

mod build;

use build::*;
use lvs_reference::{describe, find_certificate, follow, match_name, verdict};

fn judged(model: &[u8]) -> String {
    verdict(model).to_string()
}

/// A node that the start of a model has as its child, and nothing else.
fn child(id: u64) -> Vec<u8> {
    node(id, Some(0), &[])
}

/// A PatternEdge that any component crosses.
fn open(destination: u64) -> Vec<u8> {
    pattern_edge(destination, 1, &[])
}

/// A model whose start, node 2, has this Parent; its child 1 has these edges.
fn start_with(parent: Option<u64>, edges_of_1: &[Vec<u8>]) -> String {
    let nodes = [
        node(0, Some(2), &[]),
        node(1, Some(2), edges_of_1),
        node(2, parent, &[value_edge(1, "a"), open(0)]),
    ];
    judged(&model(2, &nodes))
}

#[test]
fn a_start_with_any_parent_is_refused() {
    assert_eq!(start_with(None, &[]), "accepted 3");
    // itself, its children, and what is no node, though its low bytes may be one
    for parent in [2, 0, 1, 3, 255, 256, 258, 1 << 32, (1 << 32) + 1, u64::MAX] {
        assert_eq!(start_with(Some(parent), &[]), "refused 13 2", "{parent}");
    }
}

/// The Parent is there, in however many bytes its number is written.
#[test]
fn a_parent_of_any_width() {
    for parent in ["57 01 00", "57 02 00 00", "57 04 00 00 00 00"] {
        let bytes = hex(parent);
        let start = element(0x63, &[integer(0x25, 0), bytes].concat());
        assert_eq!(judged(&model(0, &[start])), "refused 13 0", "{parent}");
    }
    // an optional element is none, whatever it holds
    let beside = element(0x63, &hex("25 01 00 80 03 57 01 00"));
    assert_eq!(judged(&model(0, &[beside])), "accepted 1");
}

/// An edge that leads to the start: its Parent is missing or another (11), or it is
/// the edge's node (13). So no accepted model has one.
#[test]
fn edges_to_the_start() {
    for edge in [value_edge(2, "b"), open(2)] {
        let edges = [edge];
        assert_eq!(start_with(None, &edges), "refused 11 1");
        assert_eq!(start_with(Some(0), &edges), "refused 11 1");
        assert_eq!(start_with(Some(2), &edges), "refused 11 1");
        assert_eq!(start_with(Some(9), &edges), "refused 11 1");
        assert_eq!(start_with(Some(1), &edges), "refused 13 2");
    }
    let to_itself = |parent| {
        let nodes = [node(0, parent, &[value_edge(0, "a")])];
        judged(&model(0, &nodes))
    };
    assert_eq!(to_itself(None), "refused 11 0");
    assert_eq!(to_itself(Some(1)), "refused 11 0");
    assert_eq!(to_itself(Some(0)), "refused 13 0");
}

/// A loop of any length through the start, with an edge for each step.
#[test]
fn loops_with_and_without_the_start() {
    for length in 1..=6 {
        let of_loop = |id: u64| {
            let parent = (id + length - 1) % length;
            node(id, Some(parent), &[open((id + 1) % length)])
        };
        let mut nodes: Vec<Vec<u8>> = (0..length).map(of_loop).collect();
        for start in 0..length {
            let refused = format!("refused 13 {start}");
            assert_eq!(judged(&model(start, &nodes)), refused);
        }
        nodes.push(node(length, None, &[open(length + 1)]));
        nodes.push(node(length + 1, Some(length), &[]));
        let accepted = format!("accepted {}", length + 2);
        assert_eq!(judged(&model(length, &nodes)), accepted);
    }
}

/// Parents of other nodes are no fault, also where they have no edge to them or name
/// no node.
#[test]
fn parents_of_other_nodes() {
    for parent in [0, 1, 2, 3, 4, 99, u64::MAX] {
        let nodes = [
            node(0, Some(parent), &[]),
            node(1, None, &[open(2)]),
            node(2, Some(1), &[]),
            node(3, Some(parent), &[]),
        ];
        assert_eq!(judged(&model(1, &nodes)), "accepted 4", "{parent}");
        for start in [0, 2, 3] {
            let refused = format!("refused 13 {start}");
            assert_eq!(judged(&model(start, &nodes)), refused, "{parent}");
        }
    }
}

/// Edges of node 0 in this order, which leads to nodes 1 to 4.
fn with_edges(edges: &[Vec<u8>]) -> String {
    let start = node(0, None, edges);
    judged(&model(0, &[start, child(1), child(2), child(3), child(4)]))
}

#[test]
fn parallel_edges_of_both_kinds() {
    let value_to = |to| value_edge(to, "a");
    let pattern_to = |to| pattern_edge(to, 9, &[]);
    assert_eq!(with_edges(&[]), "accepted 5");
    let accepted = [value_to(2), value_to(1), pattern_to(4), pattern_to(3)];
    assert_eq!(with_edges(&accepted), "accepted 5");
    for parallel in [
        vec![value_to(1), value_to(1)],
        vec![pattern_to(1), pattern_to(1)],
        vec![value_to(1), pattern_to(1)],
        vec![value_to(1), value_to(2), value_to(1)],
        vec![pattern_to(1), pattern_to(2), pattern_to(1)],
        vec![value_to(1), value_to(2), pattern_to(3), pattern_to(1)],
        vec![value_to(2), value_to(1), pattern_to(1), pattern_to(3)],
        vec![value_to(2), value_to(3), pattern_to(1), pattern_to(1)],
        vec![value_to(4); 3],
        vec![pattern_to(4); 5],
        vec![value_to(1), value_to(2), pattern_to(1), pattern_to(2)],
    ] {
        assert_eq!(with_edges(&parallel), "refused 14 0");
    }
}

/// What else the edges have doesn't matter: neither what they have in common nor
/// that one of them can't be crossed.
#[test]
fn parallel_edges_that_differ() {
    let never = [constraint(&[])];
    let year = [constraint(&[call("$isValidYear", &[])])];
    for parallel in [
        [value_edge(3, "a"), value_edge(3, "b")],
        [pattern_edge(3, 1, &[]), pattern_edge(3, 2, &[])],
        [pattern_edge(3, 1, &never), pattern_edge(3, 1, &year)],
        [value_edge(3, "2022"), pattern_edge(3, 128, &never)],
    ] {
        assert_eq!(with_edges(&parallel), "refused 14 0");
    }
    // the same destination in another width
    let wide = element(0x51, &[hex("25 04 00 00 00 03"), value("b")].concat());
    assert_eq!(with_edges(&[value_edge(3, "a"), wide]), "refused 14 0");
    // edges that are equal but for their destination are not parallel
    let alike = [value_edge(3, "a"), value_edge(4, "a"), open(1), open(2)];
    assert_eq!(with_edges(&alike), "accepted 5");
}

/// The first of 255 edges and the last, or any two.
#[test]
fn parallel_edges_far_apart() {
    let with_destinations = |destinations: &[u64]| {
        let edges = destinations.iter().enumerate();
        let edges = edges.map(|(place, &to)| match place < 100 {
            true => value_edge(to, "a"),
            false => open(to),
        });
        let mut nodes = vec![node(0, None, &edges.collect::<Vec<_>>())];
        nodes.extend((1..256).map(child));
        judged(&model(0, &nodes))
    };
    let all: Vec<u64> = (1..256).collect();
    assert_eq!(with_destinations(&all), "accepted 256");
    for (first, second) in [(0, 254), (0, 1), (253, 254), (99, 100), (0, 99), (3, 200)] {
        let mut destinations = all.clone();
        destinations[second] = destinations[first];
        assert_eq!(with_destinations(&destinations), "refused 14 0");
    }
}

/// The node is the one that has the edges, and the first of several; it may be one
/// that the start doesn't lead to.
#[test]
fn the_first_node_with_parallel_edges_is_named() {
    let with_parallel = |faulty: &[u64]| {
        let count = |id: u64| if faulty.contains(&id) { 2 } else { 1 };
        let edges = |id: u64| vec![open(id + 4); count(id)];
        let mut nodes: Vec<Vec<u8>> = (0..4).map(|id| node(id, None, &edges(id))).collect();
        nodes.extend((0..4).map(|id| node(id + 4, Some(id), &[])));
        judged(&model(1, &nodes))
    };
    assert_eq!(with_parallel(&[]), "accepted 8");
    assert_eq!(with_parallel(&[0]), "refused 14 0");
    assert_eq!(with_parallel(&[1]), "refused 14 1");
    assert_eq!(with_parallel(&[3]), "refused 14 3");
    assert_eq!(with_parallel(&[2, 3]), "refused 14 2");
    assert_eq!(with_parallel(&[1, 3]), "refused 14 1");
    assert_eq!(with_parallel(&[3, 1, 2, 0]), "refused 14 0");
}

/// Edges of two nodes to one destination are 11, at the node that isn't its Parent.
#[test]
fn edges_of_different_nodes_to_one_destination() {
    let with_parent = |parent: u64| {
        let nodes = [
            node(0, None, &[open(1), pattern_edge(2, 2, &[])]),
            node(1, Some(0), &[open(3)]),
            node(2, Some(0), &[open(3)]),
            node(3, Some(parent), &[]),
        ];
        judged(&model(0, &nodes))
    };
    assert_eq!(with_parent(1), "refused 11 2");
    assert_eq!(with_parent(2), "refused 11 1");
    assert_eq!(with_parent(0), "refused 11 1");
}

/// What may be wrong with a model of four nodes whose start is node 3.
#[derive(Clone, Copy, Default)]
struct Faults {
    /// Node 1 names a signer that isn't there (9).
    signer: bool,
    /// Node 2 is a destination of node 1, and has no Parent (11).
    parent: bool,
    /// Node 0 has an option with an unknown function (12).
    call: bool,
    /// The start has a Parent (13).
    start: bool,
    /// Node 1 leads to node 2 twice (14).
    parallel: bool,
}

fn with_faults(faults: Faults) -> String {
    let option = match faults.call {
        true => constraint(&[call("$unknown", &[])]),
        false => constraint(&[value("a")]),
    };
    let mut parts = vec![pattern_edge(2, 2, &[])];
    if faults.parallel {
        parts.push(pattern_edge(2, 3, &[]));
    }
    parts.push(signer(if faults.signer { 4 } else { 3 }));
    let nodes = [
        node(0, Some(3), &[pattern_edge(1, 1, &[option])]),
        node(1, Some(0), &parts),
        node(2, (!faults.parent).then_some(1), &[]),
        node(3, faults.start.then_some(2), &[value_edge(0, "p")]),
    ];
    judged(&model(3, &nodes))
}

#[test]
fn the_order_of_9_and_11_to_14() {
    for bits in 0..32 {
        let has = |bit: u32| bits >> bit & 1 == 1;
        let faults = Faults {
            signer: has(0),
            parent: has(1),
            call: has(2),
            start: has(3),
            parallel: has(4),
        };
        let expected = match faults {
            Faults { signer: true, .. } => "refused 9 1",
            Faults { parent: true, .. } => "refused 11 1",
            Faults { call: true, .. } => "refused 12 0",
            Faults { start: true, .. } => "refused 13 3",
            Faults { parallel: true, .. } => "refused 14 1",
            _ => "accepted 4",
        };
        assert_eq!(with_faults(faults), expected, "{bits}");
    }
}

/// The start's own edges are parallel, and it has a Parent.
#[test]
fn both_faults_of_one_node() {
    let nodes = |parent| {
        [
            node(0, None, &[]),
            node(1, parent, &[open(2), open(2)]),
            node(2, Some(1), &[]),
        ]
    };
    assert_eq!(judged(&model(1, &nodes(Some(0)))), "refused 13 1");
    assert_eq!(judged(&model(1, &nodes(None))), "refused 14 1");
    assert_eq!(judged(&model(0, &nodes(Some(0)))), "refused 14 1");
}

/// The model's refusals go before those of names, buffers and lists, in every call.
#[test]
fn all_calls_refuse_with_the_same_numbers() {
    let with_parent = model(1, &[node(0, None, &[]), node(1, Some(0), &[])]);
    let with_parallel = model(
        0,
        &[
            node(0, None, &[]),
            node(1, None, &[open(2), open(2)]),
            node(2, Some(1), &[]),
        ],
    );
    for (model, refused) in [
        (with_parent, "refused 13 1"),
        (with_parallel, "refused 14 1"),
    ] {
        for name in [name("/a"), hex(EMPTY_NAME), hex("07 01"), vec![0; 1_025]] {
            let (mut words, mut path) = ([7; 3], [7; 3]);
            assert_eq!(match_name(&model, &name, &mut words).to_string(), refused);
            let signed = lvs_reference::sign(&model, &name, &name, &mut words, &mut path);
            assert_eq!(signed.to_string(), refused);
            assert_eq!(follow(&model, &name, &name, &path).to_string(), refused);
            let found = find_certificate(&model, &name, &[0]);
            assert_eq!(found.to_string(), refused);
            assert_eq!((words, path), ([7; 3], [7; 3]));
        }
        let (mut numbers, mut texts) = ([7; 3], [7; 3]);
        let described = describe(&model, &mut numbers, &mut texts);
        assert_eq!(described.to_string(), refused);
        assert_eq!((numbers, texts), ([7; 3], [7; 3]));
    }
}
