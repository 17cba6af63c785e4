//! The walk: its order, going back, bindings, options and functions.

mod build;

use build::*;
use lvs_reference::{match_name, verdict, Verdict};

/// The match call's answer and the words up to the last Tag asked for.
fn matched(model: &[u8], name: &[u8], tags: usize) -> (String, Vec<u32>) {
    let mut words = vec![0; BINDING_ROOM];
    let answer = match_name(model, name, &mut words).to_string();
    words.truncate(3 * tags);
    (answer, words)
}

fn answer(model: &[u8], uri: &str) -> String {
    matched(model, &name(uri), 0).0
}

fn signed(model: &[u8], packet: &str, key: &str) -> String {
    sign(model, &name(packet), &name(key)).to_string()
}

/// First slip: a binding left behind after going back. The first branch binds
/// Tag 1 to `x` and fails; the second needs Tag 1 for `y`.
#[test]
fn bindings_of_a_failed_branch_are_taken_away() {
    let model = model(
        0,
        &[
            node(0, None, &[pattern_edge(1, 1, &[]), pattern_edge(2, 2, &[])]),
            node(1, Some(0), &[value_edge(3, "never")]),
            node(2, Some(0), &[pattern_edge(4, 1, &[])]),
            node(3, Some(1), &[]),
            node(4, Some(2), &[]),
        ],
    );
    let expected = ("match 4 2".to_string(), vec![5, 3, 1, 2, 3, 1]);
    assert_eq!(matched(&model, &name("/x/y"), 2), expected);
}

/// The same within a signing call: the key's first branch fails.
#[test]
fn bindings_of_a_failed_key_branch_are_taken_away() {
    let model = model(
        0,
        &[
            node(
                0,
                None,
                &[
                    value_edge(5, "p"),
                    pattern_edge(1, 1, &[]),
                    pattern_edge(2, 2, &[]),
                ],
            ),
            node(1, Some(0), &[value_edge(3, "never")]),
            node(2, Some(0), &[pattern_edge(4, 1, &[])]),
            node(3, Some(1), &[]),
            node(4, Some(2), &[]),
            node(5, Some(0), &[signer(4)]),
        ],
    );
    assert_eq!(signed(&model, "/p", "/x/y"), "allowed 5 4");
}

/// Second slip: only the packet's first match is used. Here it has no signer.
#[test]
fn all_packet_matches_are_tried() {
    let model = model(
        0,
        &[
            node(0, None, &[value_edge(1, "a"), pattern_edge(2, 1, &[])]),
            node(1, Some(0), &[]),
            node(2, Some(0), &[signer(1)]),
        ],
    );
    assert_eq!(answer(&model, "/a"), "match 1 0");
    assert_eq!(signed(&model, "/a", "/a"), "allowed 2 1");
}

/// Two matches of a packet have the same signer; only the second one's bindings
/// let the key through. They end at two nodes: with one it would be refused.
#[test]
fn two_matches_with_one_signer_are_two() {
    let same_as_2 = [constraint(&[tag(2)])];
    let leading_to = |first: u64, second: u64| {
        let edges = [
            value_edge(2, "k"),
            pattern_edge(first, 1, &[]),
            pattern_edge(second, 2, &[]),
        ];
        model(
            0,
            &[
                node(0, None, &edges),
                node(1, Some(0), &[signer(3)]),
                node(2, Some(0), &[pattern_edge(3, 3, &same_as_2)]),
                node(3, Some(2), &[]),
                node(4, Some(0), &[signer(3)]),
            ],
        )
    };
    let model = leading_to(1, 4);
    assert_eq!(
        matched(&model, &name("/a"), 2),
        ("match 1 1".into(), vec![2, 3, 1, 0, 0, 0])
    );
    assert_eq!(signed(&model, "/a", "/k/a"), "allowed 4 3");
    assert_eq!(signed(&model, "/a", "/k/b"), "not allowed");
    assert_eq!(signed(&leading_to(1, 1), "/a", "/k/a"), "refused 14 0");
}

/// Third slip: the Tag is bound before its own Constraints are tried.
#[test]
fn an_option_naming_the_edge_s_own_unbound_tag_does_not_hold() {
    let edge = |term: Vec<u8>| {
        let own = [constraint(&[term])];
        model(
            0,
            &[
                node(0, None, &[pattern_edge(1, 1, &own)]),
                node(1, Some(0), &[]),
            ],
        )
    };
    assert_eq!(answer(&edge(tag(1)), "/a"), "no match");
    assert_eq!(answer(&edge(call("$eq", &[tag(1)])), "/a"), "no match");
    assert_eq!(answer(&edge(call("$eq_type", &[tag(1)])), "/a"), "no match");
}

#[test]
fn an_option_naming_the_edge_s_own_bound_tag_may_hold() {
    let own = [constraint(&[tag(1)])];
    let model = model(
        0,
        &[
            node(0, None, &[pattern_edge(1, 1, &[])]),
            node(1, Some(0), &[pattern_edge(2, 1, &own)]),
            node(2, Some(1), &[]),
        ],
    );
    assert_eq!(
        matched(&model, &name("/a/a"), 1),
        ("match 2 1".into(), vec![2, 3, 1])
    );
    assert_eq!(answer(&model, "/a/b"), "no match");
}

/// Two Tags in turn down a chain, as a walk around two mutual parents had them. Each
/// node is signed by the one behind it.
#[test]
fn tags_that_come_again_down_a_chain() {
    let nodes = (0..33).map(|id: u64| {
        let parent = id.checked_sub(1);
        let edge = pattern_edge(id + 1, 1 + id % 2, &[]);
        let parts = match id < 32 {
            true => vec![edge, signer(id + 1)],
            false => vec![],
        };
        node(id, parent, &parts)
    });
    let model = model(0, &nodes.collect::<Vec<_>>());
    assert_eq!(verdict(&model), Verdict::Accepted(33));
    assert_eq!(
        matched(&model, &name("/a/b/a"), 2),
        ("match 3 2".into(), vec![2, 3, 1, 5, 3, 1])
    );
    assert_eq!(answer(&model, "/a/b/b"), "no match");
    assert_eq!(answer(&model, &"/a".repeat(32)), "match 32 2");
    assert_eq!(answer(&model, &"/a".repeat(31)), "match 31 2");
    assert_eq!(signed(&model, "/a", "/a/b"), "allowed 1 2");
    assert_eq!(signed(&model, "/a", "/b/b"), "not allowed");
    assert_eq!(signed(&model, "/a", "/a/b/a"), "not allowed");
}

/// Two nodes that are each other's parent, with an edge each way, beside a chain of
/// two; any of the four is the start.
#[test]
fn mutual_parents_are_accepted_away_from_the_start_only() {
    let with_start = |start: u64| {
        let nodes = [
            node(0, None, &[pattern_edge(1, 1, &[]), signer(2)]),
            node(1, Some(0), &[signer(1), signer(2), signer(3)]),
            node(2, Some(3), &[pattern_edge(3, 1, &[]), signer(0)]),
            node(3, Some(2), &[pattern_edge(2, 2, &[]), signer(1)]),
        ];
        model(start, &nodes)
    };
    let model = with_start(0);
    assert_eq!(verdict(&model), Verdict::Accepted(4));
    assert_eq!(answer(&model, "/a"), "match 1 1");
    // no walk comes to the two, though they are listed as signers
    assert_eq!(answer(&model, "/a/b"), "no match");
    assert_eq!(signed(&model, "/a", "/a"), "allowed 1 1");
    assert_eq!(signed(&model, "/a", "/a/b"), "not allowed");
    assert_eq!(signed(&model, "/", "/"), "not allowed");
    for start in [1, 2, 3] {
        let refused = format!("refused 13 {start}");
        assert_eq!(verdict(&with_start(start)).to_string(), refused);
        assert_eq!(answer(&with_start(start), "/a/b/a"), refused);
        assert_eq!(signed(&with_start(start), "/a", "/a"), refused);
    }
}

#[test]
fn value_edges_come_first_and_edges_keep_their_order() {
    let edges = [pattern_edge(1, 1, &[]), pattern_edge(2, 2, &[])];
    let both = [value_edge(4, "a"), value_edge(3, "a"), edges.concat()];
    let child = |id| node(id, Some(0), &[]);
    let model = model(
        0,
        &[node(0, None, &both), child(1), child(2), child(3), child(4)],
    );
    assert_eq!(answer(&model, "/a"), "match 4 0");
    assert_eq!(answer(&model, "/b"), "match 1 1");
}

/// The pair is the first by the walk's order, not by the order of signers.
#[test]
fn the_key_s_order_is_the_walk_s() {
    let model = model(
        0,
        &[
            node(
                0,
                None,
                &[
                    value_edge(1, "p"),
                    pattern_edge(2, 1, &[]),
                    pattern_edge(3, 2, &[]),
                ],
            ),
            node(1, Some(0), &[signer(3), signer(2)]),
            node(2, Some(0), &[]),
            node(3, Some(0), &[]),
        ],
    );
    assert_eq!(signed(&model, "/p", "/k"), "allowed 1 2");
}

#[test]
fn the_packet_s_bindings_hold_for_the_key() {
    let same_year = [constraint(&[tag(1)])];
    let model = model(
        0,
        &[
            node(0, None, &[value_edge(1, "p"), value_edge(2, "k")]),
            node(1, Some(0), &[pattern_edge(3, 1, &[])]),
            node(2, Some(0), &[pattern_edge(4, 2, &same_year)]),
            node(3, Some(1), &[signer(4)]),
            node(4, Some(2), &[]),
        ],
    );
    assert_eq!(signed(&model, "/p/x", "/k/x"), "allowed 3 4");
    assert_eq!(signed(&model, "/p/x", "/k/y"), "not allowed");
    assert_eq!(answer(&model, "/k/x"), "no match");
}

#[test]
fn constraints_are_a_conjunction_of_disjunctions() {
    let edge = |constraints: &[Vec<u8>]| {
        model(
            0,
            &[
                node(0, None, &[pattern_edge(1, 1, constraints)]),
                node(1, Some(0), &[]),
            ],
        )
    };
    let a_or_b = constraint(&[value("a"), value("b")]);
    let b_or_c = constraint(&[value("b"), value("c")]);
    let both = edge(&[a_or_b.clone(), b_or_c]);
    assert_eq!(answer(&both, "/a"), "no match");
    assert_eq!(answer(&both, "/b"), "match 1 1");
    assert_eq!(
        answer(&edge(&[a_or_b.clone(), constraint(&[])]), "/a"),
        "no match"
    );
    assert_eq!(answer(&edge(&[]), "/anything"), "match 1 1");
}

#[test]
fn functions() {
    let edge = |term: Vec<u8>| {
        let parts = [pattern_edge(1, 1, &[constraint(&[term])])];
        model(0, &[node(0, None, &parts), node(1, Some(0), &[])])
    };
    let other_type = element(7, &element(9, b"a"));
    let typed = |term: Vec<u8>| matched(&edge(term), &other_type, 0).0;
    assert_eq!(answer(&edge(call("$eq", &[value("a")])), "/a"), "match 1 1");
    assert_eq!(answer(&edge(call("$eq", &[value("a")])), "/b"), "no match");
    assert_eq!(typed(call("$eq", &[value("a")])), "no match");
    assert_eq!(
        answer(&edge(call("$eq_type", &[value("a")])), "/b"),
        "match 1 1"
    );
    assert_eq!(typed(call("$eq_type", &[value("a")])), "no match");
    assert_eq!(typed(value("a")), "no match");
    assert_eq!(answer(&edge(call("$eq_type", &[tag(2)])), "/a"), "no match");
    assert_eq!(
        answer(&edge(call("$isValidID", &[])), "/123456"),
        "match 1 1"
    );
    assert_eq!(answer(&edge(call("$isValidID", &[])), "/12345"), "no match");
    assert_eq!(
        answer(&edge(call("$isValidYear", &[])), "/2022"),
        "match 1 1"
    );
    assert_eq!(
        answer(&edge(call("$isValidYear", &[])), "/20222"),
        "no match"
    );
    assert_eq!(
        answer(&edge(call("$isValidYear", &[])), "/year"),
        "match 1 1"
    );
}

#[test]
fn components_of_another_type_differ() {
    let model = model(
        0,
        &[
            node(0, None, &[value_edge(1, "v"), pattern_edge(2, 1, &[])]),
            node(1, Some(0), &[]),
            node(2, Some(0), &[pattern_edge(3, 1, &[])]),
            node(3, Some(2), &[]),
        ],
    );
    let typed = |components: &[(usize, &str)]| {
        let inside = components
            .iter()
            .flat_map(|(kind, text)| element(*kind, text.as_bytes()));
        matched(&model, &element(7, &inside.collect::<Vec<u8>>()), 0).0
    };
    assert_eq!(typed(&[(8, "v")]), "match 1 0");
    assert_eq!(typed(&[(9, "v")]), "match 2 1");
    assert_eq!(typed(&[(264, "v")]), "match 2 1");
    assert_eq!(typed(&[(9, "x"), (9, "x")]), "match 3 1");
    assert_eq!(typed(&[(9, "x"), (8, "x")]), "no match");
}

#[test]
fn a_bound_tag_keeps_its_first_place() {
    let model = model(
        0,
        &[
            node(0, None, &[value_edge(1, "k")]),
            node(1, Some(0), &[pattern_edge(2, 3, &[])]),
            node(2, Some(1), &[pattern_edge(3, 3, &[])]),
            node(3, Some(2), &[]),
        ],
    );
    let expected = ("match 3 1".to_string(), vec![0, 0, 0, 0, 0, 0, 5, 4, 1]);
    assert_eq!(matched(&model, &name("/k/xx/xx"), 3), expected);
}

#[test]
fn the_start_need_not_be_node_0() {
    let model = model(
        1,
        &[
            node(0, Some(1), &[]),
            node(1, None, &[value_edge(0, "a"), signer(1)]),
        ],
    );
    assert_eq!(answer(&model, "/"), "match 1 0");
    assert_eq!(answer(&model, "/a"), "match 0 0");
    assert_eq!(signed(&model, "/", "/"), "allowed 1 1");
}

#[test]
fn rule_names_and_tag_symbols_change_no_answer() {
    let with = |rule: &str, symbols: &[Vec<u8>]| {
        let nodes = [
            node(0, None, &[rule_name(rule), pattern_edge(1, 1, &[])]),
            node(1, Some(0), &[signer(1)]),
            symbols.concat(),
        ];
        model(0, &nodes)
    };
    for model in [
        with("#a", &[]),
        with("#longer_9", &[tag_symbol(1, "x"), tag_symbol(1, "y")]),
    ] {
        assert_eq!(verdict(&model), Verdict::Accepted(2));
        assert_eq!(signed(&model, "/a", "/a"), "allowed 1 1");
        assert_eq!(signed(&model, "/a", "/b"), "not allowed");
    }
}
