//! Paths: what the signing call writes, when it refuses to, and what the call
//! that follows a path accepts.

mod build;

use build::*;
use lvs_reference::{follow, sign};

/// What stands in a lent word before a call.
const LENT: u16 = 0xABCD;

/// The signing call's answer with this many words, and the words after it.
fn signed_bytes(model: &[u8], packet: &[u8], key: &[u8], room: usize) -> (String, Vec<u16>) {
    let mut words = vec![LENT; room];
    let buffer = &mut [0; BINDING_ROOM];
    let answer = sign(model, packet, key, buffer, &mut words).to_string();
    (answer, words)
}

fn signed(model: &[u8], packet: &str, key: &str, room: usize) -> (String, Vec<u16>) {
    signed_bytes(model, &name(packet), &name(key), room)
}

fn followed(model: &[u8], packet: &str, key: &str, path: &[u16]) -> String {
    follow(model, &name(packet), &name(key), path).to_string()
}

fn with(answer: &str, words: &[u16]) -> (String, Vec<u16>) {
    (answer.into(), words.into())
}

#[test]
fn models_a_and_b() {
    let (a, b) = (hex(MODEL_A), hex(MODEL_B));
    assert_eq!(signed(&b, "/a", "/a", 2), with("allowed 1 1", &[0, 0]));
    assert_eq!(signed(&b, "/a", "/b", 2), with("not allowed", &[LENT; 2]));
    assert_eq!(signed(&b, "/a", "", 1), with("not allowed", &[LENT]));
    assert_eq!(signed(&a, "", "", 0), with("not allowed", &[]));
    assert_eq!(followed(&b, "/a", "/a", &[0, 0]), "accepted");
    assert_eq!(followed(&b, "/a", "/b", &[0, 0]), "no");
    assert_eq!(followed(&b, "/a", "", &[0]), "no");
    assert_eq!(followed(&a, "", "", &[]), "no");
    // with no Tag named the key may be another one
    let unnamed = hex(&MODEL_B.replace("69 01 01", "69 01 00"));
    assert_eq!(
        signed(&unnamed, "/a", "/b", 2),
        with("allowed 1 1", &[0, 0])
    );
    assert_eq!(followed(&unnamed, "/a", "/b", &[0, 0]), "accepted");
}

/// The start signs itself, so that the empty name may sign the empty name.
#[test]
fn the_path_of_no_components_is_empty() {
    let model = model(0, &[node(0, None, &[signer(0)])]);
    assert_eq!(signed(&model, "", "", 0), with("allowed 0 0", &[]));
    assert_eq!(
        signed(&model, "", "", 3),
        with("allowed 0 0", &[LENT, LENT, LENT])
    );
    assert_eq!(followed(&model, "", "", &[]), "accepted");
    assert_eq!(followed(&model, "", "", &[0]), "no");
}

/// Three ValueEdges and three PatternEdges at the start; every end is signed by
/// node 1, to which the value `k` leads.
fn six_edges() -> Vec<u8> {
    let in_year = [constraint(&[call("$isValidYear", &[])])];
    let in_id = [constraint(&[call("$isValidID", &[])])];
    let edges = [
        value_edge(1, "k"),
        value_edge(2, "a"),
        value_edge(3, "b"),
        pattern_edge(4, 1, &in_year),
        pattern_edge(5, 2, &in_id),
        pattern_edge(6, 3, &[]),
    ];
    let mut nodes = vec![node(0, None, &edges), node(1, Some(0), &[])];
    nodes.extend((2..=6).map(|id| node(id, Some(0), &[signer(1)])));
    model(0, &nodes)
}

#[test]
fn pattern_edges_are_counted_behind_value_edges() {
    let model = six_edges();
    for (packet, node, ordinal) in [
        ("/a", 2, 1),
        ("/b", 3, 2),
        ("/2022", 4, 3),
        ("/100001", 5, 4),
        ("/other", 6, 5),
    ] {
        assert_eq!(
            signed(&model, packet, "/k", 2),
            with(&format!("allowed {node} 1"), &[ordinal, 0])
        );
        for word in 0..8 {
            // by the last edge everything may be crossed, by the others only its own
            let expected = match word == ordinal || word == 5 {
                true => "accepted",
                false => "no",
            };
            assert_eq!(followed(&model, packet, "/k", &[word, 0]), expected);
        }
    }
}

/// Only edges count: no RuleNames in front of them, and no optional elements
/// between them.
#[test]
fn what_stands_between_edges_is_not_counted() {
    let optional = || element(0x80, b"x");
    let parts = [
        optional(),
        rule_name("#a"),
        rule_name("#b"),
        optional(),
        value_edge(1, "k"),
        optional(),
        value_edge(2, "a"),
        optional(),
        optional(),
        pattern_edge(3, 1, &[]),
        optional(),
        pattern_edge(4, 1, &[]),
        optional(),
        signer(0),
    ];
    let model = model(
        0,
        &[
            node(0, None, &parts),
            node(1, Some(0), &[]),
            node(2, Some(0), &[signer(1)]),
            node(3, Some(0), &[]),
            node(4, Some(0), &[signer(1)]),
        ],
    );
    assert_eq!(signed(&model, "/a", "/k", 2), with("allowed 2 1", &[1, 0]));
    assert_eq!(signed(&model, "/b", "/k", 2), with("allowed 4 1", &[3, 0]));
    assert_eq!(followed(&model, "/b", "/k", &[3, 0]), "accepted");
    assert_eq!(followed(&model, "/b", "/k", &[2, 0]), "no");
    assert_eq!(followed(&model, "/b", "/k", &[4, 0]), "no");
}

/// As many edges as a node may have, 255: those that never open stand between the
/// two that are crossed.
#[test]
fn ordinals_of_many_edges() {
    let never = [constraint(&[])];
    let mut edges = vec![value_edge(1, "k")];
    edges.extend((2..255).map(|to| pattern_edge(to, 1, &never)));
    edges.push(pattern_edge(255, 1, &[]));
    let mut nodes = vec![node(0, None, &edges)];
    nodes.extend((1..256).map(|id| node(id, Some(0), &[signer(255)])));
    let model = model(0, &nodes);
    assert_eq!(
        signed(&model, "/k", "/a", 2),
        with("allowed 1 255", &[0, 254])
    );
    assert_eq!(
        signed(&model, "/a", "/a", 2),
        with("allowed 255 255", &[254, 254])
    );
    let answer = |path: [u16; 2]| followed(&model, "/k", "/a", &path);
    assert_eq!(answer([0, 254]), "accepted");
    assert_eq!(answer([254, 254]), "no");
    // the same low byte, the same byte in the other half, and no edge
    for word in [254 + 256, 254 << 8, 254 + (1 << 15), 255, 256, 0, 127] {
        assert_eq!(answer([0, word]), "no", "{word}");
    }
    assert_eq!(answer([256, 254]), "no");
}

/// So many edges that their ordinals would need both bytes are parallel.
#[test]
fn edges_for_which_a_byte_is_too_small() {
    let mut edges = vec![value_edge(1, "k")];
    edges.extend(vec![pattern_edge(2, 1, &[constraint(&[])]); 2_699]);
    edges.push(pattern_edge(3, 1, &[]));
    let nodes = [
        node(0, None, &edges),
        node(1, Some(0), &[signer(3)]),
        node(2, Some(0), &[]),
        node(3, Some(0), &[]),
    ];
    let model = model(0, &nodes);
    assert!(model.len() <= 32_768);
    let refused = "refused 14 0";
    assert_eq!(signed(&model, "/k", "/a", 2), with(refused, &[LENT; 2]));
    assert_eq!(followed(&model, "/k", "/a", &[0, 2_700]), refused);
}

/// There is no other order in the file: a ValueEdge behind a PatternEdge is out of
/// its place.
#[test]
fn edges_in_another_order_are_malformed() {
    let edges = [pattern_edge(1, 1, &[]), value_edge(2, "k")];
    let model = model(
        0,
        &[
            node(0, None, &edges),
            node(1, Some(0), &[signer(2)]),
            node(2, Some(0), &[]),
        ],
    );
    // 12 bytes of head, 2 and 3 bytes of the Node, 8 of its PatternEdge
    let refused = "refused 2 25";
    assert_eq!(model[25], 0x51);
    assert_eq!(signed(&model, "/a", "/k", 2), with(refused, &[LENT; 2]));
    assert_eq!(followed(&model, "/a", "/k", &[0, 1]), refused);
}

/// The packet's words come first, from its first component on.
#[test]
fn packet_then_key_in_the_order_of_components() {
    let model = chains();
    assert_eq!(
        signed(&model, "/p/x/y", "/k/z", 5),
        with("allowed 3 5", &[0, 1, 2, 1, 0])
    );
    assert_eq!(
        followed(&model, "/p/x/y", "/k/z", &[0, 1, 2, 1, 0]),
        "accepted"
    );
    assert_eq!(followed(&model, "/p/x/y", "/k/z", &[1, 0, 0, 1, 2]), "no");
    assert_eq!(followed(&model, "/p/x/y", "/k/z", &[2, 1, 0, 0, 1]), "no");
    // the other way round nothing is signed
    assert_eq!(followed(&model, "/k/z", "/p/x/y", &[1, 0, 0, 1, 2]), "no");
}

/// A packet of three components, signed by a key of two.
fn chains() -> Vec<u8> {
    let never = |to| pattern_edge(to, 1, &[constraint(&[])]);
    model(
        0,
        &[
            node(0, None, &[value_edge(1, "p"), value_edge(4, "k")]),
            node(1, Some(0), &[never(6), pattern_edge(2, 2, &[])]),
            node(2, Some(1), &[never(7), never(8), pattern_edge(3, 3, &[])]),
            node(3, Some(2), &[signer(5)]),
            node(4, Some(0), &[pattern_edge(5, 4, &[])]),
            node(5, Some(4), &[]),
            node(6, Some(1), &[]),
            node(7, Some(2), &[]),
            node(8, Some(2), &[]),
        ],
    )
}

#[test]
fn refusal_34_at_the_border() {
    let model = chains();
    let right = [0, 1, 2, 1, 0];
    for room in 0..5 {
        assert_eq!(
            signed(&model, "/p/x/y", "/k/z", room),
            with("refused 34 0", &vec![LENT; room])
        );
    }
    for room in 5..70 {
        let mut words = vec![LENT; room];
        words[..5].copy_from_slice(&right);
        assert_eq!(
            signed(&model, "/p/x/y", "/k/z", room),
            with("allowed 3 5", &words)
        );
    }
}

/// As many words as 32 and 32 components, and one fewer.
#[test]
fn refusal_34_for_the_longest_names() {
    // beside each node of the chain that is walked there is one that isn't
    let beside = |id: u64| 33 + id;
    let mut nodes = vec![];
    for id in 0..32 {
        let edges = [value_edge(beside(id), "b"), pattern_edge(id + 1, 1, &[])];
        nodes.push(node(id, id.checked_sub(1), &edges));
    }
    nodes.push(node(32, Some(31), &[signer(32)]));
    nodes.extend((0..32).map(|id| node(beside(id), Some(id), &[])));
    let model = model(0, &nodes);
    let longest = "/a".repeat(32);
    assert_eq!(
        signed(&model, &longest, &longest, 63),
        with("refused 34 0", &[LENT; 63])
    );
    assert_eq!(
        signed(&model, &longest, &longest, 64),
        with("allowed 32 32", &[1; 64])
    );
    assert_eq!(followed(&model, &longest, &longest, &[1; 64]), "accepted");
    assert_eq!(followed(&model, &longest, &longest, &[1; 63]), "no");
    assert_eq!(followed(&model, &longest, &longest, &[1; 65]), "no");
    let too_many = "/a".repeat(33);
    assert_eq!(
        signed(&model, &too_many, &longest, 0),
        with("refused 23 0", &[])
    );
    assert_eq!(
        followed(&model, &too_many, &longest, &[1; 65]),
        "refused 23 0"
    );
}

/// The names' components are counted, not those that a walk would come to.
#[test]
fn refusal_34_before_the_walk() {
    let model = chains();
    for (packet, key, needed) in [
        ("/p/x/y", "/k", 4),
        ("/p/x/y", "", 3),
        ("", "/k/z", 2),
        ("/q", "/k/z", 3),
        ("/q/r/s/t", "/u/v", 6),
    ] {
        for room in 0..needed {
            assert_eq!(
                signed(&model, packet, key, room),
                with("refused 34 0", &vec![LENT; room])
            );
        }
        for room in needed..needed + 3 {
            assert_eq!(
                signed(&model, packet, key, room),
                with("not allowed", &vec![LENT; room])
            );
        }
    }
}

#[test]
fn refusal_34_after_model_and_names() {
    let good = name("/a/b/c");
    let bad_names = [vec![0; 1_025], hex("07 01"), name(&"/a".repeat(33))];
    let answer = |model: &[u8], packet: &[u8], key: &[u8]| {
        let (answer, words) = signed_bytes(model, packet, key, 1);
        assert_eq!(words, [LENT]);
        let of_follow = follow(model, packet, key, &[LENT]).to_string();
        (answer, of_follow)
    };
    let both = |text: &str| (text.to_string(), text.to_string());
    let model_b = hex(MODEL_B);
    for (place, bad) in (0..).zip(&bad_names) {
        let of_packet = both(&format!("refused {} 0", 21 + place));
        let of_key = both(&format!("refused {} 0", 24 + place));
        assert_eq!(answer(&model_b, bad, &good), of_packet);
        assert_eq!(answer(&model_b, &good, bad), of_key);
        for other in &bad_names {
            assert_eq!(answer(&model_b, bad, other), of_packet);
        }
        assert_eq!(answer(&[], bad, &good), both("refused 2 0"));
    }
    let other_version = hex(&MODEL_B.replace("61 04 00 01 10 00", "61 04 00 01 10 01"));
    assert_eq!(answer(&other_version, &good, &good), both("refused 3 0"));
    assert_eq!(answer(&[0; 32_769], &good, &good), both("refused 1 0"));
    let no_signer = model(0, &[node(0, None, &[]), node(1, None, &[signer(2)])]);
    assert_eq!(answer(&no_signer, &good, &good), both("refused 9 1"));
    let cut = hex(&MODEL_B.replace(" 55 01 01", " 55 01"));
    let place = "refused 2 25";
    assert_eq!(answer(&cut, &good, &good), both(place));
    assert_eq!(
        answer(&model_b, &good, &good),
        ("refused 34 0".into(), "no".into())
    );
}

/// The packet goes back from its first branch, the key from two of its own. Nothing
/// of these branches is left in the path.
#[test]
fn paths_of_backtracking_pairs() {
    let edges = [
        value_edge(1, "x"),
        pattern_edge(2, 1, &[]),
        pattern_edge(3, 2, &[]),
    ];
    let model = model(
        0,
        &[
            node(0, None, &edges),
            node(1, Some(0), &[value_edge(4, "never")]),
            node(2, Some(0), &[value_edge(5, "k"), pattern_edge(6, 2, &[])]),
            node(3, Some(0), &[pattern_edge(7, 1, &[])]),
            node(4, Some(1), &[]),
            node(5, Some(2), &[]),
            node(6, Some(2), &[]),
            node(7, Some(3), &[signer(5), signer(7)]),
        ],
    );
    // /x/k matches 5 and 6 first, which list nobody
    assert_eq!(
        signed(&model, "/x/k", "/x/k", 4),
        with("allowed 7 7", &[2, 0, 2, 0])
    );
    // the key's Tag 1 is bound to `k`, so that node 2 lets `k` through only
    assert_eq!(
        signed(&model, "/x/k", "/k/k", 4),
        with("allowed 7 5", &[2, 0, 1, 0])
    );
    assert_eq!(followed(&model, "/x/k", "/x/k", &[2, 0, 2, 0]), "accepted");
    assert_eq!(followed(&model, "/x/k", "/x/k", &[1, 0, 2, 0]), "no");
    assert_eq!(followed(&model, "/x/k", "/x/k", &[2, 0, 1, 0]), "no");
    assert_eq!(followed(&model, "/x/k", "/k/k", &[2, 0, 1, 0]), "accepted");
}

/// Three edges lead to nodes that all sign one another. The path is that of the first
/// of nine pairs; those of the others may be followed as well.
#[test]
fn the_path_is_the_first_pair_s_own() {
    let signers = [signer(3), signer(2), signer(1)];
    let leading_to = |destinations: [u64; 3]| {
        let [first, second, third] = destinations;
        let edges = [
            value_edge(first, "a"),
            value_edge(second, "a"),
            pattern_edge(third, 1, &[]),
        ];
        let mut nodes = vec![node(0, None, &edges)];
        nodes.extend((1..=3).map(|id| node(id, Some(0), &signers)));
        model(0, &nodes)
    };
    let model = leading_to([1, 2, 3]);
    assert_eq!(signed(&model, "/a", "/a", 2), with("allowed 1 1", &[0, 0]));
    assert_eq!(signed(&model, "/b", "/b", 2), with("allowed 3 3", &[2, 2]));
    for packet in 0..3 {
        for key in 0..3 {
            assert_eq!(followed(&model, "/a", "/a", &[packet, key]), "accepted");
            let expected = match (packet, key) {
                (2, 2) => "accepted",
                _ => "no",
            };
            assert_eq!(followed(&model, "/b", "/b", &[packet, key]), expected);
        }
    }
    assert_eq!(followed(&model, "/a", "/a", &[3, 0]), "no");
    assert_eq!(followed(&model, "/a", "/a", &[0, 3]), "no");
    // not so if two of them, or all, lead to one node
    for destinations in [[1, 1, 1], [1, 1, 3], [1, 2, 1], [1, 3, 3]] {
        let model = leading_to(destinations);
        let refused = "refused 14 0";
        assert_eq!(signed(&model, "/a", "/a", 2), with(refused, &[LENT; 2]));
        assert_eq!(followed(&model, "/a", "/a", &[0, 0]), refused);
    }
}

/// The first pair goes by the packet's order before the key's: the packet's first
/// match has only the key's last match as its signer.
#[test]
fn the_packet_s_order_decides() {
    let model = model(
        0,
        &[
            node(0, None, &[pattern_edge(1, 1, &[]), pattern_edge(2, 2, &[])]),
            node(1, Some(0), &[signer(2)]),
            node(2, Some(0), &[signer(1), signer(2)]),
        ],
    );
    assert_eq!(signed(&model, "/a", "/b", 2), with("allowed 1 2", &[0, 1]));
    assert_eq!(followed(&model, "/a", "/b", &[0, 1]), "accepted");
    assert_eq!(followed(&model, "/a", "/b", &[1, 0]), "accepted");
    // Tag 1 is bound to `a`, and node 1 doesn't list itself
    assert_eq!(followed(&model, "/a", "/b", &[0, 0]), "no");
    assert_eq!(followed(&model, "/a", "/a", &[0, 0]), "no");
    // Tag 2 is bound to `a`
    assert_eq!(followed(&model, "/a", "/b", &[1, 1]), "no");
    assert_eq!(followed(&model, "/a", "/a", &[1, 1]), "accepted");
}

#[test]
fn paths_of_another_length() {
    let model = chains();
    let right = [0, 1, 2, 1, 0];
    let answer = |path: &[u16]| followed(&model, "/p/x/y", "/k/z", path);
    assert_eq!(answer(&right), "accepted");
    for end in 0..5 {
        assert_eq!(answer(&right[..end]), "no");
        assert_eq!(answer(&right[end + 1..]), "no");
    }
    for more in [&[0][..], &[1, 0], &[LENT], &[0; 59], &[0; 2_043]] {
        assert_eq!(answer(&[&right, more].concat()), "no");
        assert_eq!(answer(&[more, &right].concat()), "no");
    }
    // one word too many for the packet and one too few for the key, and the reverse
    assert_eq!(answer(&[0, 1, 2, 0, 1]), "no");
    assert_eq!(answer(&[0, 1, 1, 0, 0]), "no");
}

#[test]
fn every_changed_word_is_seen() {
    let model = chains();
    for place in 0..5 {
        for word in (0..10).chain([255, 256, 257, 32_768, 65_534, 65_535]) {
            let mut path = [0, 1, 2, 1, 0];
            let expected = match path[place] == word {
                true => "accepted",
                false => "no",
            };
            path[place] = word;
            assert_eq!(followed(&model, "/p/x/y", "/k/z", &path), expected);
        }
    }
}

fn pattern(tag: u64) -> Step {
    Step::Pattern(tag, vec![])
}

/// An article and its author's key share Tag 1; the third component of both is
/// temporary.
fn blog() -> Vec<u8> {
    let mut schema = Schema::new(1);
    let article = schema.rule(&[Step::Value("post"), pattern(1), Step::Temporary(vec![])]);
    let author = schema.rule(&[Step::Value("author"), pattern(1), pattern(2)]);
    schema.sign(article, &[author]);
    schema.encode()
}

#[test]
fn the_key_must_respect_what_the_packet_bound() {
    let path = [0, 0, 0, 1, 0, 0];
    let model = blog();
    for (key, is_allowed) in [
        ("/author/ann/1", true),
        ("/author/ann/2", true),
        ("/author/eve/1", false),
        ("/author/1/1", false),
    ] {
        let (answer, followed_too) = match is_allowed {
            true => (with("allowed 3 6", &path), "accepted"),
            false => (with("not allowed", &[LENT; 6]), "no"),
        };
        assert_eq!(signed(&model, "/post/ann/1", key, 6), answer);
        assert_eq!(followed(&model, "/post/ann/1", key, &path), followed_too);
    }
}

/// Within one name a Tag that was bound must be respected too, and a Tag that is
/// bound keeps its first component.
#[test]
fn bindings_along_the_path() {
    let model = model(
        0,
        &[
            node(0, None, &[pattern_edge(1, 1, &[])]),
            node(
                1,
                Some(0),
                &[pattern_edge(2, 1, &[]), pattern_edge(3, 2, &[])],
            ),
            node(2, Some(1), &[signer(2), signer(3)]),
            node(3, Some(1), &[signer(3)]),
        ],
    );
    assert_eq!(followed(&model, "/a/a", "/a/a", &[0, 0, 0, 0]), "accepted");
    assert_eq!(followed(&model, "/a/a", "/a/b", &[0, 0, 0, 1]), "accepted");
    assert_eq!(followed(&model, "/a/b", "/a/b", &[0, 0, 0, 1]), "no");
    assert_eq!(followed(&model, "/a/b", "/a/b", &[0, 1, 0, 1]), "accepted");
    assert_eq!(followed(&model, "/a/b", "/a/a", &[0, 1, 0, 1]), "no");
    assert_eq!(followed(&model, "/a/b", "/b/b", &[0, 1, 0, 1]), "no");
}

/// A key that needs a binding of the packet's: its option names a Tag that only
/// the packet's walk binds.
#[test]
fn the_packet_s_bindings_may_open_an_edge_too() {
    let like_packet = [constraint(&[tag(1)])];
    let model = model(
        0,
        &[
            node(
                0,
                None,
                &[value_edge(1, "p"), pattern_edge(2, 2, &like_packet)],
            ),
            node(1, Some(0), &[pattern_edge(3, 1, &[])]),
            node(2, Some(0), &[]),
            node(3, Some(1), &[signer(2)]),
        ],
    );
    assert_eq!(
        signed(&model, "/p/a", "/a", 3),
        with("allowed 3 2", &[0, 0, 1])
    );
    assert_eq!(followed(&model, "/p/a", "/a", &[0, 0, 1]), "accepted");
    assert_eq!(followed(&model, "/p/a", "/b", &[0, 0, 1]), "no");
}

/// An option that names the edge's own Tag is tried before the Tag is bound.
#[test]
fn constraints_are_tried_before_the_edge_binds() {
    let own = [constraint(&[tag(1)])];
    let edges = [value_edge(2, "k"), pattern_edge(1, 1, &own)];
    let model = model(
        0,
        &[
            node(0, None, &edges),
            node(1, Some(0), &[signer(2)]),
            node(2, Some(0), &[]),
        ],
    );
    assert_eq!(followed(&model, "/a", "/k", &[1, 0]), "no");
    assert_eq!(
        signed(&model, "/a", "/k", 2),
        with("not allowed", &[LENT; 2])
    );
}

#[test]
fn the_end_must_be_a_listed_signer() {
    let edges = [
        value_edge(1, "p"),
        value_edge(2, "k"),
        value_edge(3, "l"),
        value_edge(4, "q"),
    ];
    let model = model(
        0,
        &[
            node(0, None, &edges),
            node(1, Some(0), &[signer(2), signer(0)]),
            node(2, Some(0), &[signer(3)]),
            node(3, Some(0), &[]),
            node(4, Some(0), &[]),
        ],
    );
    assert_eq!(followed(&model, "/p", "/k", &[0, 1]), "accepted");
    assert_eq!(followed(&model, "/p", "", &[0]), "accepted");
    assert_eq!(followed(&model, "/k", "/l", &[1, 2]), "accepted");
    // not the signer's signer, not the packet by its own node, nor the reverse
    assert_eq!(followed(&model, "/p", "/l", &[0, 2]), "no");
    assert_eq!(followed(&model, "/p", "/p", &[0, 0]), "no");
    assert_eq!(followed(&model, "/k", "/p", &[1, 0]), "no");
    // a packet without signers
    assert_eq!(followed(&model, "/q", "/k", &[3, 1]), "no");
    assert_eq!(followed(&model, "", "/k", &[1]), "no");
}

/// The same edges come again and again down a chain. A path that would go around a
/// loop through the start is refused with its model.
#[test]
fn paths_down_a_chain_and_around_a_loop() {
    let edge = |to: u64| match to % 2 {
        1 => pattern_edge(to, 1, &[]),
        _ => value_edge(to, "b"),
    };
    let nodes = (0..6).map(|id: u64| {
        let signers = if id % 2 == 1 { signer(5) } else { vec![] };
        let edges = if id < 5 { edge(id + 1) } else { vec![] };
        node(id, id.checked_sub(1), &[edges, signers])
    });
    let chain = model(0, &nodes.collect::<Vec<_>>());
    let (answer, words) = signed(&chain, "/a/b/a", "/a/b/a/b/a", 9);
    assert_eq!(
        (answer, words),
        with("allowed 3 5", &[0, 0, 0, 0, 0, 0, 0, 0, LENT])
    );
    assert_eq!(
        followed(&chain, "/a/b/a", "/a/b/a/b/a", &[0; 8]),
        "accepted"
    );
    assert_eq!(followed(&chain, "/a/b", "/a/b/a/b/a", &[0; 7]), "no");
    let around = model(
        0,
        &[
            node(0, Some(1), &[pattern_edge(1, 1, &[])]),
            node(1, Some(0), &[value_edge(0, "b"), signer(1)]),
        ],
    );
    let refused = "refused 13 0";
    assert_eq!(
        signed(&around, "/a/b/a", "/a/b/a/b/a", 9),
        with(refused, &[LENT; 9])
    );
    assert_eq!(followed(&around, "/a/b/a", "/a/b/a/b/a", &[0; 8]), refused);
}
