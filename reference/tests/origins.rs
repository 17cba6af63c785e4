//! Bindings with their origins: what the match call and the signing call write to
//! the binding buffer, and when they refuse to.

mod build;

use build::*;
use lvs_reference::{find_certificate, follow, match_name, sign};

/// What stands in a lent word before a call.
const LENT: u32 = 0xABCD_EF01;
const LENT_PATH: u16 = 0xABCD;

/// A Tag with its start, length and origin.
type Bound = (usize, [u32; 3]);

/// The words of a buffer in which these Tags are bound, and only these.
fn words_of(bound: &[Bound]) -> Vec<u32> {
    let mut words = vec![0; 384];
    for (tag, place) in bound {
        words[3 * (tag - 1)..3 * tag].copy_from_slice(place);
    }
    words
}

/// An answer of the signing call, with the words of both buffers after it.
type Signed = (String, Vec<u32>, Vec<u16>);

/// The signing call with so many words for bindings and so many for the path.
fn signed(model: &[u8], packet: &[u8], key: &[u8], rooms: [usize; 2]) -> Signed {
    let mut words = vec![LENT; rooms[0]];
    let mut path = vec![LENT_PATH; rooms[1]];
    let answer = sign(model, packet, key, &mut words, &mut path).to_string();
    (answer, words, path)
}

/// The answer with both buffers as they were.
fn kept(answer: &str, rooms: [usize; 2]) -> Signed {
    let [words, path] = rooms;
    (answer.into(), vec![LENT; words], vec![LENT_PATH; path])
}

/// The match call with so many words.
fn matched(model: &[u8], name: &[u8], room: usize) -> (String, Vec<u32>) {
    let mut words = vec![LENT; room];
    let answer = match_name(model, name, &mut words).to_string();
    (answer, words)
}

/// Signs with more words than are needed, and tests all those of the bindings.
fn assert_signed(model: &[u8], packet: &[u8], key: &[u8], answer: &str, bound: &[Bound]) {
    let (given, words, _) = signed(model, packet, key, [387, 64]);
    assert_eq!(given, answer);
    assert_eq!(words[..384], words_of(bound));
    assert_eq!(words[384..], [LENT; 3]);
}

/// The same for the match call.
fn assert_matched(model: &[u8], name: &[u8], answer: &str, bound: &[Bound]) {
    let (given, words) = matched(model, name, 387);
    assert_eq!(given, answer);
    assert_eq!(words[..384], words_of(bound));
    assert_eq!(words[384..], [LENT; 3]);
}

#[test]
fn models_a_and_b() {
    let (a, b, empty) = (hex(NAME_A), hex(NAME_B), hex(EMPTY_NAME));
    let model = hex(MODEL_B);
    assert_matched(&model, &a, "match 1 1", &[(1, [2, 3, 1])]);
    assert_matched(&model, &b, "match 1 1", &[(1, [2, 3, 1])]);
    assert_matched(&model, &empty, "match 0 0", &[]);
    assert_signed(&model, &a, &a, "allowed 1 1", &[(1, [2, 3, 1])]);
    for key in [&b, &empty] {
        let answer = signed(&model, &a, key, [384, 2]);
        assert_eq!(answer, kept("not allowed", [384, 2]));
    }
    // with no Tag named, nothing is bound
    let unnamed = hex(&MODEL_B.replace("69 01 01", "69 01 00"));
    assert_matched(&unnamed, &a, "match 1 0", &[]);
    assert_signed(&unnamed, &a, &b, "allowed 1 1", &[]);
    let model = hex(MODEL_A);
    assert_matched(&model, &empty, "match 0 0", &[]);
    let answer = signed(&model, &empty, &empty, [384, 0]);
    assert_eq!(answer, kept("not allowed", [384, 0]));
}

/// The start signs itself. That nothing is bound is written too.
#[test]
fn names_without_components_bind_nothing() {
    let model = model(0, &[node(0, None, &[signer(0)])]);
    let empty = hex(EMPTY_NAME);
    assert_signed(&model, &empty, &empty, "allowed 0 0", &[]);
}

fn pattern(tag: u64) -> Step {
    Step::Pattern(tag, vec![])
}

/// A packet and its key on different branches. Tag 2 is the packet's own, 1 and 4 are
/// the key's, and 3 is in both.
fn two_branches() -> Vec<u8> {
    let mut schema = Schema::new(4);
    let packet = schema.rule(&[Step::Value("part"), pattern(2), pattern(3)]);
    let key = schema.rule(&[
        Step::Value("k"),
        pattern(4),
        pattern(3),
        pattern(1),
        pattern(4),
    ]);
    schema.sign(packet, &[key]);
    schema.encode()
}

#[test]
fn the_origin_is_the_name_where_a_tag_was_first_bound() {
    let model = two_branches();
    // the packet's components start at 2, 8 and 13, the key's at 2, 5, 12, 16 and 19
    let (packet, key) = (name("/part/ann/cc"), name("/k/eve42/cc/z/eve42"));
    let bound = [
        // only the key has it
        (1, [16, 3, 2]),
        // only the packet
        (2, [8, 5, 1]),
        // the packet, and the key meets it again
        (3, [13, 4, 1]),
        // the key, which meets it again itself
        (4, [5, 7, 2]),
    ];
    assert_signed(&model, &packet, &key, "allowed 3 8", &bound);
    // a match has one name, whichever it is
    assert_matched(
        &model,
        &packet,
        "match 3 2",
        &[(2, [8, 5, 1]), (3, [13, 4, 1])],
    );
    assert_matched(
        &model,
        &key,
        "match 8 3",
        &[(1, [16, 3, 1]), (3, [12, 4, 1]), (4, [5, 7, 1])],
    );
    for other in ["/k/eve42/dd/z/eve42", "/k/eve42/cc/z/eve43", "/k/eve42/cc"] {
        let answer = signed(&model, &packet, &name(other), [387, 10]);
        assert_eq!(answer, kept("not allowed", [387, 10]), "{other}");
    }
}

/// Components of a packet and a key that are equal, and in the same places: only
/// the origin tells them apart.
#[test]
fn equal_places_in_both_names() {
    let mut schema = Schema::new(3);
    let packet = schema.rule(&[Step::Value("p"), pattern(1), pattern(2)]);
    let key = schema.rule(&[Step::Value("k"), pattern(1), pattern(3)]);
    schema.sign(packet, &[key]);
    assert_signed(
        &schema.encode(),
        &name("/p/a/b"),
        &name("/k/a/b"),
        "allowed 3 6",
        &[(1, [5, 3, 1]), (2, [8, 3, 1]), (3, [8, 3, 2])],
    );
}

/// The packet binds Tag 1 at its last component, the key has it at its first.
#[test]
fn a_tag_of_the_packet_keeps_its_place() {
    let mut schema = Schema::new(2);
    let packet = schema.rule(&[Step::Value("p"), Step::Value("q"), pattern(1)]);
    let key = schema.rule(&[pattern(1), Step::Value("k"), pattern(2), pattern(1)]);
    schema.sign(packet, &[key]);
    let model = schema.encode();
    assert_signed(
        &model,
        &name("/p/q/ab"),
        &name("/ab/k/c/ab"),
        "allowed 3 7",
        &[(1, [8, 4, 1]), (2, [9, 3, 2])],
    );
    // the packet has the same Tag twice
    let mut schema = Schema::new(2);
    let packet = schema.rule(&[Step::Value("p"), pattern(1), pattern(1)]);
    let key = schema.rule(&[pattern(1), Step::Value("k")]);
    schema.sign(packet, &[key]);
    assert_signed(
        &schema.encode(),
        &name("/p/a/a"),
        &name("/a/k"),
        "allowed 3 5",
        &[(1, [5, 3, 1])],
    );
}

/// Headers of other sizes: a name of 253 bytes and more, or a component, has one of
/// four bytes, and a component's type may take three.
#[test]
fn starts_count_from_the_first_byte_of_their_name() {
    let mut schema = Schema::new(3);
    let packet = schema.rule(&[Step::Value("p"), pattern(1), pattern(2)]);
    let key = schema.rule(&[Step::Value("k"), pattern(3), pattern(2)]);
    schema.sign(packet, &[key]);
    let model = schema.encode();
    let long = "x".repeat(300);
    let (short_packet, short_key) = (name("/p/a/bb"), name("/k/c/bb"));
    let (long_packet, long_key) = (
        name(&format!("/p/{long}/bb")),
        name(&format!("/k/{long}/bb")),
    );
    let answer = "allowed 3 6";
    for (packet, key, bound) in [
        (
            &short_packet,
            &short_key,
            [(1, [5, 3, 1]), (2, [8, 4, 1]), (3, [5, 3, 2])],
        ),
        (
            &long_packet,
            &short_key,
            [(1, [7, 304, 1]), (2, [311, 4, 1]), (3, [5, 3, 2])],
        ),
        (
            &short_packet,
            &long_key,
            [(1, [5, 3, 1]), (2, [8, 4, 1]), (3, [7, 304, 2])],
        ),
        (
            &long_packet,
            &long_key,
            [(1, [7, 304, 1]), (2, [311, 4, 1]), (3, [7, 304, 2])],
        ),
    ] {
        assert_signed(&model, packet, key, answer, &bound);
    }
    let typed = |first: &str, kind: usize, value: &str| {
        let components = [
            component(first),
            element(kind, value.as_bytes()),
            component("bb"),
        ];
        element(7, &components.concat())
    };
    assert_signed(
        &model,
        &typed("p", 65_535, "a"),
        &typed("k", 253, ""),
        answer,
        &[(1, [5, 5, 1]), (2, [10, 4, 1]), (3, [5, 4, 2])],
    );
}

/// Names of 1,024 bytes, each bound whole by its last component.
#[test]
fn the_longest_components() {
    let mut schema = Schema::new(2);
    let packet = schema.rule(&[Step::Value("p"), pattern(1)]);
    let key = schema.rule(&[Step::Value("k"), pattern(2)]);
    schema.sign(packet, &[key]);
    let longest = |first: &str| name(&format!("/{first}/{}", "y".repeat(1_013)));
    assert_eq!(longest("p").len(), 1_024);
    assert_signed(
        &schema.encode(),
        &longest("p"),
        &longest("k"),
        "allowed 2 4",
        &[(1, [7, 1_017, 1]), (2, [7, 1_017, 2])],
    );
}

/// As many Tags as two names can bind: the packet the first 32, the key the last.
#[test]
fn sixty_four_tags() {
    let mut schema = Schema::new(128);
    let chain = |first: u64| (first..first + 32).map(pattern).collect::<Vec<_>>();
    let packet = schema.rule(&chain(1));
    let key = schema.rule(&chain(97));
    schema.sign(packet, &[key]);
    let place = |index: usize, origin: u32| [2 + 3 * index as u32, 3, origin];
    let of_packet = (0..32).map(|index| (1 + index, place(index, 1)));
    let of_key = (0..32).map(|index| (97 + index, place(index, 2)));
    let bound: Vec<Bound> = of_packet.chain(of_key).collect();
    assert_signed(
        &schema.encode(),
        &name(&"/a".repeat(32)),
        &name(&"/b".repeat(32)),
        "allowed 32 64",
        &bound,
    );
}

/// Tags 2 and 3 are temporary: crossed by both names, and never bound.
#[test]
fn temporary_tags_stay_0() {
    let mut schema = Schema::new(1);
    let packet = schema.rule(&[Step::Value("p"), pattern(2), pattern(1), pattern(3)]);
    let key = schema.rule(&[Step::Value("k"), pattern(3), pattern(2), pattern(1)]);
    schema.sign(packet, &[key]);
    let (packet, key) = (name("/p/a/b/c"), name("/k/d/e/b"));
    let answer = "allowed 4 8";
    let model = schema.encode();
    assert_signed(&model, &packet, &key, answer, &[(1, [8, 3, 1])]);
    assert_matched(&model, &packet, "match 4 1", &[(1, [8, 3, 1])]);
    let none_named = schema.encode_counted(0);
    assert_signed(&none_named, &packet, &name("/k/d/e/f"), answer, &[]);
    // if they were named, the key would have to agree
    let all_named = schema.encode_counted(3);
    assert_signed(
        &all_named,
        &packet,
        &name("/k/c/a/b"),
        answer,
        &[(1, [8, 3, 1]), (2, [5, 3, 1]), (3, [11, 3, 1])],
    );
}

/// The packet's match by a ValueEdge is the first, and allowed.
#[test]
fn the_packet_may_bind_nothing() {
    let model = model(
        0,
        &[
            node(
                0,
                None,
                &[
                    value_edge(1, "p"),
                    pattern_edge(2, 7, &[]),
                    pattern_edge(3, 8, &[]),
                ],
            ),
            node(1, Some(0), &[signer(3)]),
            node(2, Some(0), &[]),
            node(3, Some(0), &[]),
        ],
    );
    // the key's first match, at node 2, may not sign: Tag 7 is unbound again
    assert_signed(
        &model,
        &name("/p"),
        &name("/xy"),
        "allowed 1 3",
        &[(8, [2, 4, 2])],
    );
    assert_matched(&model, &name("/p"), "match 1 0", &[]);
    assert_matched(&model, &name("/xy"), "match 2 1", &[(7, [2, 4, 1])]);
}

/// The packet's first match binds Tag 1, the second Tag 2. Node 1 and node 2 both
/// list node 4, where the key has Tag 1.
fn two_matches() -> Vec<u8> {
    let edges = [
        value_edge(3, "k"),
        pattern_edge(1, 1, &[]),
        pattern_edge(2, 2, &[]),
    ];
    model(
        0,
        &[
            node(0, None, &edges),
            node(1, Some(0), &[signer(4)]),
            node(2, Some(0), &[signer(4)]),
            node(3, Some(0), &[pattern_edge(4, 1, &[])]),
            node(4, Some(3), &[]),
        ],
    )
}

#[test]
fn the_bindings_are_those_of_the_answered_pair() {
    let (model, packet) = (two_matches(), name("/a"));
    let of_packet = [(1, [2, 3, 1])];
    assert_matched(&model, &packet, "match 1 1", &of_packet);
    // the first match will do: the key meets Tag 1 again
    assert_signed(&model, &packet, &name("/k/a"), "allowed 1 4", &of_packet);
    // it won't: Tag 1 is the key's then, though the packet bound it before
    assert_signed(
        &model,
        &packet,
        &name("/k/b"),
        "allowed 2 4",
        &[(1, [5, 3, 2]), (2, [2, 3, 1])],
    );
}

/// Branches that both names have to leave: Tags 1 and 3 are bound in them, and not in
/// the pair that is found.
#[test]
fn nothing_is_left_of_abandoned_branches() {
    let edges = [
        pattern_edge(1, 1, &[]),
        pattern_edge(2, 2, &[]),
        pattern_edge(3, 4, &[]),
    ];
    let model = model(
        0,
        &[
            node(0, None, &edges),
            // the packet's first match, with a signer that no key comes to
            node(1, Some(0), &[pattern_edge(4, 3, &[]), signer(7)]),
            node(2, Some(0), &[pattern_edge(5, 5, &[])]),
            node(3, Some(0), &[pattern_edge(6, 6, &[])]),
            node(4, Some(1), &[signer(7)]),
            node(5, Some(2), &[signer(6)]),
            node(6, Some(3), &[]),
            node(7, None, &[]),
        ],
    );
    let packet = name("/a/bb");
    let of_first_match = [(1, [2, 3, 1]), (3, [5, 4, 1])];
    assert_matched(&model, &packet, "match 4 2", &of_first_match);
    // under the packet's second match the key comes to node 4 before 6
    let bound = [
        (2, [2, 3, 1]),
        (4, [2, 5, 2]),
        (5, [5, 4, 1]),
        (6, [7, 6, 2]),
    ];
    assert_signed(&model, &packet, &name("/ccc/dddd"), "allowed 5 6", &bound);
}

/// A branch that ends before the name does. Its Tag is bound elsewhere afterwards,
/// or not at all.
#[test]
fn nothing_is_left_of_a_branch_that_ends_early() {
    let with_last_tag = |last: u64| {
        let edges = [
            value_edge(5, "p"),
            pattern_edge(1, 1, &[]),
            pattern_edge(2, 2, &[]),
        ];
        model(
            0,
            &[
                node(0, None, &edges),
                node(1, Some(0), &[value_edge(3, "never")]),
                node(2, Some(0), &[pattern_edge(4, last, &[])]),
                node(3, Some(1), &[]),
                node(4, Some(2), &[]),
                node(5, Some(0), &[signer(4)]),
            ],
        )
    };
    let (packet, key) = (name("/p"), name("/x/y"));
    for last in [1, 3] {
        let model = with_last_tag(last);
        let of_key = |origin| [(last as usize, [5, 3, origin]), (2, [2, 3, origin])];
        assert_signed(&model, &packet, &key, "allowed 5 4", &of_key(2));
        assert_matched(&model, &key, "match 4 2", &of_key(1));
    }
}

/// The same two names by edges that are equal but for Tag and destination: the first
/// of four pairs is answered, by Tags 1 and 3.
#[test]
fn of_equal_pairs_the_first_counts() {
    let edges = [
        value_edge(2, "k"),
        pattern_edge(1, 1, &[]),
        pattern_edge(4, 2, &[]),
    ];
    let model = model(
        0,
        &[
            node(0, None, &edges),
            node(1, Some(0), &[signer(5), signer(3)]),
            node(
                2,
                Some(0),
                &[pattern_edge(3, 3, &[]), pattern_edge(5, 4, &[])],
            ),
            node(3, Some(2), &[]),
            node(4, Some(0), &[signer(3), signer(5)]),
            node(5, Some(2), &[]),
        ],
    );
    assert_signed(
        &model,
        &name("/a"),
        &name("/k/a"),
        "allowed 1 3",
        &[(1, [2, 3, 1]), (3, [5, 3, 2])],
    );
}

/// Down a chain with two Tags in turn each Tag is met several times, by both names.
#[test]
fn bindings_that_come_again_and_again() {
    let signers = [signer(4), signer(5)];
    let edge = |to: u64| pattern_edge(to, 1 + (to - 1) % 2, &[]);
    let model = model(0, &chain(6, edge, &signers));
    assert_signed(
        &model,
        &name("/a"),
        &name("/a/bb/a/bb"),
        "allowed 1 4",
        &[(1, [2, 3, 1]), (2, [5, 4, 2])],
    );
    assert_signed(
        &model,
        &name("/a/bb/a"),
        &name("/a/bb/a/bb/a"),
        "allowed 3 5",
        &[(1, [2, 3, 1]), (2, [5, 4, 1])],
    );
}

#[test]
fn what_the_buffer_held_does_not_matter() {
    let model = two_branches();
    let (packet, key) = (name("/part/ann/cc"), name("/k/eve42/cc/z/eve42"));
    let (_, expected, _) = signed(&model, &packet, &key, [384, 8]);
    for lent in [0, 1, 2, 3, 13, u32::MAX] {
        let (mut words, mut path) = ([lent; 400], [lent as u16; 9]);
        let answer = sign(&model, &packet, &key, &mut words, &mut path);
        assert_eq!(answer.to_string(), "allowed 3 8");
        assert_eq!(words[..384], expected);
        assert_eq!(words[384..], [lent; 16]);
        assert_eq!(path, [0, 0, 0, 1, 0, 0, 0, 0, lent as u16]);
    }
}

/// Rooms that are too short, two words a Tag among them.
const SHORT: [usize; 8] = [0, 1, 2, 255, 256, 257, 382, 383];
/// And those that will do.
const ENOUGH: [usize; 5] = [384, 385, 386, 512, 1_024];

#[test]
fn matches_need_384_words() {
    let model = hex(MODEL_B);
    for (name, answer) in [
        (hex(NAME_A), "match 1 1"),
        (hex(EMPTY_NAME), "match 0 0"),
        (name("/a/b"), "no match"),
    ] {
        for room in SHORT {
            let refused = ("refused 27 0".into(), vec![LENT; room]);
            assert_eq!(matched(&model, &name, room), refused);
        }
        for room in ENOUGH {
            let (given, words) = matched(&model, &name, room);
            assert_eq!(given, answer);
            let behind = if answer == "no match" { 0 } else { 384 };
            assert_eq!(words[behind..], vec![LENT; room - behind]);
            assert!(words[..behind].iter().all(|&word| word != LENT));
        }
    }
}

#[test]
fn signing_needs_384_words() {
    let model = hex(MODEL_B);
    let (a, b) = (hex(NAME_A), hex(NAME_B));
    for room in SHORT {
        // tested before the walk: what isn't allowed is refused too
        for key in [&a, &b] {
            let answer = signed(&model, &a, key, [room, 2]);
            assert_eq!(answer, kept("refused 27 0", [room, 2]));
        }
    }
    for room in ENOUGH {
        let (answer, words, path) = signed(&model, &a, &a, [room, 3]);
        assert_eq!(
            (&answer[..], &path[..]),
            ("allowed 1 1", &[0, 0, LENT_PATH][..])
        );
        assert_eq!(words[..384], words_of(&[(1, [2, 3, 1])]));
        assert_eq!(words[384..], vec![LENT; room - 384]);
        let answer = signed(&model, &a, &b, [room, 3]);
        assert_eq!(answer, kept("not allowed", [room, 3]));
    }
}

/// Neither of the two buffers is written if the other one is too short.
#[test]
fn refusal_27_before_34() {
    let model = hex(MODEL_B);
    let (a, b) = (hex(NAME_A), hex(NAME_B));
    for key in [&a, &b] {
        for path in [0, 1] {
            for room in SHORT {
                let answer = signed(&model, &a, key, [room, path]);
                assert_eq!(answer, kept("refused 27 0", [room, path]));
            }
            for room in ENOUGH {
                let answer = signed(&model, &a, key, [room, path]);
                assert_eq!(answer, kept("refused 34 0", [room, path]));
            }
        }
    }
}

#[test]
fn refusal_27_after_model_and_names() {
    let good = hex(NAME_A);
    let model_b = hex(MODEL_B);
    let bad_names = [vec![0; 1_025], hex("07 01"), name(&"/a".repeat(33))];
    let refused = |number: usize, rooms: [usize; 2]| kept(&format!("refused {number} 0"), rooms);
    for rooms in [[0, 0], [383, 0], [383, 64], [384, 0], [390, 64]] {
        for (place, bad) in bad_names.iter().enumerate() {
            let of_packet = refused(21 + place, rooms);
            let of_key = refused(24 + place, rooms);
            assert_eq!(signed(&model_b, bad, &good, rooms), of_packet);
            assert_eq!(signed(&model_b, &good, bad, rooms), of_key);
            for other in &bad_names {
                assert_eq!(signed(&model_b, bad, other, rooms), of_packet);
            }
            assert_eq!(signed(&[], bad, &good, rooms), refused(2, rooms));
            let (answer, words) = matched(&model_b, bad, rooms[0]);
            assert_eq!((answer, words), (of_packet.0, of_packet.1));
        }
        let other_version = hex(&MODEL_B.replace("61 04 00 01 10 00", "61 04 00 01 10 01"));
        let by_model = [
            (vec![0; 32_769], "refused 1 0"),
            (hex("61 04 00 01 10 00 00"), "refused 2 6"),
            (other_version, "refused 3 0"),
            (model(0, &[]), "refused 7 0"),
            (
                model(0, &[node(0, None, &[]), node(1, None, &[signer(2)])]),
                "refused 9 1",
            ),
        ];
        for (model, answer) in by_model {
            assert_eq!(signed(&model, &good, &good, rooms), kept(answer, rooms));
            let words = vec![LENT; rooms[0]];
            assert_eq!(matched(&model, &good, rooms[0]), (answer.into(), words));
        }
    }
}

/// The calls that take no binding buffer answer as before.
#[test]
fn other_calls_have_no_buffer() {
    let (model, packet) = (two_matches(), name("/a"));
    let list = [name("/k"), name("/k/b"), name("/k/a")].concat();
    let found = find_certificate(&model, &packet, &list).to_string();
    assert_eq!(found, "certificate 1");
    let followed = follow(&model, &packet, &name("/k/b"), &[2, 0, 0]).to_string();
    assert_eq!(followed, "accepted");
}
