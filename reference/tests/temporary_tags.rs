//! Temporary Tags, those above NamedPatternCnt: never bound, never compared,
//! and nothing that names them holds. Their Constraints count.

mod build;

use build::*;
use lvs_reference::{describe, find_certificate, match_name, verdict};

/// The match call's answer and the words up to the last Tag asked for; the
/// others must be 0, and those behind the first 384 kept.
fn matched(model: &[u8], name: &[u8], tags: usize) -> (String, Vec<u32>) {
    let mut words = vec![9; 388];
    let answer = match_name(model, name, &mut words).to_string();
    assert_eq!(words[384..], [9; 4]);
    if answer.starts_with("match") {
        assert!(words[3 * tags..384].iter().all(|&word| word == 0));
    } else {
        assert_eq!(words, [9; 388]);
    }
    words.truncate(3 * tags);
    (answer, words)
}

fn answer(model: &[u8], uri: &str) -> String {
    matched(model, &name(uri), 128).0
}

fn signed(model: &[u8], packet: &str, key: &str) -> String {
    sign(model, &name(packet), &name(key)).to_string()
}

/// Model B with this in the place of its NamedPatternCnt.
fn model_b_counting(count: &str) -> Vec<u8> {
    let b = hex(MODEL_B);
    [&b[..9], &hex(count), &b[12..]].concat()
}

#[test]
fn model_b_with_count_1_and_0() {
    let (a, b) = (hex(NAME_A), hex(NAME_B));
    let named = model_b_counting("69 01 01");
    assert_eq!(named, hex(MODEL_B));
    assert_eq!(matched(&named, &a, 1), ("match 1 1".into(), vec![2, 3, 1]));
    assert_eq!(signed(&named, "/a", "/a"), "allowed 1 1");
    assert_eq!(signed(&named, "/a", "/b"), "not allowed");
    assert_eq!(signed(&named, "/a", "/"), "not allowed");

    let temporary = model_b_counting("69 01 00");
    assert_eq!(verdict(&temporary).to_string(), "accepted 2");
    assert_eq!(matched(&temporary, &a, 0), ("match 1 0".into(), vec![]));
    assert_eq!(signed(&temporary, "/a", "/a"), "allowed 1 1");
    assert_eq!(signed(&temporary, "/a", "/b"), "allowed 1 1");
    assert_eq!(signed(&temporary, "/a", "/"), "not allowed");
    assert_eq!(signed(&temporary, "/a", "/a/b"), "not allowed");
    let found = |model: &[u8]| find_certificate(model, &a, &[&b[..], &a].concat()).to_string();
    assert_eq!(found(&named), "certificate 1");
    assert_eq!(found(&temporary), "certificate 0");
}

#[test]
fn counts_of_every_width() {
    for zero in [
        "69 01 00",
        "69 02 00 00",
        "69 04 00 00 00 00",
        "69 08 00 00 00 00 00 00 00 00",
    ] {
        let model = model_b_counting(zero);
        assert_eq!(signed(&model, "/a", "/b"), "allowed 1 1", "{zero}");
        assert_eq!(answer(&model, "/a"), "match 1 0", "{zero}");
    }
    let not_zero = [
        "69 02 00 01",
        "69 02 01 00",
        "69 04 00 01 00 00",
        "69 04 01 00 00 00",
        "69 08 00 00 00 01 00 00 00 00",
        "69 08 80 00 00 00 00 00 00 00",
        "69 08 FF FF FF FF FF FF FF FF",
    ];
    for count in not_zero {
        let model = model_b_counting(count);
        assert_eq!(signed(&model, "/a", "/b"), "not allowed", "{count}");
        assert_eq!(answer(&model, "/a"), "match 1 1", "{count}");
    }
}

/// A chain whose two edges have this Tag.
fn twice(count: u64, tag: u64) -> Vec<u8> {
    counted_model(
        count,
        0,
        &[
            node(0, None, &[pattern_edge(1, tag, &[])]),
            node(1, Some(0), &[pattern_edge(2, tag, &[])]),
            node(2, Some(1), &[signer(2)]),
        ],
    )
}

#[test]
fn a_temporary_tag_twice_in_one_name() {
    let named = twice(1, 1);
    assert_eq!(
        matched(&named, &name("/a/a"), 1),
        ("match 2 1".into(), vec![2, 3, 1])
    );
    assert_eq!(answer(&named, "/a/b"), "no match");
    let temporary = twice(0, 1);
    for uri in ["/a/a", "/a/b", "/b/a", "/a/aa"] {
        assert_eq!(matched(&temporary, &name(uri), 0).0, "match 2 0", "{uri}");
    }
    assert_eq!(signed(&temporary, "/a/b", "/c/d"), "allowed 2 2");
    assert_eq!(signed(&named, "/a/a", "/c/c"), "not allowed");
}

/// The Tag that equals the count is named.
#[test]
fn tags_below_at_and_above_the_count() {
    for tag in [1, 2, 5, 64, 127, 128] {
        for count in [tag - 1, tag, tag + 1] {
            let is_named = tag <= count;
            let model = twice(count, tag);
            let (of_equal, of_other, of_key) = match is_named {
                true => ("match 2 1", "no match", "not allowed"),
                false => ("match 2 0", "match 2 0", "allowed 2 2"),
            };
            assert_eq!(answer(&model, "/a/a"), of_equal, "{tag} {count}");
            assert_eq!(answer(&model, "/a/b"), of_other, "{tag} {count}");
            assert_eq!(signed(&model, "/a/a", "/b/b"), of_key, "{tag} {count}");
        }
    }
}

/// No count is refused, and none above 128 is anything but large.
#[test]
fn a_count_from_128_leaves_every_tag_named() {
    let near_1 = [8, 16, 32, 63].map(|bits| 1 << bits);
    let counts = [128, 129, 130, 255, 65_535, u64::from(u32::MAX), u64::MAX];
    for count in counts.into_iter().chain(near_1) {
        for tag in [1, 2, 127, 128] {
            let model = twice(count, tag);
            assert_eq!(verdict(&model).to_string(), "accepted 3", "{count}");
            assert_eq!(answer(&model, "/a/b"), "no match", "{count} {tag}");
            assert_eq!(answer(&model, "/a/a"), "match 2 1", "{count} {tag}");
        }
    }
    assert_eq!(answer(&twice(127, 128), "/a/b"), "match 2 0");
    assert_eq!(answer(&twice(127, 127), "/a/b"), "no match");
}

/// Only named Tags are counted and written, wherever they stand in the name.
#[test]
fn named_and_temporary_tags_in_one_name() {
    let model = counted_model(
        2,
        0,
        &[
            node(0, None, &[pattern_edge(1, 3, &[])]),
            node(1, Some(0), &[pattern_edge(2, 2, &[])]),
            node(2, Some(1), &[pattern_edge(3, 3, &[])]),
            node(3, Some(2), &[pattern_edge(4, 1, &[])]),
            node(4, Some(3), &[pattern_edge(5, 2, &[])]),
            node(5, Some(4), &[signer(5)]),
        ],
    );
    let words = vec![13, 4, 1, 5, 3, 1, 0, 0, 0];
    let expected = ("match 5 2".to_string(), words);
    assert_eq!(matched(&model, &name("/x/b/yyy/dd/b"), 3), expected);
    assert_eq!(answer(&model, "/x/b/x/dd/c"), "no match");
    assert_eq!(signed(&model, "/x/b/y/d/b", "/v/b/w/d/b"), "allowed 5 5");
    assert_eq!(signed(&model, "/x/b/y/d/b", "/x/b/y/e/b"), "not allowed");
}

/// Crossing an edge with a temporary Tag and going back leaves the bindings of
/// named Tags alone.
#[test]
fn going_back_over_a_temporary_edge() {
    let model = counted_model(
        1,
        0,
        &[
            node(0, None, &[pattern_edge(1, 1, &[])]),
            node(
                1,
                Some(0),
                &[pattern_edge(2, 2, &[]), pattern_edge(3, 3, &[])],
            ),
            node(2, Some(1), &[value_edge(4, "never")]),
            node(3, Some(1), &[pattern_edge(5, 1, &[])]),
            node(4, Some(2), &[]),
            node(5, Some(3), &[]),
        ],
    );
    assert_eq!(
        matched(&model, &name("/a/b/a"), 1),
        ("match 5 1".into(), vec![2, 3, 1])
    );
    assert_eq!(answer(&model, "/a/b/c"), "no match");
    assert_eq!(answer(&model, "/a/a/b"), "no match");
}

/// A chain of Tag 1, then Tag 2 with a Constraint of these options.
fn then_constrained(count: u64, terms: &[Vec<u8>]) -> Vec<u8> {
    let second = pattern_edge(2, 2, &[constraint(terms)]);
    counted_model(
        count,
        0,
        &[
            node(0, None, &[pattern_edge(1, 1, &[])]),
            node(1, Some(0), &[second]),
            node(2, Some(1), &[]),
        ],
    )
}

fn naming(tag_named: u64) -> [Vec<u8>; 3] {
    [
        tag(tag_named),
        call("$eq", &[tag(tag_named)]),
        call("$eq_type", &[tag(tag_named)]),
    ]
}

#[test]
fn what_names_a_temporary_tag_does_not_hold() {
    for term in naming(1) {
        let terms = [term];
        for count in [2, 1] {
            let bound = format!("match 2 {count}");
            assert_eq!(answer(&then_constrained(count, &terms), "/a/a"), bound);
        }
        assert_eq!(answer(&then_constrained(0, &terms), "/a/a"), "no match");
        assert_eq!(answer(&then_constrained(0, &terms), "/a/b"), "no match");
    }
}

/// Another option of the Constraint may hold.
#[test]
fn options_beside_one_that_names_a_temporary_tag() {
    for term in naming(1) {
        for terms in [[term.clone(), value("b")], [value("b"), term]] {
            let model = then_constrained(0, &terms);
            assert_eq!(answer(&model, "/a/b"), "match 2 0");
            assert_eq!(answer(&model, "/a/a"), "no match");
            assert_eq!(answer(&model, "/b/b"), "match 2 0");
        }
    }
}

/// The edge that names the Tag is named itself; so is another Tag that is named
/// by a temporary edge.
#[test]
fn which_of_the_two_is_temporary() {
    let model = |edge_tag: u64, named_tag: u64| {
        let same = [constraint(&[tag(named_tag)])];
        counted_model(
            1,
            0,
            &[
                node(0, None, &[pattern_edge(1, named_tag, &[])]),
                node(1, Some(0), &[pattern_edge(2, edge_tag, &same)]),
                node(2, Some(1), &[]),
            ],
        )
    };
    assert_eq!(answer(&model(1, 2), "/a/a"), "no match");
    assert_eq!(answer(&model(2, 1), "/a/a"), "match 2 1");
    assert_eq!(answer(&model(2, 1), "/a/b"), "no match");
    assert_eq!(answer(&model(3, 2), "/a/a"), "no match");
}

/// The own Tag of an edge, at its first crossing and at a later one.
#[test]
fn an_option_naming_the_own_temporary_tag() {
    for term in naming(1) {
        let own = [constraint(&[term])];
        let model = |count| {
            counted_model(
                count,
                0,
                &[
                    node(0, None, &[value_edge(3, "k"), pattern_edge(1, 1, &[])]),
                    node(1, Some(0), &[pattern_edge(2, 1, &own), signer(4)]),
                    node(2, Some(1), &[]),
                    node(3, Some(0), &[pattern_edge(4, 1, &own)]),
                    node(4, Some(3), &[]),
                ],
            )
        };
        assert_eq!(answer(&model(1), "/a/a"), "match 2 1");
        assert_eq!(signed(&model(1), "/a", "/k/a"), "allowed 1 4");
        assert_eq!(answer(&model(0), "/a/a"), "no match");
        assert_eq!(signed(&model(0), "/a", "/k/a"), "not allowed");
        assert_eq!(answer(&model(0), "/k/a"), "no match");
    }
}

#[test]
fn constraints_of_temporary_edges_count() {
    let b_only = then_constrained(0, &[value("b")]);
    assert_eq!(answer(&b_only, "/a/b"), "match 2 0");
    assert_eq!(answer(&b_only, "/a/a"), "no match");
    let year = then_constrained(0, &[call("$isValidYear", &[])]);
    assert_eq!(answer(&year, "/a/2022"), "match 2 0");
    assert_eq!(answer(&year, "/a/202"), "no match");
    let eq = then_constrained(0, &[call("$eq", &[value("b")])]);
    assert_eq!(answer(&eq, "/a/b"), "match 2 0");
    assert_eq!(answer(&eq, "/a/c"), "no match");
    let no_options = then_constrained(0, &[]);
    assert_eq!(answer(&no_options, "/a/b"), "no match");
    let of_named = then_constrained(1, &[tag(1)]);
    assert_eq!(answer(&of_named, "/a/a"), "match 2 1");
    assert_eq!(answer(&of_named, "/a/b"), "no match");
}

/// Constraints are tried at every crossing, not just at the first.
#[test]
fn constraints_of_a_temporary_tag_at_its_second_crossing() {
    let b_or_c = [constraint(&[value("b"), value("c")])];
    let edge = |to| pattern_edge(to, 1, &b_or_c);
    let model = counted_model(0, 0, &chain(5, edge, &[signer(2)]));
    assert_eq!(answer(&model, "/b/c/b"), "match 3 0");
    assert_eq!(answer(&model, "/b/b/a"), "no match");
    assert_eq!(signed(&model, "/b", "/c/c"), "allowed 1 2");
    assert_eq!(signed(&model, "/b", "/c/a"), "not allowed");
}

/// `/p/x/y` is signed by `/k/..`: the key sees what the packet bound, which are
/// named Tags only.
#[test]
fn the_packet_s_temporary_tags_are_unbound_for_the_key() {
    let model = |count, key_tag, constraints: &[Vec<u8>]| {
        counted_model(
            count,
            0,
            &[
                node(0, None, &[value_edge(1, "p"), value_edge(2, "k")]),
                node(1, Some(0), &[pattern_edge(3, 1, &[])]),
                node(2, Some(0), &[pattern_edge(4, key_tag, constraints)]),
                node(3, Some(1), &[pattern_edge(5, 2, &[])]),
                node(4, Some(2), &[]),
                node(5, Some(3), &[signer(4)]),
            ],
        )
    };
    let with_key = |model: &[u8], key: &str| signed(model, "/p/x/y", key);
    let allowed = "allowed 5 4";
    assert_eq!(with_key(&model(2, 2, &[]), "/k/z"), "not allowed");
    assert_eq!(with_key(&model(2, 2, &[]), "/k/y"), allowed);
    assert_eq!(with_key(&model(1, 2, &[]), "/k/z"), allowed);
    assert_eq!(with_key(&model(1, 2, &[]), "/k/y"), allowed);
    assert_eq!(with_key(&model(1, 1, &[]), "/k/z"), "not allowed");
    assert_eq!(with_key(&model(1, 1, &[]), "/k/x"), allowed);
    for (first, second) in naming(1).into_iter().zip(naming(2)) {
        let (first, second) = ([constraint(&[first])], [constraint(&[second])]);
        assert_eq!(with_key(&model(1, 3, &first), "/k/x"), allowed);
        assert_eq!(with_key(&model(1, 3, &second), "/k/y"), "not allowed");
        assert_eq!(with_key(&model(2, 3, &second), "/k/y"), allowed);
        assert_eq!(with_key(&model(0, 3, &first), "/k/x"), "not allowed");
    }
}

/// The order of edges is that of the file, temporary ones among them.
#[test]
fn temporary_edges_keep_their_place() {
    let with_order = |first, second| {
        let edges = [pattern_edge(1, first, &[]), pattern_edge(2, second, &[])];
        let parts = [&[value_edge(3, "v")][..], &edges].concat();
        let child = |id| node(id, Some(0), &[]);
        counted_model(1, 0, &[node(0, None, &parts), child(1), child(2), child(3)])
    };
    assert_eq!(answer(&with_order(1, 2), "/a"), "match 1 1");
    assert_eq!(answer(&with_order(2, 1), "/a"), "match 1 0");
    assert_eq!(answer(&with_order(2, 1), "/v"), "match 3 0");
}

/// Nothing but a walk reads the count.
#[test]
fn verdict_and_description_do_not_depend_on_the_count() {
    for count in [0, 1, 128, 129, u64::MAX] {
        let parts = [
            node(0, None, &[pattern_edge(1, 2, &[])]),
            node(1, Some(0), &[]),
            tag_symbol(2, "temporary"),
        ];
        let model = counted_model(count, 0, &parts);
        assert_eq!(verdict(&model).to_string(), "accepted 2");
        let mut numbers = [0; 64];
        let described = describe(&model, &mut numbers, &mut [0; 64]).to_string();
        assert!(described.starts_with("described "));
        assert_eq!(numbers[..2], [0, count]);
        let bad_tag = [node(0, Some(0), &[pattern_edge(0, 129, &[])])];
        let model = counted_model(count, 0, &bad_tag);
        assert_eq!(verdict(&model).to_string(), "refused 5 0");
    }
}
