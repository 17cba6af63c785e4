//! Each refusal number, its node and the order of the tests.

mod build;

use std::collections::BTreeSet;

use build::*;
use lvs_reference::{match_name, verdict};

type Faults = BTreeSet<u8>;

/// A model of five nodes, the last two of them children of node 2, with the given
/// faults; those that stand in a node are in node 2, save that of the start.
fn model_with(faults: &Faults) -> Vec<u8> {
    let has = |number: u8| faults.contains(&number);
    let mut options = vec![element(0x41, &value("a"))];
    if has(10) {
        options.push(element(0x41, &[value("a"), tag(1)].concat()));
    }
    if has(12) {
        options.push(element(0x41, &call("$unknown", &[])));
    }
    let edge_tag = if has(5) { 129 } else { 3 };
    let mut edges = vec![
        pattern_edge(3, edge_tag, &[element(0x43, &options.concat())]),
        pattern_edge(if has(8) { 999 } else { 4 }, 4, &[]),
    ];
    if has(14) {
        edges.push(pattern_edge(3, 5, &[]));
    }
    let node_2 = [edges.concat(), signer(if has(9) { 999 } else { 0 })];
    let mut nodes = vec![
        node(0, has(13).then_some(0), &[pattern_edge(1, 1, &[])]),
        node(1, Some(0), &[pattern_edge(2, 2, &[])]),
        node(if has(6) { 3 } else { 2 }, Some(1), &node_2),
        node(3, if has(11) { None } else { Some(2) }, &[]),
        node(4, Some(2), &[]),
    ];
    if has(4) {
        nodes.extend((5..257).map(|id| node(id, None, &[])));
    }
    if has(2) {
        nodes.push(hex("81 00"));
    }
    let version = if has(3) { VERSION + 1 } else { VERSION };
    let start = if has(7) { 999 } else { 0 };
    let mut bytes = [head(version, start, ALL_NAMED), nodes.concat()].concat();
    if has(1) {
        bytes.extend(element(0x80, &[0; 32_768]));
    }
    bytes
}

fn judged(model: &[u8]) -> String {
    verdict(model).to_string()
}

#[test]
fn without_a_fault_the_model_is_accepted() {
    assert_eq!(judged(&model_with(&Faults::new())), "accepted 5");
}

#[test]
fn each_fault_alone() {
    for number in 1..=14 {
        let bytes = model_with(&Faults::from([number]));
        let index = match number {
            2 => bytes.len() - 2, // the critical element is the last one
            6 | 8..=12 | 14 => 2,
            _ => 0,
        };
        assert_eq!(judged(&bytes), format!("refused {number} {index}"));
    }
}

/// The order in which two faults are tested: 1 first; then 3 before 2, since
/// the malformed element stands behind Version.
#[test]
fn of_two_faults_the_earlier_is_named() {
    let order = [1, 3, 2, 4, 5, 6, 7, 8, 9, 10, 11, 12, 13, 14];
    for (rank, &first) in order.iter().enumerate() {
        for &second in &order[rank + 1..] {
            let bytes = model_with(&Faults::from([first, second]));
            let answer = judged(&bytes);
            assert!(
                answer.starts_with(&format!("refused {first} ")),
                "{first} {second}: {answer}"
            );
        }
    }
}

#[test]
fn the_first_node_at_fault_is_named() {
    let edge = || value_edge(9, "a");
    let bytes = model(
        0,
        &[
            node(0, None, &[]),
            node(1, None, &[edge()]),
            node(2, None, &[edge()]),
        ],
    );
    assert_eq!(judged(&bytes), "refused 8 1");
    let swapped = model(
        0,
        &[node(0, None, &[]), node(2, None, &[]), node(1, None, &[])],
    );
    assert_eq!(judged(&swapped), "refused 6 1");
}

#[test]
fn a_fault_before_or_in_version_is_malformed() {
    let behind_version = &hex(MODEL_A)[6..];
    let with_start = |start: &str| judged(&[&hex(start)[..], behind_version].concat());
    assert_eq!(with_start("80 00 61 04 00 01 10 00"), "accepted 1");
    assert_eq!(with_start("80 00 61 04 00 01 10 01"), "refused 3 0");
    assert_eq!(with_start("81 00 61 04 00 01 10 01"), "refused 2 0");
    assert_eq!(with_start("1E 00 61 04 00 01 10 01"), "refused 2 0");
    assert_eq!(with_start("FD 00 80 00 61 04 00 01 10 01"), "refused 2 0");
    assert_eq!(with_start("25 01 00 61 04 00 01 10 01"), "refused 2 0");
    assert_eq!(with_start("61 FD 00 04 00 01 10 01"), "refused 2 0");
    assert_eq!(with_start("61 02 10 01"), "refused 2 0");
    assert_eq!(with_start("61 08 00 00 00 00 00 01 10 00"), "refused 2 0");
    assert_eq!(with_start(""), "refused 2 0");
    assert_eq!(judged(&hex("61 04 00 01 10")), "refused 2 0");
    assert_eq!(judged(&hex("61 04 00 01 10 01")), "refused 3 0");
    assert_eq!(judged(&hex("61 04 00 01 10 01 00 FF FF")), "refused 3 0");
    assert_eq!(judged(&[]), "refused 2 0");
}

/// Model A with its Node replaced by these elements.
fn with_parts(parts: &str) -> String {
    judged(&[&hex(MODEL_A)[..12], &hex(parts)].concat())
}

#[test]
fn order_inside_the_model_and_its_nodes() {
    assert_eq!(
        with_parts("63 03 25 01 00 67 06 23 01 01 29 01 61"),
        "accepted 1"
    );
    assert_eq!(
        with_parts("67 06 23 01 01 29 01 61 63 03 25 01 00"),
        "refused 2 20"
    );
    assert_eq!(with_parts("63 03 25 01 00 67 03 23 01 01"), "refused 2 22");
    assert_eq!(
        with_parts("63 03 25 01 00 67 07 23 01 01 29 02 23 61"),
        "refused 2 22"
    );
    assert_eq!(with_parts("63 00"), "refused 2 14");
    assert_eq!(with_parts("63 03 57 01 00"), "refused 2 14");
    assert_eq!(with_parts("63 06 25 01 00 25 01 00"), "refused 2 17");
    assert_eq!(with_parts("63 06 25 01 00 57 01 00"), "refused 13 0");
    assert_eq!(
        with_parts("63 03 25 01 00 63 06 25 01 01 57 01 00"),
        "accepted 2"
    );
    assert_eq!(
        with_parts("63 09 25 01 00 57 01 00 57 01 00"),
        "refused 2 20"
    );
    assert_eq!(
        with_parts("63 0A 25 01 00 55 01 00 29 02 23 61"),
        "refused 2 20"
    );
    assert_eq!(
        with_parts("63 0A 25 01 00 29 02 23 61 55 01 00"),
        "accepted 1"
    );
    assert_eq!(
        with_parts("63 03 25 01 00 61 04 00 01 10 00"),
        "refused 2 17"
    );
}

#[test]
fn identifiers_keep_their_form() {
    let with_rule = |text: &str| judged(&model(0, &[node(0, None, &[rule_name(text)])]));
    let with_symbol = |text: &str| judged(&model(0, &[node(0, None, &[]), tag_symbol(1, text)]));
    assert_eq!(with_rule("#_a9"), "accepted 1");
    assert_eq!(with_symbol("_a9"), "accepted 1");
    for text in ["", "#", "a", "#9", "#a-b", "$a"] {
        assert_eq!(with_rule(text), "refused 2 17", "{text}");
    }
    for text in ["", "#a", "9", "a/"] {
        assert_eq!(with_symbol(text), "refused 2 22", "{text}");
    }
}

#[test]
fn tags_of_symbols_are_tested() {
    let with_tag = |tag| judged(&model(0, &[node(0, None, &[]), tag_symbol(tag, "a")]));
    assert_eq!(with_tag(128), "accepted 1");
    assert_eq!(with_tag(129), "refused 5 0");
    assert_eq!(with_tag(0), "refused 5 0");
}

#[test]
fn all_64_bits_of_a_number_count() {
    let high = 1 << 32;
    let edge = |destination| value_edge(destination, "a");
    // node 1 is away from the start, and its own parent
    let beside_start = |parent: u64, parts: &[Vec<u8>]| {
        judged(&model(
            0,
            &[node(0, None, &[]), node(1, Some(parent), parts)],
        ))
    };
    assert_eq!(judged(&model(high, &[node(0, None, &[])])), "refused 7 0");
    assert_eq!(judged(&model(0, &[node(high, None, &[])])), "refused 6 0");
    assert_eq!(beside_start(1, &[edge(1)]), "accepted 2");
    assert_eq!(beside_start(1, &[edge(high + 1)]), "refused 8 1");
    assert_eq!(beside_start(high + 1, &[edge(1)]), "refused 11 1");
    assert_eq!(
        judged(&model(0, &[node(0, None, &[signer(high)])])),
        "refused 9 0"
    );
    assert_eq!(beside_start(high, &[]), "accepted 2");
    assert_eq!(
        judged(&model(0, &[node(0, Some(high), &[])])),
        "refused 13 0"
    );
}

#[test]
fn integers_of_all_widths() {
    assert_eq!(with_parts("63 04 25 02 00 00"), "accepted 1");
    assert_eq!(with_parts("63 06 25 04 00 00 00 00"), "accepted 1");
    assert_eq!(
        with_parts("63 0A 25 08 00 00 00 00 00 00 00 00"),
        "accepted 1"
    );
    assert_eq!(
        with_parts("63 0A 25 08 00 00 00 01 00 00 00 00"),
        "refused 6 0"
    );
    assert_eq!(with_parts("63 05 25 03 00 00 00"), "refused 2 14");
    assert_eq!(with_parts("63 02 25 00"), "refused 2 14");
}

/// A model with a PatternEdge from node 0 to node 1, and this in the edge.
fn with_edge_parts(parts: &[u8]) -> String {
    let edge = element(0x53, &[integer(0x25, 1), tag(1), parts.to_vec()].concat());
    judged(&model(0, &[node(0, None, &[edge]), node(1, Some(0), &[])]))
}

fn with_option(inside: &[u8]) -> String {
    with_edge_parts(&element(0x43, &element(0x41, inside)))
}

#[test]
fn options_calls_and_arguments() {
    let argument = |inside: &[u8]| {
        let function = element(0x27, b"$eq");
        with_option(&element(0x31, &[function, element(0x33, inside)].concat()))
    };
    assert_eq!(with_edge_parts(&element(0x43, &[])), "accepted 2");
    assert_eq!(with_edge_parts(&element(0x41, &[])), "refused 2 25");
    assert_eq!(with_edge_parts(&element(0x43, &value("a"))), "refused 2 27");
    assert_eq!(with_option(&[]), "refused 10 0");
    assert_eq!(with_option(&hex("80 00")), "refused 10 0");
    assert_eq!(with_option(&hex("81 00")), "refused 2 29");
    assert_eq!(
        with_option(&[value("a"), value("a")].concat()),
        "refused 10 0"
    );
    assert_eq!(
        with_option(&[tag(1), value("a"), tag(0)].concat()),
        "refused 5 0"
    );
    assert_eq!(with_option(&element(0x43, &[])), "refused 2 29");
    assert_eq!(with_option(&element(0x31, &[])), "refused 2 31");
    assert_eq!(with_option(&call("eq", &[value("a")])), "refused 2 31");
    assert_eq!(with_option(&call("$", &[])), "refused 2 31");
    assert_eq!(with_option(&call("$eq", &[])), "refused 12 0");
    assert_eq!(with_option(&call("$eq", &[tag(1)])), "accepted 2");
    assert_eq!(with_option(&call("$eq", &[tag(1), tag(1)])), "refused 12 0");
    assert_eq!(with_option(&call("$eq", &[tag(129)])), "refused 5 0");
    assert_eq!(with_option(&call("$isValidID", &[])), "accepted 2");
    assert_eq!(
        with_option(&call("$isValidYear", &[value("a")])),
        "refused 12 0"
    );
    assert_eq!(argument(&[]), "refused 2 38");
    assert_eq!(argument(&[value("a"), tag(1)].concat()), "refused 2 43");
    assert_eq!(argument(&call("$isValidID", &[])), "refused 2 38");
    assert_eq!(
        argument(&[hex("80 00"), value("a"), hex("20 00")].concat()),
        "accepted 2"
    );
}

#[test]
fn values_hold_one_component_of_16_bits() {
    assert_eq!(
        with_option(&element(0x21, &hex("FD FF FF 00"))),
        "accepted 2"
    );
    assert_eq!(
        with_option(&element(0x21, &hex("FE 00 01 00 00 00"))),
        "refused 2 31"
    );
    assert_eq!(with_option(&element(0x21, &hex("21 00"))), "accepted 2");
    assert_eq!(
        with_option(&element(0x21, &hex("08 00 80 00"))),
        "refused 2 33"
    );
    assert_eq!(with_option(&element(0x21, &hex("80 00"))), "accepted 2");
    assert_eq!(with_option(&element(0x21, &[])), "refused 2 31");
}

#[test]
fn optional_elements_stand_in_containers_only() {
    assert_eq!(with_parts("63 03 25 01 00 22 02 00 00"), "accepted 1");
    assert_eq!(with_parts("63 03 25 01 00 22 02 00"), "refused 2 17");
    assert_eq!(with_parts("63 05 20 00 25 01 00"), "accepted 1");
    assert_eq!(with_parts("63 05 1E 00 25 01 00"), "refused 2 14");
    assert_eq!(with_parts("63 05 25 03 80 00 00"), "refused 2 14");
    assert_eq!(
        with_parts("63 05 25 01 00 80 01 63 03 25 01 01"),
        "refused 2 17"
    );
}

#[test]
fn the_calls_test_model_then_names_then_buffer() {
    let bad_model = hex("00");
    let good_model = hex(MODEL_B);
    let long = vec![0; 1_025];
    let malformed = hex("07 01");
    let good = hex(NAME_A);
    let match_with = |model: &[u8], name: &[u8], words: usize| {
        let mut buffer = vec![7; words];
        let answer = match_name(model, name, &mut buffer).to_string();
        assert_eq!(buffer, vec![7; words]);
        answer
    };
    assert_eq!(match_with(&bad_model, &long, 0), "refused 2 0");
    assert_eq!(match_with(&good_model, &long, 0), "refused 21 0");
    assert_eq!(match_with(&good_model, &malformed, 0), "refused 22 0");
    assert_eq!(
        match_with(&good_model, &name(&"/a".repeat(33)), 0),
        "refused 23 0"
    );
    assert_eq!(match_with(&good_model, &good, 0), "refused 27 0");
    let signed = |model: &[u8], packet: &[u8], key: &[u8]| sign(model, packet, key).to_string();
    assert_eq!(signed(&bad_model, &long, &long), "refused 2 0");
    assert_eq!(
        signed(&good_model, &name(&"/a".repeat(33)), &long),
        "refused 23 0"
    );
    assert_eq!(signed(&good_model, &good, &long), "refused 24 0");
    assert_eq!(signed(&good_model, &good, &malformed), "refused 25 0");
    assert_eq!(
        signed(&good_model, &name("/a/b"), &name(&"/a".repeat(33))),
        "refused 26 0"
    );
}
