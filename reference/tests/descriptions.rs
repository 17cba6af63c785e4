//! The writing and the describing call: the layout of the lists, the bytes, the
//! refusals and their order.

mod build;

use build::*;
use lvs_reference::description::Lists;
use lvs_reference::{describe, verdict, write_model};

const KEPT: u8 = 0xA5;

/// The answer of a writing call with so many bytes of room, and the bytes.
fn written_into(room: usize, numbers: &[u64], texts: &[u8]) -> (String, Vec<u8>) {
    let mut output = vec![KEPT; room];
    let answer = write_model(numbers, texts, &mut output).to_string();
    (answer, output)
}

fn written(numbers: &[u64], texts: &[u8]) -> (String, Vec<u8>) {
    let (answer, mut output) = written_into(70_000, numbers, texts);
    let length = match answer.strip_prefix("written ") {
        Some(length) => length.parse().unwrap(),
        None => 0,
    };
    assert!(output[length..].iter().all(|&byte| byte == KEPT));
    output.truncate(length);
    (answer, output)
}

/// The answer of a writing call that refuses and keeps its output.
fn refused(numbers: &[u64], texts: &[u8]) -> String {
    let (answer, output) = written(numbers, texts);
    assert!(output.is_empty(), "{answer}");
    answer
}

/// The description of an accepted model.
fn described(model: &[u8]) -> Lists {
    let (mut numbers, mut texts) = (vec![7; 8_192], vec![KEPT; 65_536]);
    let answer = describe(model, &mut numbers, &mut texts).to_string();
    let words: Vec<&str> = answer.split(' ').collect();
    let &["described", count, bytes] = &words[..] else {
        panic!("{answer}");
    };
    let (count, bytes) = (count.parse().unwrap(), bytes.parse().unwrap());
    assert!(numbers[count..].iter().all(|&number| number == 7));
    assert!(texts[bytes..].iter().all(|&byte| byte == KEPT));
    numbers.truncate(count);
    texts.truncate(bytes);
    Lists { numbers, texts }
}

fn assert_describes(numbers: &[u64], texts: &[u8], model: &[u8]) {
    let expected = format!("written {}", model.len());
    assert_eq!(written(numbers, texts), (expected, model.to_vec()));
    let Lists {
        numbers: found,
        texts: found_texts,
    } = described(model);
    assert_eq!((&found[..], &found_texts[..]), (numbers, texts));
}

const B: [u64; 21] = [
    0, 1, 2, // start, pattern count, two nodes
    0, 0, 0, 0, 1, 1, 1, 0, 0, // node 0: an edge to 1 by tag 1
    1, 1, 0, 0, 0, 0, 1, 1, // node 1: parent 0, signer 1
    0,
];

#[test]
fn models_a_and_b() {
    assert_describes(&[0, 0, 1, 0, 0, 0, 0, 0, 0, 0], b"", &hex(MODEL_A));
    assert_describes(&B, b"", &hex(MODEL_B));
}

/// A description with everything that there is.
fn full() -> (Vec<u64>, Vec<u8>, Vec<u8>) {
    let numbers = [
        &[3, 300, 4][..],
        // node 0: parent 1, two rule names, a ValueEdge to 1
        &[0, 1, 1, 2, 2, 4, 1, 1, 253, 3],
        // its PatternEdge to 2 by tag 128 with two Constraints, one of them empty
        &[1, 2, 128, 2, 0, 5],
        // options: a Value, a Tag, and three calls
        &[1, 0, 8, 1, 1, 1, 2],
        &[1, 2, 3, 1, 0, 32, 2, 1, 2, 8, 1, 1, 5, 1, 2, 10, 0],
        // its signers
        &[2, 1, 0],
        // node 1, node 2, and the start, which has no parent
        &[1, 1, 0, 0, 0, 0, 0],
        &[2, 1, 0, 0, 0, 0, 0],
        &[3, 0, 0, 0, 0, 0],
        // symbols
        &[2, 9, 4, 128, 1],
    ]
    .concat();
    let texts = b"#a#b_9xyzv$eqpq$eq_type$isValidIDnames";
    let calls = [
        call("$eq", &[element(0x21, &element(32, b"pq"))]),
        call("$eq_type", &[tag(5)]),
        call("$isValidID", &[]),
    ];
    let options = [&[value("v"), tag(2)][..], &calls].concat();
    let edges = [
        element(
            0x51,
            &[integer(0x25, 1), element(0x21, &element(253, b"xyz"))].concat(),
        ),
        pattern_edge(2, 128, &[constraint(&[]), constraint(&options)]),
    ];
    let parts = [
        &[rule_name("#a"), rule_name("#b_9")][..],
        &edges,
        &[signer(1), signer(0)],
    ]
    .concat();
    let model = [
        element(0x61, &VERSION.to_be_bytes()),
        integer(0x25, 3),
        integer(0x69, 300),
        node(0, Some(1), &parts),
        node(1, Some(0), &[]),
        node(2, Some(0), &[]),
        node(3, None, &[]),
        tag_symbol(9, "name"),
        tag_symbol(128, "s"),
    ]
    .concat();
    (numbers, texts.to_vec(), model)
}

#[test]
fn a_description_with_everything() {
    let (numbers, texts, model) = full();
    assert_eq!(verdict(&model).to_string(), "accepted 4");
    assert_describes(&numbers, &texts, &model);
}

#[test]
fn integers_are_read_in_any_width_and_written_in_the_shortest() {
    let wide = hex(
        "61 04 00 01 10 00 25 08 00 00 00 00 00 00 00 00 69 04 00 00 00 07 \
         80 00 63 04 25 02 00 00",
    );
    let numbers = [0, 7, 1, 0, 0, 0, 0, 0, 0, 0];
    assert_eq!(described(&wide).numbers, numbers);
    let narrow = hex("61 04 00 01 10 00 25 01 00 69 01 07 63 03 25 01 00");
    assert_eq!(written(&numbers, b""), ("written 17".into(), narrow));
}

#[test]
fn integers_at_the_borders_of_the_widths() {
    for number in [
        0,
        255,
        256,
        65_535,
        65_536,
        (1 << 32) - 1,
        1 << 32,
        u64::MAX,
    ] {
        let numbers = [
            &[1, number, 2][..],
            &[0, 1, number, 0, 0, 0, 0],
            &bare_node(1),
            &[0],
        ];
        let numbers = numbers.concat();
        let model = [
            element(0x61, &VERSION.to_be_bytes()),
            integer(0x25, 1),
            integer(0x69, number),
            node(0, Some(number), &[]),
            node(1, None, &[]),
        ];
        assert_describes(&numbers, b"", &model.concat());
    }
}

/// What a node holds, with a text of this length somewhere in it: the numbers
/// behind its Parent, the texts, the elements.
fn with_text(length: usize) -> [(Vec<u64>, Vec<u8>, Vec<u8>); 4] {
    let text = vec![b'n'; length];
    let value = element(0x21, &element(8, &text));
    let edge = |term: Vec<u8>| pattern_edge(0, 1, &[constraint(&[term])]);
    let value_edge = element(0x51, &[integer(0x25, 0), value.clone()].concat());
    let name = [b"#", &text[..]].concat();
    let of_call = [b"$eq", &text[..]].concat();
    let length = length as u64;
    [
        (
            vec![1, length + 1, 0, 0, 0],
            name.clone(),
            element(0x29, &name),
        ),
        (vec![0, 1, 0, 8, length, 0, 0], text.clone(), value_edge),
        (
            vec![0, 0, 1, 0, 1, 1, 1, 1, 0, 8, length, 0],
            text,
            edge(value.clone()),
        ),
        (
            vec![0, 0, 1, 0, 1, 1, 1, 1, 2, 3, 1, 0, 8, length, 0],
            of_call,
            edge(call("$eq", &[value])),
        ),
    ]
}

#[test]
fn lengths_at_the_borders_of_the_forms() {
    for length in (200..260).chain([32_000]) {
        for (parts, texts, elements) in with_text(length) {
            let numbers = [&[1, 0, 2, 0, 1, 0][..], &parts, &bare_node(1), &[0]].concat();
            let nodes = [node(0, Some(0), &[elements]), node(1, None, &[])];
            let expected = counted_model(0, 1, &nodes);
            assert_describes(&numbers, &texts, &expected);
        }
    }
}

#[test]
fn lists_that_are_cut_or_go_on_form_no_description() {
    let (numbers, texts, _) = full();
    for end in 0..numbers.len() {
        assert_eq!(refused(&numbers[..end], &texts), "refused 30 0", "{end}");
    }
    for end in 0..texts.len() {
        assert_eq!(refused(&numbers, &texts[..end]), "refused 30 0", "{end}");
    }
    for more in [0, 1, u64::MAX] {
        let longer = [&numbers[..], &[more]].concat();
        assert_eq!(refused(&longer, &texts), "refused 30 0");
    }
    let longer = [&texts[..], b"a"].concat();
    assert_eq!(refused(&numbers, &longer), "refused 30 0");
    assert_eq!(refused(&[], b""), "refused 30 0");
}

#[test]
fn kinds_and_flags_have_no_other_numbers() {
    let one_term = |kind: u64, rest: &[u64]| {
        // node 0 leads to itself, and isn't the start
        let head = [1, 0, 2, 0, 1, 0, 0, 0, 1, 0, 1, 1, 1, 1, kind];
        [&head[..], rest, &[0], &bare_node(1), &[0]].concat()
    };
    assert_eq!(written(&one_term(1, &[1]), b"").0, "written 40");
    for kind in [3, 4, 256, 1 << 32, (1 << 32) + 1, u64::MAX] {
        assert_eq!(refused(&one_term(kind, &[1]), b""), "refused 30 0");
    }
    let one_argument = |kind: u64| one_term(2, &[3, 1, kind, 1]);
    assert_eq!(written(&one_argument(1), b"$eq").0, "written 49");
    for kind in [0, 2, 3, (1 << 32) + 1, u64::MAX] {
        assert_eq!(refused(&one_argument(kind), b"$eq"), "refused 30 0");
    }
    for flag in [2, 3, 256, 1 << 32, (1 << 32) + 1, u64::MAX] {
        let numbers = [0, 0, 1, 0, flag, 0, 0, 0, 0, 0, 0];
        assert_eq!(refused(&numbers, b""), "refused 30 0");
    }
}

/// Every number of the description in turn is made huge: counts, lengths, kinds
/// and flags make it none; nothing is made room for.
#[test]
fn huge_numbers() {
    const COUNTS: [usize; 16] = [2, 6, 9, 13, 16, 17, 18, 19, 23, 26, 29, 33, 36, 39, 42, 43];
    const COUNTS_OF_OTHER_NODES: [usize; 13] = [49, 50, 51, 52, 56, 57, 58, 59, 62, 63, 64, 65, 66];
    const LENGTHS: [usize; 10] = [7, 8, 12, 22, 28, 32, 35, 41, 68, 70];
    const KINDS_AND_FLAGS: [usize; 11] = [4, 20, 24, 27, 30, 34, 37, 40, 47, 54, 61];
    let counts = [&COUNTS[..], &COUNTS_OF_OTHER_NODES].concat();
    let shape = [&counts[..], &LENGTHS, &KINDS_AND_FLAGS].concat();
    let (numbers, texts, _) = full();
    for place in 0..numbers.len() {
        for huge in [1 << 32, numbers[place] + (1 << 32), 1 << 61, u64::MAX] {
            let mut changed = numbers.clone();
            changed[place] = huge;
            let (answer, _) = written(&changed, &texts);
            assert_eq!(
                answer == "refused 30 0",
                shape.contains(&place),
                "{place}: {answer}"
            );
        }
    }
}

/// A node with an edge to itself by a component of this type, and the start.
fn with_type(kind: u64) -> Vec<u64> {
    let looping = [0, 1, 0, 0, 1, 0, kind, 1, 0, 0];
    [&[1, 0, 2][..], &looping, &bare_node(1), &[0]].concat()
}

#[test]
fn types_of_components() {
    for kind in [1, 7, 8, 252, 253, 65_535] {
        let (answer, bytes) = written(&with_type(kind), b"v");
        assert!(answer.starts_with("written"), "{kind}");
        assert_eq!(described(&bytes).numbers, with_type(kind));
    }
    for kind in [
        0,
        65_536,
        65_544,
        (1 << 32) - 1,
        1 << 32,
        (1 << 32) + 8,
        u64::MAX,
    ] {
        assert_eq!(refused(&with_type(kind), b"v"), "refused 2 27", "{kind}");
    }
}

#[test]
fn texts_that_are_no_names() {
    let rule_name = |text: &[u8]| refused(&[0, 0, 1, 0, 0, 1, text.len() as u64, 0, 0, 0, 0], text);
    for text in [&b""[..], b"#", b"a", b"$a", b"#9", b"##a", b"#a-"] {
        assert_eq!(rule_name(text), "refused 2 17");
    }
    let symbol = |text: &[u8]| refused(&[0, 0, 0, 1, 1, text.len() as u64], text);
    for text in [&b""[..], b"#a", b"9", b"a b"] {
        assert_eq!(symbol(text), "refused 2 17");
    }
    assert_eq!(symbol(b"a"), "refused 7 0");
    let function = |text: &[u8]| {
        let head = [0, 0, 1, 0, 1, 0, 0, 0, 1, 0, 1, 1, 1, 1, 2];
        refused(&[&head[..], &[text.len() as u64, 0, 0, 0]].concat(), text)
    };
    for text in [&b""[..], b"$", b"eq", b"#eq", b"$9"] {
        assert_eq!(function(text), "refused 2 34");
    }
    assert_eq!(function(b"$other"), "refused 12 0");
}

/// A node without parts.
fn bare_node(id: u64) -> Vec<u64> {
    vec![id, 0, 0, 0, 0, 0]
}

#[test]
fn refusals_with_their_nodes() {
    let model = |start: u64, nodes: &[Vec<u64>]| {
        let head = [start, 0, nodes.len() as u64];
        refused(&[&head[..], &nodes.concat(), &[0]].concat(), b"")
    };
    let many: Vec<Vec<u64>> = (0..257).map(bare_node).collect();
    let good = bare_node(0);
    let edge = |tag, to, rest: &[u64]| {
        let head = [1, 0, 0, 0, 1, to, tag];
        [&head[..], rest, &[0]].concat()
    };
    assert_eq!(model(0, &many), "refused 4 0");
    assert_eq!(model(0, &[good.clone(), edge(129, 0, &[0])]), "refused 5 0");
    assert_eq!(model(0, &[good.clone(), bare_node(256)]), "refused 6 1");
    assert_eq!(model(1, std::slice::from_ref(&good)), "refused 7 0");
    assert_eq!(model(0, &[good.clone(), edge(1, 2, &[0])]), "refused 8 1");
    let signed = vec![1, 0, 0, 0, 0, 1, 2];
    assert_eq!(model(0, &[good.clone(), signed]), "refused 9 1");
    let no_term = edge(1, 0, &[1, 1, 0]);
    assert_eq!(model(0, &[good.clone(), no_term]), "refused 10 1");
    let two_terms = edge(1, 0, &[1, 1, 2, 1, 1, 1, 2]);
    assert_eq!(model(0, &[good.clone(), two_terms]), "refused 10 1");
    assert_eq!(model(0, &[good.clone(), edge(1, 0, &[0])]), "refused 11 1");
    let child = |id: u64| vec![id, 1, 1, 0, 0, 0, 0];
    let parallel = vec![1, 0, 0, 0, 2, 2, 1, 0, 2, 2, 0, 0];
    assert_eq!(
        model(0, &[good.clone(), parallel.clone(), child(2)]),
        "refused 14 1"
    );
    assert_eq!(
        model(2, &[good.clone(), parallel, child(2)]),
        "refused 13 2"
    );
    assert_eq!(
        model(0, &[vec![0, 1, u64::MAX, 0, 0, 0, 0]]),
        "refused 13 0"
    );
    // an edge to the start by a function that isn't known
    let calling = [0, 1, 1, 0, 0, 1, 1, 1, 1, 1, 1, 2, 6, 0, 0];
    let start = [1, 1, 0, 0, 0, 0, 0];
    let numbers = [&[1, 0, 2][..], &calling, &start, &[0]].concat();
    assert_eq!(refused(&numbers, b"$other"), "refused 12 0");
}

#[test]
fn bytes_32768_and_32769() {
    let numbers = |length: u64| [0, 0, 1, 0, 0, 1, length, 0, 0, 0, 0];
    let text = |length: u64| [&b"#"[..], &vec![b'n'; length as usize - 1]].concat();
    let longest = 32_768 - 12 - 4 - 3 - 4;
    assert_eq!(
        written(&numbers(longest), &text(longest)).0,
        "written 32768"
    );
    let above = longest + 1;
    assert_eq!(refused(&numbers(above), &text(above)), "refused 1 0");
    let malformed = vec![0; above as usize];
    assert_eq!(refused(&numbers(above), &malformed), "refused 1 0");
    assert_eq!(refused(&numbers(above), &malformed[1..]), "refused 30 0");
    assert_eq!(refused(&numbers(65_536), &text(65_536)), "refused 1 0");
}

#[test]
fn room_for_the_output() {
    let (numbers, texts, model) = full();
    let length = model.len();
    for room in 0..length {
        let kept = vec![KEPT; room];
        let answer = written_into(room, &numbers, &texts);
        assert_eq!(answer, ("refused 31 0".into(), kept));
    }
    let expected = format!("written {length}");
    assert_eq!(
        written_into(length, &numbers, &texts),
        (expected.clone(), model.clone())
    );
    let longer = [&model[..], &[KEPT; 3]].concat();
    assert_eq!(
        written_into(length + 3, &numbers, &texts),
        (expected, longer)
    );
}

#[test]
fn refusals_of_the_description_go_before_the_output() {
    assert_eq!(written_into(0, &[], b"").0, "refused 30 0");
    assert_eq!(written_into(0, &with_type(0), b"v").0, "refused 2 27");
    assert_eq!(written_into(3, &[1, 0, 0, 0], b"").0, "refused 7 0");
    assert_eq!(written_into(0, &with_type(8), b"v").0, "refused 31 0");
}

#[test]
fn room_for_the_lists() {
    let (numbers, texts, model) = full();
    let call = |count: usize, bytes: usize| {
        let (mut lent, mut lent_texts) = (vec![7; count], vec![KEPT; bytes]);
        let answer = describe(&model, &mut lent, &mut lent_texts).to_string();
        (answer, lent, lent_texts)
    };
    let (count, bytes) = (numbers.len(), texts.len());
    let expected = format!("described {count} {bytes}");
    assert_eq!(
        call(count, bytes),
        (expected.clone(), numbers.clone(), texts.clone())
    );
    let longer = [&numbers[..], &[7, 7]].concat();
    let longer_texts = [&texts[..], &[KEPT]].concat();
    assert_eq!(call(count + 2, bytes + 1), (expected, longer, longer_texts));
    for (count, bytes) in [
        (count - 1, bytes),
        (count, bytes - 1),
        (count - 1, bytes + 9),
        (count + 9, bytes - 1),
        (0, bytes),
        (count, 0),
        (0, 0),
    ] {
        let kept = (vec![7; count], vec![KEPT; bytes]);
        assert_eq!(call(count, bytes), ("refused 30 0".into(), kept.0, kept.1));
    }
}

#[test]
fn refusals_of_the_model_go_before_the_lists() {
    let (mut none, mut no_texts): ([u64; 0], [u8; 0]) = ([], []);
    let mut call = |model: &[u8]| describe(model, &mut none, &mut no_texts).to_string();
    assert_eq!(call(&vec![0; 32_769]), "refused 1 0");
    assert_eq!(call(&[]), "refused 2 0");
    assert_eq!(call(&hex("61 04 00 01 10 01")), "refused 3 0");
    assert_eq!(call(&model(9, &[node(0, None, &[])])), "refused 7 0");
    let unsigned = node(1, None, &[signer(2)]);
    assert_eq!(
        call(&model(0, &[node(0, None, &[]), unsigned])),
        "refused 9 1"
    );
    assert_eq!(call(&hex(MODEL_A)), "refused 30 0");
}
