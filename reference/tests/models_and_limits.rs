//! The bench models of document 01, and its limits.

mod build;

use build::*;
use lvs_reference::{match_name, verdict, MatchAnswer, SignAnswer, Verdict};

const ALLOWED_1_1: SignAnswer = SignAnswer::Allowed { packet: 1, key: 1 };

fn judged(model: &[u8]) -> String {
    verdict(model).to_string()
}

/// The match call's answer, and its buffer of 384 words that were all 9.
fn matched(model: &[u8], name: &[u8]) -> (MatchAnswer, Vec<u32>) {
    let mut words = vec![9; 384];
    let answer = match_name(model, name, &mut words);
    (answer, words)
}

#[test]
fn model_a() {
    let model = hex(MODEL_A);
    let empty = hex(EMPTY_NAME);
    assert_eq!(verdict(&model), Verdict::Accepted(1));
    assert_eq!(
        matched(&model, &empty),
        (MatchAnswer::Match { node: 0, bound: 0 }, vec![0; 384])
    );
    assert_eq!(sign(&model, &empty, &empty), SignAnswer::NotAllowed);
}

fn assert_answers_of_b(model: &[u8]) {
    let (a, b, empty) = (hex(NAME_A), hex(NAME_B), hex(EMPTY_NAME));
    assert_eq!(verdict(model), Verdict::Accepted(2));
    let mut words = vec![0; 384];
    words[..3].copy_from_slice(&[2, 3, 1]);
    assert_eq!(
        matched(model, &a),
        (MatchAnswer::Match { node: 1, bound: 1 }, words)
    );
    assert_eq!(sign(model, &a, &a), ALLOWED_1_1);
    assert_eq!(sign(model, &a, &b), SignAnswer::NotAllowed);
    assert_eq!(sign(model, &a, &empty), SignAnswer::NotAllowed);
    assert_eq!(sign(model, &a, &hex("07 01")).to_string(), "refused 25 0");
}

#[test]
fn model_b() {
    assert_answers_of_b(&hex(MODEL_B));
}

/// Model B with an element after its first NodeId.
fn model_b_with(kind: u8) -> Vec<u8> {
    let mut model = hex(MODEL_B);
    model[13] = 0x0D;
    model.splice(17..17, [kind, 0]);
    model
}

#[test]
fn model_b_with_an_optional_and_a_critical_element() {
    assert_answers_of_b(&model_b_with(0x80));
    let model = model_b_with(0x81);
    assert_eq!(judged(&model), "refused 2 17");
    let (answer, words) = matched(&model, &hex(NAME_A));
    assert_eq!(answer.to_string(), "refused 2 17");
    assert_eq!(words, [9; 384]);
    assert_eq!(
        sign(&model, &hex(NAME_A), &hex(NAME_A)).to_string(),
        "refused 2 17"
    );
}

#[test]
fn model_a_altered() {
    let mut cut = hex(MODEL_A);
    cut.pop();
    assert_eq!(judged(&cut), "refused 2 12");
    cut[5] = 1;
    assert_eq!(judged(&cut), "refused 3 0");
    let mut other_start = hex(MODEL_A);
    other_start[8] = 1;
    assert_eq!(judged(&other_start), "refused 7 0");
    assert_eq!(judged(&hex(MODEL_A)[..12]), "refused 7 0");
}

#[test]
fn model_b_with_parent_1() {
    let mut model = hex(MODEL_B);
    let last = model.len();
    model[last - 4] = 1;
    assert_eq!(judged(&model), "refused 11 0");
}

#[test]
fn nodes_256_and_257() {
    let nodes = |count: u64| (0..count).map(|id| node(id, None, &[])).collect::<Vec<_>>();
    assert_eq!(judged(&model(255, &nodes(256))), "accepted 256");
    assert_eq!(judged(&model(255, &nodes(257))), "refused 4 0");
}

#[test]
fn tags_128_and_129() {
    let with_tag = |tag| model(0, &chain(2, |to| pattern_edge(to, tag, &[]), &[]));
    let (answer, words) = matched(&with_tag(128), &name("/a"));
    assert_eq!(answer, MatchAnswer::Match { node: 1, bound: 1 });
    assert_eq!(
        (words[..381].iter().sum::<u32>(), &words[381..]),
        (0, &[2, 3, 1][..])
    );
    assert_eq!(judged(&with_tag(129)), "refused 5 0");
    assert_eq!(judged(&with_tag(0)), "refused 5 0");
    assert_eq!(judged(&with_tag((1 << 32) + 1)), "refused 5 0");
}

/// A chain of 34 nodes, one more than the longest name needs, by the component `a`;
/// the nodes at 32 and 33 sign.
fn long_model() -> Vec<u8> {
    let signers = [signer(32), signer(33)];
    model(0, &chain(34, |to| value_edge(to, "a"), &signers))
}

#[test]
fn components_32_and_33() {
    let (good, bad) = (name(&"/a".repeat(32)), name(&"/a".repeat(33)));
    let model = long_model();
    assert_eq!(verdict(&model), Verdict::Accepted(34));
    assert_eq!(
        matched(&model, &good).0,
        MatchAnswer::Match { node: 32, bound: 0 }
    );
    assert_eq!(matched(&model, &bad).0.to_string(), "refused 23 0");
    let both = SignAnswer::Allowed {
        packet: 32,
        key: 32,
    };
    assert_eq!(sign(&model, &good, &good), both);
    assert_eq!(sign(&model, &bad, &bad).to_string(), "refused 23 0");
    assert_eq!(sign(&model, &good, &bad).to_string(), "refused 26 0");
}

/// One node that is left and reached by the component `a` had been walked through.
#[test]
fn a_start_that_leads_to_itself() {
    let looping = model(0, &[node(0, Some(0), &[value_edge(0, "a"), signer(0)])]);
    let names = name(&"/a".repeat(32));
    assert_eq!(judged(&looping), "refused 13 0");
    assert_eq!(matched(&looping, &names).0.to_string(), "refused 13 0");
    assert_eq!(sign(&looping, &names, &names).to_string(), "refused 13 0");
}

#[test]
fn words_383_and_384() {
    let model = hex(MODEL_B);
    let mut short = vec![9; 383];
    assert_eq!(
        match_name(&model, &hex(NAME_A), &mut short).to_string(),
        "refused 27 0"
    );
    assert_eq!(short, [9; 383]);
    let mut long = vec![9; 386];
    assert_eq!(
        match_name(&model, &hex(NAME_A), &mut long).to_string(),
        "match 1 1"
    );
    assert_eq!((&long[..4], &long[384..]), (&[2, 3, 1, 0][..], &[9, 9][..]));
    assert_eq!(
        matched(&model, &name("/a/b")),
        (MatchAnswer::NoMatch, vec![9; 384])
    );
}

#[test]
fn bytes_32768_and_32769() {
    let padded = |total: usize| {
        let start = hex(MODEL_B);
        let padding = element(0x80, &vec![0; total - start.len() - 4]);
        [start, padding].concat()
    };
    assert_eq!(padded(32_768).len(), 32_768);
    assert_answers_of_b(&padded(32_768));
    assert_eq!(judged(&padded(32_769)), "refused 1 0");
    assert_eq!(judged(&vec![0; 32_769]), "refused 1 0");
    assert_eq!(judged(&vec![0; 32_768]), "refused 2 0");
}

#[test]
fn names_of_1024_and_1025_bytes() {
    let of_length = |total: usize| {
        let name = element(7, &element(8, &vec![b'x'; total - 8]));
        assert_eq!(name.len(), total);
        name
    };
    let model = hex(MODEL_B);
    let (good, bad) = (of_length(1_024), of_length(1_025));
    let (answer, words) = matched(&model, &good);
    assert_eq!(answer, MatchAnswer::Match { node: 1, bound: 1 });
    assert_eq!(words[..3], [4, 1_020, 1]);
    assert_eq!(matched(&model, &bad).0.to_string(), "refused 21 0");
    assert_eq!(
        matched(&model, &vec![0; 1_025]).0.to_string(),
        "refused 21 0"
    );
    assert_eq!(sign(&model, &good, &good), ALLOWED_1_1);
    assert_eq!(sign(&model, &good, &bad).to_string(), "refused 24 0");
}
