//! Generated cases with paths: what must hold of every answer, and that every
//! sort of path comes up.

mod build;

use std::collections::BTreeMap;
use std::ops::ControlFlow;

use build::{BINDING_ROOM, PATH_ROOM};
use lvs_reference::answers::visit_allowed;
use lvs_reference::cases::{Case, MAX_MODEL_FIELD, MAX_NAME_FIELD, MAX_PATH_WORDS, MAX_WORDS};
use lvs_reference::gen::{self, path_case};
use lvs_reference::model::Model;
use lvs_reference::names::{Name, Role};
use lvs_reference::verdict::load;
use lvs_reference::walk::{is_open, visit_matches, Bindings, Trace};
use lvs_reference::{follow, sign, FollowAnswer, SignAnswer};

const CASES: u64 = 10_000;

/// The fields of a case with a path.
struct Fields {
    model: Vec<u8>,
    packet: Vec<u8>,
    key: Vec<u8>,
    /// The binding buffer of a signing call.
    words: Option<Vec<u32>>,
    path: Vec<u16>,
}

impl Fields {
    fn of(case: Case) -> Option<Self> {
        match case {
            Case::Follow {
                model,
                packet,
                key,
                path,
            } => Some(Fields {
                model,
                packet,
                key,
                words: None,
                path,
            }),
            Case::Sign {
                model,
                packet,
                key,
                words,
                path,
            } => Some(Fields {
                model,
                packet,
                key,
                words: Some(words),
                path,
            }),
            _ => None,
        }
    }

    fn generated(seed: u64, index: u64) -> Self {
        Fields::of(path_case(seed, index)).expect("every case has a path")
    }

    fn follow(&self, path: &[u16]) -> FollowAnswer {
        follow(&self.model, &self.packet, &self.key, path)
    }

    /// The signing answer when there is room for the bindings.
    fn sign(&self, path: &mut [u16]) -> SignAnswer {
        self.sign_with(&mut [0; BINDING_ROOM], path)
    }

    fn sign_with(&self, words: &mut [u32], path: &mut [u16]) -> SignAnswer {
        sign(&self.model, &self.packet, &self.key, words, path)
    }

    /// The model and the names, if none of them is refused.
    fn load(&self) -> Option<(Model<'_>, Name<'_>, Name<'_>)> {
        let model = load(&self.model).ok()?;
        let packet = Name::load(&self.packet, Role::Packet).ok()?;
        let key = Name::load(&self.key, Role::Key).ok()?;
        Some((model, packet, key))
    }
}

/// The nodes and the path of a pair.
#[derive(Debug)]
struct Pair {
    packet: usize,
    key: usize,
    path: Vec<u16>,
}

/// All allowed pairs, in their order.
fn allowed_pairs<'n>(model: &Model, packet: &Name<'n>, key: &Name<'n>) -> Vec<Pair> {
    let mut pairs = Vec::new();
    let _ = visit_allowed::<()>(model, packet, key, &mut |pair| {
        pairs.push(Pair {
            packet: pair.packet,
            key: pair.key,
            path: pair.trace.path.clone(),
        });
        ControlFlow::Continue(())
    });
    pairs
}

#[test]
fn a_case_depends_on_seed_and_index_only() {
    let cases: Vec<Case> = (0..200).map(|index| path_case(5, index)).collect();
    for index in (0..200).rev() {
        assert_eq!(path_case(5, index), cases[index as usize]);
    }
    assert_ne!(path_case(6, 0), cases[0]);
}

#[test]
fn cases_fit_their_form() {
    for index in 0..CASES {
        let case = Fields::generated(8, index);
        assert!(case.model.len() <= MAX_MODEL_FIELD);
        assert!(case.packet.len() <= MAX_NAME_FIELD);
        assert!(case.key.len() <= MAX_NAME_FIELD);
        assert!(case.words.unwrap_or_default().len() <= MAX_WORDS);
        assert!(case.path.len() <= MAX_PATH_WORDS);
    }
}

/// The call that follows knows nothing of the search, and yet accepts the paths
/// that a search for all pairs comes upon, and no others.
#[test]
fn what_is_accepted_is_the_path_of_an_allowed_pair() {
    for index in 0..CASES {
        let case = Fields::generated(10, index);
        let Some((model, packet, key)) = case.load() else {
            let refusal = case.sign(&mut [0; PATH_ROOM]).to_string();
            assert_eq!(case.follow(&case.path).to_string(), refusal);
            continue;
        };
        let pairs = allowed_pairs(&model, &packet, &key);
        let is_among = pairs.iter().any(|pair| pair.path == case.path);
        let expected = match is_among {
            true => FollowAnswer::Accepted,
            false => FollowAnswer::No,
        };
        assert_eq!(case.follow(&case.path), expected, "{index}");
        for pair in pairs.iter().take(20) {
            assert_eq!(case.follow(&pair.path), FollowAnswer::Accepted, "{index}");
        }
    }
}

/// What the signing call writes, in the cases of both generators.
#[test]
fn what_is_written_is_the_first_pair_s_path() {
    let both = (0..CASES).flat_map(|index| [gen::case(11, index), path_case(11, index)]);
    for case in both.filter_map(Fields::of) {
        let mut words = case.path.clone();
        let answer = case.sign(&mut words);
        let Some((model, packet, key)) = case.load() else {
            assert!(matches!(answer, SignAnswer::Refused(refusal) if refusal.number() < 27));
            assert_eq!(words, case.path);
            continue;
        };
        let needed = packet.components.len() + key.components.len();
        let pairs = allowed_pairs(&model, &packet, &key);
        match (pairs.first(), answer) {
            (_, SignAnswer::Refused(refusal)) => {
                assert_eq!((refusal.number(), refusal.index), (34, 0));
                assert!(words.len() < needed);
                assert_eq!(words, case.path);
            }
            (None, SignAnswer::NotAllowed) => assert_eq!(words, case.path),
            (Some(first), SignAnswer::Allowed { packet, key }) => {
                assert_eq!((first.packet, first.key), (packet, key));
                assert_eq!(words[..needed], first.path);
                assert_eq!(words[needed..], case.path[needed..]);
                assert_eq!(case.follow(&words[..needed]), FollowAnswer::Accepted);
            }
            (first, answer) => panic!("{first:?}, {answer}"),
        }
    }
}

#[test]
fn every_answer_comes_up_often() {
    let mut counts = BTreeMap::new();
    for index in 0..4 * CASES {
        let case = Fields::generated(9, index);
        let line = match case.words.clone() {
            None => format!("P {}", case.follow(&case.path)),
            Some(mut words) => {
                let answer = case.sign_with(&mut words, &mut case.path.clone());
                format!("S {answer}")
            }
        };
        let kind = match line.split(' ').collect::<Vec<_>>()[..] {
            [letter, "refused", number, _] => format!("{letter} refused {number}"),
            [letter, word, ..] => format!("{letter} {word}"),
            _ => panic!("{line}"),
        };
        *counts.entry(kind).or_insert(0) += 1;
    }
    let mut expected = vec![];
    for (letter, words) in [("P", ["accepted", "no"]), ("S", ["allowed", "not"])] {
        expected.extend(words.map(|word| format!("{letter} {word}")));
        let refusals = (1..=14).chain(21..=26);
        expected.extend(refusals.map(|number| format!("{letter} refused {number}")));
    }
    expected.extend([27, 34].map(|number| format!("S refused {number}")));
    for kind in &expected {
        let least = if kind.starts_with('P') { 30 } else { 1 };
        let is_often = counts.get(kind).is_some_and(|&count| count >= least);
        assert!(is_often, "{kind}: {counts:?}");
    }
    assert_eq!(counts.len(), expected.len(), "{counts:?}");
}

/// The nodes that a path leads to, as far as there are such edges, and whether
/// each edge may be crossed.
struct Steps {
    nodes: Vec<u64>,
    open: Vec<bool>,
    /// Whether a PatternEdge is among them of a node that has ValueEdges too.
    is_mixed: bool,
}

fn steps<'n>(model: &Model, name: &Name<'n>, path: &[u16], bindings: &mut Bindings<'n>) -> Steps {
    let mut steps = Steps {
        nodes: vec![model.start],
        open: vec![],
        is_mixed: false,
    };
    for (placed, &ordinal) in name.components.iter().zip(path) {
        let node = &model.nodes[steps.nodes[steps.nodes.len() - 1] as usize];
        let Some(edge) = node.edge(ordinal) else {
            break;
        };
        let values = node.value_edges.len();
        steps.is_mixed |= values > 0 && usize::from(ordinal) >= values;
        steps.nodes.push(edge.destination());
        let is_crossed = is_open(edge, placed.component, bindings);
        steps.open.push(is_crossed);
        if is_crossed {
            bindings.bind_by(model, edge, *placed);
        }
    }
    steps
}

/// Whether all of the key's part could be crossed without the packet's bindings,
/// up to a listed signer.
fn reaches_signer_afresh(model: &Model, key: &Name, packet_node: u64, of_key: &[u16]) -> bool {
    let signers = &model.nodes[packet_node as usize].signers;
    let trace = &mut Trace::default();
    visit_matches(
        model,
        &key.components,
        trace,
        &mut |node, trace| match trace.path == of_key && signers.contains(&(node as u64)) {
            true => ControlFlow::Break(()),
            false => ControlFlow::Continue(()),
        },
    )
    .is_break()
}

/// Why a path as long as it should be isn't accepted.
fn why_not(model: &Model, packet: &Name, key: &Name, path: &[u16]) -> &'static str {
    let (of_packet, of_key) = path.split_at(packet.components.len());
    let bindings = &mut Bindings::default();
    let first = steps(model, packet, of_packet, bindings);
    if first.open.len() < of_packet.len() {
        return "no edge for the packet";
    }
    if first.open.contains(&false) {
        return "an edge is shut to the packet";
    }
    let second = steps(model, key, of_key, bindings);
    let packet_node = first.nodes[first.nodes.len() - 1];
    if second.open.len() < of_key.len() {
        return "no edge for the key";
    }
    if second.open.contains(&false) {
        return match reaches_signer_afresh(model, key, packet_node, of_key) {
            true => "an edge is shut to the key by the packet's bindings only",
            false => "an edge is shut to the key",
        };
    }
    let listed = &model.nodes[packet_node as usize].signers;
    match listed.is_empty() {
        true => "the packet has no signers",
        false => "the signer isn't listed",
    }
}

/// What is worth seeing often in cases that follow a path.
fn traits(case: &Fields) -> Vec<&'static str> {
    let Some((model, packet, key)) = case.load() else {
        return vec![];
    };
    let needed = packet.components.len() + key.components.len();
    let pairs = allowed_pairs(&model, &packet, &key);
    if case.follow(&case.path) == FollowAnswer::Accepted {
        let mut found = vec![match pairs[0].path == case.path {
            true => "accepted, the first pair's",
            false => "accepted, a later pair's",
        }];
        let first = &pairs[0];
        let later = pairs.iter().find(|pair| pair.path == case.path).unwrap();
        // to each node there is one path only
        let is_same_pair = (first.packet, first.key) == (later.packet, later.key);
        assert_eq!(is_same_pair, first.path == later.path);
        if first.packet != later.packet {
            found.push("accepted, of another packet node than the first pair's");
        }
        let (of_packet, of_key) = case.path.split_at(packet.components.len());
        let bindings = &mut Bindings::default();
        let is_mixed = steps(&model, &packet, of_packet, bindings).is_mixed
            || steps(&model, &key, of_key, bindings).is_mixed;
        if is_mixed {
            found.push("accepted, by a PatternEdge behind ValueEdges");
        }
        if !reaches_signer_afresh(&model, &key, later.packet as u64, of_key) {
            found.push("accepted, only with the packet's bindings");
        }
        if case.path.iter().any(|&word| word > 127) {
            found.push("accepted, a word above 127");
        }
        found.extend(match case.path.len() {
            0 => Some("accepted, no words"),
            20.. => Some("accepted, 20 words or more"),
            _ => None,
        });
        return found;
    }
    let starts_well = |pair: &Pair| case.path.starts_with(&pair.path);
    vec![match case.path.len() {
        0 if needed > 0 => "no: empty",
        length if length + 1 == needed => "no: one word too few",
        length if length < needed => "no: too short",
        length if length > needed && pairs.iter().any(starts_well) => match length - needed {
            1 => "no: one word behind a good path",
            _ => "no: words behind a good path",
        },
        length if length > needed => "no: too long",
        _ => why_not(&model, &packet, &key, &case.path),
    }]
}

#[test]
fn paths_of_every_kind_come_up_often() {
    let mut counts: BTreeMap<&str, usize> = BTreeMap::new();
    let cases = (0..CASES).map(|index| Fields::generated(12, index));
    for case in cases.filter(|case| case.words.is_none()) {
        for name in traits(&case) {
            *counts.entry(name).or_default() += 1;
        }
    }
    assert!(counts.values().all(|&count| count >= 40), "{counts:#?}");
    assert_eq!(counts.len(), 21, "{counts:#?}");
}
