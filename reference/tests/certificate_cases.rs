//! Generated cases that look for a certificate: what must hold of every answer,
//! and that every answer comes up.

mod build;

use std::collections::BTreeMap;
use std::ops::ControlFlow;

use build::*;
use lvs_reference::cases::{Case, MAX_LIST_FIELD, MAX_MODEL_FIELD, MAX_NAME_FIELD};
use lvs_reference::elements::{Element, Elements, Part};
use lvs_reference::gen::certificate_case;
use lvs_reference::names::{Name, Role};
use lvs_reference::verdict::load;
use lvs_reference::walk::{visit_matches, Trace};
use lvs_reference::{find_certificate, match_name, MatchAnswer, SignAnswer};

const CASES: u64 = 20_000;

/// The model, the packet name and the list of a case.
fn fields(seed: u64, index: u64) -> [Vec<u8>; 3] {
    match certificate_case(seed, index) {
        Case::Certificate {
            model,
            packet,
            list,
        } => [model, packet, list],
        other => panic!("{other:?}"),
    }
}

fn answer([model, packet, list]: &[Vec<u8>; 3]) -> String {
    find_certificate(model, packet, list).to_string()
}

#[test]
fn a_case_depends_on_seed_and_index_only() {
    let cases: Vec<Case> = (0..200).map(|index| certificate_case(5, index)).collect();
    for index in (0..200).rev() {
        assert_eq!(certificate_case(5, index), cases[index as usize]);
    }
    assert_ne!(certificate_case(6, 0), cases[0]);
}

#[test]
fn cases_fit_their_form() {
    for index in 0..CASES {
        let [model, packet, list] = fields(8, index);
        assert!(model.len() <= MAX_MODEL_FIELD);
        assert!(packet.len() <= MAX_NAME_FIELD);
        assert!(list.len() <= MAX_LIST_FIELD);
    }
}

/// The elements that a list begins with, and whether something else is behind.
fn cut(list: &[u8]) -> (Vec<Vec<u8>>, bool) {
    let mut entries = Vec::new();
    for entry in Elements::new(Part::whole(list)) {
        match entry {
            Ok(entry) => entries.push(element(entry.kind as usize, entry.value.bytes)),
            Err(_) => return (entries, true),
        }
    }
    (entries, false)
}

/// The answer by one signing call for each entry.
fn answer_by_signing([model, packet, list]: &[Vec<u8>; 3]) -> String {
    if let SignAnswer::Refused(refusal) = sign(model, packet, &hex(EMPTY_NAME)) {
        return refusal.to_string();
    }
    let (entries, has_rest) = cut(list);
    if entries.len() > 64 || entries.len() == 64 && has_rest {
        return "refused 33 0".into();
    }
    let answers: Vec<SignAnswer> = entries.iter().map(|key| sign(model, packet, key)).collect();
    let place = |wanted: fn(&SignAnswer) -> bool| answers.iter().position(wanted);
    let bad = place(|answer| matches!(answer, SignAnswer::Refused(_)));
    if let Some(index) = bad.or(has_rest.then_some(entries.len())) {
        return format!("refused 32 {index}");
    }
    match place(|answer| matches!(answer, SignAnswer::Allowed { .. })) {
        Some(index) => format!("certificate {index}"),
        None => "none".into(),
    }
}

#[test]
fn every_answer_is_what_single_signing_calls_say() {
    for index in 0..CASES {
        let case = fields(10, index);
        assert_eq!(answer(&case), answer_by_signing(&case), "{index}");
    }
}

#[test]
fn every_answer_comes_up_often() {
    let mut counts = BTreeMap::new();
    for index in 0..2 * CASES {
        let line = answer(&fields(9, index));
        let kind = match line.split(' ').collect::<Vec<_>>()[..] {
            ["refused", number, _] => format!("refused {number}"),
            [word, ..] => word.to_string(),
            [] => panic!("no answer"),
        };
        *counts.entry(kind).or_insert(0) += 1;
    }
    let mut expected = vec!["certificate".to_string(), "none".to_string()];
    let refusals = (1..=14).chain([21, 22, 23, 32, 33]);
    expected.extend(refusals.map(|number| format!("refused {number}")));
    for kind in &expected {
        let is_often = counts.get(kind).is_some_and(|&count| count >= 30);
        assert!(is_often, "{kind}: {counts:?}");
    }
    assert_eq!(counts.len(), expected.len(), "{counts:?}");
}

fn is_allowed(model: &[u8], packet: &[u8], key: &[u8]) -> bool {
    matches!(sign(model, packet, key), SignAnswer::Allowed { .. })
}

/// The number with which an entry is refused as a key name, or 0.
fn key_refusal(model: &[u8], packet: &[u8], key: &[u8]) -> u8 {
    match sign(model, packet, key) {
        SignAnswer::Refused(refusal) => refusal.number(),
        _ => 0,
    }
}

/// Whether the key reaches a signer of the packet's node by itself, without the
/// packet's bindings.
fn reaches_signer_alone(model: &[u8], packet_node: usize, key: &[u8]) -> bool {
    let model = load(model).unwrap();
    let key = Name::load(key, Role::Key).unwrap();
    let signers = &model.nodes[packet_node].signers;
    visit_matches(
        &model,
        &key.components,
        &mut Trace::default(),
        &mut |node, _| match signers.contains(&(node as u64)) {
            true => ControlFlow::Break(()),
            false => ControlFlow::Continue(()),
        },
    )
    .is_break()
}

/// How many elements a list would have if types and lengths were of any form.
fn lenient_count(mut list: &[u8]) -> usize {
    fn number(bytes: &[u8]) -> Option<(u64, &[u8])> {
        let width = match *bytes.first()? {
            253 => 2,
            254 => 4,
            255 => 8,
            number => return Some((number.into(), &bytes[1..])),
        };
        let digits = bytes.get(1..1 + width)?;
        let value = digits
            .iter()
            .fold(0, |value, &digit| value << 8 | u64::from(digit));
        Some((value, &bytes[1 + width..]))
    }
    fn behind(list: &[u8]) -> Option<&[u8]> {
        let (_, rest) = number(list)?;
        let (length, rest) = number(rest)?;
        rest.get(usize::try_from(length).ok()?..)
    }
    let mut count = 0;
    while let Some(rest) = behind(list) {
        count += 1;
        list = rest;
    }
    count
}

/// What is worth seeing often in cases that find a certificate.
fn finds(model: &[u8], packet: &[u8], entries: &[Vec<u8>], index: usize) -> Vec<&'static str> {
    let key = &entries[index];
    let SignAnswer::Allowed { packet: node, .. } = sign(model, packet, key) else {
        panic!("{index} is not allowed");
    };
    let first_match = match_name(model, packet, &mut [0; BINDING_ROOM]);
    let mut found = vec![match index {
        0 => "found first",
        62 => "found at 62",
        63 => "found at 63",
        _ if index + 1 == entries.len() => "found last",
        _ => "found in the middle",
    }];
    if !matches!(first_match, MatchAnswer::Match { node: first, .. } if first == node) {
        found.push("found by a later packet match");
    }
    if entries[index + 1..].contains(key) {
        found.push("found twice");
    }
    if entries[..index]
        .iter()
        .any(|entry| reaches_signer_alone(model, node, entry))
    {
        found.push("passed over for the bindings only");
    }
    found
}

/// The same for 33.
fn refuses_rest(model: &[u8], packet: &[u8], entries: &[Vec<u8>]) -> Vec<&'static str> {
    let is_bad = |key: &Vec<u8>| key_refusal(model, packet, key) > 0;
    let of_first_64 = match entries[..64].iter().any(is_bad) {
        true => "33 with a bad entry",
        false => "33 alone",
    };
    let of_rest = match entries.get(64) {
        None => "33, can't be cut",
        Some(key) if is_bad(key) => "33, no key name",
        Some(key) if is_allowed(model, packet, key) => "33, allowed",
        Some(_) => "33, not allowed",
    };
    vec![of_first_64, of_rest]
}

/// The same for 32.
fn refuses_entry(model: &[u8], packet: &[u8], list: &[u8], index: usize) -> Vec<&'static str> {
    let (entries, _) = cut(list);
    let bad = entries.get(index);
    let of_entry = match bad.map(|key| key_refusal(model, packet, key)) {
        Some(24) => "entry of 24",
        Some(25) => "entry of 25",
        Some(26) => "entry of 26",
        _ => "entry that can't be cut",
    };
    let first = entries
        .iter()
        .position(|key| is_allowed(model, packet, key));
    let of_place = match first {
        Some(first) if first < index => "bad behind the first allowed",
        Some(_) => "bad before the first allowed",
        None => "bad and none allowed",
    };
    let mut found = vec![of_entry, of_place];
    if index == 63 {
        found.push("bad at 63");
    }
    if bad.is_some_and(|entry| is_allowed(model, packet, &as_name(entry))) {
        found.push("bad by its type only");
    }
    if bad.is_none() && lenient_count(list) > 64 {
        found.push("can't be cut among more than 64");
    }
    found
}

/// The element with the type of a name.
fn as_name(entry: &[u8]) -> Vec<u8> {
    let (entry, _) = Element::read(Part::whole(entry)).unwrap();
    element(7, entry.value.bytes)
}

/// What is worth seeing often in cases of accepted models and packet names.
fn traits([model, packet, list]: &[Vec<u8>; 3], answer: &str) -> Vec<&'static str> {
    let (entries, _) = cut(list);
    match answer.split(' ').collect::<Vec<_>>()[..] {
        ["certificate", index] => finds(model, packet, &entries, index.parse().unwrap()),
        ["none"] => vec![match entries.len() {
            0 => "none of 0",
            1 => "none of 1",
            63 => "none of 63",
            64 => "none of 64",
            _ => "none of several",
        }],
        ["refused", "33", _] => refuses_rest(model, packet, &entries),
        ["refused", "32", index] => refuses_entry(model, packet, list, index.parse().unwrap()),
        _ => vec![],
    }
}

#[test]
fn lists_of_every_kind_come_up_often() {
    let mut counts: BTreeMap<&str, usize> = BTreeMap::new();
    for index in 0..CASES {
        let case = fields(12, index);
        for name in traits(&case, &answer(&case)) {
            *counts.entry(name).or_default() += 1;
        }
    }
    assert!(counts.values().all(|&count| count >= 50), "{counts:#?}");
    assert_eq!(counts.len(), 29, "{counts:#?}");
}
