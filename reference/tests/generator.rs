//! The generator: it repeats itself, and every answer comes up.

use std::collections::BTreeMap;

use lvs_reference::cases::{Case, MAX_MODEL_FIELD, MAX_NAME_FIELD, MAX_PATH_WORDS, MAX_WORDS};
use lvs_reference::gen::{self, sound_model, Random};
use lvs_reference::{verdict, Verdict};

#[test]
fn a_case_depends_on_seed_and_index_only() {
    let cases: Vec<Case> = (0..200).map(|index| gen::case(5, index)).collect();
    for index in (0..200).rev() {
        assert_eq!(gen::case(5, index), cases[index as usize]);
    }
    assert_ne!(gen::case(6, 0), cases[0]);
}

#[test]
fn sound_models_are_accepted() {
    for index in 0..20_000 {
        let model = sound_model(&mut Random::for_case(7, index));
        assert!(matches!(verdict(&model), Verdict::Accepted(_)), "{index}");
    }
}

#[test]
fn cases_fit_their_form() {
    let name_fits = |name: &[u8]| name.len() <= MAX_NAME_FIELD;
    for index in 0..20_000 {
        assert!(match gen::case(8, index) {
            Case::Verdict { model } => model.len() <= MAX_MODEL_FIELD,
            Case::Match { model, name, words } =>
                model.len() <= MAX_MODEL_FIELD && name_fits(&name) && words.len() <= MAX_WORDS,
            Case::Sign {
                model,
                packet,
                key,
                words,
                path,
            } =>
                model.len() <= MAX_MODEL_FIELD
                    && name_fits(&packet)
                    && name_fits(&key)
                    && words.len() <= MAX_WORDS
                    && path.len() <= MAX_PATH_WORDS,
            _ => false,
        });
    }
}

/// The call's letter and the answer without its node numbers and words.
fn answer_kind(case: Case) -> String {
    let letter = match case {
        Case::Verdict { .. } => 'V',
        Case::Match { .. } => 'M',
        Case::Sign { .. } => 'S',
        Case::Follow { .. } => 'P',
        Case::Write { .. } => 'W',
        Case::Describe { .. } => 'D',
        Case::Certificate { .. } => 'C',
        Case::Compare { .. } => 'E',
    };
    let mut line = Vec::new();
    case.answer(&mut line).unwrap();
    let line = String::from_utf8(line).unwrap();
    let words: Vec<&str> = line.split_whitespace().collect();
    match words[0] {
        "accepted" | "match" | "allowed" => format!("{letter} {}", words[0]),
        _ => format!("{letter} {} {}", words[0], words[1]),
    }
}

#[test]
fn every_answer_comes_up_often() {
    let mut counts = BTreeMap::new();
    for index in 0..60_000 {
        *counts.entry(answer_kind(gen::case(9, index))).or_insert(0) += 1;
    }
    let model_refusals = 1..=14;
    let mut expected: Vec<String> = [
        "V accepted",
        "M match",
        "M no match",
        "S allowed",
        "S not allowed",
    ]
    .map(String::from)
    .into();
    expected.extend("VMS".chars().flat_map(|letter| {
        model_refusals
            .clone()
            .map(move |number| format!("{letter} refused {number}"))
    }));
    expected.extend([21, 22, 23, 27].map(|number| format!("M refused {number}")));
    let with_names = (21..=27).chain([34]);
    expected.extend(with_names.map(|number| format!("S refused {number}")));
    for kind in &expected {
        assert!(
            counts.get(kind).is_some_and(|&count| count >= 50),
            "{kind}: {counts:?}"
        );
    }
    assert_eq!(counts.len(), expected.len(), "{counts:?}");
}
