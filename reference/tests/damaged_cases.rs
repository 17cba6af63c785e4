//! The cases with damaged models: most are malformed, at places of every sort.

use std::collections::{BTreeMap, BTreeSet};

use lvs_reference::cases::{Case, MAX_MODEL_FIELD};
use lvs_reference::elements::{is_container, Element, Part};
use lvs_reference::gen::damaged_case;
use lvs_reference::{verdict, Reason, Verdict};

const CASES: u64 = 20_000;

#[test]
fn a_case_depends_on_seed_and_index_only() {
    let cases: Vec<Case> = (0..200).map(|index| damaged_case(5, index)).collect();
    for index in (0..200).rev() {
        assert_eq!(damaged_case(5, index), cases[index as usize]);
    }
    assert_ne!(damaged_case(6, 0), cases[0]);
}

fn letter_and_model(case: Case) -> (char, Vec<u8>) {
    match case {
        Case::Verdict { model } => ('V', model),
        Case::Match { model, .. } => ('M', model),
        Case::Sign { model, .. } => ('S', model),
        Case::Describe { model, .. } => ('D', model),
        Case::Certificate { model, .. } => ('C', model),
        Case::Write { .. } | Case::Compare { .. } | Case::Follow { .. } => {
            panic!("no damaged model")
        }
    }
}

/// The type of the element that the place stands in; `None` for the model. An
/// end counts for what is around it.
fn owner(content: Part, owner: Option<u32>, place: usize) -> Option<u32> {
    let mut rest = content;
    while let Ok((element, behind)) = Element::read(rest) {
        let is_inside = element.value.start <= place && place < element.end();
        if is_inside && (is_container(element.kind) || element.kind == 0x21) {
            return self::owner(element.value, Some(element.kind), place);
        }
        rest = behind;
    }
    owner
}

#[test]
fn most_are_malformed_in_every_container_and_at_many_places() {
    let mut letters = BTreeMap::new();
    let mut owners = BTreeMap::new();
    let mut places = BTreeSet::new();
    for index in 0..CASES {
        let (letter, model) = letter_and_model(damaged_case(8, index));
        assert!(model.len() <= MAX_MODEL_FIELD);
        let Verdict::Refused(refusal) = verdict(&model) else {
            continue;
        };
        if refusal.reason == Reason::ModelMalformed {
            assert!(refusal.index <= model.len());
            let stands_in = owner(Part::whole(&model), None, refusal.index);
            *letters.entry(letter).or_insert(0) += 1;
            *owners.entry(stands_in).or_insert(0) += 1;
            places.insert(refusal.index);
        }
    }
    assert!(letters.values().sum::<u64>() > CASES * 3 / 4, "{letters:?}");
    assert_eq!(letters.len(), 5);
    assert_eq!(owners.len(), 10, "{owners:?}");
    assert!(owners.values().all(|&count| count > 300), "{owners:?}");
    assert!(places.len() > 1_500, "{}", places.len());
}
