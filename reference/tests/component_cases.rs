//! Generated cases that compare two components: what must hold of every answer,
//! and that every sort of pair comes up.

use std::collections::BTreeMap;

use lvs_reference::cases::{Case, MAX_COMPONENT_FIELD};
use lvs_reference::compare_components;
use lvs_reference::gen::component_case;
use lvs_reference::names::OwnedComponent;

const CASES: u64 = 20_000;

fn pair(seed: u64, index: u64) -> [OwnedComponent; 2] {
    match component_case(seed, index) {
        Case::Compare { first, second } => [first, second],
        other => panic!("{other:?}"),
    }
}

fn answer([first, second]: &[OwnedComponent; 2]) -> String {
    compare_components(first.as_component(), second.as_component()).to_string()
}

#[test]
fn a_case_depends_on_seed_and_index_only() {
    let cases: Vec<Case> = (0..200).map(|index| component_case(5, index)).collect();
    for index in (0..200).rev() {
        assert_eq!(component_case(5, index), cases[index as usize]);
    }
    assert_ne!(component_case(6, 0), cases[0]);
}

#[test]
fn cases_fit_their_form() {
    for index in 0..CASES {
        for component in pair(8, index) {
            assert!((1..=65_535).contains(&component.kind), "{index}");
            assert!(component.encode().len() <= MAX_COMPONENT_FIELD, "{index}");
        }
        let case = component_case(8, index);
        let mut bytes = Vec::new();
        case.write(&mut bytes).unwrap();
        assert_eq!(Case::read(&mut &bytes[..]), Ok(Some(case)), "{index}");
    }
}

/// The places at which two values differ, from the front.
fn unequal_places([first, second]: &[OwnedComponent; 2]) -> Vec<usize> {
    let bytes = first.value.iter().zip(&second.value).enumerate();
    let unequal = bytes.filter(|(_, (one, other))| one != other);
    unequal.map(|(place, _)| place).collect()
}

/// The answer by the last unequal place, looked for from the front.
fn answer_from_front(pair: &[OwnedComponent; 2]) -> String {
    let [first, second] = pair;
    let length = first.value.len();
    if first.kind != second.kind || length != second.value.len() {
        return "different 0".into();
    }
    match unequal_places(pair).last() {
        Some(place) => format!("different {}", length - place),
        None => format!("equal {length}"),
    }
}

#[test]
fn every_answer_is_what_a_search_from_the_front_says() {
    for index in 0..CASES {
        let pair = pair(10, index);
        assert_eq!(answer(&pair), answer_from_front(&pair), "{index}");
        let [first, second] = pair.clone();
        assert_eq!(answer(&[second, first]), answer(&pair), "{index}");
    }
}

/// What is worth seeing often where type or length differ.
fn of_headers([first, second]: &[OwnedComponent; 2]) -> Vec<&'static str> {
    let mut found = Vec::new();
    let kinds = [first.kind, second.kind];
    if first.kind != second.kind && first.value == second.value {
        found.push("only the type differs");
        found.push(match kinds[0] ^ kinds[1] {
            low if low < 256 => "high byte of the type equal",
            high if high.is_multiple_of(256) => "low byte of the type equal",
            _ => "both bytes of the type differ",
        });
        if (kinds[0] < 253) != (kinds[1] < 253) {
            found.push("forms of the types differ");
        }
    }
    let (short, long) = match first.value.len() < second.value.len() {
        true => (&first.value, &second.value),
        false => (&second.value, &first.value),
    };
    if first.kind == second.kind && short.len() < long.len() {
        found.push("only the length differs");
        match long.len() - short.len() {
            1 => found.push("lengths differ by 1"),
            256 => found.push("lengths differ by 256"),
            by if by.is_multiple_of(256) => found.push("lengths differ by a multiple of 256"),
            by if by > 1_000 => found.push("lengths differ by a lot"),
            _ => {}
        }
        if short.is_empty() {
            found.push("one value is empty");
        } else {
            if long.starts_with(short) {
                found.push("one value begins with the other");
            }
            if long.ends_with(short) {
                found.push("one value ends with the other");
            }
        }
        if (short.len() < 253) != (long.len() < 253) {
            found.push("forms of the lengths differ");
        }
    }
    found
}

/// The same where they are equal.
fn of_values(pair: &[OwnedComponent; 2]) -> Vec<&'static str> {
    let [first, second] = pair;
    let last = first.value.len().wrapping_sub(1);
    let mut found = vec![match first.value.len() {
        0 => "values of 0 bytes",
        1 => "values of 1 byte",
        2 => "values of 2 bytes",
        3..=250 => "short values",
        251..=257 => "values of 251 to 257 bytes",
        258..=65_431 => "long values",
        _ => "values of 65,432 bytes and more",
    }];
    let places = unequal_places(pair);
    found.push(match places[..] {
        [] => "equal",
        [0] if last > 0 => "first byte",
        [1] if last > 2 => "second byte",
        [place] if place == last => "last byte",
        [place] if place + 1 == last => "second byte from the back",
        [place] if place == last / 2 => "byte in the middle",
        [_] => "one byte elsewhere",
        [.., place] if place == last => "several bytes, the last too",
        _ if places.len() > last / 2 => "most bytes, but not the last",
        _ => "several bytes, but not the last",
    });
    if let Some(&place) = places.last() {
        found.push(match first.value[place] ^ second.value[place] {
            0x80 => "only the high bit differs",
            0xF0 => "low bits equal",
            0x0F => "high bits equal",
            0xFF => "all bits differ",
            _ => "other bits differ",
        });
        if last - place > 254 {
            found.push("255 and more equal bytes at the back");
        }
    }
    found
}

#[test]
fn pairs_of_every_sort_come_up_often() {
    let mut counts: BTreeMap<&str, usize> = BTreeMap::new();
    for index in 0..CASES {
        let pair = pair(12, index);
        let is_alike = pair[0].kind == pair[1].kind && pair[0].value.len() == pair[1].value.len();
        let found = if is_alike {
            of_values(&pair)
        } else {
            of_headers(&pair)
        };
        for name in found {
            *counts.entry(name).or_default() += 1;
        }
    }
    assert!(counts.values().all(|&count| count >= 20), "{counts:#?}");
    assert_eq!(counts.len(), 37, "{counts:#?}");
}
