//! Generated writing and describing cases: what must hold of every answer, and
//! that every answer comes up.

use std::collections::BTreeMap;

use lvs_reference::cases::{Case, MAX_MODEL_FIELD, MAX_NUMBERS, MAX_OUTPUT_FIELD, MAX_TEXTS_FIELD};
use lvs_reference::description::Lists;
use lvs_reference::gen::{self, description_case, sound_model, Random};
use lvs_reference::model::Model;
use lvs_reference::{
    bare, describe, match_name, sign, verdict, write_model, DescribeAnswer, Verdict, WriteAnswer,
};

const CASES: u64 = 20_000;
const ROOM: usize = 70_000;

#[test]
fn a_case_depends_on_seed_and_index_only() {
    let cases: Vec<Case> = (0..200).map(|index| description_case(5, index)).collect();
    for index in (0..200).rev() {
        assert_eq!(description_case(5, index), cases[index as usize]);
    }
    assert_ne!(description_case(6, 0), cases[0]);
}

#[test]
fn cases_fit_their_form() {
    for index in 0..CASES {
        assert!(match description_case(8, index) {
            Case::Write {
                numbers,
                texts,
                output,
            } => {
                numbers.len() <= MAX_NUMBERS
                    && texts.len() <= MAX_TEXTS_FIELD
                    && output.len() <= MAX_OUTPUT_FIELD
            }
            Case::Describe {
                model,
                numbers,
                texts,
            } => {
                model.len() <= MAX_MODEL_FIELD
                    && numbers.len() <= MAX_NUMBERS
                    && texts.len() <= MAX_TEXTS_FIELD
            }
            _ => false,
        });
    }
}

/// The letter and the answer without its lengths.
fn answer_kind(case: Case) -> String {
    let letter = match case {
        Case::Write { .. } => 'W',
        _ => 'D',
    };
    let mut line = Vec::new();
    case.answer(&mut line).unwrap();
    let line = String::from_utf8(line).unwrap();
    let words: Vec<&str> = line.split_whitespace().collect();
    match words[0] {
        "refused" => format!("{letter} refused {}", words[1]),
        word => format!("{letter} {word}"),
    }
}

#[test]
fn every_answer_comes_up_often() {
    let mut counts = BTreeMap::new();
    for index in 0..CASES {
        let kind = answer_kind(description_case(9, index));
        *counts.entry(kind).or_insert(0) += 1;
    }
    let of_write = [1, 2, 4, 5, 6, 7, 8, 9, 10, 11, 12, 13, 14, 30, 31];
    let of_describe = [1, 2, 3, 4, 5, 6, 7, 8, 9, 10, 11, 12, 13, 14, 30];
    let mut expected = vec!["W written".to_string(), "D described".to_string()];
    expected.extend(of_write.map(|number| format!("W refused {number}")));
    expected.extend(of_describe.map(|number| format!("D refused {number}")));
    for kind in &expected {
        assert!(
            counts.get(kind).is_some_and(|&count| count >= 30),
            "{kind}: {counts:?}"
        );
    }
    assert_eq!(counts.len(), expected.len(), "{counts:?}");
}

/// The bytes of a description, if the lists form one.
fn bytes_of(numbers: &[u64], texts: &[u8]) -> Option<Vec<u8>> {
    let model = Model::from_lists(numbers, texts).ok()?;
    assert_eq!(
        model.to_lists(),
        Lists {
            numbers: numbers.into(),
            texts: texts.into()
        }
    );
    Some(model.encode())
}

/// The description of an accepted model.
fn lists_of(model: &[u8]) -> Lists {
    let (mut numbers, mut texts) = (vec![0; ROOM], vec![0; ROOM]);
    match describe(model, &mut numbers, &mut texts) {
        DescribeAnswer::Described {
            numbers: count,
            texts: bytes,
        } => {
            numbers.truncate(count);
            texts.truncate(bytes);
            Lists { numbers, texts }
        }
        DescribeAnswer::Refused(refusal) => panic!("{refusal}"),
    }
}

/// The model that a description is written as, with room enough.
fn model_of(lists: &Lists) -> Vec<u8> {
    let mut output = vec![0; ROOM];
    match write_model(&lists.numbers, &lists.texts, &mut output) {
        WriteAnswer::Written(length) => output[..length].to_vec(),
        WriteAnswer::Refused(refusal) => panic!("{refusal}"),
    }
}

fn check_write(numbers: &[u64], texts: &[u8], output: &[u8]) {
    let mut after = output.to_vec();
    let answer = write_model(numbers, texts, &mut after);
    let expected = match bytes_of(numbers, texts) {
        None => "refused 30 0".to_string(),
        Some(bytes) => match verdict(&bytes) {
            Verdict::Refused(refusal) => refusal.to_string(),
            Verdict::Accepted(_) if bytes.len() > output.len() => "refused 31 0".to_string(),
            Verdict::Accepted(_) => format!("written {}", bytes.len()),
        },
    };
    assert_eq!(answer.to_string(), expected);
    let WriteAnswer::Written(length) = answer else {
        assert_eq!(after, output);
        return;
    };
    assert_eq!(after[length..], output[length..]);
    let lists = lists_of(&after[..length]);
    assert_eq!((&lists.numbers[..], &lists.texts[..]), (numbers, texts));
}

fn check_describe(model: &[u8], numbers: &[u64], texts: &[u8]) {
    let (mut after, mut texts_after) = (numbers.to_vec(), texts.to_vec());
    let answer = describe(model, &mut after, &mut texts_after);
    if let Verdict::Refused(refusal) = verdict(model) {
        assert_eq!(answer, DescribeAnswer::Refused(refusal));
        assert_eq!((&after[..], &texts_after[..]), (numbers, texts));
        return;
    }
    let lists = lists_of(model);
    let (count, bytes) = (lists.numbers.len(), lists.texts.len());
    if count > numbers.len() || bytes > texts.len() {
        assert_eq!(answer.to_string(), "refused 30 0");
        assert_eq!((&after[..], &texts_after[..]), (numbers, texts));
        return;
    }
    assert_eq!(answer.to_string(), format!("described {count} {bytes}"));
    assert_eq!(after, [&lists.numbers[..], &numbers[count..]].concat());
    assert_eq!(texts_after, [&lists.texts[..], &texts[bytes..]].concat());
}

#[test]
fn every_answer_is_what_the_verdict_and_the_lengths_say() {
    for index in 0..CASES {
        match description_case(10, index) {
            Case::Write {
                numbers,
                texts,
                output,
            } => check_write(&numbers, &texts, &output),
            Case::Describe {
                model,
                numbers,
                texts,
            } => check_describe(&model, &numbers, &texts),
            other => panic!("{other:?}"),
        }
    }
}

#[test]
fn what_was_described_and_written_has_the_same_description() {
    for index in 0..CASES / 4 {
        let model = sound_model(&mut Random::for_case(12, index));
        let lists = lists_of(&model);
        let written = model_of(&lists);
        assert!(written.len() <= model.len());
        assert_eq!(verdict(&written), verdict(&model));
        assert_eq!(lists_of(&written), lists);
        assert_eq!(model_of(&lists), written);
        assert_eq!(bare(&written).as_ref(), Ok(&written));
        assert_eq!(lists_of(&bare(&model).unwrap()), lists);
    }
}

#[test]
fn what_was_described_and_written_matches_and_signs_alike() {
    for index in 0..CASES {
        let Case::Sign {
            model,
            packet,
            key,
            words,
            path,
        } = gen::case(13, index)
        else {
            continue;
        };
        if let Verdict::Accepted(_) = verdict(&model) {
            let written = model_of(&lists_of(&model));
            let signed = |model: &[u8]| {
                let (mut words, mut path) = (words.clone(), path.clone());
                let answer = sign(model, &packet, &key, &mut words, &mut path);
                (answer, words, path)
            };
            assert_eq!(signed(&written), signed(&model));
            let matched = |model: &[u8]| {
                let mut words = words.clone();
                let answer = match_name(model, &packet, &mut words);
                (answer, words)
            };
            assert_eq!(matched(&written), matched(&model));
        }
    }
}

/// No description begins another one, in either list.
#[test]
fn no_description_begins_another() {
    for index in 0..300 {
        let lists = lists_of(&sound_model(&mut Random::for_case(14, index)));
        let Lists { numbers, texts } = &lists;
        for end in (0..numbers.len()).rev().take(200) {
            assert_eq!(bytes_of(&numbers[..end], texts), None);
        }
        for end in (0..texts.len()).rev().take(50) {
            assert_eq!(bytes_of(numbers, &texts[..end]), None);
        }
    }
}
