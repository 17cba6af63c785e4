//! Models with and without optional elements, and critical elements in gaps.

mod build;

use build::*;
use lvs_reference::cases::Case;
use lvs_reference::gen::{self, critical_kind, optional_kind, sound_model, Random};
use lvs_reference::{bare, follow, gaps, insert_element, match_name, sign, verdict};

const SEED: u64 = 2_024;

#[test]
fn bare_takes_optional_elements_out_at_every_depth() {
    let plain = hex(MODEL_B);
    let mut padded = hex("80 02 00 00");
    padded.extend(&hex(MODEL_B)[..12]);
    padded.extend(hex(
        "63 14 25 01 00 FE 00 01 00 00 01 07 53 08 25 01 01 20 00 23 01 01",
    ));
    padded.extend(&hex(MODEL_B)[25..]);
    padded.extend(hex("FC 00"));
    assert_eq!(verdict(&padded).to_string(), "accepted 2");
    assert_eq!(bare(&padded), Ok(plain.clone()));
    assert_eq!(bare(&plain), Ok(plain));
}

#[test]
fn bare_writes_lengths_in_the_shortest_form() {
    let with = |inside: &[Vec<u8>]| model(0, &[node(0, None, inside)]);
    let name = rule_name(&format!("#{}", "a".repeat(200)));
    let padded = with(&[name.clone(), element(0x80, &[0; 100])]);
    assert_eq!(padded[13], 253);
    assert_eq!(bare(&padded), Ok(with(&[name])));
}

#[test]
fn models_refused_with_1_to_3_have_no_bare_model() {
    for (model, number) in [
        (vec![0; 32_769], 1),
        (vec![], 2),
        (hex("61 04 00 00 00 00"), 3),
    ] {
        assert_eq!(bare(&model).unwrap_err().number(), number);
        assert_eq!(gaps(&model).unwrap_err().number(), number);
    }
}

#[test]
fn gaps_of_model_b() {
    let found = gaps(&hex(MODEL_B)).unwrap();
    let offsets: Vec<usize> = found.iter().map(|gap| gap.offset).collect();
    let expected = [0, 6, 9, 12, 14, 17, 19, 22, 25, 25, 25, 27, 30, 33, 36, 36];
    assert_eq!(offsets, expected);
    assert_eq!(found[6].enclosing, [12, 17]);
    assert_eq!(found[10].enclosing, [] as [usize; 0]);
}

#[test]
fn an_empty_container_has_one_gap() {
    let model = model(
        0,
        &[
            node(0, None, &[pattern_edge(1, 1, &[constraint(&[])])]),
            node(1, Some(0), &[]),
        ],
    );
    let deepest = gaps(&model)
        .unwrap()
        .into_iter()
        .filter(|gap| gap.enclosing.len() == 3);
    assert_eq!(deepest.count(), 1);
}

/// What the calls answer, and the words that they leave.
#[derive(Debug, PartialEq)]
struct Answers {
    verdict: String,
    matched: String,
    words: Vec<u32>,
    signed: String,
    signed_words: Vec<u32>,
    path: Vec<u16>,
    /// With all words of the path, and with those that the names need.
    followed: [String; 2],
}

/// What is in the binding buffers before the calls.
fn lent_words() -> Vec<u32> {
    (1_000..1_390).collect()
}

/// The answers of all calls, with this many words for a path.
fn all_answers(model: &[u8], packet: &[u8], key: &[u8], room: u16) -> Answers {
    let mut words = lent_words();
    let matched = match_name(model, packet, &mut words).to_string();
    let mut signed_words = lent_words();
    let mut path: Vec<u16> = (2_000..2_000 + room).collect();
    let signed = sign(model, packet, key, &mut signed_words, &mut path).to_string();
    // untouched words stand behind the path
    let is_untouched = |(place, &word): (usize, &u16)| word == 2_000 + place as u16;
    let written = path.iter().enumerate().position(is_untouched);
    let used = &path[..written.unwrap_or(path.len())];
    let followed = [&path, used].map(|path| follow(model, packet, key, path).to_string());
    Answers {
        verdict: verdict(model).to_string(),
        matched,
        words,
        signed,
        signed_words,
        path,
        followed,
    }
}

#[test]
fn a_model_and_its_bare_model_answer_alike() {
    let mut compared = 0;
    for index in 0..20_000 {
        let Case::Sign {
            model,
            packet,
            key,
            path,
            ..
        } = gen::case(SEED, index)
        else {
            continue;
        };
        if let Ok(bare) = bare(&model) {
            let room = path.len() as u16;
            assert_eq!(
                all_answers(&model, &packet, &key, room),
                all_answers(&bare, &packet, &key, room),
                "case {index}"
            );
            compared += usize::from(bare != model);
        }
    }
    assert!(compared > 1_000, "{compared}");
}

#[test]
fn an_optional_element_in_any_gap_changes_no_answer() {
    for index in 0..150 {
        let random = &mut Random::for_case(SEED, index);
        let model = sound_model(random);
        let (packet, key) = (name("/a/b"), name("/b"));
        let expected = all_answers(&model, &packet, &key, 5);
        for gap in gaps(&model).unwrap().iter().take(200) {
            let length = random.below(4);
            let optional = element(optional_kind(random) as usize, &random.bytes(length));
            let altered = insert_element(&model, gap, &optional);
            if altered.len() <= 32_768 {
                assert_eq!(
                    all_answers(&altered, &packet, &key, 5),
                    expected,
                    "{index} {gap:?}"
                );
                assert_eq!(bare(&altered), bare(&model));
            }
        }
    }
}

#[test]
fn a_critical_element_in_any_gap_is_refused_by_all_calls_where_it_starts() {
    for index in 0..150 {
        let random = &mut Random::for_case(SEED + 1, index);
        let model = sound_model(random);
        for gap in gaps(&model).unwrap().iter().take(200) {
            let length = random.below(4);
            let critical = element(critical_kind(random) as usize, &random.bytes(length));
            let altered = insert_element(&model, gap, &critical);
            let answers = all_answers(&altered, &name("/a"), &name("/b"), 3);
            // only what stands in front of the gap is written anew
            let place = altered.len() - (model.len() - gap.offset) - critical.len();
            let expected = if altered.len() > 32_768 {
                "refused 1 0".into()
            } else {
                format!("refused 2 {place}")
            };
            assert_eq!(
                answers,
                Answers {
                    verdict: expected.clone(),
                    matched: expected.clone(),
                    words: lent_words(),
                    signed: expected.clone(),
                    signed_words: lent_words(),
                    path: vec![2_000, 2_001, 2_002],
                    followed: [expected.clone(), expected],
                },
                "{index} {gap:?}"
            );
        }
    }
}
