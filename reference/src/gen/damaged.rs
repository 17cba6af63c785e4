//! Cases with damaged models, for the place of the first fault.
//!
//! Nodes have by far the most elements, so a container is drawn by its type
//! first: each of the nine, and Value, is damaged about as often as any other.

use super::certificates::find_in_sample;
use super::damage::{
    add_optional_elements, alter_bytes, critical_kind, inside, optional_kind, other_kind, splice,
};
use super::descriptions::describe_sample;
use super::faults::{add_option, bad_identifier, plant};
use super::models::{sound_model, Sample};
use super::plan::{ArgumentPlan, OwnedComponent, Plan, SymbolPlan, TermPlan};
use super::random::Random;
use super::sound;
use super::tree::{encode, nth_list, owners, Content, Form, Scope, Tree};
use super::{match_case, sign_case};
use crate::cases::{Case, MAX_MODEL_FIELD};
use crate::elements::{append_element, kind};
use crate::verdict::MAX_MODEL_BYTES;

/// Sets these cases apart from the other ones of the same seed.
const STREAM: u64 = 0x6461_6D61_6765_6421;

#[derive(Clone, Copy)]
enum Call {
    Verdict,
    Match,
    Sign,
    Describe,
    Certificate,
}

const CALLS: [(usize, Call); 5] = [
    (60, Call::Verdict),
    (10, Call::Match),
    (12, Call::Sign),
    (12, Call::Describe),
    (6, Call::Certificate),
];

/// The case with this index.
pub fn damaged_case(seed: u64, index: u64) -> Case {
    let random = &mut Random::for_case(seed ^ STREAM, index);
    let sample = damaged_sample(random);
    match random.weighted(&CALLS) {
        Call::Verdict => Case::Verdict {
            model: sample.bytes,
        },
        Call::Match => match_case(random, sample),
        Call::Sign => sign_case(random, sample),
        Call::Describe => describe_sample(random, sample),
        Call::Certificate => find_in_sample(random, sample),
    }
}

/// A damaged model and the accepted one that it was made from.
fn damaged_sample(random: &mut Random) -> Sample {
    let (mut plan, mut trees, sound) = accepted_model(random);
    if random.chance(10) {
        // damage alone hardly ever leads to these
        let number = *random.pick(&[13, 14]);
        plant(random, &mut plan, number);
        trees = plan.to_trees(random);
    }
    if random.chance(6) {
        change_version(random, &mut trees);
    }
    let whole = encode(&trees);
    let mut bytes = match random.below(20) {
        0..=12 => {
            damage_elements(random, &mut trees);
            encode(&trees)
        }
        13 => {
            trees.truncate(random.below(4));
            encode(&trees)
        }
        14..=16 => with_altered_bytes(random, whole),
        17 | 18 => {
            let end = random.below(whole.len());
            whole[..end].to_vec()
        }
        _ => {
            let other = sound_model(random);
            splice(random, &whole, &other)
        }
    };
    if random.chance(8) {
        bytes = behind_padding(random, &bytes);
    }
    bytes.truncate(MAX_MODEL_FIELD);
    Sample { sound, bytes }
}

/// An accepted model that is likely to have every sort of container.
fn accepted_model(random: &mut Random) -> (Plan, Vec<Tree>, Vec<u8>) {
    loop {
        let mut plan = sound::plan(random);
        enrich(random, &mut plan);
        let mut trees = plan.to_trees(random);
        if random.chance(50) {
            let count = random.between(1, 8);
            add_optional_elements(random, &mut trees, count);
        }
        let bytes = encode(&trees);
        if bytes.len() <= MAX_MODEL_BYTES {
            return (plan, trees, bytes);
        }
    }
}

/// Adds options with calls, and TagSymbols. The model stays an accepted one.
fn enrich(random: &mut Random, plan: &mut Plan) {
    for _ in 0..random.below(4) {
        let term = sound_term(random);
        add_option(random, plan, vec![term]);
    }
    for _ in 0..random.below(4) {
        let tag = random.between(1, 128) as u64;
        let identifier = (*random.pick(&["a", "_9", "author"])).into();
        plan.symbols.push(SymbolPlan { tag, identifier });
    }
}

fn sound_term(random: &mut Random) -> TermPlan {
    let tag = random.between(1, 128) as u64;
    let length = *random.pick(&[0, 1, 3, 260]);
    let value = OwnedComponent::generic(random.bytes(length));
    let call = |name: &str, arguments| TermPlan::Call {
        function: name.into(),
        arguments,
    };
    match random.below(6) {
        0 => TermPlan::Value(value),
        1 => TermPlan::Tag(tag),
        2 => call("$isValidID", vec![]),
        3 => call("$eq", vec![ArgumentPlan::Tag(tag)]),
        _ => call("$eq_type", vec![ArgumentPlan::Value(value)]),
    }
}

/// Another number for the Version, so that only a fault in front of it counts.
fn change_version(random: &mut Random, trees: &mut [Tree]) {
    for tree in trees {
        if tree.kind == u64::from(kind::VERSION) {
            tree.content = Content::Bytes(random.bytes(4));
        }
    }
}

fn with_altered_bytes(random: &mut Random, mut bytes: Vec<u8>) -> Vec<u8> {
    let count = random.weighted(&[(75, 1), (25, 2)]);
    for _ in 0..count {
        alter_bytes(random, &mut bytes);
    }
    bytes
}

/// An optional element in front of all, so that places are large ones.
fn behind_padding(random: &mut Random, bytes: &[u8]) -> Vec<u8> {
    let limit = MAX_MODEL_BYTES;
    let total = match random.below(6) {
        0 => *random.pick(&[limit - 1, limit, limit, limit + 1]),
        _ => random.between(bytes.len().min(limit), limit),
    };
    // the length takes three bytes from 253 on
    let header = if total < bytes.len() + 257 { 2 } else { 4 };
    let length = total.saturating_sub(bytes.len() + header);
    let mut padded = Vec::new();
    append_element(&mut padded, 0x80u32, &vec![random.byte(); length]);
    padded.extend_from_slice(bytes);
    padded
}

/// Damages one list of elements or several, at times the same one twice: only
/// the first fault counts.
fn damage_elements(random: &mut Random, trees: &mut Vec<Tree>) {
    let count = random.weighted(&[(75, 1), (20, 2), (5, 3)]);
    for _ in 0..count {
        let (owner, list) = any_list(random, trees);
        let damage = if owner == Some(kind::VALUE.into()) {
            damage_value
        } else {
            damage_list
        };
        damage(random, list);
        if random.chance(20) {
            damage(random, list);
        }
    }
}

/// A list of elements and the type of the element around it: the type is drawn
/// first, then the first, the last or any such list.
fn any_list<'t>(random: &mut Random, trees: &'t mut Vec<Tree>) -> (Option<u64>, &'t mut Vec<Tree>) {
    let owners = owners(trees, Scope::Everywhere);
    let mut kinds = owners.clone();
    kinds.sort_unstable();
    kinds.dedup();
    let owner = *random.pick(&kinds);
    let numbers: Vec<usize> = (0..owners.len())
        .filter(|&number| owners[number] == owner)
        .collect();
    let number = numbers[any_place(random, numbers.len())];
    (owner, nth_list(trees, number, Scope::Everywhere))
}

/// The first of so many places, the last, or any.
fn any_place(random: &mut Random, count: usize) -> usize {
    match random.below(10) {
        0..=2 => 0,
        3..=5 => count - 1,
        _ => random.below(count),
    }
}

/// Damages what a container holds, directly or in one of its elements.
fn damage_list(random: &mut Random, list: &mut Vec<Tree>) {
    if list.is_empty() || random.chance(35) {
        let place = any_place(random, list.len() + 1);
        list.insert(place, intruder(random));
        return;
    }
    let index = any_place(random, list.len());
    match random.below(14) {
        0 | 1 => {
            list.remove(index);
        }
        2 => {
            list.truncate(index);
            if random.chance(40) {
                list.push(Tree::leaf(optional_kind(random), inside(random)));
            }
        }
        3 => {
            let other = random.below(list.len());
            list.swap(index, other);
        }
        4 => list.insert(index, list[index].clone()),
        5 => list[index].kind = other_kind(random, list[index].kind),
        6 | 7 => list[index].form = wide_header(random),
        8 => list[index].form = too_long(random, list, index),
        9 => list[index].form = too_short(random, &list[index]),
        10 => {
            // two faults: the header's comes before the one inside
            damage_inside(random, &mut list[index]);
            list[index].form = too_long(random, list, index);
        }
        _ => damage_inside(random, &mut list[index]),
    }
}

/// What may not stand in a container.
fn intruder(random: &mut Random) -> Tree {
    match random.below(8) {
        0..=2 => Tree::leaf(critical_kind(random), inside(random)),
        3 | 4 => {
            let bytes = *random.pick(&[&b""[..], b"\0", b"#a", b"a", b"\x08\0"]);
            Tree::leaf(*random.pick(&kind::ALL), bytes)
        }
        5 => {
            let kind = *random.pick(&[0, 1 << 32, (1 << 32) + 0x80, u64::MAX]);
            Tree::leaf(kind, inside(random))
        }
        6 => {
            let mut element = Tree::leaf(optional_kind(random), inside(random));
            element.form = match random.below(3) {
                0 => too_short(random, &element),
                1 => {
                    let length = element.encode_content().len();
                    longer(random, length)
                }
                _ => wide_header(random),
            };
            element
        }
        _ => cut_header(random),
    }
}

/// The first bytes of a header.
fn cut_header(random: &mut Random) -> Tree {
    let begins: [&[u8]; 12] = [
        &[0],
        &[0x80],
        &[0x63],
        &[0x25],
        &[0x81],
        &[253],
        &[253, 1],
        &[254, 0, 1, 0],
        &[255, 0, 0, 0, 1, 0, 0, 0],
        &[0x80, 253, 1],
        &[0x23, 254, 0, 1],
        &[253, 1, 0, 255, 0, 0, 0, 1],
    ];
    let mut bytes = Tree::leaf(0u32, *random.pick(&begins));
    bytes.form = Form::Missing;
    bytes
}

/// A type or length in more bytes than it needs, unless it needs as many.
fn wide_header(random: &mut Random) -> Form {
    let width = *random.pick(&[3, 5, 9]);
    if random.chance(50) {
        Form::WideType(width)
    } else {
        Form::WideLength(width)
    }
}

/// A length that takes in what is behind the element, mostly all of it and more
/// than its container holds.
fn too_long(random: &mut Random, list: &[Tree], index: usize) -> Form {
    let own = list[index].encode_content().len();
    let behind = encode(&list[index + 1..]).len();
    if behind > 0 && random.chance(30) {
        return Form::OtherLength((own + random.between(1, behind)) as u64);
    }
    longer(random, own + behind)
}

fn longer(random: &mut Random, length: usize) -> Form {
    let more = match random.below(6) {
        0..=2 => random.between(1, 3) as u64,
        3 => random.between(4, 300) as u64,
        4 => 1 << *random.pick(&[8, 16, 31, 32]),
        _ => u64::MAX - length as u64,
    };
    Form::OtherLength(length as u64 + more)
}

fn too_short(random: &mut Random, element: &Tree) -> Form {
    let length = element.encode_content().len();
    Form::OtherLength(length.saturating_sub(random.between(1, 3)) as u64)
}

fn damage_inside(random: &mut Random, element: &mut Tree) {
    let content = element.encode_content();
    match &mut element.content {
        Content::Bytes(bytes) => *bytes = bad_plain_bytes(random, element.kind),
        Content::Nested(list) => match random.below(4) {
            0 => list.clear(),
            1 => {
                let end = random.below(content.len() + 1);
                element.content = Content::Bytes(content[..end].to_vec());
            }
            _ if element.kind == u64::from(kind::VALUE) => damage_value(random, list),
            _ => damage_list(random, list),
        },
    }
}

/// Bytes that an element of this type may not have, if it may not have all.
fn bad_plain_bytes(random: &mut Random, kind: u64) -> Vec<u8> {
    match u32::try_from(kind) {
        Ok(kind::VERSION) => {
            let width = *random.pick(&[0, 1, 2, 3, 5, 8]);
            random.bytes(width)
        }
        Ok(kind::IDENTIFIER) => {
            let prefix = *random.pick(&["#", ""]);
            bad_identifier(random, prefix)
        }
        Ok(kind::FN_ID) => bad_identifier(random, "$"),
        _ => vec![0; *random.pick(&[0, 3, 5, 6, 7, 9, 16])],
    }
}

/// Damages the one component of a Value.
fn damage_value(random: &mut Random, list: &mut Vec<Tree>) {
    let behind = match random.below(10) {
        0 => {
            list.clear();
            return;
        }
        1 => Tree::leaf(8u32, inside(random)),
        2 => Tree::leaf(optional_kind(random), inside(random)),
        3 => cut_header(random),
        _ => {
            return list
                .iter_mut()
                .for_each(|component| damage_component(random, component))
        }
    };
    list.push(behind);
}

fn damage_component(random: &mut Random, component: &mut Tree) {
    match random.below(5) {
        0 => component.kind = *random.pick(&[0, 65_536, 65_544, u64::from(u32::MAX), 1 << 32]),
        1 => component.form = wide_header(random),
        2 => {
            let length = component.encode_content().len();
            component.form = longer(random, length);
        }
        3 => component.form = too_short(random, component),
        _ => *component = cut_header(random),
    }
}
