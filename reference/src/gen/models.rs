//! Models as bytes: accepted ones, faulty ones and damaged ones.

use super::damage::{add_optional_elements, alter_bytes, alter_elements, optional_kind, splice};
use super::faults::{plant, some_of, NUMBERS};
use super::plan::Plan;
use super::random::Random;
use super::sound;
use super::tree::encode;
use crate::cases::MAX_MODEL_FIELD;
use crate::elements::append_element;
use crate::verdict::MAX_MODEL_BYTES;

/// A model for a case, and the accepted model that it was made from.
#[derive(Clone, Debug)]
pub struct Sample {
    pub sound: Vec<u8>,
    pub bytes: Vec<u8>,
}

#[derive(Clone, Copy, Debug)]
enum Treatment {
    None,
    OneFault,
    TwoFaults,
    AlteredElements,
    AlteredBytes,
    Spliced,
    Padded,
    Tiny,
}

const TREATMENTS: [(usize, Treatment); 8] = [
    (560, Treatment::None),
    (222, Treatment::OneFault),
    (63, Treatment::TwoFaults),
    (75, Treatment::AlteredElements),
    (40, Treatment::AlteredBytes),
    (10, Treatment::Spliced),
    (10, Treatment::Padded),
    (20, Treatment::Tiny),
];

/// A model and what it was made from.
pub fn sample(random: &mut Random) -> Sample {
    let (plan, sound) = plan_and_bytes(random);
    let mut bytes = match random.weighted(&TREATMENTS) {
        Treatment::None => sound.clone(),
        Treatment::OneFault => with_faults(random, plan, 1),
        Treatment::TwoFaults => with_faults(random, plan, 2),
        Treatment::AlteredElements => with_altered_elements(random, &plan),
        Treatment::AlteredBytes => with_altered_bytes(random, &sound),
        Treatment::Spliced => {
            let other = sound_model(random);
            splice(random, &sound, &other)
        }
        Treatment::Padded => padded(random, &sound),
        Treatment::Tiny => tiny(random, &sound),
    };
    bytes.truncate(MAX_MODEL_FIELD);
    Sample { sound, bytes }
}

/// An accepted model alone.
pub fn sound_model(random: &mut Random) -> Vec<u8> {
    plan_and_bytes(random).1
}

fn plan_and_bytes(random: &mut Random) -> (Plan, Vec<u8>) {
    loop {
        let plan = sound::plan(random);
        let bytes = write(random, &plan);
        if bytes.len() <= MAX_MODEL_BYTES {
            return (plan, bytes);
        }
    }
}

/// Writes a plan, at times with optional elements.
pub fn write(random: &mut Random, plan: &Plan) -> Vec<u8> {
    let mut trees = plan.to_trees(random);
    if random.chance(35) {
        let count = random.between(1, 6);
        add_optional_elements(random, &mut trees, count);
    }
    encode(&trees)
}

fn with_faults(random: &mut Random, mut plan: Plan, count: usize) -> Vec<u8> {
    let mut is_other_version = false;
    for number in some_of(random, &NUMBERS, count) {
        is_other_version |= number == 3;
        plant(random, &mut plan, number);
    }
    let mut bytes = write(random, &plan);
    if is_other_version && random.chance(50) || count == 2 && random.chance(15) {
        alter_bytes(random, &mut bytes);
    }
    bytes
}

fn with_altered_elements(random: &mut Random, plan: &Plan) -> Vec<u8> {
    let mut trees = plan.to_trees(random);
    let count = random.weighted(&[(80, 1), (20, 2)]);
    for _ in 0..count {
        alter_elements(random, &mut trees);
    }
    encode(&trees)
}

fn with_altered_bytes(random: &mut Random, sound: &[u8]) -> Vec<u8> {
    let mut bytes = sound.to_vec();
    let count = random.weighted(&[(70, 1), (20, 2), (10, 4)]);
    for _ in 0..count {
        alter_bytes(random, &mut bytes);
    }
    bytes
}

/// The model made as long as the limit, or longer, by an optional element.
fn padded(random: &mut Random, sound: &[u8]) -> Vec<u8> {
    let total = *random.pick(&[
        MAX_MODEL_BYTES - 1,
        MAX_MODEL_BYTES,
        MAX_MODEL_BYTES,
        MAX_MODEL_BYTES + 1,
        MAX_MODEL_BYTES + 1,
        MAX_MODEL_BYTES + 1,
        MAX_MODEL_BYTES + 2,
        40_000,
        65_535,
        65_536,
    ]);
    let kind = optional_kind(random);
    let mut header = Vec::new();
    append_element(&mut header, kind, &[]);
    let header_length = header.len() + 2;
    let length = total.saturating_sub(sound.len() + header_length);
    let mut padding = Vec::new();
    append_element(&mut padding, kind, &vec![random.byte(); length]);
    let is_in_front = random.chance(50);
    let mut bytes = if is_in_front {
        [&padding, sound].concat()
    } else {
        [sound, &padding].concat()
    };
    if random.chance(20) {
        alter_bytes(random, &mut bytes);
    }
    bytes
}

/// Very few bytes: nothing, noise, or no more than the beginning of a model.
fn tiny(random: &mut Random, sound: &[u8]) -> Vec<u8> {
    match random.below(4) {
        0 => Vec::new(),
        1 => {
            let length = random.below(24);
            random.bytes(length)
        }
        2 => sound[..sound.len().min(random.below(20))].to_vec(),
        _ => small_model(random),
    }
}

/// A model of at most a few Nodes without edges.
fn small_model(random: &mut Random) -> Vec<u8> {
    let mut plan = Plan::new();
    for _ in 0..random.below(4) {
        plan.add_node(None);
    }
    plan.start = random.below(4) as u64;
    write(random, &plan)
}
