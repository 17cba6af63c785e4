//! The words that are lent to calls: binding buffers, and those for paths.

use super::random::Random;
use crate::answers::BINDING_WORDS;
use crate::cases::{MAX_PATH_WORDS, MAX_WORDS};

/// A binding buffer, mostly long enough. What it holds mustn't matter, and is at
/// times what a call could have written.
pub fn binding_words(random: &mut Random) -> Vec<u32> {
    let needed = BINDING_WORDS;
    let length = match random.below(100) {
        0..=3 => needed - 1,
        4 => needed - random.between(2, 4),
        5 | 6 => random.below(needed),
        // two words for each Tag
        7 => *random.pick(&[255, 256, 257]),
        8 => 0,
        9..=12 => needed + 1,
        13..=24 => needed + random.between(2, 40),
        25..=28 => *random.pick(&[511, 512, 513, 768, MAX_WORDS - 1, MAX_WORDS]),
        _ => needed,
    };
    let first = random.below(1_000);
    let item: fn(&mut Random, u32) -> u32 = match random.below(20) {
        0..=2 => |_, counted| counted % 1_000,
        3 | 4 => |random, _| random.below(4) as u32,
        5 => |_, _| 0,
        6 => |_, _| u32::MAX,
        7 | 8 => |random, _| random.number() as u32,
        _ => |random, _| random.below(1_000) as u32,
    };
    let counted = (0..length).map(|place| (first + place) as u32);
    counted.map(|counted| item(random, counted)).collect()
}

/// The words for the path of a signing call whose names have so many components:
/// mostly enough.
pub fn path_words(random: &mut Random, needed: usize) -> Vec<u16> {
    let length = match random.below(100) {
        0..=52 => needed,
        53..=74 => needed + random.between(1, 6),
        75..=84 => needed.max(64),
        85 | 86 => needed + random.between(7, 200),
        87 => *random.pick(&[255, 256, 257, 1_024, MAX_PATH_WORDS - 1, MAX_PATH_WORDS]),
        88..=93 => needed.saturating_sub(1),
        94..=96 => 0,
        _ => random.below(needed.max(1)),
    };
    let first = random.number() as u16;
    let item: fn(&mut Random, u16) -> u16 = match random.below(10) {
        0 => |_, counted| counted,
        1 => |random, _| random.below(4) as u16,
        2 => |_, _| 0,
        3 => |_, _| u16::MAX,
        _ => |random, _| random.number() as u16,
    };
    let counted = (0..length).map(|place| first.wrapping_add(place as u16));
    counted.map(|counted| item(random, counted)).collect()
}
