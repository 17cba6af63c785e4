//! Alterations of the lists of a description.

use super::lists::{MarkedLists, Role};
use super::random::Random;
use crate::description::Lists;

/// Where the widths of integers and the forms of types and lengths change.
pub const BORDERS: [u64; 13] = [
    0,
    127,
    128,
    252,
    253,
    255,
    256,
    65_535,
    65_536,
    (1 << 32) - 1,
    1 << 32,
    u64::MAX - 1,
    u64::MAX,
];

/// Types that a component may have, and types that it may not.
const GOOD_TYPES: [u64; 7] = [1, 8, 252, 253, 254, 256, 65_535];
const BAD_TYPES: [u64; 12] = [
    0,
    0,
    65_536,
    65_536,
    65_544,
    (1 << 32) - 1,
    1 << 32,
    (1 << 32) + 8,
    1 << 63,
    (1 << 63) + 8,
    u64::MAX - 1,
    u64::MAX,
];

/// Counts and lengths that no list can have.
const HUGE: [u64; 9] = [
    1 << 16,
    1 << 31,
    (1 << 32) - 1,
    1 << 32,
    (1 << 32) + 1,
    1 << 61,
    1 << 63,
    u64::MAX - 1,
    u64::MAX,
];

/// Changes one number of a role; tells whether there is one.
fn change(
    random: &mut Random,
    lists: &mut MarkedLists,
    role: Role,
    other: impl FnOnce(&mut Random, u64) -> u64,
) -> bool {
    let places = lists.places(role);
    if places.is_empty() {
        return false;
    }
    let place = *random.pick(&places);
    let number = lists.numbers[place].1;
    lists.numbers[place].1 = other(random, number);
    true
}

/// Gives a component a type that it may not have.
pub fn spoil_type(random: &mut Random, lists: &mut MarkedLists) {
    change(random, lists, Role::Type, |random, _| {
        *random.pick(&BAD_TYPES)
    });
}

/// Gives a component a type at an edge of the forms.
pub fn edge_type(random: &mut Random, lists: &mut MarkedLists) {
    change(random, lists, Role::Type, |random, _| {
        *random.pick(&GOOD_TYPES)
    });
}

/// Sets an integer to a number at an edge of the four widths.
pub fn border_integer(random: &mut Random, lists: &mut MarkedLists) {
    change(random, lists, Role::Integer, |random, _| {
        *random.pick(&BORDERS)
    });
}

/// Alters the lists so that they form another description or, nearly always,
/// none.
pub fn damage(random: &mut Random, lists: &mut MarkedLists) {
    if lists.numbers.is_empty() {
        return;
    }
    match random.below(16) {
        0 => cut_numbers(random, lists),
        1 => cut_texts(random, lists),
        2 => append_numbers(random, lists),
        3 => append_texts(random, lists),
        4..=12 => change_shape(random, lists),
        13 => shift_texts(random, lists),
        14 => take_out_or_repeat(random, lists),
        _ => change_any(random, lists),
    }
}

/// Changes a number that says what comes next, or how much.
fn change_shape(random: &mut Random, lists: &mut MarkedLists) {
    let is_changed = match random.below(13) {
        0 | 1 => change(random, lists, Role::TermKind, other_kind),
        2 | 3 => change(random, lists, Role::ArgumentKind, other_kind),
        4 | 5 => change(random, lists, Role::ParentFlag, other_flag),
        6 | 7 => change(random, lists, Role::TextLength, one_off),
        8 | 9 => change(random, lists, Role::TextLength, huge),
        10 => change(random, lists, Role::Count, huge),
        _ => false,
    };
    if !is_changed {
        change(random, lists, Role::Count, one_off);
    }
}

fn cut_numbers(random: &mut Random, lists: &mut MarkedLists) {
    let length = lists.numbers.len();
    let left = match random.below(4) {
        0 | 1 => length - 1,
        2 => random.below(length),
        _ => random.below(length.min(12)),
    };
    lists.numbers.truncate(left);
}

fn cut_texts(random: &mut Random, lists: &mut MarkedLists) {
    let length = lists.texts.len();
    let left = match random.below(4) {
        0..=2 => length.saturating_sub(1),
        _ => random.below(length + 1),
    };
    lists.texts.truncate(left);
}

fn append_numbers(random: &mut Random, lists: &mut MarkedLists) {
    for _ in 0..random.between(1, 3) {
        let number = *random.pick(&[0, 0, 1, u64::MAX]);
        lists.numbers.push((Role::Integer, number));
    }
}

fn append_texts(random: &mut Random, lists: &mut MarkedLists) {
    let count = random.between(1, 3);
    lists.texts.extend(random.bytes(count));
}

fn other_kind(random: &mut Random, _: u64) -> u64 {
    *random.pick(&[
        0,
        1,
        2,
        2,
        3,
        3,
        4,
        256,
        1 << 32,
        (1 << 32) + 1,
        (1 << 32) + 2,
        u64::MAX,
    ])
}

fn other_flag(random: &mut Random, flag: u64) -> u64 {
    *random.pick(&[
        1 - flag.min(1),
        1 - flag.min(1),
        2,
        2,
        3,
        256,
        257,
        1 << 32,
        (1 << 32) + 1,
        u64::MAX,
    ])
}

fn one_off(random: &mut Random, number: u64) -> u64 {
    if random.chance(50) {
        number.wrapping_add(1)
    } else {
        number.wrapping_sub(1)
    }
}

fn huge(random: &mut Random, number: u64) -> u64 {
    let huge = *random.pick(&HUGE);
    if random.chance(50) {
        number.wrapping_add(huge)
    } else {
        huge
    }
}

/// Moves bytes from one text to another: still a description.
fn shift_texts(random: &mut Random, lists: &mut MarkedLists) {
    let places = lists.places(Role::TextLength);
    if places.is_empty() {
        return;
    }
    let (from, to) = (*random.pick(&places), *random.pick(&places));
    let length = lists.numbers[from].1;
    let count = if random.chance(70) {
        length.min(1)
    } else {
        length
    };
    lists.numbers[from].1 -= count;
    lists.numbers[to].1 = lists.numbers[to].1.wrapping_add(count);
}

fn take_out_or_repeat(random: &mut Random, lists: &mut MarkedLists) {
    let place = random.below(lists.numbers.len());
    if random.chance(50) {
        lists.numbers.remove(place);
    } else {
        lists.numbers.insert(place, lists.numbers[place]);
    }
}

fn change_any(random: &mut Random, lists: &mut MarkedLists) {
    let place = random.below(lists.numbers.len());
    lists.numbers[place].1 = match random.below(3) {
        0 => random.below(4) as u64,
        1 => *random.pick(&BORDERS),
        _ => one_off(random, lists.numbers[place].1),
    };
}

/// A few numbers, drawn without regard to any description.
pub fn noise(random: &mut Random) -> Lists {
    let length = random.below(24);
    let zeros = random.between(30, 85);
    let number = |random: &mut Random| {
        if random.chance(zeros) {
            0
        } else {
            *random.pick(&[1, 1, 1, 1, 2, 2, 3, 8, 255, 256, u64::MAX])
        }
    };
    let numbers = (0..length).map(|_| number(random)).collect();
    let text = random.below(3);
    let texts = (0..text).map(|_| *random.pick(b"#$a_9")).collect();
    Lists { numbers, texts }
}
