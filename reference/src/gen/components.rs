//! Cases that compare two components.

use super::random::Random;
use crate::cases::{Case, MAX_COMPONENT_FIELD};
use crate::names::OwnedComponent;

/// Sets these cases apart from the other ones of the same seed.
const STREAM: u64 = 0x636F_6D70_6F6E_656E;

const LARGEST_KIND: u64 = 65_535;

/// Types at the borders of their forms, and some that have a byte in common.
const KINDS: [u64; 16] = [
    1, 7, 8, 9, 252, 253, 254, 255, 256, 257, 263, 264, 511, 2_048, 65_534, 65_535,
];

/// Bytes of which some have their low or high bits in common.
const BYTES: [u8; 8] = [0x00, 0x01, 0x7F, 0x80, 0xFE, 0xFF, b'a', b'A'];

/// Bytes that are often found in headers.
const HEADER_BYTES: [u8; 9] = [0, 1, 2, 3, 7, 8, 253, 254, 255];

/// What alters a byte: one bit, the high ones, the low ones, all.
const MASKS: [u8; 10] = [0x01, 0x02, 0x10, 0x20, 0x40, 0x80, 0x80, 0xF0, 0x0F, 0xFF];

/// How the second component comes from the first.
#[derive(Clone, Copy)]
enum Relation {
    Equal,
    OneByte,
    SeveralBytes,
    Moved,
    OtherKind,
    OtherLength,
    Unrelated,
}

const RELATIONS: [(usize, Relation); 7] = [
    (18, Relation::Equal),
    (30, Relation::OneByte),
    (16, Relation::SeveralBytes),
    (5, Relation::Moved),
    (14, Relation::OtherKind),
    (14, Relation::OtherLength),
    (3, Relation::Unrelated),
];

/// The case with this index.
pub fn component_case(seed: u64, index: u64) -> Case {
    let random = &mut Random::for_case(seed ^ STREAM, index);
    let mut first = component(random);
    let relation = random.weighted(&RELATIONS);
    let mut second = related(random, relation, &first);
    match random.below(30) {
        0 | 1 => {
            let kind = kind(random);
            first = wrapped(first, kind);
            second = wrapped(second, kind);
        }
        2 => second = wrapped(second, first.kind),
        _ => {}
    }
    if random.chance(50) {
        std::mem::swap(&mut first, &mut second);
    }
    Case::Compare { first, second }
}

fn component(random: &mut Random) -> OwnedComponent {
    let kind = kind(random);
    let length = length(random, kind);
    OwnedComponent::new(kind, value(random, length))
}

fn kind(random: &mut Random) -> u64 {
    match random.below(10) {
        0..=5 => 8,
        6..=8 => *random.pick(&KINDS),
        _ => random.between(1, LARGEST_KIND as usize) as u64,
    }
}

/// Few values are long, so that many cases are quick.
fn length(random: &mut Random, kind: u64) -> usize {
    match random.below(1_000) {
        0 => longest_value(kind),
        1 => longest_value(kind) - random.below(100),
        2 => random.between(1_031, longest_value(kind)),
        3..=17 => random.between(500, 1_030),
        18..=67 => random.between(251, 257),
        68..=107 => 0,
        108..=207 => 1,
        208..=307 => 2,
        _ => random.between(3, 40),
    }
}

/// The length of the longest value that a field has room for, behind the type
/// and a length of three bytes.
fn longest_value(kind: u64) -> usize {
    let bytes_of_kind = if kind < 253 { 1 } else { 3 };
    MAX_COMPONENT_FIELD - bytes_of_kind - 3
}

fn value(random: &mut Random, length: usize) -> Vec<u8> {
    match random.below(10) {
        0 => vec![*random.pick(&BYTES); length],
        1 | 2 => (0..length).map(|_| *random.pick(&BYTES)).collect(),
        3 => (0..length).map(|_| *random.pick(&HEADER_BYTES)).collect(),
        4 | 5 => (0..length).map(|_| b'0' + random.below(10) as u8).collect(),
        _ => random.bytes(length),
    }
}

fn related(random: &mut Random, relation: Relation, first: &OwnedComponent) -> OwnedComponent {
    let mut second = first.clone();
    match relation {
        Relation::Equal => {}
        Relation::OneByte => alter_byte(random, &mut second.value),
        Relation::SeveralBytes => alter_bytes(random, &mut second.value),
        Relation::Moved => move_bytes(random, &mut second.value),
        Relation::OtherKind => {
            second.kind = other_kind(random, first.kind);
            match random.below(10) {
                0 => alter_byte(random, &mut second.value),
                1 => alter_length(random, &mut second),
                _ => {}
            }
        }
        Relation::OtherLength => alter_length(random, &mut second),
        Relation::Unrelated if random.chance(50) => second = component(random),
        Relation::Unrelated => second.value = value(random, first.value.len()),
    }
    second.value.truncate(longest_value(second.kind));
    second
}

/// A component of this type that has the whole other one as its value, so that
/// the value looks like a header and more. Long ones stay as they are.
fn wrapped(component: OwnedComponent, kind: u64) -> OwnedComponent {
    let bytes = component.encode();
    if bytes.len() > longest_value(kind) {
        return component;
    }
    OwnedComponent::new(kind, bytes)
}

/// Another type, often with one of its two bytes in common.
fn other_kind(random: &mut Random, kind: u64) -> u64 {
    loop {
        let other = match random.below(8) {
            0 | 1 => kind ^ 0x100,
            2 => kind ^ 0x100 << random.below(8),
            3 => kind ^ 1 << random.below(8),
            4 => kind + 1,
            5 => kind - 1,
            6 => u64::from((kind as u16).swap_bytes()),
            _ => *random.pick(&KINDS),
        };
        if other != kind && (1..=LARGEST_KIND).contains(&other) {
            return other;
        }
    }
}

/// Alters one byte, if there is one.
fn alter_byte(random: &mut Random, value: &mut [u8]) {
    if !value.is_empty() {
        let place = place(random, value.len());
        value[place] = other_byte(random, value[place]);
    }
}

fn other_byte(random: &mut Random, byte: u8) -> u8 {
    if random.chance(30) {
        return byte.wrapping_add(random.between(1, 255) as u8);
    }
    byte ^ *random.pick(&MASKS)
}

/// A place in a value that isn't empty, often near one of its ends.
fn place(random: &mut Random, length: usize) -> usize {
    let last = length - 1;
    let behind = match random.below(12) {
        0..=2 => 0,
        3 | 4 => 1,
        5 => 2,
        6 => length / 2,
        7 | 8 => last,
        9 => last.saturating_sub(1),
        10 => *random.pick(&[7, 8, 15, 16, 31, 32, 254, 255, 256, 257]),
        _ => random.below(length),
    };
    last - behind.min(last)
}

/// Alters a few bytes, or all on one side of a place.
fn alter_bytes(random: &mut Random, value: &mut [u8]) {
    if value.is_empty() {
        return;
    }
    let place = place(random, value.len());
    let altered = match random.below(4) {
        0 => &mut value[place..],
        1 => &mut value[..=place],
        _ => {
            for _ in 0..random.between(2, 5) {
                alter_byte(random, value);
            }
            return;
        }
    };
    for byte in altered {
        *byte = other_byte(random, *byte);
    }
}

/// The same bytes in another order.
fn move_bytes(random: &mut Random, value: &mut [u8]) {
    if value.is_empty() {
        return;
    }
    match random.below(4) {
        0 => value.reverse(),
        1 => value.rotate_left(1),
        2 => value.rotate_right(1),
        _ => {
            let (one, other) = (place(random, value.len()), place(random, value.len()));
            value.swap(one, other);
        }
    }
}

/// Takes bytes away or puts some in: at the front, so that one value is the end
/// of the other, at the back or between.
fn alter_length(random: &mut Random, component: &mut OwnedComponent) {
    let length = component.value.len();
    let longest = longest_value(component.kind);
    let by = match random.below(80) {
        0..=29 => 1,
        30..=34 => 2,
        35..=46 => 256,
        47..=51 => 256 * random.between(2, 4),
        52 => 256 * random.between(2, longest / 256),
        53 => random.between(1_000, longest),
        54..=61 => length.max(1),
        _ => random.between(1, 40),
    };
    let room = longest.saturating_sub(length);
    if by <= length && (by > room || random.chance(50)) {
        let from = end_or_between(random, length - by);
        component.value.drain(from..from + by);
    } else {
        let from = end_or_between(random, length);
        let more = more_bytes(random, &component.value, by.min(room));
        component.value.splice(from..from, more);
    }
}

fn end_or_between(random: &mut Random, last: usize) -> usize {
    match random.below(5) {
        0 | 1 => 0,
        2 | 3 => last,
        _ => random.between(0, last),
    }
}

/// Bytes to put into a value, at times its own once more.
fn more_bytes(random: &mut Random, value_before: &[u8], count: usize) -> Vec<u8> {
    if !value_before.is_empty() && random.chance(40) {
        return value_before.iter().copied().cycle().take(count).collect();
    }
    value(random, count)
}
