//! Alterations of elements and bytes that know nothing of a model's meaning.

use super::random::Random;
use super::tree::{count_lists, nth_list, Content, Form, Scope, Tree};
use crate::elements::{is_critical, is_optional, kind};

/// Puts some optional elements where they may stand.
pub fn add_optional_elements(random: &mut Random, trees: &mut Vec<Tree>, count: usize) {
    for _ in 0..count {
        let element = Tree::leaf(optional_kind(random), inside(random));
        insert(random, trees, Scope::Containers, element);
    }
}

/// A type that is passed over.
pub fn optional_kind(random: &mut Random) -> u32 {
    let kind = match random.below(8) {
        0..=4 => *random.pick(&[
            32, 34, 36, 0x2A, 0x30, 0x32, 0x40, 0x60, 0x62, 0x64, 0x80, 252,
        ]),
        5 => *random.pick(&[254, 256, 1_024, 65_534, 65_536, u32::MAX - 1]),
        _ => 2 * random.between(16, 200) as u32,
    };
    debug_assert!(is_optional(kind));
    kind
}

/// A type that no model may hold.
pub fn critical_kind(random: &mut Random) -> u32 {
    let kind = match random.below(4) {
        0 if random.chance(30) => *random.pick(&[30, 31]),
        0 => random.between(1, 31) as u32,
        1 => *random.pick(&[
            0x2B, 0x2D, 0x2F, 0x35, 0x3F, 0x45, 0x59, 0x65, 0x6B, 0x81, 251,
        ]),
        2 => *random.pick(&[253, 255, 257, 65_535, 65_537, u32::MAX]),
        _ => 2 * random.between(0x36, 200) as u32 + 1,
    };
    debug_assert!(is_critical(kind));
    kind
}

/// Bytes that nobody reads, though they may look like elements.
pub fn inside(random: &mut Random) -> Vec<u8> {
    match random.below(8) {
        0..=2 => Vec::new(),
        3 => vec![kind::TAG as u8, 1, 0],
        4 => vec![kind::NODE as u8, 3, kind::NODE_ID as u8, 1, 0],
        5 => {
            let length = random.between(240, 300);
            vec![0x81; length]
        }
        _ => {
            let length = random.below(12);
            random.bytes(length)
        }
    }
}

fn insert(random: &mut Random, trees: &mut Vec<Tree>, scope: Scope, element: Tree) {
    let list = any_list(random, trees, scope);
    let place = random.below(list.len() + 1);
    list.insert(place, element);
}

fn any_list<'t>(random: &mut Random, trees: &'t mut Vec<Tree>, scope: Scope) -> &'t mut Vec<Tree> {
    let number = random.below(count_lists(trees, scope));
    nth_list(trees, number, scope)
}

/// Alters the elements; the lengths around the spot are written to fit.
pub fn alter_elements(random: &mut Random, trees: &mut Vec<Tree>) {
    match random.below(15) {
        0 => {
            let element = Tree::leaf(critical_kind(random), inside(random));
            insert(random, trees, Scope::Containers, element);
        }
        1 => {
            let element = Tree::leaf(*random.pick(&kind::ALL), leaf_bytes(random));
            insert(random, trees, Scope::Containers, element);
        }
        2 => {
            let element = Tree::leaf(optional_kind(random), inside(random));
            insert(random, trees, Scope::Everywhere, element);
        }
        3 => {
            let element = nearly_shortest(random);
            insert(random, trees, Scope::Containers, element);
        }
        4 => move_element(random, trees),
        5 => reorder(random, trees),
        6 => {
            let list = any_list_of_several(random, trees);
            reorder(random, list);
        }
        _ => alter_list(random, trees),
    }
}

/// Moves an element to another place among its neighbours.
fn reorder(random: &mut Random, list: &mut Vec<Tree>) {
    if list.is_empty() {
        return;
    }
    let element = list.remove(random.below(list.len()));
    list.insert(random.below(list.len() + 1), element);
}

/// A list that is likely to have more than one element.
fn any_list_of_several<'t>(random: &mut Random, trees: &'t mut Vec<Tree>) -> &'t mut Vec<Tree> {
    let count = count_lists(trees, Scope::Containers);
    let mut number = random.below(count);
    for _ in 0..4 {
        if nth_list(trees, number, Scope::Containers).len() > 1 {
            break;
        }
        number = random.below(count);
    }
    nth_list(trees, number, Scope::Containers)
}

/// An optional element with the largest type or length of a form, at times
/// written in the next wider one.
fn nearly_shortest(random: &mut Random) -> Tree {
    let (kind, length, form) = *random.pick(&[
        (252, 0, Form::WideType(3)),
        (252, 0, Form::Shortest),
        (254, 0, Form::WideType(5)),
        (65_534, 0, Form::WideType(5)),
        (65_534, 0, Form::Shortest),
        (65_536, 0, Form::WideType(9)),
        (u32::MAX - 1, 0, Form::WideType(9)),
        (u32::MAX - 1, 0, Form::Shortest),
        (0x80, 252, Form::WideLength(3)),
        (0x80, 252, Form::Shortest),
        (0x80, 253, Form::WideLength(5)),
        (0x80, 253, Form::Shortest),
    ]);
    let mut element = Tree::leaf(kind, vec![0; length]);
    element.form = form;
    element
}

fn leaf_bytes(random: &mut Random) -> Vec<u8> {
    match random.below(5) {
        0 => vec![8, 1, b'a'],
        1 => b"#a".to_vec(),
        2 => b"a".to_vec(),
        _ => vec![random.below(3) as u8],
    }
}

/// Takes an element out of one list and puts it into another.
fn move_element(random: &mut Random, trees: &mut Vec<Tree>) {
    let list = any_list(random, trees, Scope::Everywhere);
    if list.is_empty() {
        return;
    }
    let element = list.remove(random.below(list.len()));
    if random.chance(50) {
        insert(random, trees, Scope::Everywhere, element.clone());
    }
    insert(random, trees, Scope::Everywhere, element);
}

/// Alters one element of one list, or their order.
fn alter_list(random: &mut Random, trees: &mut Vec<Tree>) {
    let list = any_list(random, trees, Scope::Everywhere);
    if list.is_empty() {
        return;
    }
    let index = random.below(list.len());
    let other = random.below(list.len());
    match random.below(8) {
        0 => {
            list.remove(index);
        }
        1 => {
            let copy = list[index].clone();
            list.insert(other, copy);
        }
        2 => list.swap(index, other),
        3 => list[index].kind = other_kind(random, list[index].kind),
        4 => list[index].form = header_form(random, &list[index]),
        _ => alter_content(random, &mut list[index]),
    }
}

/// A type that may change what an element is, or is out of range.
pub fn other_kind(random: &mut Random, kind: u64) -> u64 {
    match random.below(5) {
        0 => (*random.pick(&kind::ALL)).into(),
        1 => critical_kind(random).into(),
        2 => optional_kind(random).into(),
        3 => kind.wrapping_add(*random.pick(&[1 << 8, 1 << 16, 1 << 32])),
        _ => *random.pick(&[0, 65_535, 65_536, 1 << 32, u64::MAX]),
    }
}

/// A header that isn't in the shortest form or has another length.
pub fn header_form(random: &mut Random, element: &Tree) -> Form {
    let length = match &element.content {
        Content::Bytes(bytes) => bytes.len() as u64,
        Content::Nested(_) => 3,
    };
    match random.below(5) {
        0 | 1 => Form::WideType(*random.pick(&[3, 5, 9])),
        2 | 3 => Form::WideLength(*random.pick(&[3, 5, 9])),
        _ => Form::OtherLength(match random.below(7) {
            0 => length + 1,
            1 => length.saturating_sub(1),
            2 => length + (1 << 32),
            3 => 65_535,
            4 => 1 << 31,
            5 => 1 << 32,
            _ => u64::MAX,
        }),
    }
}

fn alter_content(random: &mut Random, element: &mut Tree) {
    let is_integer = [
        kind::TAG,
        kind::NODE_ID,
        kind::PARENT,
        kind::SIGN_CONSTRAINT,
    ]
    .iter()
    .any(|&kind| element.kind == u64::from(kind));
    match &mut element.content {
        Content::Nested(list) => list.clear(),
        Content::Bytes(bytes) if is_integer && random.chance(60) => {
            let width = *random.pick(&[0, 1, 2, 3, 4, 5, 6, 7, 8, 9, 16]);
            let value = bytes.last().copied().unwrap_or(0);
            *bytes = vec![0; width];
            bytes.last_mut().into_iter().for_each(|last| *last = value);
        }
        Content::Bytes(bytes) => alter_bytes(random, bytes),
    }
}

/// Bytes at the edges of what is a letter or digit, and some others.
const EDGE_BYTES: [u8; 24] = [
    0, 1, b' ', b'#', b'$', b'/', b'0', b'9', b':', b'@', b'A', b'Z', b'[', b'^', b'_', b'`', b'a',
    b'z', b'{', 0x7F, 0x80, 0xC3, 0xFE, 0xFF,
];

/// Alters bytes without regard to elements.
pub fn alter_bytes(random: &mut Random, bytes: &mut Vec<u8>) {
    let place = random.below(bytes.len() + 1);
    let behind = random.between(place, (place + 8).min(bytes.len()));
    match random.below(9) {
        0 | 1 => {
            if let Some(byte) = bytes.get_mut(place) {
                *byte ^= 1 << random.below(8);
            }
        }
        2 | 3 => {
            if let Some(byte) = bytes.get_mut(place) {
                *byte = *random.pick(&EDGE_BYTES);
            }
        }
        4 => bytes.truncate(place),
        5 => bytes.insert(place, *random.pick(&EDGE_BYTES)),
        6 => {
            bytes.drain(place..behind);
        }
        7 => {
            let copy = bytes[place..behind].to_vec();
            bytes.splice(place..place, copy);
        }
        _ => bytes.push(random.byte()),
    }
}

/// The first part of some bytes and the last part of others.
pub fn splice(random: &mut Random, first: &[u8], second: &[u8]) -> Vec<u8> {
    let end = random.below(first.len() + 1);
    let start = random.below(second.len() + 1);
    [&first[..end], &second[start..]].concat()
}
