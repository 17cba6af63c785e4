//! Cases for the call that finds a certificate in a list.

use super::damage::{alter_bytes, header_form, other_kind};
use super::models::{sample, sound_model, Sample};
use super::names::{Signing, Style};
use super::random::Random;
use super::tree::{encode, Tree};
use super::work::{self, Models};
use crate::answers::may_sign;
use crate::cases::{Case, MAX_LIST_FIELD};
use crate::certificates::MAX_ENTRIES;
use crate::elements::{kind, Element, Part};
use crate::model::Model;
use crate::names::{Name, Role};

/// Sets these cases apart from the other ones of the same seed.
const STREAM: u64 = 0x6365_7274_6966_6963;

/// The largest numbers of edges that the walks for one name and for all entries
/// of a list may look at.
const MAX_KEY_WORK: u64 = 1_000;
const MAX_LIST_WORK: u64 = 100_000;

/// Names of keys that few models let sign anything.
const RARE_KEYS: [&[u8]; 3] = [
    &[7, 0],
    &[7, 2, 8, 0],
    &[7, 6, 253, 255, 255, 2, b'n', b'o'],
];

const PACKET_STYLES: [(usize, Style); 8] = [
    (850, Style::Exact),
    (30, Style::Near),
    (10, Style::Random),
    (40, Style::Malformed),
    (25, Style::TooLong),
    (10, Style::AtByteLimit),
    (25, Style::TooManyComponents),
    (10, Style::AtComponentLimit),
];

const KEY_STYLES: [(usize, Style); 4] = [
    (930, Style::Exact),
    (40, Style::Near),
    (10, Style::AtByteLimit),
    (20, Style::AtComponentLimit),
];

const OTHER_KEY_STYLES: [(usize, Style); 5] = [
    (100, Style::Exact),
    (650, Style::Near),
    (220, Style::Random),
    (10, Style::AtByteLimit),
    (20, Style::AtComponentLimit),
];

const LONG_KEY_STYLES: [(usize, Style); 1] = [(1, Style::AtByteLimit)];

const BAD_KEY_STYLES: [(usize, Style); 3] = [
    (50, Style::Malformed),
    (25, Style::TooLong),
    (25, Style::TooManyComponents),
];

/// The case with this index.
pub fn certificate_case(seed: u64, index: u64) -> Case {
    let random = &mut Random::for_case(seed ^ STREAM, index);
    let sample = mostly_sound_model(random);
    find_in_sample(random, sample)
}

/// A call that looks for a certificate by this model.
pub fn find_in_sample(random: &mut Random, sample: Sample) -> Case {
    let models = Models::of(&sample);
    let signing = Signing::new(random, &models.source);
    let mut packet = signing.packet_name(random, &PACKET_STYLES);
    let mut key = signing.key_name(random, &KEY_STYLES);
    models.shorten_both(&mut packet, &mut key, MAX_KEY_WORK);
    let is_long = random.below(400) == 0;
    let mut keys = vec![key];
    keys.extend(more_keys(random, &signing, is_long));
    for key in &mut keys[1..] {
        while models.signing_work(&packet, key) > MAX_KEY_WORK {
            *key = work::shortened(key);
        }
    }
    let pool = Pool::of(&models.source, &packet, keys);
    let count = entry_count(random, is_long);
    let entries = Entries::of(random, &pool, count);
    let mut list = altered(random, &pool, entries.clone());
    if models.list_work(&packet, &list) > MAX_LIST_WORK {
        list = entries.names.concat();
    }
    list.truncate(MAX_LIST_FIELD);
    Case::Certificate {
        model: sample.bytes,
        packet,
        list,
    }
}

/// Few models are refused, so that what else a call takes is looked at.
pub fn mostly_sound_model(random: &mut Random) -> Sample {
    if random.chance(20) {
        return sample(random);
    }
    let sound = sound_model(random);
    Sample {
        bytes: sound.clone(),
        sound,
    }
}

/// Names for entries: keys of the packet, others that are near them, bad ones.
fn more_keys(random: &mut Random, signing: &Signing, is_long: bool) -> Vec<Vec<u8>> {
    let (key_styles, other_styles) = if is_long {
        (&LONG_KEY_STYLES[..], &LONG_KEY_STYLES[..])
    } else {
        (&KEY_STYLES[..], &OTHER_KEY_STYLES[..])
    };
    let mut keys = Vec::new();
    for _ in 0..random.below(5) {
        keys.push(signing.key_name(random, key_styles));
    }
    for _ in 0..random.between(1, 6) {
        keys.push(signing.key_name(random, other_styles));
    }
    for _ in 0..2 {
        keys.push(signing.key_name(random, &BAD_KEY_STYLES));
    }
    if random.chance(20) {
        keys.push(signing.packet_name(random, key_styles));
    }
    if random.chance(25) {
        keys.push(random.pick(&RARE_KEYS).to_vec());
    }
    keys
}

/// Names for entries by what the signing answer says of them.
#[derive(Default)]
struct Pool {
    allowed: Vec<Vec<u8>>,
    /// Sound names that aren't allowed; never empty.
    others: Vec<Vec<u8>>,
    /// What is no key name.
    bad: Vec<Vec<u8>>,
}

impl Pool {
    fn of(model: &Model, packet: &[u8], keys: Vec<Vec<u8>>) -> Self {
        let packet = Name::load(packet, Role::Packet).ok();
        let is_allowed = |key: &Name| {
            packet
                .as_ref()
                .is_some_and(|packet| may_sign(model, packet, key))
        };
        let mut pool = Pool::default();
        for key in keys {
            match Name::load(&key, Role::Key) {
                Ok(name) if is_allowed(&name) => pool.allowed.push(key),
                Ok(_) => pool.others.push(key),
                Err(_) => pool.bad.push(key),
            }
        }
        if pool.others.is_empty() {
            pool.others = RARE_KEYS.map(Vec::from).into();
        }
        pool
    }

    /// An entry that is allowed, if there is one.
    fn allowed(&self, random: &mut Random) -> Vec<u8> {
        if self.allowed.is_empty() {
            return self.other(random);
        }
        random.pick(&self.allowed).clone()
    }

    fn other(&self, random: &mut Random) -> Vec<u8> {
        random.pick(&self.others).clone()
    }

    fn any(&self, random: &mut Random) -> Vec<u8> {
        if random.chance(50) {
            self.allowed(random)
        } else {
            self.other(random)
        }
    }
}

/// How many entries a list has before it is altered.
fn entry_count(random: &mut Random, is_long: bool) -> usize {
    if is_long {
        return *random.pick(&[MAX_ENTRIES - 1, MAX_ENTRIES, MAX_ENTRIES]);
    }
    match random.below(100) {
        0..=4 => 0,
        5..=14 => 1,
        15..=24 => 2,
        25..=63 => random.between(3, 8),
        64..=73 => random.between(9, 62),
        74..=79 => 63,
        80..=90 => 64,
        91..=96 => 65,
        97 | 98 => 66,
        _ => random.between(67, 130),
    }
}

/// The entries of a list and the index of the first that is meant to be
/// allowed; the number of entries if none is.
#[derive(Clone)]
struct Entries {
    names: Vec<Vec<u8>>,
    first: usize,
}

impl Entries {
    /// Sound names.
    fn of(random: &mut Random, pool: &Pool, count: usize) -> Self {
        let last = count.saturating_sub(1);
        let first = match random.below(20) {
            0..=2 => count,
            3..=5 => 0,
            6..=9 => last,
            _ => random.between(0, last),
        };
        let mut names = Vec::new();
        for index in 0..count {
            names.push(match index {
                _ if index < first => pool.other(random),
                _ if index == first => pool.allowed(random),
                _ => pool.any(random),
            });
        }
        Entries { names, first }
    }

    /// Fills up, or cuts back, to this many entries.
    fn resize(&mut self, random: &mut Random, pool: &Pool, count: usize) {
        self.names.truncate(count);
        while self.names.len() < count {
            self.names.push(pool.any(random));
        }
    }

    /// Puts a bad entry in the place of another or, at times, between two.
    fn spoil(&mut self, random: &mut Random, pool: &Pool) {
        let place = self.place(random);
        let entry = match self.names.get(place) {
            Some(entry) => entry.clone(),
            None => pool.any(random),
        };
        let bad = bad_entry(random, pool, &entry);
        if place == self.names.len() || random.chance(20) {
            self.names.insert(place, bad);
        } else {
            self.names[place] = bad;
        }
    }

    /// A place before, at or behind the first that is allowed.
    fn place(&self, random: &mut Random) -> usize {
        let count = self.names.len();
        let place = match random.below(8) {
            0 => 0,
            1 => count.saturating_sub(1),
            2 => self.first,
            3 => self.first + 1,
            4 => random.below(self.first + 1),
            5 => random.between(self.first, self.first.max(count)),
            _ => random.below(count + 1),
        };
        place.min(count)
    }
}

/// Something that is no key name, mostly made from one.
fn bad_entry(random: &mut Random, pool: &Pool, entry: &[u8]) -> Vec<u8> {
    let whole = Part::whole(entry);
    let inside = Element::read(whole).map_or(entry, |(element, _)| element.value.bytes);
    let mut element = Tree::leaf(kind::NAME, inside);
    match random.below(200) {
        0 => element = long_element(random),
        1..=69 if !pool.bad.is_empty() => return random.pick(&pool.bad).clone(),
        70..=89 => element.kind = *random.pick(&[1, 6, 8, 8, 0x27, 253, 263]),
        90..=149 => element.kind = other_kind(random, element.kind),
        _ => element.form = header_form(random, &element),
    }
    encode(&[element])
}

/// An element that fills much of the list.
fn long_element(random: &mut Random) -> Tree {
    let count = random.between(520, 32_766);
    Tree::leaf(*random.pick(&[kind::NAME, 8]), [8, 0].repeat(count))
}

/// The bytes of the list, at times with bad entries or a bad end.
fn altered(random: &mut Random, pool: &Pool, mut entries: Entries) -> Vec<u8> {
    let times = random.weighted(&[(68, 0), (25, 1), (7, 2)]);
    for _ in 0..times {
        entries.spoil(random, pool);
    }
    match random.below(100) {
        0..=4 => cut_end(random, &entries.names),
        5..=12 => with_rest(random, pool, entries),
        13..=16 => {
            let mut list = entries.names.concat();
            for _ in 0..random.between(1, 3) {
                alter_bytes(random, &mut list);
            }
            list
        }
        17 => noise(random),
        _ => entries.names.concat(),
    }
}

/// The list without some bytes of its last entry.
fn cut_end(random: &mut Random, names: &[Vec<u8>]) -> Vec<u8> {
    let mut list = names.concat();
    let of_last = names.last().map_or(0, Vec::len);
    let cut = match random.below(3) {
        0 => 1.min(of_last),
        1 => of_last.saturating_sub(1),
        _ => random.below(of_last + 1),
    };
    list.truncate(list.len() - cut);
    list
}

/// The list with bytes behind it, mostly behind as many entries as it may have.
fn with_rest(random: &mut Random, pool: &Pool, mut entries: Entries) -> Vec<u8> {
    if random.chance(70) {
        let count = random.weighted(&[
            (15, MAX_ENTRIES - 1),
            (75, MAX_ENTRIES),
            (10, MAX_ENTRIES + 1),
        ]);
        entries.resize(random, pool, count);
    }
    let name = pool.any(random);
    let rest = match random.below(6) {
        0 => vec![random.byte()],
        1 => vec![*random.pick(&[0, 7, 8, 253, 255])],
        2 => name[..random.between(1, name.len() - 1)].to_vec(),
        3 => bad_entry(random, pool, &name),
        4 => {
            let length = random.between(1, 12);
            random.bytes(length)
        }
        _ => name,
    };
    [entries.names.concat(), rest].concat()
}

/// Bytes among which there may be elements.
fn noise(random: &mut Random) -> Vec<u8> {
    let length = random.below(40);
    if random.chance(30) {
        return random.bytes(length);
    }
    let bytes = (0..length).map(|_| *random.pick(&[0, 0, 1, 2, 3, 7, 7, 7, 8, 8, b'a', 253]));
    bytes.collect()
}
