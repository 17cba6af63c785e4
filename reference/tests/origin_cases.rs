//! Generated cases with binding buffers: what must hold of every word, and that
//! bindings of every sort come up.

mod build;

use std::collections::BTreeMap;
use std::ops::ControlFlow;

use build::{BINDING_ROOM, PATH_ROOM};
use lvs_reference::answers::visit_pairs;
use lvs_reference::cases::Case;
use lvs_reference::elements::{Elements, Part};
use lvs_reference::gen::{self, damaged_case, path_case};
use lvs_reference::model::{Edge, Model};
use lvs_reference::names::{Name, Role};
use lvs_reference::verdict::load;
use lvs_reference::walk::{visit_matches, Bindings, Trace};
use lvs_reference::{match_name, sign, MatchAnswer, SignAnswer};

const CASES: u64 = 10_000;

/// The cases of the generators that match and sign.
fn cases(seed: u64) -> impl Iterator<Item = Case> {
    (0..CASES).flat_map(move |index| {
        [
            gen::case(seed, index),
            path_case(seed, index),
            damaged_case(seed, index),
        ]
    })
}

/// The inputs of a signing call.
struct Signing {
    model: Vec<u8>,
    packet: Vec<u8>,
    key: Vec<u8>,
    words: Vec<u32>,
    path: Vec<u16>,
}

impl Signing {
    fn of(case: Case) -> Option<Self> {
        match case {
            Case::Sign {
                model,
                packet,
                key,
                words,
                path,
            } => Some(Signing {
                model,
                packet,
                key,
                words,
                path,
            }),
            _ => None,
        }
    }

    fn sign(&self, words: &mut [u32], path: &mut [u16]) -> SignAnswer {
        sign(&self.model, &self.packet, &self.key, words, path)
    }

    /// The model and the names, none of which is refused.
    fn load(&self) -> (Model<'_>, Name<'_>, Name<'_>) {
        let packet = Name::load(&self.packet, Role::Packet).unwrap();
        let key = Name::load(&self.key, Role::Key).unwrap();
        (load(&self.model).unwrap(), packet, key)
    }
}

/// Start and length of each component of a name, read anew.
fn places(name: &[u8]) -> Vec<[u32; 2]> {
    let name = Elements::new(Part::whole(name)).next().unwrap().unwrap();
    let components = Elements::new(name.value).map(Result::unwrap);
    components
        .map(|component| [component.start, component.end() - component.start])
        .map(|place| place.map(|number| number as u32))
        .collect()
}

/// A PatternEdge with a named Tag, as it was crossed.
struct Crossing {
    tag: u64,
    place: [u32; 2],
    origin: u32,
}

/// What was crossed along a path, worked out without a walk.
struct Route {
    crossings: Vec<Crossing>,
    /// Whether the packet crossed a temporary Tag, and whether the key did.
    crosses_temporary: [bool; 2],
}

impl Route {
    /// A path's words are those of all names, one after the other.
    fn new(model: &Model, names: &[&[u8]], path: &[u16]) -> Self {
        let mut route = Route {
            crossings: vec![],
            crosses_temporary: [false; 2],
        };
        let mut ordinals = path.iter();
        for (origin, name) in (1..).zip(names) {
            let mut node = &model.nodes[model.start as usize];
            for place in places(name) {
                let edge = node.edge(*ordinals.next().unwrap()).unwrap();
                if let Edge::Pattern(pattern) = edge {
                    let tag = pattern.tag;
                    if tag <= model.named_pattern_count {
                        route.crossings.push(Crossing { tag, place, origin });
                    } else {
                        route.crosses_temporary[origin as usize - 1] = true;
                    }
                }
                node = &model.nodes[edge.destination() as usize];
            }
        }
        assert_eq!(ordinals.next(), None);
        route
    }

    /// The first crossing of a Tag.
    fn first(&self, tag: u64) -> Option<&Crossing> {
        self.crossings.iter().find(|crossing| crossing.tag == tag)
    }

    /// The words that a buffer must have.
    fn words(&self) -> Vec<u32> {
        let of_tags = (1..=128).map(|tag| match self.first(tag) {
            Some(first) => [first.place[0], first.place[1], first.origin],
            None => [0; 3],
        });
        of_tags.flatten().collect()
    }

    /// Whether a name crosses a Tag again that was first crossed in this one, at
    /// another start.
    fn meets_again(&self, name: u32, origin: u32) -> bool {
        self.crossings.iter().any(|crossing| {
            let first = self.first(crossing.tag).unwrap();
            crossing.origin == name && first.origin == origin && first.place[0] != crossing.place[0]
        })
    }
}

#[test]
fn what_a_signing_call_writes_follows_from_its_path() {
    let mut allowed = 0;
    for case in cases(11).filter_map(Signing::of) {
        let (mut words, mut path) = (case.words.clone(), case.path.clone());
        let SignAnswer::Allowed { .. } = case.sign(&mut words, &mut path) else {
            assert_eq!((words, path), (case.words, case.path));
            continue;
        };
        let (model, packet, key) = case.load();
        path.truncate(packet.components.len() + key.components.len());
        let route = Route::new(&model, &[&case.packet, &case.key], &path);
        assert_eq!(words[..BINDING_ROOM], route.words());
        assert_eq!(words[BINDING_ROOM..], case.words[BINDING_ROOM..]);
        allowed += 1;
    }
    assert!(allowed > 1_000, "{allowed}");
}

#[test]
fn what_a_match_writes_follows_from_its_path() {
    let mut matches = 0;
    for case in cases(12) {
        let Case::Match { model, name, words } = case else {
            continue;
        };
        let mut written = words.clone();
        let MatchAnswer::Match { bound, .. } = match_name(&model, &name, &mut written) else {
            assert_eq!(written, words);
            continue;
        };
        let path = first_match(&model, &name).path;
        let route = Route::new(&load(&model).unwrap(), &[&name], &path);
        assert_eq!(written[..BINDING_ROOM], route.words());
        assert_eq!(written[BINDING_ROOM..], words[BINDING_ROOM..]);
        let origins = written[..BINDING_ROOM].iter().skip(2).step_by(3);
        assert_eq!(origins.sum::<u32>(), bound as u32);
        matches += 1;
    }
    assert!(matches > 1_000, "{matches}");
}

/// The trace of a packet's first match.
fn first_match<'n>(model: &[u8], name: &'n [u8]) -> Trace<'n> {
    let model = load(model).unwrap();
    let name = Name::load(name, Role::Packet).unwrap();
    let trace = &mut Trace::default();
    let first = visit_matches(&model, &name.components, trace, &mut |_, trace| {
        ControlFlow::Break(trace.clone())
    });
    first.break_value().expect("there is a match")
}

/// How the bindings of pairs before the answered one differ from its own.
#[derive(Default)]
struct Before {
    /// A Tag was bound that isn't.
    drops: bool,
    /// A Tag was bound in the other name.
    moves: bool,
    /// A Tag was bound in the same name, at another place.
    shifts: bool,
}

fn before_answer(case: &Signing) -> Before {
    let (model, packet, key) = case.load();
    let mut earlier: Vec<Bindings> = Vec::new();
    let mut before = Before::default();
    let _ = visit_pairs(&model, &packet, &key, &mut |pair| {
        if !pair.is_allowed(&model) {
            earlier.push(pair.trace.bindings.clone());
            return ControlFlow::Continue(());
        }
        for bindings in &earlier {
            let both = bindings.slots().iter().zip(pair.trace.bindings.slots());
            for (then, now) in both.filter_map(|(then, now)| Some(((*then)?, now))) {
                before.drops |= now.is_none();
                before.moves |= now.is_some_and(|now| now.role != then.role);
                before.shifts |=
                    now.is_some_and(|now| now.role == then.role && now.start != then.start);
            }
        }
        ControlFlow::Break(())
    });
    before
}

/// What is worth seeing often in pairs that are allowed.
fn traits(case: &Signing) -> Vec<&'static str> {
    let mut path = vec![0; PATH_ROOM];
    let SignAnswer::Allowed { .. } = case.sign(&mut [0; BINDING_ROOM], &mut path) else {
        return vec![];
    };
    let (model, packet, key) = case.load();
    path.truncate(packet.components.len() + key.components.len());
    let route = Route::new(&model, &[&case.packet, &case.key], &path);
    let firsts = || (1..=128).filter_map(|tag| route.first(tag));
    let has = |origin: u32| firsts().any(|first| first.origin == origin);
    let has_start_behind = |origin: u32, place: usize| {
        firsts().any(|first| first.origin == origin && first.place[0] as usize > place)
    };
    let before = before_answer(case);
    let is_first_match = path.starts_with(&first_match(&case.model, &case.packet).path);
    let key_meets_packet = route.meets_again(2, 1);
    let long = |name: &[u8]| name.len() > 254;
    let kinds = [
        ("allowed", true),
        ("nothing bound", !has(1) && !has(2)),
        ("only the packet binds", has(1) && !has(2)),
        ("only the key binds", !has(1) && has(2)),
        ("both bind", has(1) && has(2)),
        ("the key meets the packet's", key_meets_packet),
        ("the same, and binds one itself", key_meets_packet && has(2)),
        ("the key meets its own", route.meets_again(2, 2)),
        ("the packet meets its own", route.meets_again(1, 1)),
        ("temporary ones of the packet", route.crosses_temporary[0]),
        ("temporary ones of the key", route.crosses_temporary[1]),
        ("not the packet's first match", !is_first_match),
        ("a Tag was bound before and isn't", before.drops),
        ("a Tag was bound in the other name before", before.moves),
        ("a Tag was bound at another place before", before.shifts),
        (
            "a longer header in the packet",
            long(&case.packet) && has(1),
        ),
        ("a longer header in the key", long(&case.key) && has(2)),
        ("a start above 255 in the packet", has_start_behind(1, 255)),
        ("a start above 255 in the key", has_start_behind(2, 255)),
        (
            "a start that the packet's name doesn't have",
            has_start_behind(2, case.packet.len()),
        ),
        ("Tag 1", route.first(1).is_some()),
        ("Tag 128", route.first(128).is_some()),
    ];
    let found = kinds.into_iter().filter(|(_, is_there)| *is_there);
    found.map(|(name, _)| name).collect()
}

#[test]
fn bindings_of_every_kind_come_up_often() {
    let mut counts: BTreeMap<&str, usize> = BTreeMap::new();
    for case in cases(1).filter_map(Signing::of) {
        for name in traits(&case) {
            *counts.entry(name).or_default() += 1;
        }
    }
    assert!(counts.values().all(|&count| count >= 20), "{counts:#?}");
    assert_eq!(counts.len(), 22, "{counts:#?}");
    let share = |name: &str| 100 * counts[name] / counts["allowed"];
    assert!(share("only the key binds") + share("both bind") >= 40);
    assert!(share("the key meets the packet's") >= 25);
    assert!(share("the same, and binds one itself") >= 10);
}

/// Buffers of all lengths, with names and models that are refused and with good
/// ones, too few words for the path or enough.
#[test]
fn buffers_of_every_length_come_up_often() {
    let mut counts: BTreeMap<String, usize> = BTreeMap::new();
    for case in cases(13) {
        let (letter, length) = match &case {
            Case::Match { words, .. } => ('M', words.len()),
            Case::Sign { words, .. } => ('S', words.len()),
            _ => continue,
        };
        let length = match length {
            0 | 256 | 383..=385 => length.to_string(),
            ..383 => "less".into(),
            386.. => "more".into(),
        };
        *counts.entry(format!("{letter} {length}")).or_default() += 1;
        let both_short = Signing::of(case).is_some_and(|case| {
            let lent = &mut vec![0; BINDING_ROOM];
            case.words.len() < BINDING_ROOM
                && case.sign(lent, &mut case.path.clone()).to_string() == "refused 34 0"
        });
        if both_short {
            *counts.entry("27 and 34".into()).or_default() += 1;
        }
    }
    assert!(counts.values().all(|&count| count >= 10), "{counts:#?}");
    assert_eq!(counts.len(), 2 * 7 + 1, "{counts:#?}");
}
