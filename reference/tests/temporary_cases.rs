//! Temporary Tags in generated cases: how many there are, that they change
//! answers, and what must not change an answer.

use std::collections::{BTreeMap, BTreeSet};
use std::sync::OnceLock;

use lvs_reference::cases::Case;
use lvs_reference::gen::{self, certificate_case};
use lvs_reference::model::{Argument, Call, ConstraintOption, Model, PatternEdge, Term};
use lvs_reference::verdict::load;

const CASES: u64 = 20_000;
const SEED: u64 = 31;
/// A count that leaves no Tag temporary.
const ALL_NAMED: u64 = 128;

/// The cases of both programs that walk an accepted model.
fn walked_cases() -> &'static [Case] {
    static WALKED: OnceLock<Vec<Case>> = OnceLock::new();
    WALKED.get_or_init(|| {
        let cases = (0..CASES).map(|index| gen::case(SEED, index));
        let with_lists = (0..CASES / 4).map(|index| certificate_case(SEED, index));
        let is_walked = |case: &Case| !matches!(case, Case::Verdict { .. });
        let all = cases.chain(with_lists);
        all.filter(|case| is_walked(case) && load(model_of(case)).is_ok())
            .collect()
    })
}

fn model_of(case: &Case) -> &[u8] {
    match case {
        Case::Match { model, .. }
        | Case::Sign { model, .. }
        | Case::Certificate { model, .. }
        | Case::Verdict { model } => model,
        other => panic!("{other:?}"),
    }
}

/// The line of a case.
fn line(case: &Case) -> String {
    let mut line = Vec::new();
    case.clone().answer(&mut line).unwrap();
    String::from_utf8(line).unwrap()
}

/// The line of a case with its model changed.
fn line_with(case: &Case, change: impl Fn(&mut Model)) -> String {
    let bytes = model_of(case).to_vec();
    let mut loaded = load(&bytes).unwrap();
    change(&mut loaded);
    let mut changed = case.clone();
    match &mut changed {
        Case::Match { model, .. } | Case::Sign { model, .. } | Case::Certificate { model, .. } => {
            *model = loaded.encode()
        }
        other => panic!("{other:?}"),
    }
    line(&changed)
}

fn edges<'m, 'a>(model: &'m Model<'a>) -> impl Iterator<Item = &'m PatternEdge<'a>> {
    model.nodes.iter().flat_map(|node| &node.pattern_edges)
}

fn change_edges(model: &mut Model, change: impl Fn(&mut PatternEdge)) {
    let nodes = model.nodes.iter_mut();
    nodes
        .flat_map(|node| &mut node.pattern_edges)
        .for_each(change);
}

/// Whether an option or its argument names a Tag above the count.
fn names_temporary(option: &ConstraintOption, count: u64) -> bool {
    let is_temporary = |argument: &Argument| matches!(argument, Argument::Tag(tag) if *tag > count);
    option.terms.iter().any(|term| match term {
        Term::Value(_) => false,
        Term::Tag(tag) => *tag > count,
        Term::Call(Call { arguments, .. }) => arguments.iter().any(is_temporary),
    })
}

#[test]
fn about_half_of_all_edges_are_temporary() {
    let (mut temporary, mut all, mut mixed, mut models) = (0, 0, 0, 0);
    for case in walked_cases() {
        let model = load(model_of(case)).unwrap();
        let of_model = edges(&model)
            .filter(|edge| !model.is_named(edge.tag))
            .count();
        temporary += of_model;
        all += edges(&model).count();
        models += 1;
        mixed += usize::from((1..edges(&model).count()).contains(&of_model));
    }
    let share = 100 * temporary / all;
    // signing cases that are to bind something have more named ones
    assert!((42..=55).contains(&share), "{temporary} of {all}");
    assert!(100 * mixed / models >= 30, "{mixed} of {models}");
}

/// How a count lies to the Tags of the edges.
fn count_kinds(model: &Model) -> Vec<&'static str> {
    let tags: BTreeSet<u64> = edges(model).map(|edge| edge.tag).collect();
    let (Some(&smallest), Some(&largest)) = (tags.first(), tags.last()) else {
        return vec![];
    };
    let count = model.named_pattern_count;
    let kinds = [
        ("0", count == 0),
        (
            "a Tag below the largest",
            tags.contains(&count) && count < largest,
        ),
        ("the largest Tag", count == largest),
        (
            "one below a Tag",
            count > 0 && tags.contains(&count.wrapping_add(1)),
        ),
        (
            "between Tags",
            (smallest..largest).contains(&count) && !tags.contains(&count),
        ),
        ("above all Tags", count > largest),
        ("127", count == 127),
        ("128", count == 128),
        ("129", count == 129),
        ("two bytes", (1 << 8..1 << 16).contains(&count)),
        ("four bytes", (1 << 16..1 << 32).contains(&count)),
        ("eight bytes", count >= 1 << 32),
        ("low byte small", count > 255 && count & 0xFF < largest),
    ];
    kinds
        .iter()
        .filter(|kind| kind.1)
        .map(|kind| kind.0)
        .collect()
}

#[test]
fn counts_of_every_kind_come_up_often() {
    let mut counts = BTreeMap::new();
    for case in walked_cases() {
        for kind in count_kinds(&load(model_of(case)).unwrap()) {
            *counts.entry(kind).or_insert(0) += 1;
        }
    }
    assert!(counts.values().all(|&count| count >= 50), "{counts:#?}");
    assert_eq!(counts.len(), 13, "{counts:#?}");
}

/// What a line says, without nodes and words.
fn word_of(line: &str) -> &str {
    line.split(' ').next().unwrap().trim_end()
}

/// How often an answer becomes another one, by a change of the model.
fn changed_answers(change: impl Fn(&mut Model)) -> BTreeMap<String, usize> {
    let mut counts = BTreeMap::new();
    for case in walked_cases() {
        let (now, then) = (line(case), line_with(case, &change));
        if now != then {
            let kind = format!("{} {}", word_of(&now), word_of(&then));
            *counts.entry(kind).or_insert(0) += 1;
        }
    }
    counts
}

fn assert_often(counts: &BTreeMap<String, usize>, kinds: &[&str], least: usize) {
    for &kind in kinds {
        let is_often = counts.get(kind).is_some_and(|&count| count >= least);
        assert!(is_often, "{kind}: {counts:#?}");
    }
}

/// The walk of all Tags alike gives other answers, of every kind.
#[test]
fn temporary_tags_change_many_answers() {
    let counts = changed_answers(|model| model.named_pattern_count = ALL_NAMED);
    let kinds = [
        "match match",
        "match no",
        "no match",
        "allowed allowed",
        "allowed not",
        "not allowed",
        "certificate certificate",
        "certificate none",
        "none certificate",
    ];
    assert_often(&counts, &kinds, 10);
    assert!(counts.values().sum::<usize>() > 1_000, "{counts:#?}");
}

/// Named Tags refuse: with all Tags temporary many more names pass.
#[test]
fn named_tags_change_many_answers() {
    let counts = changed_answers(|model| model.named_pattern_count = 0);
    let kinds = ["match match", "no match", "not allowed", "none certificate"];
    assert_often(&counts, &kinds, 25);
}

/// Without the Constraints of temporary edges other answers come.
#[test]
fn constraints_of_temporary_edges_change_many_answers() {
    let counts = changed_answers(|model| {
        let count = model.named_pattern_count;
        change_edges(model, |edge| {
            if edge.tag > count {
                edge.constraints.clear();
            }
        });
    });
    assert_often(&counts, &["match match", "no match", "not allowed"], 50);
}

/// What names a temporary Tag can be left out: the answers stay.
#[test]
fn options_that_name_a_temporary_tag_change_nothing() {
    let mut left_out = 0;
    for case in walked_cases() {
        let count = load(model_of(case)).unwrap().named_pattern_count;
        let without = line_with(case, |model| {
            change_edges(model, |edge| {
                for constraint in &mut edge.constraints {
                    constraint
                        .options
                        .retain(|option| !names_temporary(option, count));
                }
            });
        });
        assert_eq!(line(case), without);
        let model = load(model_of(case)).unwrap();
        let has_one =
            |edge: &PatternEdge| edge.options().any(|option| names_temporary(option, count));
        left_out += usize::from(edges(&model).any(has_one));
    }
    assert!(left_out > 1_000, "{left_out}");
}

/// Which number above the count a temporary Tag has doesn't matter.
#[test]
fn temporary_tags_are_all_alike() {
    let mut renumbered = 0;
    for case in walked_cases() {
        let count = load(model_of(case)).unwrap().named_pattern_count;
        if count >= ALL_NAMED {
            continue;
        }
        for other in [count + 1, ALL_NAMED] {
            let with_one = line_with(case, |model| {
                change_edges(model, |edge| {
                    edge.tag = if edge.tag > count { other } else { edge.tag }
                });
            });
            assert_eq!(line(case), with_one);
        }
        renumbered += 1;
    }
    assert!(renumbered > 5_000, "{renumbered}");
}

/// Counts between the same two Tags are alike, and so are those from 128.
#[test]
fn counts_that_part_the_tags_alike_give_the_same_answers() {
    for case in walked_cases() {
        let model = load(model_of(case)).unwrap();
        let count = model.named_pattern_count;
        let below = edges(&model)
            .map(|edge| edge.tag)
            .filter(|&tag| tag <= count)
            .max();
        let with_least = line_with(case, |model| model.named_pattern_count = below.unwrap_or(0));
        assert_eq!(line(case), with_least);
        if count >= ALL_NAMED {
            let with_most = line_with(case, |model| model.named_pattern_count = u64::MAX);
            assert_eq!(line(case), with_most);
        }
    }
}
