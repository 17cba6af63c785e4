//! Cases for the writing and the describing call.

use super::faults::{plant, some_of};
use super::list_damage::{border_integer, damage, edge_type, noise, spoil_type, BORDERS};
use super::lists::{encoded_length, MarkedLists};
use super::models::{sample, write, Sample};
use super::plan::{
    ArgumentPlan, OwnedComponent, PatternEdgePlan, Plan, SymbolPlan, TermPlan, ValueEdgePlan,
};
use super::random::Random;
use super::sound;
use crate::cases::{Case, MAX_NUMBERS, MAX_OUTPUT_FIELD, MAX_TEXTS_FIELD};
use crate::description::Lists;
use crate::verdict::{load, MAX_MODEL_BYTES, MAX_NODES};

/// Sets these cases apart from the other ones of the same seed.
const STREAM: u64 = 0x6465_7363_7269_6265;

/// The refusal numbers of faults that a description can have.
const FAULTS: [u8; 12] = [2, 4, 5, 6, 7, 8, 9, 10, 11, 12, 13, 14];

/// The case with this index.
pub fn description_case(seed: u64, index: u64) -> Case {
    let random = &mut Random::for_case(seed ^ STREAM, index);
    if random.chance(60) {
        write_case(random)
    } else {
        describe_case(random)
    }
}

fn write_case(random: &mut Random) -> Case {
    let mut lists = description(random);
    lists.numbers.truncate(MAX_NUMBERS);
    lists.texts.truncate(MAX_TEXTS_FIELD);
    let needed = encoded_length(&lists).unwrap_or_else(|| random.below(100));
    let length = output_length(random, needed).min(MAX_OUTPUT_FIELD);
    Case::Write {
        numbers: lists.numbers,
        texts: lists.texts,
        output: random.bytes(length),
    }
}

/// The length of an output, given how many bytes are to be written.
fn output_length(random: &mut Random, needed: usize) -> usize {
    match random.below(20) {
        0..=7 => needed,
        8..=12 => needed + random.between(1, 40),
        13 => 2 * needed,
        14..=16 => needed.saturating_sub(1),
        17 => 0,
        18 => random.below(needed + 1),
        _ => needed + 1,
    }
}

#[derive(Clone, Copy, Debug)]
enum Treatment {
    None,
    OneFault,
    TwoFaults,
    BadType,
    Border,
    Damaged,
    FaultyAndDamaged,
    AtLimit,
    HugeText,
    Crowded,
    Noise,
}

const TREATMENTS: [(usize, Treatment); 11] = [
    (325, Treatment::None),
    (238, Treatment::OneFault),
    (57, Treatment::TwoFaults),
    (25, Treatment::BadType),
    (35, Treatment::Border),
    (215, Treatment::Damaged),
    (35, Treatment::FaultyAndDamaged),
    (17, Treatment::AtLimit),
    (1, Treatment::HugeText),
    (2, Treatment::Crowded),
    (50, Treatment::Noise),
];

/// The lists for a writing call.
fn description(random: &mut Random) -> Lists {
    let mut plan = sound::plan(random);
    add_extras(random, &mut plan);
    let mut lists = match random.weighted(&TREATMENTS) {
        Treatment::None => MarkedLists::of(&plan),
        Treatment::OneFault => with_faults(random, plan, 1),
        Treatment::TwoFaults => with_faults(random, plan, 2),
        Treatment::BadType => altered(random, &plan, spoil_type),
        Treatment::Border => altered(random, &plan, border_integer),
        Treatment::Damaged => altered(random, &plan, damage),
        Treatment::FaultyAndDamaged => {
            let mut lists = with_faults(random, plan, 1);
            damage(random, &mut lists);
            lists
        }
        Treatment::AtLimit => at_limit(random, plan),
        Treatment::HugeText => MarkedLists::of(&plan_of_one_text(random)),
        Treatment::Crowded => MarkedLists::of(&crowded_plan(random)),
        Treatment::Noise => return noise(random),
    };
    if random.chance(5) {
        edge_type(random, &mut lists);
    }
    lists.plain()
}

fn with_faults(random: &mut Random, mut plan: Plan, count: usize) -> MarkedLists {
    for number in some_of(random, &FAULTS, count) {
        plant(random, &mut plan, number);
    }
    let mut lists = MarkedLists::of(&plan);
    if count > 1 && random.chance(20) {
        spoil_type(random, &mut lists);
    }
    lists
}

/// The lists of a plan, altered once or, at times, twice.
fn altered(
    random: &mut Random,
    plan: &Plan,
    alter: impl Fn(&mut Random, &mut MarkedLists),
) -> MarkedLists {
    let mut lists = MarkedLists::of(plan);
    let count = random.weighted(&[(85, 1), (15, 2)]);
    for _ in 0..count {
        alter(random, &mut lists);
    }
    lists
}

/// Adds integers at the edges of the four widths and texts at those of the
/// forms of a length; the model stays an accepted one.
fn add_extras(random: &mut Random, plan: &mut Plan) {
    if random.chance(12) {
        plan.named_pattern_count = *random.pick(&BORDERS);
    }
    if random.chance(15) {
        sound::set_unused_parent(random, plan, &BORDERS);
    }
    if random.chance(12) {
        let length = random.between(225, 260);
        lengthen_text(random, plan, length);
    }
    if random.chance(15) {
        add_call(random, plan);
    }
}

fn lengthen_text(random: &mut Random, plan: &mut Plan, length: usize) {
    let node = random.below(plan.nodes.len());
    match random.below(4) {
        0 => plan.nodes[node].rule_names.push(rule_name(length)),
        1 => plan.symbols.push(SymbolPlan {
            tag: 1,
            identifier: vec![b'i'; length],
        }),
        _ => {
            let mut components = components(plan);
            if !components.is_empty() {
                let index = random.below(components.len());
                components[index].value = random.bytes(length);
            }
        }
    }
}

/// Adds a Constraint with a call to a PatternEdge, if there is one.
fn add_call(random: &mut Random, plan: &mut Plan) {
    let edges = plan
        .nodes
        .iter_mut()
        .flat_map(|node| &mut node.pattern_edges);
    let mut edges: Vec<_> = edges.collect();
    if edges.is_empty() {
        return;
    }
    let length = random.between(215, 256);
    let argument = match random.below(4) {
        0 => ArgumentPlan::Tag(random.between(1, 128) as u64),
        1 => ArgumentPlan::Value(OwnedComponent::generic("v")),
        _ => ArgumentPlan::Value(OwnedComponent::generic(random.bytes(length))),
    };
    let call = TermPlan::Call {
        function: (*random.pick(&["$eq", "$eq", "$eq_type"])).into(),
        arguments: vec![argument],
    };
    let index = random.below(edges.len());
    edges[index].constraints.push(vec![vec![call]]);
}

fn rule_name(length: usize) -> Vec<u8> {
    let mut name = vec![b'n'; length];
    name[0] = b'#';
    name
}

/// The components of all edges, options and arguments.
fn components(plan: &mut Plan) -> Vec<&mut OwnedComponent> {
    let mut all = Vec::new();
    for node in &mut plan.nodes {
        all.extend(node.value_edges.iter_mut().map(|edge| &mut edge.value));
        let constraints = node
            .pattern_edges
            .iter_mut()
            .flat_map(|edge| &mut edge.constraints);
        for term in constraints.flatten().flatten() {
            match term {
                TermPlan::Value(component) => all.push(component),
                TermPlan::Tag(_) => {}
                TermPlan::Call { arguments, .. } => {
                    all.extend(arguments.iter_mut().filter_map(of_argument))
                }
            }
        }
    }
    all
}

fn of_argument(argument: &mut ArgumentPlan) -> Option<&mut OwnedComponent> {
    match argument {
        ArgumentPlan::Value(component) => Some(component),
        ArgumentPlan::Tag(_) => None,
    }
}

/// A description of as many bytes as a model may have, or about as many.
fn at_limit(random: &mut Random, mut plan: Plan) -> MarkedLists {
    let limit = MAX_MODEL_BYTES;
    let total = *random.pick(&[
        limit - 1,
        limit,
        limit,
        limit,
        limit + 1,
        limit + 1,
        limit + 2,
        40_000,
    ]);
    if random.chance(25) {
        let number = *random.pick(&FAULTS);
        plant(random, &mut plan, number);
    }
    let index = random.below(plan.nodes.len());
    plan.nodes[index].rule_names.push(rule_name(2));
    // the lengths around the text grow with it, so one step isn't enough
    for _ in 0..3 {
        let length = encoded_length(&MarkedLists::of(&plan).plain()).unwrap_or(total);
        let names = &mut plan.nodes[index].rule_names;
        let name = names.last_mut().expect("one was added");
        *name = rule_name((name.len() + total).saturating_sub(length).max(2));
    }
    MarkedLists::of(&plan)
}

/// A text about as long as a length of three bytes can say.
fn plan_of_one_text(random: &mut Random) -> Plan {
    let mut plan = Plan::new();
    plan.add_node(None);
    plan.nodes[0].rule_names = vec![rule_name(random.between(65_530, 65_536))];
    plan
}

/// Very many of one thing, in the first of two nodes. Many edges between the two are
/// parallel edges, and refused.
fn crowded_plan(random: &mut Random) -> Plan {
    if random.chance(25) {
        return plan_of_wide_node(random);
    }
    let mut plan = Plan::new();
    plan.add_node(None);
    plan.add_node(Some(0));
    let count = random.between(100, 2_700);
    let edge = |constraints| PatternEdgePlan {
        destination: 1,
        tag: 1,
        constraints,
    };
    let node = &mut plan.nodes[0];
    match random.below(8) {
        0 => node.signers = vec![1; 3 * count],
        1 => node.signers = vec![1; 4 * count],
        2 => node.rule_names = vec![b"#n".to_vec(); 2 * count],
        3 => {
            let value = OwnedComponent::generic("v");
            node.value_edges = vec![
                ValueEdgePlan {
                    destination: 1,
                    value
                };
                count
            ];
        }
        4 => node.pattern_edges = vec![edge(vec![]); count],
        5 => node.pattern_edges = vec![edge(vec![vec![]; 3 * count])],
        6 => node.pattern_edges = vec![edge(vec![vec![vec![TermPlan::Tag(2)]; count]])],
        _ => {
            plan.symbols = vec![
                SymbolPlan {
                    tag: 3,
                    identifier: b"s".to_vec()
                };
                count
            ]
        }
    }
    plan
}

/// As many edges as a node may have, so many of them ValueEdges.
fn plan_of_wide_node(random: &mut Random) -> Plan {
    let mut plan = Plan::new();
    plan.add_node(None);
    let by_value = *random.pick(&[0, 1, 128, MAX_NODES]);
    while plan.nodes.len() < MAX_NODES {
        let destination = plan.add_node(Some(0));
        let node = &mut plan.nodes[0];
        if node.value_edges.len() < by_value {
            let value = OwnedComponent::generic("v");
            node.value_edges.push(ValueEdgePlan { destination, value });
        } else {
            node.pattern_edges.push(PatternEdgePlan {
                destination,
                tag: 1,
                constraints: Vec::new(),
            });
        }
    }
    plan
}

fn describe_case(random: &mut Random) -> Case {
    if random.below(400) == 0 {
        let plan = crowded_plan(random);
        let lists = MarkedLists::of(&plan).plain();
        let model = write(random, &plan);
        return with_lent_lists(random, model, lists);
    }
    let sample = sample(random);
    describe_sample(random, sample)
}

/// A call that describes this model, with lists for its description or for that
/// of the model that it was made from.
pub fn describe_sample(random: &mut Random, sample: Sample) -> Case {
    let Sample { sound, bytes } = sample;
    let model = load(&bytes).or_else(|_| load(&sound));
    let lists = model.expect("sound models are accepted").to_lists();
    with_lent_lists(random, bytes, lists)
}

fn with_lent_lists(random: &mut Random, model: Vec<u8>, needed: Lists) -> Case {
    let (numbers, texts) = list_lengths(random, needed.numbers.len(), needed.texts.len());
    Case::Describe {
        model,
        numbers: list_of_numbers(random, numbers.min(MAX_NUMBERS)),
        texts: random.bytes(texts.min(MAX_TEXTS_FIELD)),
    }
}

/// The lengths of both lists, given how many are to be filled.
fn list_lengths(random: &mut Random, numbers: usize, texts: usize) -> (usize, usize) {
    let shorter = |length: usize| length.saturating_sub(1);
    match random.below(50) {
        0..=17 => (numbers, texts),
        18..=31 => (numbers + random.below(12), texts + random.below(12)),
        32 => (2 * numbers, 2 * texts),
        33 => (numbers + 1, texts + 1),
        34..=37 => (shorter(numbers), texts),
        38..=40 => (numbers, shorter(texts)),
        41 => (shorter(numbers), shorter(texts)),
        42 => (numbers + 3, shorter(texts)),
        43 => (shorter(numbers), texts + 3),
        44 => (0, texts),
        45 => (numbers, 0),
        46 => (0, 0),
        47 => (random.below(numbers + 1), texts),
        48 => (numbers, random.below(texts + 1)),
        _ => (random.below(numbers + 1), random.below(texts + 1)),
    }
}

fn list_of_numbers(random: &mut Random, length: usize) -> Vec<u64> {
    if random.chance(15) {
        return (0..length).map(|_| random.number()).collect();
    }
    let first = random.below(1_000);
    (0..length)
        .map(|place| ((first + place) % 1_000) as u64)
        .collect()
}
