//! A small builder of models and names. It writes document 000's type numbers
//! out by itself, so that the checker's own constants are put to the test.
#![allow(dead_code)]

use lvs_reference::SignAnswer;

pub const MODEL_A: &str = "61 04 00 01 10 00 25 01 00 69 01 00 63 03 25 01 00";
pub const MODEL_B: &str = "61 04 00 01 10 00 25 01 00 69 01 01 63 0B 25 01 00 53 06 25 01 01 \
                           23 01 01 63 09 25 01 01 57 01 00 55 01 01";
pub const NAME_A: &str = "07 03 08 01 61";
pub const NAME_B: &str = "07 03 08 01 62";
pub const EMPTY_NAME: &str = "07 00";

/// Start, length and origin of each of the 128 Tags.
pub const BINDING_ROOM: usize = 384;
/// As many words as the longest names have components.
pub const PATH_ROOM: usize = 64;

/// The signing answer where the words don't matter: there is room for any.
pub fn sign(model: &[u8], packet: &[u8], key: &[u8]) -> SignAnswer {
    let (buffer, path) = (&mut [0; BINDING_ROOM], &mut [0; PATH_ROOM]);
    lvs_reference::sign(model, packet, key, buffer, path)
}

/// The bytes of a text in hexadecimal.
pub fn hex(text: &str) -> Vec<u8> {
    text.split_whitespace()
        .map(|byte| u8::from_str_radix(byte, 16).unwrap())
        .collect()
}

pub fn number(value: usize) -> Vec<u8> {
    match value {
        0..=252 => vec![value as u8],
        253..=65_535 => vec![253, (value >> 8) as u8, value as u8],
        _ => [&[254][..], &(value as u32).to_be_bytes()].concat(),
    }
}

pub fn element(kind: usize, value: &[u8]) -> Vec<u8> {
    [&number(kind)[..], &number(value.len()), value].concat()
}

/// An element with an integer in the fewest of the four widths.
pub fn integer(kind: usize, value: u64) -> Vec<u8> {
    let width = match value {
        0..=0xFF => 1,
        0x100..=0xFFFF => 2,
        0x1_0000..=0xFFFF_FFFF => 4,
        _ => 8,
    };
    element(kind, &value.to_be_bytes()[8 - width..])
}

/// A generic component.
pub fn component(value: &str) -> Vec<u8> {
    element(8, value.as_bytes())
}

/// The name of a URI such as `/a/b`.
pub fn name(uri: &str) -> Vec<u8> {
    let components = uri
        .split('/')
        .filter(|part| !part.is_empty())
        .map(component);
    element(7, &components.collect::<Vec<_>>().concat())
}

pub fn value(text: &str) -> Vec<u8> {
    element(0x21, &component(text))
}

pub fn tag(tag: u64) -> Vec<u8> {
    integer(0x23, tag)
}

pub fn call(function: &str, arguments: &[Vec<u8>]) -> Vec<u8> {
    let arguments: Vec<u8> = arguments
        .iter()
        .flat_map(|inside| element(0x33, inside))
        .collect();
    element(
        0x31,
        &[element(0x27, function.as_bytes()), arguments].concat(),
    )
}

/// A Constraint whose options each hold one of the given elements.
pub fn constraint(terms: &[Vec<u8>]) -> Vec<u8> {
    let options: Vec<u8> = terms.iter().flat_map(|term| element(0x41, term)).collect();
    element(0x43, &options)
}

pub fn value_edge(destination: u64, text: &str) -> Vec<u8> {
    element(0x51, &[integer(0x25, destination), value(text)].concat())
}

pub fn pattern_edge(destination: u64, edge_tag: u64, constraints: &[Vec<u8>]) -> Vec<u8> {
    let inside = [
        integer(0x25, destination),
        tag(edge_tag),
        constraints.concat(),
    ];
    element(0x53, &inside.concat())
}

/// A Node; the parts behind its Parent are given in their order.
pub fn node(id: u64, parent: Option<u64>, parts: &[Vec<u8>]) -> Vec<u8> {
    let parent = parent.map_or(vec![], |parent| integer(0x57, parent));
    element(0x63, &[integer(0x25, id), parent, parts.concat()].concat())
}

pub fn signer(id: u64) -> Vec<u8> {
    integer(0x55, id)
}

pub fn rule_name(text: &str) -> Vec<u8> {
    element(0x29, text.as_bytes())
}

pub fn tag_symbol(symbol_tag: u64, text: &str) -> Vec<u8> {
    element(
        0x67,
        &[tag(symbol_tag), element(0x29, text.as_bytes())].concat(),
    )
}

pub const VERSION: u32 = 0x0001_1000;

/// A NamedPatternCnt that leaves no Tag temporary.
pub const ALL_NAMED: u64 = 128;

/// What stands before the Nodes.
pub fn head(version: u32, start: u64, named: u64) -> Vec<u8> {
    [
        element(0x61, &version.to_be_bytes()),
        integer(0x25, start),
        integer(0x69, named),
    ]
    .concat()
}

/// A model with this start and these Nodes and TagSymbols; all Tags are named.
pub fn model(start: u64, parts: &[Vec<u8>]) -> Vec<u8> {
    counted_model(ALL_NAMED, start, parts)
}

/// A model whose Tags up to this one are named.
pub fn counted_model(named: u64, start: u64, parts: &[Vec<u8>]) -> Vec<u8> {
    [head(VERSION, start, named), parts.concat()].concat()
}

/// Nodes in a chain, as many as this, whose edges are made by the number of the
/// node where each leads; every node but the start has these parts too.
pub fn chain(count: u64, edge: impl Fn(u64) -> Vec<u8>, parts: &[Vec<u8>]) -> Vec<Vec<u8>> {
    let with_edge = |id: u64, others: &[Vec<u8>]| {
        let edge = if id + 1 < count { edge(id + 1) } else { vec![] };
        [&[edge][..], others].concat()
    };
    let behind = (1..count).map(|id| node(id, Some(id - 1), &with_edge(id, parts)));
    let mut nodes = vec![node(0, None, &with_edge(0, &[]))];
    nodes.extend(behind);
    nodes
}

/// Nodes as rules are added to them, as a compiler of LVS text does.
#[derive(Default)]
pub struct Schema {
    nodes: Vec<SchemaNode>,
    named: u64,
    next_temporary: u64,
}

#[derive(Default)]
struct SchemaNode {
    parent: Option<u64>,
    values: Vec<(String, u64)>,
    patterns: Vec<(u64, Vec<Vec<u8>>, u64)>,
    signers: Vec<u64>,
}

/// One component of a rule's name.
#[derive(Clone)]
pub enum Step {
    Value(&'static str),
    /// A pattern's Tag and its Constraints.
    Pattern(u64, Vec<Vec<u8>>),
    /// A temporary pattern, which gets a Tag of its own, and its Constraints.
    Temporary(Vec<Vec<u8>>),
}

impl Schema {
    /// A schema whose named patterns have Tags up to this one.
    pub fn new(named: u64) -> Self {
        Schema {
            nodes: vec![SchemaNode::default()],
            named,
            next_temporary: named + 1,
        }
    }

    /// Adds a rule and gives the node where it ends.
    pub fn rule(&mut self, steps: &[Step]) -> u64 {
        steps.iter().fold(0, |node, step| self.follow(node, step))
    }

    pub fn sign(&mut self, node: u64, signers: &[u64]) {
        self.nodes[node as usize].signers.extend(signers);
    }

    fn follow(&mut self, from: u64, step: &Step) -> u64 {
        let new = self.nodes.len() as u64;
        let node = &mut self.nodes[from as usize];
        match step {
            Step::Value(text) => {
                if let Some((_, known)) = node.values.iter().find(|(value, _)| value == text) {
                    return *known;
                }
                node.values.push((text.to_string(), new));
            }
            Step::Pattern(tag, constraints) => node.patterns.push((*tag, constraints.clone(), new)),
            Step::Temporary(constraints) => {
                node.patterns
                    .push((self.next_temporary, constraints.clone(), new));
                self.next_temporary += 1;
            }
        }
        self.nodes.push(SchemaNode {
            parent: Some(from),
            ..SchemaNode::default()
        });
        new
    }

    pub fn encode(&self) -> Vec<u8> {
        self.encode_counted(self.named)
    }

    /// The model with another NamedPatternCnt.
    pub fn encode_counted(&self, named: u64) -> Vec<u8> {
        let nodes: Vec<Vec<u8>> = self
            .nodes
            .iter()
            .enumerate()
            .map(Self::encode_node)
            .collect();
        counted_model(named, 0, &nodes)
    }

    fn encode_node((index, schema_node): (usize, &SchemaNode)) -> Vec<u8> {
        let values = schema_node.values.iter();
        let patterns = schema_node.patterns.iter();
        let mut parts: Vec<Vec<u8>> = values.map(|(text, to)| value_edge(*to, text)).collect();
        parts.extend(patterns.map(|(tag, constraints, to)| pattern_edge(*to, *tag, constraints)));
        parts.extend(schema_node.signers.iter().map(|&id| signer(id)));
        node(index as u64, schema_node.parent, &parts)
    }
}
