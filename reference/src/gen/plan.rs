//! A model's description, before it becomes bytes.

use super::random::Random;
use super::tree::Tree;
use crate::elements::kind;
use crate::model::SUPPORTED_VERSION;

pub use crate::names::OwnedComponent;

#[derive(Clone, Debug)]
pub struct Plan {
    pub version: Vec<u8>,
    pub start: u64,
    pub named_pattern_count: u64,
    pub nodes: Vec<NodePlan>,
    pub symbols: Vec<SymbolPlan>,
    /// Whether integers are written in more bytes than they need.
    pub has_wide_integers: bool,
}

#[derive(Clone, Debug, Default)]
pub struct NodePlan {
    pub id: u64,
    pub parent: Option<u64>,
    pub rule_names: Vec<Vec<u8>>,
    pub value_edges: Vec<ValueEdgePlan>,
    pub pattern_edges: Vec<PatternEdgePlan>,
    pub signers: Vec<u64>,
}

impl NodePlan {
    /// Where the edges lead, in the order of their ordinals.
    pub fn destinations(&self) -> impl Iterator<Item = u64> + use<'_> {
        let by_value = self.value_edges.iter().map(|edge| edge.destination);
        let by_pattern = self.pattern_edges.iter().map(|edge| edge.destination);
        by_value.chain(by_pattern)
    }

    pub fn leads_to(&self, id: u64) -> bool {
        self.destinations().any(|destination| destination == id)
    }
}

#[derive(Clone, Debug)]
pub struct ValueEdgePlan {
    pub destination: u64,
    pub value: OwnedComponent,
}

#[derive(Clone, Debug)]
pub struct PatternEdgePlan {
    pub destination: u64,
    pub tag: u64,
    pub constraints: Vec<ConstraintPlan>,
}

pub type ConstraintPlan = Vec<OptionPlan>;
pub type OptionPlan = Vec<TermPlan>;

#[derive(Clone, Debug)]
pub enum TermPlan {
    Value(OwnedComponent),
    Tag(u64),
    Call {
        function: Vec<u8>,
        arguments: Vec<ArgumentPlan>,
    },
}

#[derive(Clone, Debug)]
pub enum ArgumentPlan {
    Value(OwnedComponent),
    Tag(u64),
}

#[derive(Clone, Debug)]
pub struct SymbolPlan {
    pub tag: u64,
    pub identifier: Vec<u8>,
}

impl Plan {
    pub fn new() -> Self {
        Plan {
            version: SUPPORTED_VERSION.to_be_bytes().to_vec(),
            start: 0,
            named_pattern_count: 0,
            nodes: Vec::new(),
            symbols: Vec::new(),
            has_wide_integers: false,
        }
    }

    /// Adds a node whose id is its index.
    pub fn add_node(&mut self, parent: Option<u64>) -> u64 {
        let id = self.nodes.len() as u64;
        self.nodes.push(NodePlan {
            id,
            parent,
            ..NodePlan::default()
        });
        id
    }

    /// The elements of the model.
    pub fn to_trees(&self, random: &mut Random) -> Vec<Tree> {
        let mut writer = PlanWriter {
            random,
            is_wide: self.has_wide_integers,
        };
        let mut trees = vec![
            Tree::leaf(kind::VERSION, self.version.clone()),
            writer.integer(kind::NODE_ID, self.start),
            writer.integer(kind::NAMED_PATTERN_COUNT, self.named_pattern_count),
        ];
        trees.extend(self.nodes.iter().map(|node| writer.node(node)));
        trees.extend(self.symbols.iter().map(|symbol| writer.symbol(symbol)));
        trees
    }
}

/// Turns the parts of a plan into elements.
struct PlanWriter<'r> {
    random: &'r mut Random,
    is_wide: bool,
}

impl PlanWriter<'_> {
    fn integer(&mut self, kind: u32, value: u64) -> Tree {
        let least = match value {
            0..=0xFF => 0,
            0x100..=0xFFFF => 1,
            0x1_0000..=0xFFFF_FFFF => 2,
            _ => 3,
        };
        let width = if self.is_wide {
            self.random.between(least, 3)
        } else {
            least
        };
        Tree::leaf(kind, &value.to_be_bytes()[8 - (1 << width)..])
    }

    fn node(&mut self, node: &NodePlan) -> Tree {
        let mut inside = vec![self.integer(kind::NODE_ID, node.id)];
        inside.extend(node.parent.map(|parent| self.integer(kind::PARENT, parent)));
        let rule_names = node.rule_names.iter();
        inside.extend(rule_names.map(|name| Tree::leaf(kind::IDENTIFIER, name.clone())));
        inside.extend(node.value_edges.iter().map(|edge| self.value_edge(edge)));
        inside.extend(
            node.pattern_edges
                .iter()
                .map(|edge| self.pattern_edge(edge)),
        );
        let signers = node.signers.iter();
        inside.extend(signers.map(|&signer| self.integer(kind::SIGN_CONSTRAINT, signer)));
        Tree::nested(kind::NODE, inside)
    }

    fn value_edge(&mut self, edge: &ValueEdgePlan) -> Tree {
        let destination = self.integer(kind::NODE_ID, edge.destination);
        Tree::nested(kind::VALUE_EDGE, vec![destination, value(&edge.value)])
    }

    fn pattern_edge(&mut self, edge: &PatternEdgePlan) -> Tree {
        let destination = self.integer(kind::NODE_ID, edge.destination);
        let mut inside = vec![destination, self.integer(kind::TAG, edge.tag)];
        inside.extend(
            edge.constraints
                .iter()
                .map(|options| self.constraint(options)),
        );
        Tree::nested(kind::PATTERN_EDGE, inside)
    }

    fn constraint(&mut self, options: &ConstraintPlan) -> Tree {
        let inside = options.iter().map(|terms| self.option(terms)).collect();
        Tree::nested(kind::CONSTRAINT, inside)
    }

    fn option(&mut self, terms: &OptionPlan) -> Tree {
        let inside = terms.iter().map(|term| self.term(term)).collect();
        Tree::nested(kind::CONSTRAINT_OPTION, inside)
    }

    fn term(&mut self, term: &TermPlan) -> Tree {
        match term {
            TermPlan::Value(component) => value(component),
            TermPlan::Tag(tag) => self.integer(kind::TAG, *tag),
            TermPlan::Call {
                function,
                arguments,
            } => {
                let mut inside = vec![Tree::leaf(kind::FN_ID, function.clone())];
                inside.extend(arguments.iter().map(|argument| self.argument(argument)));
                Tree::nested(kind::USER_FN_CALL, inside)
            }
        }
    }

    fn argument(&mut self, argument: &ArgumentPlan) -> Tree {
        let inside = match argument {
            ArgumentPlan::Value(component) => value(component),
            ArgumentPlan::Tag(tag) => self.integer(kind::TAG, *tag),
        };
        Tree::nested(kind::USER_FN_ARG, vec![inside])
    }

    fn symbol(&mut self, symbol: &SymbolPlan) -> Tree {
        let tag = self.integer(kind::TAG, symbol.tag);
        let identifier = Tree::leaf(kind::IDENTIFIER, symbol.identifier.clone());
        Tree::nested(kind::TAG_SYMBOL, vec![tag, identifier])
    }
}

fn value(component: &OwnedComponent) -> Tree {
    let inside = Tree::leaf(component.kind, component.value.clone());
    Tree::nested(kind::VALUE, vec![inside])
}
