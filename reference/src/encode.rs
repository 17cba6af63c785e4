//! The bytes of a model: no optional elements, and every number as short as it
//! can be written.

use crate::elements::{append_element, append_integer, append_nested, kind};
use crate::model::{
    Argument, Call, Constraint, ConstraintOption, Model, Node, PatternEdge, TagSymbol, Term,
    ValueEdge, SUPPORTED_VERSION,
};
use crate::names::Component;

impl Model<'_> {
    /// The bytes of the model, whether or not they can be read again.
    pub fn encode(&self) -> Vec<u8> {
        let mut out = Vec::new();
        let version = SUPPORTED_VERSION.to_be_bytes();
        append_element(&mut out, kind::VERSION, &version);
        append_integer(&mut out, kind::NODE_ID, self.start);
        append_integer(
            &mut out,
            kind::NAMED_PATTERN_COUNT,
            self.named_pattern_count,
        );
        for node in &self.nodes {
            append_node(&mut out, node);
        }
        for symbol in &self.tag_symbols {
            append_tag_symbol(&mut out, symbol);
        }
        out
    }
}

fn append_node(out: &mut Vec<u8>, node: &Node) {
    append_nested(out, kind::NODE, |out| {
        append_integer(out, kind::NODE_ID, node.id);
        if let Some(parent) = node.parent {
            append_integer(out, kind::PARENT, parent);
        }
        for name in &node.rule_names {
            append_element(out, kind::IDENTIFIER, name);
        }
        for edge in &node.value_edges {
            append_value_edge(out, edge);
        }
        for edge in &node.pattern_edges {
            append_pattern_edge(out, edge);
        }
        for &signer in &node.signers {
            append_integer(out, kind::SIGN_CONSTRAINT, signer);
        }
    });
}

fn append_value_edge(out: &mut Vec<u8>, edge: &ValueEdge) {
    append_nested(out, kind::VALUE_EDGE, |out| {
        append_integer(out, kind::NODE_ID, edge.destination);
        append_value(out, edge.value);
    });
}

fn append_pattern_edge(out: &mut Vec<u8>, edge: &PatternEdge) {
    append_nested(out, kind::PATTERN_EDGE, |out| {
        append_integer(out, kind::NODE_ID, edge.destination);
        append_integer(out, kind::TAG, edge.tag);
        for constraint in &edge.constraints {
            append_constraint(out, constraint);
        }
    });
}

fn append_constraint(out: &mut Vec<u8>, constraint: &Constraint) {
    append_nested(out, kind::CONSTRAINT, |out| {
        for option in &constraint.options {
            append_option(out, option);
        }
    });
}

fn append_option(out: &mut Vec<u8>, option: &ConstraintOption) {
    append_nested(out, kind::CONSTRAINT_OPTION, |out| {
        for term in &option.terms {
            match term {
                Term::Value(component) => append_value(out, *component),
                Term::Tag(tag) => append_integer(out, kind::TAG, *tag),
                Term::Call(call) => append_call(out, call),
            }
        }
    });
}

fn append_call(out: &mut Vec<u8>, call: &Call) {
    append_nested(out, kind::USER_FN_CALL, |out| {
        append_element(out, kind::FN_ID, call.name);
        for &argument in &call.arguments {
            append_argument(out, argument);
        }
    });
}

fn append_argument(out: &mut Vec<u8>, argument: Argument) {
    append_nested(out, kind::USER_FN_ARG, |out| match argument {
        Argument::Value(component) => append_value(out, component),
        Argument::Tag(tag) => append_integer(out, kind::TAG, tag),
    });
}

fn append_value(out: &mut Vec<u8>, component: Component) {
    append_nested(out, kind::VALUE, |out| {
        append_element(out, component.kind, component.value);
    });
}

fn append_tag_symbol(out: &mut Vec<u8>, symbol: &TagSymbol) {
    append_nested(out, kind::TAG_SYMBOL, |out| {
        append_integer(out, kind::TAG, symbol.tag);
        append_element(out, kind::IDENTIFIER, symbol.identifier);
    });
}
