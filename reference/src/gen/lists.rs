//! The lists that describe a plan, with what each number stands for.

use super::plan::{
    ArgumentPlan, NodePlan, OwnedComponent, PatternEdgePlan, Plan, SymbolPlan, TermPlan,
    ValueEdgePlan,
};
use crate::description::Lists;
use crate::model::Model;

/// What a number of a description stands for.
#[derive(Clone, Copy, Debug, PartialEq, Eq)]
pub enum Role {
    /// Start, pattern count, a NodeId, a Parent, a destination, a Tag, a signer.
    Integer,
    /// A component's type.
    Type,
    TextLength,
    Count,
    /// Whether there is a Parent.
    ParentFlag,
    /// What a term is.
    TermKind,
    /// What an argument is.
    ArgumentKind,
}

/// A description whose numbers are marked with what they stand for.
#[derive(Clone, Debug, Default)]
pub struct MarkedLists {
    pub numbers: Vec<(Role, u64)>,
    pub texts: Vec<u8>,
}

impl MarkedLists {
    pub fn of(plan: &Plan) -> Self {
        let mut lists = MarkedLists::default();
        lists.push(Role::Integer, plan.start);
        lists.push(Role::Integer, plan.named_pattern_count);
        lists.push_count(&plan.nodes);
        for node in &plan.nodes {
            lists.push_node(node);
        }
        lists.push_count(&plan.symbols);
        for SymbolPlan { tag, identifier } in &plan.symbols {
            lists.push(Role::Integer, *tag);
            lists.push_text(identifier);
        }
        lists
    }

    pub fn plain(&self) -> Lists {
        Lists {
            numbers: self.numbers.iter().map(|&(_, number)| number).collect(),
            texts: self.texts.clone(),
        }
    }

    /// Where numbers of this role stand.
    pub fn places(&self, role: Role) -> Vec<usize> {
        let numbers = self.numbers.iter().enumerate();
        numbers
            .filter(|(_, number)| number.0 == role)
            .map(|(place, _)| place)
            .collect()
    }

    fn push(&mut self, role: Role, number: u64) {
        self.numbers.push((role, number));
    }

    fn push_count<T>(&mut self, counted: &[T]) {
        self.push(Role::Count, counted.len() as u64);
    }

    fn push_text(&mut self, text: &[u8]) {
        self.push(Role::TextLength, text.len() as u64);
        self.texts.extend_from_slice(text);
    }

    fn push_node(&mut self, node: &NodePlan) {
        self.push(Role::Integer, node.id);
        self.push(Role::ParentFlag, node.parent.is_some().into());
        if let Some(parent) = node.parent {
            self.push(Role::Integer, parent);
        }
        self.push_count(&node.rule_names);
        for name in &node.rule_names {
            self.push_text(name);
        }
        self.push_count(&node.value_edges);
        for ValueEdgePlan { destination, value } in &node.value_edges {
            self.push(Role::Integer, *destination);
            self.push_component(value);
        }
        self.push_count(&node.pattern_edges);
        for edge in &node.pattern_edges {
            self.push_pattern_edge(edge);
        }
        self.push_count(&node.signers);
        for &signer in &node.signers {
            self.push(Role::Integer, signer);
        }
    }

    fn push_pattern_edge(&mut self, edge: &PatternEdgePlan) {
        self.push(Role::Integer, edge.destination);
        self.push(Role::Integer, edge.tag);
        self.push_count(&edge.constraints);
        for options in &edge.constraints {
            self.push_count(options);
            for terms in options {
                self.push_count(terms);
                for term in terms {
                    self.push_term(term);
                }
            }
        }
    }

    fn push_term(&mut self, term: &TermPlan) {
        match term {
            TermPlan::Value(component) => self.push_value(Role::TermKind, component),
            TermPlan::Tag(tag) => self.push_tag(Role::TermKind, *tag),
            TermPlan::Call {
                function,
                arguments,
            } => {
                self.push(Role::TermKind, 2);
                self.push_text(function);
                self.push_count(arguments);
                for argument in arguments {
                    self.push_argument(argument);
                }
            }
        }
    }

    fn push_argument(&mut self, argument: &ArgumentPlan) {
        match argument {
            ArgumentPlan::Value(component) => self.push_value(Role::ArgumentKind, component),
            ArgumentPlan::Tag(tag) => self.push_tag(Role::ArgumentKind, *tag),
        }
    }

    fn push_value(&mut self, role: Role, component: &OwnedComponent) {
        self.push(role, 0);
        self.push_component(component);
    }

    fn push_tag(&mut self, role: Role, tag: u64) {
        self.push(role, 1);
        self.push(Role::Integer, tag);
    }

    fn push_component(&mut self, component: &OwnedComponent) {
        self.push(Role::Type, component.kind);
        self.push_text(&component.value);
    }
}

/// How many bytes a description has, if it is one.
pub fn encoded_length(lists: &Lists) -> Option<usize> {
    let model = Model::from_lists(&lists.numbers, &lists.texts).ok()?;
    Some(model.encode().len())
}

#[cfg(test)]
mod tests {
    use super::super::faults::plant;
    use super::super::random::Random;
    use super::super::sound;
    use super::super::tree::encode;
    use super::*;
    use crate::verdict::load_readable;

    /// The lists of a plan, written, are the elements of the plan; and what was
    /// read gives the lists back.
    fn assert_lists_and_elements_agree(random: &mut Random, mut plan: Plan) {
        plan.has_wide_integers = false;
        let elements = encode(&plan.to_trees(random));
        let lists = MarkedLists::of(&plan).plain();
        let described = Model::from_lists(&lists.numbers, &lists.texts).unwrap();
        assert_eq!(described.encode(), elements);
        assert_eq!(described.to_lists(), lists);
        if let Ok(model) = load_readable(&elements) {
            assert_eq!(model.to_lists(), lists);
        }
    }

    #[test]
    fn plans_have_the_same_elements_and_lists() {
        for index in 0..5_000 {
            let random = &mut Random::for_case(11, index);
            let mut plan = sound::plan(random);
            for _ in 0..random.below(3) {
                let number = *random.pick(&[4, 5, 6, 7, 8, 9, 10, 11, 12, 13, 14]);
                plant(random, &mut plan, number);
            }
            assert_lists_and_elements_agree(random, plan);
        }
    }
}
