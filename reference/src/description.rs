//! A model's description: a list of numbers, and a list with the bytes of all
//! texts, in the order in which their lengths stand among the numbers.
//!
//! - model: start, pattern count, count of nodes, nodes, count of symbols,
//!   symbols (tag, text)
//! - node: id; 0, or 1 and the parent; counts with the rule names (text), the
//!   ValueEdges (destination, component), the PatternEdges (destination, tag,
//!   count of Constraints; in each a count of options, in each a count of
//!   terms), and the signers
//! - term: 0 and a component; 1 and a tag; or 2, a FnId (text), and a count
//!   with the arguments, each 0 and a component, or 1 and a tag
//! - component: type, text
//!
//! Where a text stands here, its length stands among the numbers.

use std::slice;

use crate::model::{
    Argument, Call, Constraint, ConstraintOption, Model, Node, PatternEdge, TagSymbol, Term,
    ValueEdge,
};
use crate::names::Component;

/// Whether a node has a parent.
const NO_PARENT: u64 = 0;
const HAS_PARENT: u64 = 1;

/// What a term or an argument is.
const VALUE: u64 = 0;
const TAG: u64 = 1;
const CALL: u64 = 2;

/// The two lists of a description.
#[derive(Clone, Debug, Default, PartialEq, Eq)]
pub struct Lists {
    pub numbers: Vec<u64>,
    pub texts: Vec<u8>,
}

/// Two lists are no description.
#[derive(Clone, Copy, Debug, PartialEq, Eq)]
pub struct NoDescription;

impl<'a> Model<'a> {
    /// The model that two lists describe, whether or not it would be accepted.
    pub fn from_lists(numbers: &[u64], texts: &'a [u8]) -> Result<Self, NoDescription> {
        let mut lists = ListReader {
            numbers: numbers.iter(),
            texts,
        };
        let model = Model {
            start: lists.number()?,
            named_pattern_count: lists.number()?,
            nodes: lists.all(ListReader::node)?,
            tag_symbols: lists.all(ListReader::tag_symbol)?,
        };
        lists.finish()?;
        Ok(model)
    }

    /// The lists that describe the model.
    pub fn to_lists(&self) -> Lists {
        let mut lists = Lists::default();
        lists.numbers.push(self.start);
        lists.numbers.push(self.named_pattern_count);
        lists.push_all(&self.nodes, Lists::push_node);
        lists.push_all(&self.tag_symbols, Lists::push_tag_symbol);
        lists
    }
}

/// What is left of two lists.
struct ListReader<'n, 'a> {
    numbers: slice::Iter<'n, u64>,
    texts: &'a [u8],
}

impl<'a> ListReader<'_, 'a> {
    fn number(&mut self) -> Result<u64, NoDescription> {
        self.numbers.next().copied().ok_or(NoDescription)
    }

    fn text(&mut self) -> Result<&'a [u8], NoDescription> {
        let length = usize::try_from(self.number()?).map_err(|_| NoDescription)?;
        let (text, rest) = self.texts.split_at_checked(length).ok_or(NoDescription)?;
        self.texts = rest;
        Ok(text)
    }

    /// A count and so many things. The count may be any number: no room is made
    /// for things that have not been read.
    fn all<T>(
        &mut self,
        read: impl Fn(&mut Self) -> Result<T, NoDescription>,
    ) -> Result<Vec<T>, NoDescription> {
        let count = self.number()?;
        let mut all = Vec::new();
        for _ in 0..count {
            all.push(read(self)?);
        }
        Ok(all)
    }

    /// Nothing may be left.
    fn finish(self) -> Result<(), NoDescription> {
        if self.numbers.len() == 0 && self.texts.is_empty() {
            Ok(())
        } else {
            Err(NoDescription)
        }
    }

    fn node(&mut self) -> Result<Node<'a>, NoDescription> {
        Ok(Node {
            id: self.number()?,
            parent: self.parent()?,
            rule_names: self.all(Self::text)?,
            value_edges: self.all(Self::value_edge)?,
            pattern_edges: self.all(Self::pattern_edge)?,
            signers: self.all(Self::number)?,
        })
    }

    fn parent(&mut self) -> Result<Option<u64>, NoDescription> {
        match self.number()? {
            NO_PARENT => Ok(None),
            HAS_PARENT => Ok(Some(self.number()?)),
            _ => Err(NoDescription),
        }
    }

    fn value_edge(&mut self) -> Result<ValueEdge<'a>, NoDescription> {
        Ok(ValueEdge {
            destination: self.number()?,
            value: self.component()?,
        })
    }

    fn pattern_edge(&mut self) -> Result<PatternEdge<'a>, NoDescription> {
        Ok(PatternEdge {
            destination: self.number()?,
            tag: self.number()?,
            constraints: self.all(Self::constraint)?,
        })
    }

    fn constraint(&mut self) -> Result<Constraint<'a>, NoDescription> {
        let options = self.all(Self::option)?;
        Ok(Constraint { options })
    }

    fn option(&mut self) -> Result<ConstraintOption<'a>, NoDescription> {
        let terms = self.all(Self::term)?;
        Ok(ConstraintOption { terms })
    }

    fn term(&mut self) -> Result<Term<'a>, NoDescription> {
        match self.number()? {
            VALUE => Ok(Term::Value(self.component()?)),
            TAG => Ok(Term::Tag(self.number()?)),
            CALL => Ok(Term::Call(self.call()?)),
            _ => Err(NoDescription),
        }
    }

    fn call(&mut self) -> Result<Call<'a>, NoDescription> {
        let name = self.text()?;
        let arguments = self.all(Self::argument)?;
        Ok(Call::new(name, arguments))
    }

    fn argument(&mut self) -> Result<Argument<'a>, NoDescription> {
        match self.number()? {
            VALUE => Ok(Argument::Value(self.component()?)),
            TAG => Ok(Argument::Tag(self.number()?)),
            _ => Err(NoDescription),
        }
    }

    fn component(&mut self) -> Result<Component<'a>, NoDescription> {
        Ok(Component {
            kind: self.number()?,
            value: self.text()?,
        })
    }

    fn tag_symbol(&mut self) -> Result<TagSymbol<'a>, NoDescription> {
        Ok(TagSymbol {
            tag: self.number()?,
            identifier: self.text()?,
        })
    }
}

impl Lists {
    fn push_text(&mut self, text: &[u8]) {
        self.numbers.push(text.len() as u64);
        self.texts.extend_from_slice(text);
    }

    /// A count and so many things.
    fn push_all<T>(&mut self, all: &[T], push: impl Fn(&mut Self, &T)) {
        self.numbers.push(all.len() as u64);
        for one in all {
            push(self, one);
        }
    }

    fn push_node(&mut self, node: &Node) {
        self.numbers.push(node.id);
        match node.parent {
            None => self.numbers.push(NO_PARENT),
            Some(parent) => self.numbers.extend([HAS_PARENT, parent]),
        }
        self.push_all(&node.rule_names, |lists, name| lists.push_text(name));
        self.push_all(&node.value_edges, Self::push_value_edge);
        self.push_all(&node.pattern_edges, Self::push_pattern_edge);
        self.push_all(&node.signers, |lists, &signer| lists.numbers.push(signer));
    }

    fn push_value_edge(&mut self, edge: &ValueEdge) {
        self.numbers.push(edge.destination);
        self.push_component(edge.value);
    }

    fn push_pattern_edge(&mut self, edge: &PatternEdge) {
        self.numbers.extend([edge.destination, edge.tag]);
        self.push_all(&edge.constraints, |lists, constraint| {
            lists.push_all(&constraint.options, |lists, option| {
                lists.push_all(&option.terms, Self::push_term);
            });
        });
    }

    fn push_term(&mut self, term: &Term) {
        match term {
            Term::Value(component) => {
                self.numbers.push(VALUE);
                self.push_component(*component);
            }
            Term::Tag(tag) => self.numbers.extend([TAG, *tag]),
            Term::Call(call) => {
                self.numbers.push(CALL);
                self.push_text(call.name);
                self.push_all(&call.arguments, Self::push_argument);
            }
        }
    }

    fn push_argument(&mut self, argument: &Argument) {
        match *argument {
            Argument::Value(component) => {
                self.numbers.push(VALUE);
                self.push_component(component);
            }
            Argument::Tag(tag) => self.numbers.extend([TAG, tag]),
        }
    }

    fn push_component(&mut self, component: Component) {
        self.numbers.push(component.kind);
        self.push_text(component.value);
    }

    fn push_tag_symbol(&mut self, symbol: &TagSymbol) {
        self.numbers.push(symbol.tag);
        self.push_text(symbol.identifier);
    }
}
