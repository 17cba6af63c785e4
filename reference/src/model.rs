//! The compiled model as structs, and its reader.

use crate::elements::{integer, kind, Contents, Element, Malformed, Part};
use crate::names::{single_component, Component};

/// The only version that is understood.
pub const SUPPORTED_VERSION: u32 = 0x0001_1000;

/// A whole model.
#[derive(Clone, Debug)]
pub struct Model<'a> {
    pub start: u64,
    pub named_pattern_count: u64,
    pub nodes: Vec<Node<'a>>,
    pub tag_symbols: Vec<TagSymbol<'a>>,
}

#[derive(Clone, Debug)]
pub struct Node<'a> {
    pub id: u64,
    pub parent: Option<u64>,
    pub rule_names: Vec<&'a [u8]>,
    pub value_edges: Vec<ValueEdge<'a>>,
    pub pattern_edges: Vec<PatternEdge<'a>>,
    /// The nodes that a signing key may match (SignConstraints).
    pub signers: Vec<u64>,
}

#[derive(Clone, Debug)]
pub struct ValueEdge<'a> {
    pub destination: u64,
    pub value: Component<'a>,
}

#[derive(Clone, Debug)]
pub struct PatternEdge<'a> {
    pub destination: u64,
    pub tag: u64,
    pub constraints: Vec<Constraint<'a>>,
}

#[derive(Clone, Debug)]
pub struct Constraint<'a> {
    pub options: Vec<ConstraintOption<'a>>,
}

/// An option as it is written; one that may be tried has exactly one term.
#[derive(Clone, Debug)]
pub struct ConstraintOption<'a> {
    pub terms: Vec<Term<'a>>,
}

#[derive(Clone, Debug)]
pub enum Term<'a> {
    Value(Component<'a>),
    Tag(u64),
    Call(Call<'a>),
}

#[derive(Clone, Debug)]
pub struct Call<'a> {
    /// The whole FnId, `$` included.
    pub name: &'a [u8],
    /// `None` if the FnId is none of the known names.
    pub function: Option<Function>,
    pub arguments: Vec<Argument<'a>>,
}

#[derive(Clone, Copy, Debug, PartialEq, Eq)]
pub enum Function {
    Eq,
    EqType,
    IsValidId,
    IsValidYear,
}

#[derive(Clone, Copy, Debug)]
pub enum Argument<'a> {
    Value(Component<'a>),
    Tag(u64),
}

#[derive(Clone, Debug)]
pub struct TagSymbol<'a> {
    pub tag: u64,
    pub identifier: &'a [u8],
}

impl Function {
    /// The function of this name (the whole FnId, `$` included).
    pub fn named(name: &[u8]) -> Option<Self> {
        match name {
            b"$eq" => Some(Function::Eq),
            b"$eq_type" => Some(Function::EqType),
            b"$isValidID" => Some(Function::IsValidId),
            b"$isValidYear" => Some(Function::IsValidYear),
            _ => None,
        }
    }

    /// How many arguments it takes.
    pub fn argument_count(self) -> usize {
        match self {
            Function::Eq | Function::EqType => 1,
            Function::IsValidId | Function::IsValidYear => 0,
        }
    }
}

impl<'a> Call<'a> {
    pub fn new(name: &'a [u8], arguments: Vec<Argument<'a>>) -> Self {
        Call {
            name,
            function: Function::named(name),
            arguments,
        }
    }

    /// Whether the function is known and has as many arguments as it takes.
    pub fn is_callable(&self) -> bool {
        self.function
            .is_some_and(|function| function.argument_count() == self.arguments.len())
    }
}

/// An edge of either kind.
#[derive(Clone, Copy, Debug)]
pub enum Edge<'m, 'a> {
    Value(&'m ValueEdge<'a>),
    Pattern(&'m PatternEdge<'a>),
}

impl Edge<'_, '_> {
    pub fn destination(&self) -> u64 {
        match self {
            Edge::Value(edge) => edge.destination,
            Edge::Pattern(edge) => edge.destination,
        }
    }
}

impl<'a> Node<'a> {
    /// All edges, ValueEdges first. An edge's ordinal is its index among these. In an
    /// accepted model there are at most 255, one to each node but the start; and no
    /// model has room for so many that 16 bits wouldn't do.
    pub fn edges(&self) -> impl Iterator<Item = Edge<'_, 'a>> {
        let by_value = self.value_edges.iter().map(Edge::Value);
        let by_pattern = self.pattern_edges.iter().map(Edge::Pattern);
        by_value.chain(by_pattern)
    }

    /// The edge that has this ordinal, if there are as many.
    pub fn edge(&self, ordinal: u16) -> Option<Edge<'_, 'a>> {
        self.edges().nth(ordinal.into())
    }

    /// Where the edges lead, in the order of their ordinals.
    pub fn destinations(&self) -> impl Iterator<Item = u64> + use<'_, 'a> {
        self.edges().map(|edge| edge.destination())
    }

    /// The options of all Constraints of all edges.
    pub fn options(&self) -> impl Iterator<Item = &ConstraintOption<'a>> {
        self.pattern_edges.iter().flat_map(PatternEdge::options)
    }
}

impl<'a> PatternEdge<'a> {
    /// The options of all Constraints.
    pub fn options(&self) -> impl Iterator<Item = &ConstraintOption<'a>> {
        self.constraints
            .iter()
            .flat_map(|constraint| &constraint.options)
    }
}

impl<'a> Model<'a> {
    /// Whether a Tag is named. The others are temporary: no walk binds them.
    pub fn is_named(&self, tag: u64) -> bool {
        tag <= self.named_pattern_count
    }

    /// Reads a model; its numbers and counts are not tested.
    pub fn parse(bytes: &'a [u8]) -> Result<Self, Unreadable> {
        let mut contents = Contents::new(Part::whole(bytes));
        test_version(contents.expect(kind::VERSION)?)?;
        Ok(parse_behind_version(contents)?)
    }
}

/// Why a model can't be read.
#[derive(Clone, Copy, Debug, PartialEq, Eq)]
pub enum Unreadable {
    Malformed(Malformed),
    UnsupportedVersion,
}

impl From<Malformed> for Unreadable {
    fn from(fault: Malformed) -> Self {
        Unreadable::Malformed(fault)
    }
}

fn test_version(version: Element) -> Result<(), Unreadable> {
    let number = version.plain(|value| <[u8; 4]>::try_from(value).ok())?;
    if u32::from_be_bytes(number) != SUPPORTED_VERSION {
        return Err(Unreadable::UnsupportedVersion);
    }
    Ok(())
}

fn parse_behind_version(mut contents: Contents<'_>) -> Result<Model<'_>, Malformed> {
    let model = Model {
        start: parse_integer(contents.expect(kind::NODE_ID)?)?,
        named_pattern_count: parse_integer(contents.expect(kind::NAMED_PATTERN_COUNT)?)?,
        nodes: contents.take_all(kind::NODE, parse_node)?,
        tag_symbols: contents.take_all(kind::TAG_SYMBOL, parse_tag_symbol)?,
    };
    contents.finish()?;
    Ok(model)
}

fn parse_node(node: Element<'_>) -> Result<Node<'_>, Malformed> {
    let mut contents = Contents::new(node.value);
    let node = Node {
        id: parse_integer(contents.expect(kind::NODE_ID)?)?,
        parent: contents
            .take(kind::PARENT)?
            .map(parse_integer)
            .transpose()?,
        rule_names: contents.take_all(kind::IDENTIFIER, parse_rule_name)?,
        value_edges: contents.take_all(kind::VALUE_EDGE, parse_value_edge)?,
        pattern_edges: contents.take_all(kind::PATTERN_EDGE, parse_pattern_edge)?,
        signers: contents.take_all(kind::SIGN_CONSTRAINT, parse_integer)?,
    };
    contents.finish()?;
    Ok(node)
}

fn parse_value_edge(edge: Element<'_>) -> Result<ValueEdge<'_>, Malformed> {
    let mut contents = Contents::new(edge.value);
    let edge = ValueEdge {
        destination: parse_integer(contents.expect(kind::NODE_ID)?)?,
        value: single_component(contents.expect(kind::VALUE)?.value)?,
    };
    contents.finish()?;
    Ok(edge)
}

fn parse_pattern_edge(edge: Element<'_>) -> Result<PatternEdge<'_>, Malformed> {
    let mut contents = Contents::new(edge.value);
    let edge = PatternEdge {
        destination: parse_integer(contents.expect(kind::NODE_ID)?)?,
        tag: parse_integer(contents.expect(kind::TAG)?)?,
        constraints: contents.take_all(kind::CONSTRAINT, parse_constraint)?,
    };
    contents.finish()?;
    Ok(edge)
}

fn parse_constraint(constraint: Element<'_>) -> Result<Constraint<'_>, Malformed> {
    let mut contents = Contents::new(constraint.value);
    let options = contents.take_all(kind::CONSTRAINT_OPTION, parse_option)?;
    contents.finish()?;
    Ok(Constraint { options })
}

fn parse_option(option: Element<'_>) -> Result<ConstraintOption<'_>, Malformed> {
    let mut contents = Contents::new(option.value);
    let mut terms = Vec::new();
    while let Some(element) = contents.take_any()? {
        terms.push(match element.kind {
            kind::VALUE => Term::Value(single_component(element.value)?),
            kind::TAG => Term::Tag(parse_integer(element)?),
            kind::USER_FN_CALL => Term::Call(parse_call(element)?),
            _ => return Err(element.malformed()),
        });
    }
    Ok(ConstraintOption { terms })
}

fn parse_call(call: Element<'_>) -> Result<Call<'_>, Malformed> {
    let mut contents = Contents::new(call.value);
    let name = contents.expect(kind::FN_ID)?;
    let name = name.plain(|text| prefixed_identifier(text, b'$'))?;
    let arguments = contents.take_all(kind::USER_FN_ARG, parse_argument)?;
    contents.finish()?;
    Ok(Call::new(name, arguments))
}

fn parse_argument(argument: Element<'_>) -> Result<Argument<'_>, Malformed> {
    let mut contents = Contents::new(argument.value);
    let element = contents.expect_any()?;
    let argument = match element.kind {
        kind::VALUE => Argument::Value(single_component(element.value)?),
        kind::TAG => Argument::Tag(parse_integer(element)?),
        _ => return Err(element.malformed()),
    };
    contents.finish()?;
    Ok(argument)
}

fn parse_tag_symbol(symbol: Element<'_>) -> Result<TagSymbol<'_>, Malformed> {
    let mut contents = Contents::new(symbol.value);
    let symbol = TagSymbol {
        tag: parse_integer(contents.expect(kind::TAG)?)?,
        identifier: contents.expect(kind::IDENTIFIER)?.plain(identifier)?,
    };
    contents.finish()?;
    Ok(symbol)
}

fn parse_rule_name(name: Element<'_>) -> Result<&[u8], Malformed> {
    name.plain(|text| prefixed_identifier(text, b'#'))
}

fn parse_integer(element: Element) -> Result<u64, Malformed> {
    element.plain(integer)
}

/// The whole text if it is the prefix and an identifier.
fn prefixed_identifier(text: &[u8], prefix: u8) -> Option<&[u8]> {
    let (&first, rest) = text.split_first()?;
    (first == prefix && identifier(rest).is_some()).then_some(text)
}

/// The text if it is an identifier.
fn identifier(text: &[u8]) -> Option<&[u8]> {
    let begins = |byte: u8| byte == b'_' || byte.is_ascii_alphabetic();
    let continues = |byte: u8| begins(byte) || byte.is_ascii_digit();
    let (&first, rest) = text.split_first()?;
    (begins(first) && rest.iter().copied().all(continues)).then_some(text)
}

#[cfg(test)]
mod tests {
    use super::*;

    #[test]
    fn identifiers() {
        for text in ["a", "_", "Z9_", "_0", "KEY"] {
            assert_eq!(identifier(text.as_bytes()), Some(text.as_bytes()));
        }
        for text in [
            "", "9", "a-b", "a b", "é", "#a", "a/", "@", "[", "`", "{", "a:", "a\0",
        ] {
            assert_eq!(identifier(text.as_bytes()), None, "{text}");
        }
        assert_eq!(prefixed_identifier(b"#a", b'#'), Some(&b"#a"[..]));
        for text in ["", "#", "a", "$a", "##a", "#9"] {
            assert_eq!(prefixed_identifier(text.as_bytes(), b'#'), None, "{text}");
        }
    }

    #[test]
    fn functions_are_compared_byte_for_byte() {
        assert_eq!(Function::named(b"$eq_type"), Some(Function::EqType));
        for name in [
            "eq",
            "$eq_",
            "$eq_typ",
            "$eq_type_",
            "$isValidId",
            "$isvalidID",
            "$EQ",
        ] {
            assert_eq!(Function::named(name.as_bytes()), None);
        }
    }
}
