//! Elements that own their contents, to be altered and then written.

use crate::elements::{append_number, is_container};

/// An element to be written.
#[derive(Clone, Debug)]
pub struct Tree {
    pub kind: u64,
    pub form: Form,
    pub content: Content,
}

#[derive(Clone, Debug)]
pub enum Content {
    Bytes(Vec<u8>),
    Nested(Vec<Tree>),
}

/// How the header is written.
#[derive(Clone, Copy, Debug)]
pub enum Form {
    Shortest,
    /// The type in a number of this many bytes (3, 5 or 9).
    WideType(usize),
    /// The length in a number of this many bytes (3, 5 or 9).
    WideLength(usize),
    /// A length that isn't the content's.
    OtherLength(u64),
    /// No header: bytes that are no whole element.
    Missing,
}

/// Which lists of elements are meant.
#[derive(Clone, Copy, Debug, PartialEq, Eq)]
pub enum Scope {
    /// Those where optional elements may stand.
    Containers,
    /// Also the single component in each Value.
    Everywhere,
}

impl Tree {
    pub fn leaf(kind: impl Into<u64>, bytes: impl Into<Vec<u8>>) -> Self {
        Tree::new(kind, Content::Bytes(bytes.into()))
    }

    pub fn nested(kind: impl Into<u64>, elements: Vec<Tree>) -> Self {
        Tree::new(kind, Content::Nested(elements))
    }

    fn new(kind: impl Into<u64>, content: Content) -> Self {
        Tree {
            kind: kind.into(),
            form: Form::Shortest,
            content,
        }
    }

    /// The bytes of its content.
    pub fn encode_content(&self) -> Vec<u8> {
        match &self.content {
            Content::Bytes(bytes) => bytes.clone(),
            Content::Nested(elements) => encode(elements),
        }
    }

    fn append_to(&self, out: &mut Vec<u8>) {
        let content = self.encode_content();
        let length = content.len() as u64;
        match self.form {
            Form::WideType(width) => append_wide(out, self.kind, width),
            Form::Missing => {}
            _ => append_number(out, self.kind),
        }
        match self.form {
            Form::WideLength(width) => append_wide(out, length, width),
            Form::OtherLength(other) => append_number(out, other),
            Form::Missing => {}
            _ => append_number(out, length),
        }
        out.extend(content);
    }

    /// The elements inside, if they lie in the scope.
    fn inside(&self, scope: Scope) -> Option<&[Tree]> {
        match &self.content {
            Content::Nested(list) if self.is_in(scope) => Some(list),
            _ => None,
        }
    }

    fn inside_mut(&mut self, scope: Scope) -> Option<&mut Vec<Tree>> {
        let is_in = self.is_in(scope);
        match &mut self.content {
            Content::Nested(list) if is_in => Some(list),
            _ => None,
        }
    }

    fn is_in(&self, scope: Scope) -> bool {
        scope == Scope::Everywhere || u32::try_from(self.kind).is_ok_and(is_container)
    }
}

/// The bytes of elements one after the other.
pub fn encode(elements: &[Tree]) -> Vec<u8> {
    let mut out = Vec::new();
    for element in elements {
        element.append_to(&mut out);
    }
    out
}

fn append_wide(out: &mut Vec<u8>, number: u64, width: usize) {
    let digits = number.to_be_bytes();
    match width {
        3 => out.push(253),
        5 => out.push(254),
        _ => out.push(255),
    }
    out.extend_from_slice(&digits[9 - width..]);
}

/// How many lists of elements there are, the outermost included.
pub fn count_lists(list: &[Tree], scope: Scope) -> usize {
    let inner = list.iter().filter_map(|tree| tree.inside(scope));
    1 + inner
        .map(|inside| count_lists(inside, scope))
        .sum::<usize>()
}

/// The list with this number, the outermost being 0.
pub fn nth_list(list: &mut Vec<Tree>, number: usize, scope: Scope) -> &mut Vec<Tree> {
    if number == 0 {
        return list;
    }
    let mut left = number - 1;
    for inside in list.iter_mut().filter_map(|tree| tree.inside_mut(scope)) {
        let count = count_lists(inside, scope);
        if left < count {
            return nth_list(inside, left, scope);
        }
        left -= count;
    }
    unreachable!("there are as many lists as were counted")
}

/// The types of the elements around all lists, in the order of the lists'
/// numbers; the outermost has `None`.
pub fn owners(list: &[Tree], scope: Scope) -> Vec<Option<u64>> {
    let mut all = vec![None];
    collect_owners(list, scope, &mut all);
    all
}

fn collect_owners(list: &[Tree], scope: Scope, all: &mut Vec<Option<u64>>) {
    for tree in list {
        if let Some(inside) = tree.inside(scope) {
            all.push(Some(tree.kind));
            collect_owners(inside, scope, all);
        }
    }
}
