//! Optional elements of a model: taking them out, and the places for more.
//!
//! These functions answer for models that are not refused with 1 to 3.

use crate::elements::{append_element, is_container, is_optional, Element, Elements, Part};
use crate::verdict::{load_readable, Refusal};

/// A spot in a model where an optional element may stand.
#[derive(Clone, Debug, PartialEq, Eq)]
pub struct Gap {
    /// Counted from the model's first byte.
    pub offset: usize,
    /// Where the elements around the spot start, from the outermost inward.
    pub enclosing: Vec<usize>,
}

/// The same model without its optional elements.
pub fn bare(model: &[u8]) -> Result<Vec<u8>, Refusal> {
    load_readable(model)?;
    Ok(without_optional(Part::whole(model)))
}

fn without_optional(content: Part) -> Vec<u8> {
    let mut out = Vec::with_capacity(content.bytes.len());
    for element in elements(content) {
        if is_container(element.kind) {
            append_element(&mut out, element.kind, &without_optional(element.value));
        } else if !is_optional(element.kind) {
            append_element(&mut out, element.kind, element.value.bytes);
        }
    }
    out
}

/// Every gap of a model at every depth, in the order of their offsets.
pub fn gaps(model: &[u8]) -> Result<Vec<Gap>, Refusal> {
    load_readable(model)?;
    let mut found = Vec::new();
    collect_gaps(Part::whole(model), &[], &mut found);
    Ok(found)
}

fn collect_gaps(content: Part, enclosing: &[usize], found: &mut Vec<Gap>) {
    let gap_at = |offset| Gap {
        offset,
        enclosing: enclosing.to_vec(),
    };
    for element in elements(content) {
        found.push(gap_at(element.start));
        if is_container(element.kind) {
            let inside = [enclosing, &[element.start]].concat();
            collect_gaps(element.value, &inside, found);
        }
    }
    found.push(gap_at(content.end()));
}

/// The model with an element put in a gap and the lengths around it written
/// anew in the shortest form.
pub fn insert_element(model: &[u8], gap: &Gap, element: &[u8]) -> Vec<u8> {
    insert_into(Part::whole(model), &gap.enclosing, gap.offset, element)
}

fn insert_into(content: Part, enclosing: &[usize], offset: usize, inserted: &[u8]) -> Vec<u8> {
    let Some((&outer_start, inner)) = enclosing.split_first() else {
        let (before, behind) = content.bytes.split_at(offset - content.start);
        return [before, inserted, behind].concat();
    };
    let (before, rest) = content.bytes.split_at(outer_start - content.start);
    let rest = Part {
        start: outer_start,
        bytes: rest,
    };
    let (outer, behind) = Element::read(rest).expect("a gap stands inside well-formed elements");
    let value = insert_into(outer.value, inner, offset, inserted);
    let mut out = before.to_vec();
    append_element(&mut out, outer.kind, &value);
    out.extend_from_slice(behind.bytes);
    out
}

/// The elements of well-formed content.
fn elements(content: Part<'_>) -> impl Iterator<Item = Element<'_>> {
    Elements::new(content).map_while(Result::ok)
}
