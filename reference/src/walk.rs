//! The depth-first walk of a name through a model.
//!
//! Only models that [`crate::verdict::load`] accepts may be walked. Named Tags
//! are bound by the first edge that is crossed, temporary ones never.

use std::ops::ControlFlow;

use crate::model::{
    Argument, Call, Constraint, ConstraintOption, Edge, Function, Model, PatternEdge, Term,
};
use crate::names::{Component, PlacedComponent};
use crate::verdict::MAX_TAG;

/// The components bound to Tags.
#[derive(Clone, Debug)]
pub struct Bindings<'n> {
    slots: [Option<PlacedComponent<'n>>; MAX_TAG as usize],
}

impl Default for Bindings<'_> {
    fn default() -> Self {
        Bindings {
            slots: [None; MAX_TAG as usize],
        }
    }
}

impl<'n> Bindings<'n> {
    /// What is bound to each Tag, from Tag 1.
    pub fn slots(&self) -> &[Option<PlacedComponent<'n>>] {
        &self.slots
    }

    /// How many Tags are bound.
    pub fn count(&self) -> usize {
        self.slots.iter().flatten().count()
    }

    /// The component bound to a Tag.
    pub fn get(&self, tag: u64) -> Option<Component<'n>> {
        self.slots[slot_of(tag)].map(|bound| bound.component)
    }

    /// Binds the Tag of an edge that is crossed, if it is named and unbound;
    /// tells whether it did.
    pub fn bind_crossed(
        &mut self,
        model: &Model,
        edge: &PatternEdge,
        component: PlacedComponent<'n>,
    ) -> bool {
        model.is_named(edge.tag) && self.bind_if_unbound(edge.tag, component)
    }

    /// The same for an edge of either kind; answers the Tag that it bound.
    pub fn bind_by(
        &mut self,
        model: &Model,
        edge: Edge,
        component: PlacedComponent<'n>,
    ) -> Option<u64> {
        match edge {
            Edge::Value(_) => None,
            Edge::Pattern(edge) => self
                .bind_crossed(model, edge, component)
                .then_some(edge.tag),
        }
    }

    /// Binds a Tag unless it is bound; tells whether it wasn't.
    pub fn bind_if_unbound(&mut self, tag: u64, component: PlacedComponent<'n>) -> bool {
        let slot = &mut self.slots[slot_of(tag)];
        let was_unbound = slot.is_none();
        slot.get_or_insert(component);
        was_unbound
    }

    /// Takes a Tag's binding away.
    pub fn unbind(&mut self, tag: u64) {
        self.slots[slot_of(tag)] = None;
    }
}

fn slot_of(tag: u64) -> usize {
    tag as usize - 1
}

/// What a walk has behind it.
#[derive(Clone, Debug, Default)]
pub struct Trace<'n> {
    pub bindings: Bindings<'n>,
    /// The ordinals of the edges that were crossed.
    pub path: Vec<u16>,
}

/// Visits the nodes that the name matches, in the order of the walk, with the
/// trace of each match: what was there before, and behind it what this walk
/// bound and crossed. Goes on while the visitor says so; the trace is afterwards
/// as it was before.
pub fn visit_matches<'n, T>(
    model: &Model,
    name: &[PlacedComponent<'n>],
    trace: &mut Trace<'n>,
    visit: &mut impl FnMut(usize, &mut Trace<'n>) -> ControlFlow<T>,
) -> ControlFlow<T> {
    walk_from(model, model.start, name, trace, visit)
}

fn walk_from<'n, T>(
    model: &Model,
    id: u64,
    components: &[PlacedComponent<'n>],
    trace: &mut Trace<'n>,
    visit: &mut impl FnMut(usize, &mut Trace<'n>) -> ControlFlow<T>,
) -> ControlFlow<T> {
    let index = id as usize;
    let Some((&first, rest)) = components.split_first() else {
        return visit(index, trace);
    };
    for (ordinal, edge) in (0..).zip(model.nodes[index].edges()) {
        if is_open(edge, first.component, &trace.bindings) {
            let bound = trace.bindings.bind_by(model, edge, first);
            trace.path.push(ordinal);
            let flow = walk_from(model, edge.destination(), rest, trace, visit);
            trace.path.pop();
            if let Some(tag) = bound {
                trace.bindings.unbind(tag);
            }
            flow?;
        }
    }
    ControlFlow::Continue(())
}

/// Whether an edge of either kind may be crossed with this component.
pub fn is_open(edge: Edge, component: Component, bindings: &Bindings) -> bool {
    match edge {
        Edge::Value(edge) => edge.value == component,
        Edge::Pattern(edge) => may_cross(edge, component, bindings),
    }
}

/// Whether the edge may be crossed with this component under the bindings as
/// they stand before the edge. A temporary Tag is never bound, and that is all:
/// its edge has no component to be compared with, and no option or argument
/// that names it holds.
pub fn may_cross(edge: &PatternEdge, component: Component, bindings: &Bindings) -> bool {
    bindings
        .get(edge.tag)
        .is_none_or(|bound| bound == component)
        && edge
            .constraints
            .iter()
            .all(|constraint| constraint_holds(constraint, component, bindings))
}

fn constraint_holds(constraint: &Constraint, component: Component, bindings: &Bindings) -> bool {
    constraint
        .options
        .iter()
        .any(|option| option_holds(option, component, bindings))
}

fn option_holds(option: &ConstraintOption, component: Component, bindings: &Bindings) -> bool {
    option.terms.iter().all(|term| match term {
        Term::Value(value) => *value == component,
        Term::Tag(tag) => bindings.get(*tag) == Some(component),
        Term::Call(call) => call_holds(call, component, bindings),
    })
}

fn call_holds(call: &Call, component: Component, bindings: &Bindings) -> bool {
    let argument = |index: usize| match call.arguments.get(index)? {
        Argument::Value(value) => Some(*value),
        Argument::Tag(tag) => bindings.get(*tag),
    };
    match call.function {
        Some(Function::Eq) => argument(0) == Some(component),
        Some(Function::EqType) => argument(0).is_some_and(|other| other.kind == component.kind),
        Some(Function::IsValidId) => component.value.len() == 6,
        Some(Function::IsValidYear) => component.value.len() == 4,
        None => false,
    }
}
