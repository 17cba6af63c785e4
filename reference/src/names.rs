//! Names and their components.

use crate::elements::{append_element, kind, Element, Malformed, Part};
use crate::verdict::{Reason, Refusal};

/// The longest name, in bytes of the whole element.
pub const MAX_NAME_BYTES: usize = 1_024;
/// The largest number of components in a name.
pub const MAX_COMPONENTS: usize = 32;

/// A name component. Two are equal when type and bytes are.
#[derive(Clone, Copy, Debug, PartialEq, Eq)]
pub struct Component<'a> {
    /// From 1 to 65,535 where it was read; in a description it may be any number.
    pub kind: u64,
    pub value: &'a [u8],
}

impl<'a> TryFrom<Element<'a>> for Component<'a> {
    type Error = Malformed;

    fn try_from(element: Element<'a>) -> Result<Self, Malformed> {
        let kind = u16::try_from(element.kind).map_err(|_| element.malformed())?;
        Ok(Component {
            kind: kind.into(),
            value: element.value.bytes,
        })
    }
}

/// A component that has its bytes itself.
#[derive(Clone, Debug, PartialEq, Eq)]
pub struct OwnedComponent {
    pub kind: u64,
    pub value: Vec<u8>,
}

impl OwnedComponent {
    pub fn new(kind: u64, value: impl Into<Vec<u8>>) -> Self {
        OwnedComponent {
            kind,
            value: value.into(),
        }
    }

    /// A generic component.
    pub fn generic(value: impl Into<Vec<u8>>) -> Self {
        OwnedComponent::new(8, value)
    }

    pub fn as_component(&self) -> Component<'_> {
        Component {
            kind: self.kind,
            value: &self.value,
        }
    }

    /// The bytes of its element.
    pub fn encode(&self) -> Vec<u8> {
        let mut bytes = Vec::new();
        append_element(&mut bytes, self.kind, &self.value);
        bytes
    }
}

impl From<Component<'_>> for OwnedComponent {
    fn from(component: Component<'_>) -> Self {
        OwnedComponent::new(component.kind, component.value)
    }
}

/// A component of a name, with the place of its whole element: in which of the
/// two names it stands, and where, counted from that name's first byte.
#[derive(Clone, Copy, Debug, PartialEq, Eq)]
pub struct PlacedComponent<'a> {
    pub component: Component<'a>,
    pub role: Role,
    pub start: u32,
    pub length: u32,
}

/// The components of a name, in their order.
#[derive(Clone, Debug, PartialEq, Eq)]
pub struct Name<'a> {
    pub components: Vec<PlacedComponent<'a>>,
}

/// Which of the two names of a call is meant; it decides the refusal numbers and
/// the origin of bindings.
#[derive(Clone, Copy, Debug, PartialEq, Eq)]
pub enum Role {
    Packet,
    Key,
}

impl Role {
    /// The number that says which name a binding comes from.
    pub fn origin(self) -> u32 {
        match self {
            Role::Packet => 1,
            Role::Key => 2,
        }
    }

    fn too_long(self) -> Reason {
        match self {
            Role::Packet => Reason::PacketTooLong,
            Role::Key => Reason::KeyTooLong,
        }
    }

    fn malformed(self) -> Reason {
        match self {
            Role::Packet => Reason::PacketMalformed,
            Role::Key => Reason::KeyMalformed,
        }
    }

    fn too_many_components(self) -> Reason {
        match self {
            Role::Packet => Reason::PacketComponents,
            Role::Key => Reason::KeyComponents,
        }
    }
}

impl<'a> Name<'a> {
    /// Reads a name and tests it against its limits.
    pub fn load(bytes: &'a [u8], role: Role) -> Result<Self, Refusal> {
        if bytes.len() > MAX_NAME_BYTES {
            return Err(role.too_long().into());
        }
        let name = Name::parse(bytes, role).map_err(|_| role.malformed())?;
        if name.components.len() > MAX_COMPONENTS {
            return Err(role.too_many_components().into());
        }
        Ok(name)
    }

    /// Reads a name of any size.
    fn parse(bytes: &'a [u8], role: Role) -> Result<Self, Malformed> {
        let (name, rest) = Element::read(Part::whole(bytes))?;
        if name.kind != kind::NAME || !rest.is_empty() {
            return Err(name.malformed());
        }
        let mut components = Vec::new();
        let mut inside = name.value;
        while !inside.is_empty() {
            let (element, behind) = Element::read(inside)?;
            components.push(PlacedComponent {
                component: element.try_into()?,
                role,
                start: element.start as u32,
                length: (element.end() - element.start) as u32,
            });
            inside = behind;
        }
        Ok(Name { components })
    }
}

/// The single component that a Value holds. Where there is none, it is missing
/// at the Value's end, which is also where its inside starts.
pub fn single_component(inside: Part<'_>) -> Result<Component<'_>, Malformed> {
    let (element, behind) = Element::read(inside)?;
    let component = element.try_into()?;
    if !behind.is_empty() {
        let place = behind.start;
        return Err(Malformed { place });
    }
    Ok(component)
}

#[cfg(test)]
mod tests {
    use super::*;

    fn refusal(bytes: &[u8]) -> Option<u8> {
        Name::load(bytes, Role::Packet)
            .err()
            .map(|refusal| refusal.number())
    }

    #[test]
    fn components_know_their_places() {
        let bytes = [7, 8, 8, 1, 97, 253, 1, 0, 1, 98];
        let name = Name::load(&bytes, Role::Packet).unwrap();
        let places: Vec<_> = name
            .components
            .iter()
            .map(|c| (c.start, c.length))
            .collect();
        assert_eq!(places, [(2, 3), (5, 5)]);
        assert_eq!(
            name.components[1].component,
            Component {
                kind: 256,
                value: b"b"
            }
        );
    }

    #[test]
    fn known_and_optional_types_are_plain_components() {
        let bytes = [7, 6, 0x21, 0, 0x80, 0, 0x07, 0];
        assert_eq!(
            Name::load(&bytes, Role::Packet).unwrap().components.len(),
            3
        );
    }

    #[test]
    fn malformed_names() {
        let malformed: [&[u8]; 11] = [
            &[],
            &[7],
            &[7, 1],
            &[7, 1, 8],
            &[8, 0],
            &[7, 0, 0],
            &[7, 2, 0, 0],
            &[7, 3, 8, 2, 97],
            &[253, 0, 7, 0],
            &[7, 253, 0, 0],
            &[7, 6, 254, 0, 1, 0, 0, 0],
        ];
        for bytes in malformed {
            assert_eq!(refusal(bytes), Some(22), "{bytes:?}");
        }
        assert_eq!(refusal(&[7, 0]), None);
        assert_eq!(refusal(&[7, 4, 253, 255, 255, 0]), None);
    }

    #[test]
    fn a_value_holds_one_component() {
        let place = |bytes| match single_component(Part { start: 10, bytes }) {
            Ok(_) => None,
            Err(fault) => Some(fault.place),
        };
        assert_eq!(place(&[8, 0]), None);
        assert_eq!(place(&[]), Some(10));
        assert_eq!(place(&[8, 1, 97, 8, 0]), Some(13));
        assert_eq!(place(&[8, 0, 8]), Some(12));
        assert_eq!(place(&[8, 0, 128, 0]), Some(12));
        for own_fault in [&[8, 1][..], &[0, 0, 8], &[254, 0, 1, 0, 0, 0, 8]] {
            assert_eq!(place(own_fault), Some(10));
        }
    }
}
