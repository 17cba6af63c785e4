//! The call that finds a certificate in a list of certificate names.

use std::fmt;

use crate::answers::may_sign;
use crate::elements::{Element, Part};
use crate::names::{Name, Role};
use crate::verdict::{load, Reason, Refusal};

/// The largest number of entries in a list.
pub const MAX_ENTRIES: usize = 64;

/// What the call answers.
#[derive(Clone, Copy, Debug, PartialEq, Eq)]
pub enum CertificateAnswer {
    /// The index of the first certificate that may sign the packet.
    Certificate(usize),
    None,
    Refused(Refusal),
}

impl fmt::Display for CertificateAnswer {
    fn fmt(&self, f: &mut fmt::Formatter<'_>) -> fmt::Result {
        match self {
            CertificateAnswer::Certificate(index) => write!(f, "certificate {index}"),
            CertificateAnswer::None => write!(f, "none"),
            CertificateAnswer::Refused(refusal) => refusal.fmt(f),
        }
    }
}

/// The first certificate of a list that may sign a packet of this name. The
/// list holds the names of certificates, one behind the other.
pub fn find_certificate(model: &[u8], packet: &[u8], list: &[u8]) -> CertificateAnswer {
    try_find(model, packet, list).unwrap_or_else(CertificateAnswer::Refused)
}

fn try_find(model: &[u8], packet: &[u8], list: &[u8]) -> Result<CertificateAnswer, Refusal> {
    let model = load(model)?;
    let packet = Name::load(packet, Role::Packet)?;
    let certificates = load_entries(&cut(list)?)?;
    let first = certificates
        .iter()
        .position(|certificate| may_sign(&model, &packet, certificate));
    Ok(first.map_or(CertificateAnswer::None, CertificateAnswer::Certificate))
}

/// The entries of a list. Bytes that can't be cut are the last entry: as no
/// element begins there, they are no key name either.
fn cut(list: &[u8]) -> Result<Vec<&[u8]>, Refusal> {
    let mut entries = Vec::new();
    let mut rest = list;
    while !rest.is_empty() {
        if entries.len() == MAX_ENTRIES {
            return Err(Reason::TooManyEntries.into());
        }
        let behind = Element::read(Part::whole(rest)).map_or(&[][..], |(_, behind)| behind.bytes);
        entries.push(&rest[..rest.len() - behind.len()]);
        rest = behind;
    }
    Ok(entries)
}

/// All entries as key names.
fn load_entries<'a>(entries: &[&'a [u8]]) -> Result<Vec<Name<'a>>, Refusal> {
    let names = entries.iter().enumerate().map(|(index, entry)| {
        Name::load(entry, Role::Key).map_err(|_| Refusal {
            reason: Reason::EntryNoKeyName,
            index,
        })
    });
    names.collect()
}

#[cfg(test)]
mod tests {
    use super::*;

    fn lengths(list: &[u8]) -> Result<Vec<usize>, u8> {
        let entries = cut(list).map_err(|refusal| refusal.number())?;
        assert_eq!(entries.concat(), list);
        Ok(entries.iter().map(|entry| entry.len()).collect())
    }

    #[test]
    fn lists_are_cut_by_lengths_whatever_the_types() {
        assert_eq!(lengths(&[]), Ok(vec![]));
        assert_eq!(lengths(&[7, 0, 8, 1, 7, 253, 1, 0, 0]), Ok(vec![2, 3, 4]));
    }

    #[test]
    fn what_cannot_be_cut_is_the_last_entry() {
        let broken: [&[u8]; 8] = [
            &[7],
            &[7, 5, 8, 1, 97],
            &[0, 0, 7, 0],
            &[253, 0, 7, 0, 7, 0],
            &[7, 253, 0, 0, 7, 0],
            &[255, 0, 0, 0, 1, 0, 0, 0, 0, 0, 7, 0],
            &[7, 255, 0, 0, 0, 1, 0, 0, 0, 0, 7, 0],
            &[7, 254, 0, 1],
        ];
        for bytes in broken {
            assert_eq!(lengths(bytes), Ok(vec![bytes.len()]));
            let behind_another = [&[7, 0], bytes].concat();
            assert_eq!(lengths(&behind_another), Ok(vec![2, bytes.len()]));
        }
    }

    #[test]
    fn at_most_64_entries_are_cut_off() {
        let names = |count: usize| [7, 0].repeat(count);
        assert_eq!(lengths(&names(64)), Ok(vec![2; 64]));
        assert_eq!(lengths(&names(65)), Err(33));
        assert_eq!(lengths(&[names(64), vec![0]].concat()), Err(33));
        let with_63 = [names(63), vec![7, 1]].concat();
        assert_eq!(lengths(&with_63).map(|all| all.len()), Ok(64));
    }
}
