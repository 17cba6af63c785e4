//! The call that compares two components and counts the bytes it looks at.
//!
//! The walk doesn't use it: there components are compared with `==`, as the
//! answers don't depend on the order in which bytes are looked at.

use std::fmt;

use crate::names::Component;

/// What the call answers.
#[derive(Clone, Copy, Debug, PartialEq, Eq)]
pub struct Comparison {
    pub is_equal: bool,
    /// At how many places the bytes of the two values were compared.
    pub looked_at: usize,
}

impl fmt::Display for Comparison {
    fn fmt(&self, f: &mut fmt::Formatter<'_>) -> fmt::Result {
        let word = if self.is_equal { "equal" } else { "different" };
        write!(f, "{word} {}", self.looked_at)
    }
}

/// Compares types and lengths, then the values from the back up to the first
/// place at which they differ. Only the latter looks at bytes of the values.
pub fn compare_components(first: Component, second: Component) -> Comparison {
    if first.kind != second.kind || first.value.len() != second.value.len() {
        return Comparison {
            is_equal: false,
            looked_at: 0,
        };
    }
    let mut from_back = first.value.iter().rev().zip(second.value.iter().rev());
    match from_back.position(|(one, other)| one != other) {
        Some(equal_ones) => Comparison {
            is_equal: false,
            looked_at: equal_ones + 1,
        },
        None => Comparison {
            is_equal: true,
            looked_at: first.value.len(),
        },
    }
}

#[cfg(test)]
mod tests {
    use super::*;

    /// The answer for two components of type 8, which is the same both ways.
    fn generic(first: &[u8], second: &[u8]) -> String {
        typed((8, first), (8, second))
    }

    fn typed(first: (u64, &[u8]), second: (u64, &[u8])) -> String {
        let component = |(kind, value)| Component { kind, value };
        let (first, second) = (component(first), component(second));
        let answer = compare_components(first, second);
        assert_eq!(answer, compare_components(second, first));
        assert_eq!(answer.is_equal, first == second);
        answer.to_string()
    }

    #[test]
    fn equal_ones_are_looked_at_whole() {
        assert_eq!(generic(b"", b""), "equal 0");
        assert_eq!(generic(b"a", b"a"), "equal 1");
        assert_eq!(generic(b"2026-11-16", b"2026-11-16"), "equal 10");
        assert_eq!(generic(&[0; 65_532], &[0; 65_532]), "equal 65532");
    }

    #[test]
    fn bytes_are_counted_from_the_back() {
        assert_eq!(generic(b"a", b"b"), "different 1");
        assert_eq!(generic(b"abcd", b"abcx"), "different 1");
        assert_eq!(generic(b"abcd", b"abxd"), "different 2");
        assert_eq!(generic(b"abcd", b"axcd"), "different 3");
        assert_eq!(generic(b"abcd", b"xbcd"), "different 4");
        let mut other = [7; 65_532];
        other[0] = 8;
        assert_eq!(generic(&[7; 65_532], &other), "different 65532");
        other[65_276] = 8;
        assert_eq!(generic(&[7; 65_532], &other), "different 256");
    }

    /// Of several places only the last counts.
    #[test]
    fn nothing_is_looked_at_before_the_last_unequal_byte() {
        assert_eq!(generic(b"abcd", b"xyzw"), "different 1");
        assert_eq!(generic(b"abcd", b"xbxd"), "different 2");
        assert_eq!(generic(b"abcd", b"xxxd"), "different 2");
        assert_eq!(generic(b"abcd", b"dcba"), "different 1");
    }

    #[test]
    fn a_byte_differs_by_any_bit() {
        for bit in 0..8 {
            for byte in [0x00, 0x61, 0x7F, 0x80, 0xFF] {
                let (first, second) = ([byte, 9, 9], [byte ^ 1 << bit, 9, 9]);
                assert_eq!(generic(&first, &second), "different 3");
            }
        }
    }

    #[test]
    fn other_lengths_are_told_without_the_bytes() {
        assert_eq!(generic(b"", b"a"), "different 0");
        assert_eq!(generic(b"ab", b"abc"), "different 0");
        assert_eq!(generic(b"bc", b"abc"), "different 0");
        assert_eq!(generic(b"ab", b"cde"), "different 0");
        assert_eq!(generic(&[0; 3], &[0; 259]), "different 0");
        assert_eq!(generic(&[0; 252], &[0; 253]), "different 0");
        assert_eq!(generic(&[], &[0; 65_532]), "different 0");
    }

    #[test]
    fn other_types_are_told_without_the_bytes() {
        for (kind, other) in [(8, 9), (8, 264), (1, 257), (252, 253), (255, 65_535)] {
            for value in [&b""[..], b"a", b"abc"] {
                assert_eq!(typed((kind, value), (other, value)), "different 0");
            }
            assert_eq!(typed((kind, b"ab"), (other, b"ax")), "different 0");
            assert_eq!(typed((kind, b"ab"), (other, b"b")), "different 0");
        }
        assert_eq!(typed((65_535, b"ab"), (65_535, b"xb")), "different 2");
        assert_eq!(typed((253, b"ab"), (253, b"ab")), "equal 2");
    }
}
