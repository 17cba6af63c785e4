//! Elements: a type, a length and that many bytes.
//!
//! Nothing here knows how a model is laid out; [`Contents`] only knows which
//! elements are passed over inside a container.

/// Type numbers of the elements of a compiled model.
pub mod kind {
    pub const VALUE: u32 = 0x21;
    pub const TAG: u32 = 0x23;
    pub const NODE_ID: u32 = 0x25;
    pub const FN_ID: u32 = 0x27;
    pub const IDENTIFIER: u32 = 0x29;
    pub const USER_FN_CALL: u32 = 0x31;
    pub const USER_FN_ARG: u32 = 0x33;
    pub const CONSTRAINT_OPTION: u32 = 0x41;
    pub const CONSTRAINT: u32 = 0x43;
    pub const VALUE_EDGE: u32 = 0x51;
    pub const PATTERN_EDGE: u32 = 0x53;
    pub const SIGN_CONSTRAINT: u32 = 0x55;
    pub const PARENT: u32 = 0x57;
    pub const VERSION: u32 = 0x61;
    pub const NODE: u32 = 0x63;
    pub const TAG_SYMBOL: u32 = 0x67;
    pub const NAMED_PATTERN_COUNT: u32 = 0x69;

    /// Every type number above.
    pub const ALL: [u32; 17] = [
        VALUE,
        TAG,
        NODE_ID,
        FN_ID,
        IDENTIFIER,
        USER_FN_CALL,
        USER_FN_ARG,
        CONSTRAINT_OPTION,
        CONSTRAINT,
        VALUE_EDGE,
        PATTERN_EDGE,
        SIGN_CONSTRAINT,
        PARENT,
        VERSION,
        NODE,
        TAG_SYMBOL,
        NAMED_PATTERN_COUNT,
    ];

    /// The type of a name; no element of a model.
    pub const NAME: u32 = 7;
}

/// The bytes keep no rule of the format. The place is the first fault's, counted
/// from the first byte of all that is read.
#[derive(Clone, Copy, Debug, PartialEq, Eq)]
pub struct Malformed {
    pub place: usize,
}

/// Some of the bytes that are read, and where they start among all of them.
#[derive(Clone, Copy, Debug, PartialEq, Eq)]
pub struct Part<'a> {
    pub start: usize,
    pub bytes: &'a [u8],
}

impl<'a> Part<'a> {
    pub fn whole(bytes: &'a [u8]) -> Self {
        Part { start: 0, bytes }
    }

    pub fn end(self) -> usize {
        self.start + self.bytes.len()
    }

    pub fn is_empty(self) -> bool {
        self.bytes.is_empty()
    }

    /// So many bytes from the front, and those behind them.
    fn split_at(self, length: usize) -> Option<(Self, Self)> {
        let bytes = self.bytes.get(..length)?;
        Some((Part { bytes, ..self }, self.behind(length)))
    }

    /// What is behind so many bytes, which must be there.
    fn behind(self, length: usize) -> Self {
        Part {
            start: self.start + length,
            bytes: &self.bytes[length..],
        }
    }
}

/// One element: where it starts, its type and its value.
#[derive(Clone, Copy, Debug, PartialEq, Eq)]
pub struct Element<'a> {
    pub start: usize,
    pub kind: u32,
    pub value: Part<'a>,
}

impl<'a> Element<'a> {
    /// Reads the element at the start of a part; also gives what is behind it.
    /// All that can be wrong here is its header's fault.
    pub fn read(part: Part<'a>) -> Result<(Self, Part<'a>), Malformed> {
        Element::read_whole(part).ok_or(Malformed { place: part.start })
    }

    fn read_whole(part: Part<'a>) -> Option<(Self, Part<'a>)> {
        let (kind, rest) = read_number(part)?;
        let (length, rest) = read_number(rest)?;
        let kind = u32::try_from(kind).ok().filter(|&kind| kind > 0)?;
        let (value, rest) = rest.split_at(usize::try_from(length).ok()?)?;
        let start = part.start;
        Some((Element { start, kind, value }, rest))
    }

    /// Where the element ends.
    pub fn end(self) -> usize {
        self.value.end()
    }

    /// The fault of this element itself, not of one inside it.
    pub fn malformed(self) -> Malformed {
        Malformed { place: self.start }
    }

    /// What its plain bytes say, read by a function that knows their form.
    pub fn plain<T>(self, read: impl Fn(&'a [u8]) -> Option<T>) -> Result<T, Malformed> {
        read(self.value.bytes).ok_or(self.malformed())
    }
}

/// Reads a type or length number in its shortest form.
fn read_number(part: Part<'_>) -> Option<(u64, Part<'_>)> {
    let (width, least) = match *part.bytes.first()? {
        253 => (2, 253),
        254 => (4, 1 << 16),
        255 => (8, 1 << 32),
        number => return Some((number.into(), part.behind(1))),
    };
    let (digits, rest) = part.behind(1).split_at(width)?;
    let number = big_endian(digits.bytes);
    (number >= least).then_some((number, rest))
}

/// The number whose digits to base 256 are `digits`, high byte first.
fn big_endian(digits: &[u8]) -> u64 {
    digits
        .iter()
        .fold(0, |number, &digit| number << 8 | u64::from(digit))
}

/// An integer value: 1, 2, 4 or 8 bytes, not necessarily the fewest.
pub fn integer(value: &[u8]) -> Option<u64> {
    matches!(value.len(), 1 | 2 | 4 | 8).then(|| big_endian(value))
}

/// Whether a model gives this type a meaning.
pub fn is_known(kind: u32) -> bool {
    kind::ALL.contains(&kind)
}

/// Whether a reader of models passes over an element of this type.
pub fn is_optional(kind: u32) -> bool {
    kind >= 32 && kind.is_multiple_of(2) && !is_known(kind)
}

/// Whether an element of this type makes a model malformed wherever it stands.
pub fn is_critical(kind: u32) -> bool {
    !is_known(kind) && !is_optional(kind)
}

/// Whether an element of this type holds other elements of a model.
pub fn is_container(kind: u32) -> bool {
    matches!(
        kind,
        kind::NODE
            | kind::VALUE_EDGE
            | kind::PATTERN_EDGE
            | kind::CONSTRAINT
            | kind::CONSTRAINT_OPTION
            | kind::USER_FN_CALL
            | kind::USER_FN_ARG
            | kind::TAG_SYMBOL
    )
}

/// The elements of a part, one after the other; ends after the first fault.
#[derive(Clone, Debug)]
pub struct Elements<'a> {
    rest: Part<'a>,
}

impl<'a> Elements<'a> {
    pub fn new(part: Part<'a>) -> Self {
        Elements { rest: part }
    }
}

impl<'a> Iterator for Elements<'a> {
    type Item = Result<Element<'a>, Malformed>;

    fn next(&mut self) -> Option<Self::Item> {
        if self.rest.is_empty() {
            return None;
        }
        let read = Element::read(self.rest);
        self.rest = read.map_or(Part::whole(&[]), |(_, rest)| rest);
        Some(read.map(|(element, _)| element))
    }
}

/// What a model or one of its containers holds, with optional elements passed
/// over. Nothing is read before it is asked for, so faults come up in the order
/// of the bytes if each element's inside is read before the next is asked for.
#[derive(Clone, Debug)]
pub struct Contents<'a> {
    rest: Part<'a>,
}

impl<'a> Contents<'a> {
    pub fn new(part: Part<'a>) -> Self {
        Contents { rest: part }
    }

    /// Takes the next element if it is of the given type.
    pub fn take(&mut self, kind: u32) -> Result<Option<Element<'a>>, Malformed> {
        match self.peek()? {
            Some((element, rest)) if element.kind == kind => {
                self.rest = rest;
                Ok(Some(element))
            }
            _ => Ok(None),
        }
    }

    /// Takes the next element, which must be of the given type.
    pub fn expect(&mut self, kind: u32) -> Result<Element<'a>, Malformed> {
        let element = self.expect_any()?;
        if element.kind != kind {
            return Err(element.malformed());
        }
        Ok(element)
    }

    /// Takes all elements of the given type that come next.
    pub fn take_all<T>(
        &mut self,
        kind: u32,
        parse: impl Fn(Element<'a>) -> Result<T, Malformed>,
    ) -> Result<Vec<T>, Malformed> {
        let mut all = Vec::new();
        while let Some(element) = self.take(kind)? {
            all.push(parse(element)?);
        }
        Ok(all)
    }

    /// Takes the next element, of whatever type.
    pub fn take_any(&mut self) -> Result<Option<Element<'a>>, Malformed> {
        Ok(self.peek()?.map(|(element, rest)| {
            self.rest = rest;
            element
        }))
    }

    /// Takes the next element, of whatever type. One that is missing is missed
    /// at the end.
    pub fn expect_any(&mut self) -> Result<Element<'a>, Malformed> {
        let place = self.rest.end();
        self.take_any()?.ok_or(Malformed { place })
    }

    /// Nothing but optional elements may be left.
    pub fn finish(mut self) -> Result<(), Malformed> {
        match self.peek()? {
            Some((element, _)) => Err(element.malformed()),
            None => Ok(()),
        }
    }

    /// The next element that isn't optional and what is behind it.
    fn peek(&mut self) -> Result<Option<(Element<'a>, Part<'a>)>, Malformed> {
        while !self.rest.is_empty() {
            let (element, rest) = Element::read(self.rest)?;
            if !is_optional(element.kind) {
                return Ok(Some((element, rest)));
            }
            self.rest = rest;
        }
        Ok(None)
    }
}

/// Appends a type or length number in its shortest form.
pub fn append_number(out: &mut Vec<u8>, number: u64) {
    match number {
        0..=252 => out.push(number as u8),
        253..=0xFFFF => {
            out.push(253);
            out.extend((number as u16).to_be_bytes());
        }
        0x1_0000..=0xFFFF_FFFF => {
            out.push(254);
            out.extend((number as u32).to_be_bytes());
        }
        _ => {
            out.push(255);
            out.extend(number.to_be_bytes());
        }
    }
}

/// Appends an element, its header in the shortest form.
pub fn append_element(out: &mut Vec<u8>, kind: impl Into<u64>, value: &[u8]) {
    append_number(out, kind.into());
    append_number(out, value.len() as u64);
    out.extend_from_slice(value);
}

/// Appends an element with an integer in the fewest of the four widths.
pub fn append_integer(out: &mut Vec<u8>, kind: u32, integer: u64) {
    let width = match integer {
        0..=0xFF => 1,
        0x100..=0xFFFF => 2,
        0x1_0000..=0xFFFF_FFFF => 4,
        _ => 8,
    };
    append_element(out, kind, &integer.to_be_bytes()[8 - width..]);
}

/// Appends an element whose inside is appended by `append_inside`.
pub fn append_nested(out: &mut Vec<u8>, kind: u32, append_inside: impl FnOnce(&mut Vec<u8>)) {
    append_number(out, kind.into());
    let place = out.len();
    out.push(0);
    append_inside(out);
    let length = out.len() - place - 1;
    match u8::try_from(length) {
        Ok(byte @ 0..=252) => out[place] = byte,
        _ => make_room_for_length(out, place, length as u64),
    }
}

/// Puts a length where one byte was kept free for it.
fn make_room_for_length(out: &mut Vec<u8>, place: usize, length: u64) {
    let mut number = Vec::with_capacity(9);
    append_number(&mut number, length);
    out.splice(place..=place, number);
}

#[cfg(test)]
mod tests {
    use super::*;

    #[test]
    fn numbers_take_the_shortest_form_only() {
        let good: [(&[u8], u64); 6] = [
            (&[0], 0),
            (&[252], 252),
            (&[253, 0, 253], 253),
            (&[253, 255, 255], 65_535),
            (&[254, 0, 1, 0, 0], 65_536),
            (&[255, 0, 0, 0, 1, 0, 0, 0, 0], 1 << 32),
        ];
        for (bytes, number) in good {
            let (read, rest) = read_number(Part::whole(bytes)).unwrap();
            assert_eq!(
                (read, rest.start, rest.bytes),
                (number, bytes.len(), &[][..])
            );
            let mut written = Vec::new();
            append_number(&mut written, number);
            assert_eq!(written, bytes);
        }
        let bad: [&[u8]; 8] = [
            &[],
            &[253, 0],
            &[253, 0, 252],
            &[254, 0, 1, 0],
            &[254, 0, 0, 255, 255],
            &[255, 0, 0, 0, 1, 0, 0, 0],
            &[255, 0, 0, 0, 0, 255, 255, 255, 255],
            &[255],
        ];
        for bytes in bad {
            assert_eq!(read_number(Part::whole(bytes)), None);
        }
    }

    /// The type of the element that the bytes begin with.
    fn kind_of(bytes: &[u8]) -> Result<u32, Malformed> {
        Element::read(Part::whole(bytes)).map(|(element, _)| element.kind)
    }

    #[test]
    fn types_run_from_1_to_32_bits() {
        let malformed = Err(Malformed { place: 0 });
        assert_eq!(kind_of(&[0, 0]), malformed);
        assert_eq!(kind_of(&[254, 255, 255, 255, 255, 0]), Ok(u32::MAX));
        for low in [0, 8] {
            let above = [255, 0, 0, 0, 1, 0, 0, 0, low, 0];
            assert_eq!(kind_of(&above), malformed);
        }
    }

    #[test]
    fn a_length_past_the_end_is_malformed() {
        let malformed = Err(Malformed { place: 0 });
        assert_eq!(kind_of(&[8, 1]), malformed);
        let huge = [8, 255, 255, 255, 255, 255, 255, 255, 255, 255];
        assert_eq!(kind_of(&huge), malformed);
        let low_bits_fit = [8, 255, 0, 0, 0, 1, 0, 0, 0, 1, 97];
        assert_eq!(kind_of(&low_bits_fit), malformed);
    }

    #[test]
    fn elements_know_their_places() {
        let bytes = [0x80, 1, 9, 253, 1, 1, 2, 8, 0, 8];
        let elements: Vec<_> = Elements::new(Part::whole(&bytes)).collect();
        let places = elements.iter().map(|read| {
            let element = read.as_ref().map_err(|fault| fault.place)?;
            Ok((element.start, element.value.start, element.end()))
        });
        let places: Vec<_> = places.collect();
        assert_eq!(places, [Ok((0, 2, 3)), Ok((3, 7, 9)), Err(9)]);
    }

    #[test]
    fn integers_have_four_widths() {
        assert_eq!(integer(&[7]), Some(7));
        assert_eq!(integer(&[0, 7]), Some(7));
        assert_eq!(integer(&[0, 0, 1, 0]), Some(256));
        assert_eq!(integer(&[255; 8]), Some(u64::MAX));
        for length in [0, 3, 5, 6, 7, 9] {
            assert_eq!(integer(&vec![0; length]), None);
        }
    }

    #[test]
    fn integers_are_written_in_the_fewest_bytes() {
        let written = |number: u64| {
            let mut out = Vec::new();
            append_integer(&mut out, kind::TAG, number);
            assert_eq!(integer(&out[2..]), Some(number));
            (out[0], out[1], out.len())
        };
        for (number, width) in [
            (0, 1),
            (255, 1),
            (256, 2),
            (65_535, 2),
            (65_536, 4),
            ((1 << 32) - 1, 4),
            (1 << 32, 8),
            (u64::MAX, 8),
        ] {
            assert_eq!(written(number), (0x23, width, usize::from(width) + 2));
        }
    }

    #[test]
    fn nested_elements_have_the_length_of_their_inside() {
        for length in [0, 1, 252, 253, 254, 65_535, 65_536] {
            let inside = vec![7; length];
            let (mut nested, mut plain) = (vec![1], vec![1]);
            append_nested(&mut nested, kind::NODE, |out| out.extend(&inside));
            append_element(&mut plain, kind::NODE, &inside);
            assert_eq!(nested, plain);
        }
    }

    #[test]
    fn types_are_known_optional_or_critical() {
        let optional = [32, 34, 0x30, 0x40, 0x80, 252, 254, 65_536, u32::MAX - 1];
        let critical = [1, 2, 7, 8, 30, 31, 0x2B, 0x35, 0x65, 0x6B, 0x81, u32::MAX];
        assert!(optional
            .iter()
            .all(|&kind| is_optional(kind) && !is_critical(kind)));
        assert!(critical
            .iter()
            .all(|&kind| is_critical(kind) && !is_optional(kind)));
        assert!(kind::ALL
            .iter()
            .all(|&kind| !is_optional(kind) && !is_critical(kind)));
    }

    #[test]
    fn contents_are_read_only_when_asked_for() {
        let bytes = [0x80, 1, 9, 0x23, 1, 5, 0x25];
        let mut contents = Contents::new(Part::whole(&bytes));
        assert_eq!(contents.take(kind::NODE_ID), Ok(None));
        let tag = contents.expect(kind::TAG).unwrap();
        assert_eq!((tag.start, tag.value.bytes), (3, &[5][..]));
        assert_eq!(contents.take_any(), Err(Malformed { place: 6 }));
    }

    #[test]
    fn an_element_is_missed_at_the_end_and_another_is_wrong_at_its_start() {
        let part = |bytes| Contents::new(Part { start: 10, bytes });
        let place = |bytes| part(bytes).expect(kind::TAG).unwrap_err().place;
        assert_eq!(place(&[]), 10);
        assert_eq!(place(&[0x80, 1, 9]), 13);
        assert_eq!(place(&[0x80, 1, 9, 0x25, 0]), 13);
        assert_eq!(place(&[0x80, 2, 9]), 10);
        let left = |bytes| part(bytes).finish().unwrap_err().place;
        assert_eq!(left(&[0x80, 0, 0x80, 0, 0x81, 0]), 14);
        assert_eq!(part(&[0x80, 0]).finish(), Ok(()));
    }
}
