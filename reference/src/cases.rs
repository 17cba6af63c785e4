//! Cases and answers as they travel between programs.
//!
//! A case is one letter, then its fields, each a 4-byte length (high byte
//! first) and that many bytes. An answer is one line of text.

use std::borrow::Cow;
use std::fmt::Display;
use std::io::{self, Read, Write};

use crate::elements::Part;
use crate::names::{single_component, OwnedComponent};
use crate::{
    compare_components, describe, find_certificate, follow, match_name, sign, verdict, write_model,
};

/// The longest model, name and binding buffer in a case.
pub const MAX_MODEL_FIELD: usize = 65_536;
pub const MAX_NAME_FIELD: usize = 4_096;
pub const MAX_WORDS: usize = 1_024;
/// The longest path in a case.
pub const MAX_PATH_WORDS: usize = 2_048;
/// The longest lists of a description and the longest output in a case.
pub const MAX_NUMBERS: usize = 8_192;
pub const MAX_TEXTS_FIELD: usize = 65_536;
pub const MAX_OUTPUT_FIELD: usize = 65_536;
/// The longest list of certificates in a case.
pub const MAX_LIST_FIELD: usize = 65_536;
/// The longest component in a case, type and length included.
pub const MAX_COMPONENT_FIELD: usize = 65_536;

/// The inputs of one call.
#[derive(Clone, Debug, PartialEq, Eq)]
pub enum Case {
    Verdict {
        model: Vec<u8>,
    },
    Match {
        model: Vec<u8>,
        name: Vec<u8>,
        words: Vec<u32>,
    },
    Sign {
        model: Vec<u8>,
        packet: Vec<u8>,
        key: Vec<u8>,
        words: Vec<u32>,
        path: Vec<u16>,
    },
    Follow {
        model: Vec<u8>,
        packet: Vec<u8>,
        key: Vec<u8>,
        path: Vec<u16>,
    },
    Write {
        numbers: Vec<u64>,
        texts: Vec<u8>,
        output: Vec<u8>,
    },
    Describe {
        model: Vec<u8>,
        numbers: Vec<u64>,
        texts: Vec<u8>,
    },
    Certificate {
        model: Vec<u8>,
        packet: Vec<u8>,
        list: Vec<u8>,
    },
    Compare {
        first: OwnedComponent,
        second: OwnedComponent,
    },
}

/// The input is no sequence of cases.
#[derive(Clone, Copy, Debug, PartialEq, Eq)]
pub struct Broken;

impl Case {
    /// Writes the case in the form above.
    pub fn write(&self, out: &mut impl Write) -> io::Result<()> {
        let (letter, fields) = self.parts();
        out.write_all(&[letter])?;
        fields.iter().try_for_each(|field| write_field(out, field))
    }

    /// The letter and the fields.
    fn parts(&self) -> (u8, Vec<Cow<'_, [u8]>>) {
        match self {
            Case::Verdict { model } => (b'V', vec![model.into()]),
            Case::Match { model, name, words } => {
                (b'M', vec![model.into(), name.into(), word_field(words)])
            }
            Case::Sign {
                model,
                packet,
                key,
                words,
                path,
            } => (
                b'S',
                vec![
                    model.into(),
                    packet.into(),
                    key.into(),
                    word_field(words),
                    path_field(path),
                ],
            ),
            Case::Follow {
                model,
                packet,
                key,
                path,
            } => (
                b'P',
                vec![model.into(), packet.into(), key.into(), path_field(path)],
            ),
            Case::Write {
                numbers,
                texts,
                output,
            } => (
                b'W',
                vec![number_field(numbers), texts.into(), output.into()],
            ),
            Case::Describe {
                model,
                numbers,
                texts,
            } => (
                b'D',
                vec![model.into(), number_field(numbers), texts.into()],
            ),
            Case::Certificate {
                model,
                packet,
                list,
            } => (b'C', vec![model.into(), packet.into(), list.into()]),
            Case::Compare { first, second } => {
                (b'E', vec![first.encode().into(), second.encode().into()])
            }
        }
    }

    /// Reads the next case; `None` at the end of the input.
    pub fn read(input: &mut impl Read) -> Result<Option<Self>, Broken> {
        let Some(letter) = read_letter(input)? else {
            return Ok(None);
        };
        let case = match letter {
            b'V' => Case::Verdict {
                model: read_field(input, MAX_MODEL_FIELD)?,
            },
            b'M' => Case::Match {
                model: read_field(input, MAX_MODEL_FIELD)?,
                name: read_field(input, MAX_NAME_FIELD)?,
                words: read_list(input, MAX_WORDS, u32::from_be_bytes)?,
            },
            b'S' => Case::Sign {
                model: read_field(input, MAX_MODEL_FIELD)?,
                packet: read_field(input, MAX_NAME_FIELD)?,
                key: read_field(input, MAX_NAME_FIELD)?,
                words: read_list(input, MAX_WORDS, u32::from_be_bytes)?,
                path: read_list(input, MAX_PATH_WORDS, u16::from_be_bytes)?,
            },
            b'P' => Case::Follow {
                model: read_field(input, MAX_MODEL_FIELD)?,
                packet: read_field(input, MAX_NAME_FIELD)?,
                key: read_field(input, MAX_NAME_FIELD)?,
                path: read_list(input, MAX_PATH_WORDS, u16::from_be_bytes)?,
            },
            b'W' => Case::Write {
                numbers: read_list(input, MAX_NUMBERS, u64::from_be_bytes)?,
                texts: read_field(input, MAX_TEXTS_FIELD)?,
                output: read_field(input, MAX_OUTPUT_FIELD)?,
            },
            b'D' => Case::Describe {
                model: read_field(input, MAX_MODEL_FIELD)?,
                numbers: read_list(input, MAX_NUMBERS, u64::from_be_bytes)?,
                texts: read_field(input, MAX_TEXTS_FIELD)?,
            },
            b'C' => Case::Certificate {
                model: read_field(input, MAX_MODEL_FIELD)?,
                packet: read_field(input, MAX_NAME_FIELD)?,
                list: read_field(input, MAX_LIST_FIELD)?,
            },
            b'E' => Case::Compare {
                first: read_component(input)?,
                second: read_component(input)?,
            },
            _ => return Err(Broken),
        };
        Ok(Some(case))
    }

    /// Makes the call and writes its answer, with what was lent to the call as
    /// it is afterwards.
    pub fn answer(self, out: &mut impl Write) -> io::Result<()> {
        match self {
            Case::Verdict { model } => writeln!(out, "{}", verdict(&model)),
            Case::Match {
                model,
                name,
                mut words,
            } => {
                write!(out, "{}", match_name(&model, &name, &mut words))?;
                write_numbers(out, &words)?;
                writeln!(out)
            }
            Case::Sign {
                model,
                packet,
                key,
                mut words,
                mut path,
            } => {
                let answer = sign(&model, &packet, &key, &mut words, &mut path);
                write!(out, "{answer}")?;
                write_numbers(out, &words)?;
                write_numbers(out, &path)?;
                writeln!(out)
            }
            Case::Follow {
                model,
                packet,
                key,
                path,
            } => writeln!(out, "{}", follow(&model, &packet, &key, &path)),
            Case::Write {
                numbers,
                texts,
                mut output,
            } => {
                write!(out, "{}", write_model(&numbers, &texts, &mut output))?;
                write_hexadecimal(out, &output)?;
                writeln!(out)
            }
            Case::Describe {
                model,
                mut numbers,
                mut texts,
            } => {
                write!(out, "{}", describe(&model, &mut numbers, &mut texts))?;
                write_numbers(out, &numbers)?;
                write_hexadecimal(out, &texts)?;
                writeln!(out)
            }
            Case::Certificate {
                model,
                packet,
                list,
            } => writeln!(out, "{}", find_certificate(&model, &packet, &list)),
            Case::Compare { first, second } => {
                let answer = compare_components(first.as_component(), second.as_component());
                writeln!(out, "{answer}")
            }
        }
    }
}

/// Each number with a blank before it.
fn write_numbers(out: &mut impl Write, numbers: &[impl Display]) -> io::Result<()> {
    numbers
        .iter()
        .try_for_each(|number| write!(out, " {number}"))
}

/// All bytes with one blank before them; nothing for no bytes.
fn write_hexadecimal(out: &mut impl Write, bytes: &[u8]) -> io::Result<()> {
    if bytes.is_empty() {
        return Ok(());
    }
    let digit = |value: u8| b"0123456789abcdef"[usize::from(value)];
    let digits = |byte: u8| [digit(byte >> 4), digit(byte & 15)];
    out.write_all(b" ")?;
    out.write_all(&joined(bytes, |byte| digits(*byte)))
}

/// The bytes of all items one after the other.
fn joined<T, const N: usize>(items: &[T], bytes: impl Fn(&T) -> [u8; N]) -> Vec<u8> {
    items.iter().flat_map(bytes).collect()
}

fn path_field(path: &[u16]) -> Cow<'static, [u8]> {
    joined(path, |word| word.to_be_bytes()).into()
}

fn word_field(words: &[u32]) -> Cow<'static, [u8]> {
    joined(words, |word| word.to_be_bytes()).into()
}

fn number_field(numbers: &[u64]) -> Cow<'static, [u8]> {
    joined(numbers, |number| number.to_be_bytes()).into()
}

fn write_field(out: &mut impl Write, bytes: &[u8]) -> io::Result<()> {
    out.write_all(&(bytes.len() as u32).to_be_bytes())?;
    out.write_all(bytes)
}

fn read_letter(input: &mut impl Read) -> Result<Option<u8>, Broken> {
    let mut letter = [0];
    match input.read_exact(&mut letter) {
        Ok(()) => Ok(Some(letter[0])),
        Err(fault) if fault.kind() == io::ErrorKind::UnexpectedEof => Ok(None),
        Err(_) => Err(Broken),
    }
}

fn read_field(input: &mut impl Read, limit: usize) -> Result<Vec<u8>, Broken> {
    let mut length = [0; 4];
    input.read_exact(&mut length).map_err(|_| Broken)?;
    let length = u32::from_be_bytes(length) as usize;
    if length > limit {
        return Err(Broken);
    }
    let mut bytes = vec![0; length];
    input.read_exact(&mut bytes).map_err(|_| Broken)?;
    Ok(bytes)
}

/// Reads a field that is one component.
fn read_component(input: &mut impl Read) -> Result<OwnedComponent, Broken> {
    let bytes = read_field(input, MAX_COMPONENT_FIELD)?;
    let component = single_component(Part::whole(&bytes)).map_err(|_| Broken)?;
    Ok(component.into())
}

/// Reads a field of items that take N bytes each.
fn read_list<T, const N: usize>(
    input: &mut impl Read,
    limit: usize,
    item: impl Fn([u8; N]) -> T,
) -> Result<Vec<T>, Broken> {
    let bytes = read_field(input, limit * N)?;
    let (items, rest) = bytes.as_chunks();
    if !rest.is_empty() {
        return Err(Broken);
    }
    Ok(items.iter().copied().map(item).collect())
}

#[cfg(test)]
mod tests {
    use super::*;

    fn read_all(mut input: &[u8]) -> Result<Vec<Case>, Broken> {
        let mut cases = Vec::new();
        while let Some(case) = Case::read(&mut input)? {
            cases.push(case);
        }
        Ok(cases)
    }

    #[test]
    fn what_was_written_is_read_back() {
        let cases = vec![
            Case::Verdict {
                model: vec![1, 2, 3],
            },
            Case::Match {
                model: vec![],
                name: vec![7, 0],
                words: vec![1, 0xFFFF_FFFF],
            },
            Case::Sign {
                model: vec![9],
                packet: vec![],
                key: vec![7],
                words: vec![2, 0xFFFF_FFFE],
                path: vec![0, 1, 256, 65_535],
            },
            Case::Follow {
                model: vec![],
                packet: vec![7, 0],
                key: vec![8],
                path: vec![65_534, 2],
            },
            Case::Write {
                numbers: vec![0, u64::MAX],
                texts: vec![1],
                output: vec![],
            },
            Case::Describe {
                model: vec![],
                numbers: vec![1 << 40],
                texts: vec![2, 3],
            },
            Case::Certificate {
                model: vec![4],
                packet: vec![],
                list: vec![7, 0, 7],
            },
            Case::Compare {
                first: OwnedComponent::generic("a"),
                second: OwnedComponent::new(65_535, [0; 253]),
            },
        ];
        let mut bytes = Vec::new();
        for case in &cases {
            case.write(&mut bytes).unwrap();
        }
        assert_eq!(read_all(&bytes), Ok(cases));
        assert_eq!(read_all(&bytes[..bytes.len() - 1]), Err(Broken));
    }

    #[test]
    fn broken_input() {
        assert_eq!(read_all(b"X"), Err(Broken));
        assert_eq!(read_all(b"V"), Err(Broken));
        assert_eq!(read_all(b"V\0\x01\0\x01"), Err(Broken));
        assert_eq!(read_all(b"M\0\0\0\0\0\0\0\0\0\0\0\x01\0"), Err(Broken));
        assert_eq!(read_all(b"S\0\0\0\0\0\0\x10\x01"), Err(Broken));
        assert_eq!(
            read_all(b"S\0\0\0\0\0\0\0\0\0\0\0\0\0\0\0\0"),
            Err(Broken),
            "four fields only"
        );
        for (letter, fields_before) in [(b"S", 4), (b"P", 3)] {
            let before = [0; 4].repeat(fields_before);
            let odd = [letter, &before[..], &[0, 0, 0, 3, 1, 2, 3]].concat();
            assert_eq!(read_all(&odd), Err(Broken));
        }
        let part_word = [b"S", &[0; 12][..], &[0, 0, 0, 6, 0, 0, 0, 0, 0, 0], &[0; 4]];
        assert_eq!(read_all(&part_word.concat()), Err(Broken));
        assert_eq!(read_all(b"W\0\0\0\x01\0\0\0\0\0\0\0\0\0"), Err(Broken));
        assert_eq!(read_all(b""), Ok(vec![]));
    }

    #[test]
    fn answers_are_lines() {
        let case = Case::Match {
            model: vec![],
            name: vec![],
            words: vec![5, 6],
        };
        assert_eq!(line(case), "refused 2 0 5 6\n");
    }

    fn line(case: Case) -> String {
        let mut line = Vec::new();
        case.answer(&mut line).unwrap();
        String::from_utf8(line).unwrap()
    }

    #[test]
    fn lines_of_descriptions() {
        let write = |numbers: &[u64], output: &[u8]| {
            line(Case::Write {
                numbers: numbers.into(),
                texts: vec![],
                output: output.into(),
            })
        };
        assert_eq!(write(&[], &[]), "refused 30 0\n");
        assert_eq!(write(&[], &[10, 255]), "refused 30 0 0aff\n");
        let one_node = [0, 0, 1, 0, 0, 0, 0, 0, 0, 0];
        assert_eq!(write(&one_node, &[]), "refused 31 0\n");
        assert_eq!(
            write(&one_node, &[9; 18]),
            "written 17 610400011000250100690100630325010009\n"
        );
        let describe = |model: &[u8], numbers: &[u64], texts: &[u8]| {
            line(Case::Describe {
                model: model.into(),
                numbers: numbers.into(),
                texts: texts.into(),
            })
        };
        assert_eq!(describe(&[], &[], &[]), "refused 2 0\n");
        assert_eq!(describe(&[], &[], &[1, 0xAB]), "refused 2 0 01ab\n");
        assert_eq!(describe(&[], &[12, 3], &[]), "refused 2 0 12 3\n");
        assert_eq!(describe(&[], &[12, 3], &[4]), "refused 2 0 12 3 04\n");
        let model = *b"\x61\x04\0\x01\x10\0\x25\x01\0\x69\x01\x07\x63\x03\x25\x01\0";
        assert_eq!(
            describe(&model, &[9; 11], &[1]),
            "described 10 0 0 7 1 0 0 0 0 0 0 0 9 01\n"
        );
        assert_eq!(describe(&model, &[8; 2], &[]), "refused 30 0 8 8\n");
    }

    /// Model B of the papers, and /a by the key /a.
    #[test]
    fn lines_with_words() {
        let model = *b"\x61\x04\0\x01\x10\0\x25\x01\0\x69\x01\x01\x63\x0B\x25\x01\0\
                       \x53\x06\x25\x01\x01\x23\x01\x01\x63\x09\x25\x01\x01\x57\x01\0\x55\x01\x01";
        let name = |letter: u8| vec![7, 3, 8, 1, letter];
        let sign = |key: u8, words: &[u32], path: &[u16]| {
            line(Case::Sign {
                model: model.into(),
                packet: name(b'a'),
                key: name(key),
                words: words.into(),
                path: path.into(),
            })
        };
        // one Tag is bound, the words behind the 384th are kept
        let lent = [[5; 384].as_slice(), &[70_000, 6]].concat();
        let bound = format!(" 2 3 1{} 70000 6", " 0".repeat(381));
        let kept = format!("{} 70000 6", " 5".repeat(384));
        let sign_lent = |key: u8, path: &[u16]| sign(key, &lent, path);
        let allowed = |path: &str| format!("allowed 1 1{bound}{path}\n");
        assert_eq!(sign_lent(b'a', &[7, 8]), allowed(" 0 0"));
        let path = [7, 8, 9, 65_535];
        assert_eq!(sign_lent(b'a', &path), allowed(" 0 0 9 65535"));
        let not_allowed = format!("not allowed{kept} 7 8 9\n");
        assert_eq!(sign_lent(b'b', &[7, 8, 9]), not_allowed);
        let refused = |path: &str| format!("refused 34 0{kept}{path}\n");
        assert_eq!(sign_lent(b'b', &[258]), refused(" 258"));
        assert_eq!(sign_lent(b'a', &[]), refused(""));
        assert_eq!(sign(b'a', &[], &[]), "refused 27 0\n");
        assert_eq!(sign(b'a', &[3, 4], &[1]), "refused 27 0 3 4 1\n");
        let follow = |key: u8, path: &[u16]| {
            line(Case::Follow {
                model: model.into(),
                packet: name(b'a'),
                key: name(key),
                path: path.into(),
            })
        };
        assert_eq!(follow(b'a', &[0, 0]), "accepted\n");
        assert_eq!(follow(b'b', &[0, 0]), "no\n");
        assert_eq!(follow(b'a', &[]), "no\n");
        let unnamed = Case::Follow {
            model: model.into(),
            packet: name(b'a'),
            key: vec![7],
            path: vec![0, 0],
        };
        assert_eq!(line(unnamed), "refused 25 0\n");
    }

    #[test]
    fn lines_of_certificates() {
        let model = *b"\x61\x04\0\x01\x10\0\x25\x01\0\x69\x01\x07\x63\x06\x25\x01\0\x55\x01\0";
        let find = |list: &[u8]| {
            line(Case::Certificate {
                model: model.into(),
                packet: vec![7, 0],
                list: list.into(),
            })
        };
        assert_eq!(find(&[]), "none\n");
        assert_eq!(find(&[7, 2, 8, 0, 7, 0]), "certificate 1\n");
        assert_eq!(find(&[7, 0, 7]), "refused 32 1\n");
    }

    /// A case that compares these two fields, read.
    fn read_comparison(first: &[u8], second: &[u8]) -> Result<Case, Broken> {
        let mut bytes = vec![b'E'];
        write_field(&mut bytes, first).unwrap();
        write_field(&mut bytes, second).unwrap();
        read_all(&bytes).map(|mut cases| cases.remove(0))
    }

    #[test]
    fn lines_of_comparisons() {
        let compared = |first: &[u8], second: &[u8]| read_comparison(first, second).map(line);
        let answer = |text: &str| Ok(format!("{text}\n"));
        assert_eq!(compared(&[8, 0], &[8, 0]), answer("equal 0"));
        assert_eq!(compared(&[8, 1, 97], &[8, 1, 97]), answer("equal 1"));
        assert_eq!(compared(&[8, 1, 97], &[8, 0]), answer("different 0"));
        assert_eq!(
            compared(&[8, 2, 97, 98], &[8, 2, 98, 98]),
            answer("different 2")
        );
        assert_eq!(
            compared(&[253, 1, 8, 1, 97], &[8, 1, 97]),
            answer("different 0")
        );
    }

    #[test]
    fn what_is_compared_is_one_component_each() {
        let good = &[8, 1, 97][..];
        let longest = [&[8, 253, 255, 252][..], &[0; 65_532]].concat();
        assert!(read_comparison(&longest, &longest).is_ok());
        assert!(read_comparison(&[253, 255, 255, 0], &[1, 0]).is_ok());
        let too_long = [&[8, 253, 255, 253][..], &[0; 65_533]].concat();
        let broken: [&[u8]; 11] = [
            &[],
            &[8],
            &[8, 1],
            &[8, 0, 0],
            &[8, 0, 8, 0],
            &[0, 0],
            &[253, 0, 8, 0],
            &[8, 253, 0, 1, 97],
            &[254, 0, 1, 0, 0, 0],
            &[8, 255, 0, 0, 0, 1, 0, 0, 0, 0],
            &too_long,
        ];
        for field in broken {
            assert_eq!(read_comparison(field, good), Err(Broken), "{field:?}");
            assert_eq!(read_comparison(good, field), Err(Broken), "{field:?}");
        }
        assert_eq!(read_all(b"E"), Err(Broken));
        assert_eq!(read_all(b"E\0\0\0\x02\x08\0"), Err(Broken));
        assert_eq!(read_all(b"E\0\0\0\x02\x08\0\0\0\0\x02\x08"), Err(Broken));
    }

    #[test]
    fn lists_have_limits() {
        let field = |length: u32| [&length.to_be_bytes()[..], &vec![0; length as usize]].concat();
        let read = |letter: &[u8], lengths: [u32; 3]| {
            let fields: Vec<u8> = lengths.into_iter().flat_map(field).collect();
            read_all(&[letter, &fields].concat()).is_ok()
        };
        for letter in [b"W", b"D"] {
            assert!(read(letter, [65_536; 3]));
            assert!(!read(letter, [65_544, 0, 0]));
            assert!(!read(letter, [0, 65_544, 0]));
            assert!(!read(letter, [0, 0, 65_537]));
        }
        assert!(read(b"C", [65_536, 4_096, 65_536]));
        assert!(!read(b"C", [65_537, 0, 0]));
        assert!(!read(b"C", [0, 4_097, 0]));
        assert!(!read(b"C", [0, 0, 65_537]));
        let read_last = |letter: &[u8], before: usize, length: u32| {
            let fields = [field(0).repeat(before), field(length)].concat();
            read_all(&[letter, &fields].concat()).is_ok()
        };
        for (letter, fields_before) in [(b"M", 2), (b"P", 3), (b"S", 4)] {
            assert!(read_last(letter, fields_before, 4_096));
            assert!(!read_last(letter, fields_before, 4_100));
        }
        assert!(!read_last(b"P", 3, 4_098));
        let words = |length: u32| {
            let fields = [field(0).repeat(3), field(length), field(0)].concat();
            read_all(&[b"S", &fields[..]].concat()).is_ok()
        };
        assert!(words(4_096));
        assert!(!words(4_100));
        assert!(!read(b"D", [7, 4, 0]));
        assert!(!read(b"W", [12, 0, 0]));
    }
}
