//! Demand 3 as cases: what unknown elements and another version change.
//!
//! For each generated case whose model is read, of each of the five calls: the
//! case itself, the same with its bare model, with an optional element in each
//! gap, with a critical one in each gap (in a model with many, evenly spread),
//! which is refused at the place where it starts, and with another version.
//! Cases go to standard output, and the lines that they must get to the file
//! LINES.
//! Arguments: seed, number of generated cases, LINES.

use std::env;
use std::fmt::Display;
use std::fs::File;
use std::io::{self, BufWriter, Write};
use std::process::ExitCode;

use lvs_reference::cases::Case;
use lvs_reference::elements::{append_element, kind, Elements, Part};
use lvs_reference::gen::{self, critical_kind, optional_kind, Random};
use lvs_reference::{bare, gaps, insert_element, Gap};

const MAX_MODEL: usize = 32_768;
/// In models with more gaps every second, third .. of them is taken.
const MAX_GAPS: usize = 64;
/// For every so many calls there is one more with a list of certificates, and one
/// with a path.
const CALLS: u64 = 4;

fn main() -> ExitCode {
    let arguments: Vec<String> = env::args().skip(1).collect();
    let [seed, count, lines] = &arguments[..] else {
        return usage();
    };
    let (Ok(seed), Ok(count)) = (seed.parse(), count.parse()) else {
        return usage();
    };
    match write_all(seed, count, lines) {
        Ok(()) => ExitCode::SUCCESS,
        Err(fault) => {
            eprintln!("gap_cases: {fault}");
            ExitCode::FAILURE
        }
    }
}

fn usage() -> ExitCode {
    eprintln!("usage: gap_cases SEED COUNT LINES");
    ExitCode::from(2)
}

fn write_all(seed: u64, count: u64, lines: &str) -> io::Result<()> {
    let mut out = BufWriter::with_capacity(1 << 16, io::stdout().lock());
    let mut lines = BufWriter::new(File::create(lines)?);
    let with_lists = (0..count / CALLS).map(|index| gen::certificate_case(seed, index));
    let with_paths = (0..count / CALLS).map(|index| gen::path_case(seed, index));
    let cases = (0..count).map(|index| gen::case(seed, index));
    for (index, case) in (0..).zip(cases.chain(with_lists).chain(with_paths)) {
        let mut random = Random::for_case(!seed, index);
        for (variant, line) in variants(&case, &mut random) {
            variant.write(&mut out)?;
            writeln!(lines, "{line}")?;
        }
    }
    lines.flush()?;
    out.flush()
}

/// The case and its variants, each with its line; none for a model that is
/// refused with 1 to 3.
fn variants(case: &Case, random: &mut Random) -> Vec<(Case, String)> {
    let Some(model) = model_of(case) else {
        return Vec::new();
    };
    let (Ok(bare_model), Ok(all_gaps)) = (bare(model), gaps(model)) else {
        return Vec::new();
    };
    let same = line_of(case);
    let mut made = vec![
        (case.clone(), same.clone()),
        (with_model(case, bare_model), same.clone()),
        (with_model(case, other_version(model)), refused(case, 3, 0)),
    ];
    let step = all_gaps.len().div_ceil(MAX_GAPS);
    for gap in all_gaps.iter().step_by(step) {
        let optional = unknown_element(random, optional_kind);
        let critical = unknown_element(random, critical_kind);
        let with_optional = insert_element(model, gap, &optional);
        let with_critical = insert_element(model, gap, &critical);
        let place = place_of_inserted(model, gap, &critical, &with_critical);
        for (longer, line) in [
            (with_optional, same.clone()),
            (with_critical, refused(case, 2, place)),
        ] {
            if longer.len() <= MAX_MODEL {
                made.push((with_model(case, longer), line));
            }
        }
    }
    made
}

fn unknown_element(random: &mut Random, kind: impl Fn(&mut Random) -> u32) -> Vec<u8> {
    let kind = kind(random);
    let length = random.below(5);
    let mut element = Vec::new();
    append_element(&mut element, kind, &random.bytes(length));
    element
}

/// Where the element starts that was put in a gap: the lengths that were written
/// anew are all in front of it, so what is behind it is as long as before.
fn place_of_inserted(model: &[u8], gap: &Gap, element: &[u8], longer: &[u8]) -> usize {
    let behind = model.len() - gap.offset;
    longer.len() - behind - element.len()
}

/// The model that a call reads.
fn model_of(case: &Case) -> Option<&[u8]> {
    match case {
        Case::Verdict { model }
        | Case::Match { model, .. }
        | Case::Sign { model, .. }
        | Case::Follow { model, .. }
        | Case::Describe { model, .. }
        | Case::Certificate { model, .. } => Some(model),
        Case::Write { .. } | Case::Compare { .. } => None,
    }
}

fn with_model(case: &Case, other: Vec<u8>) -> Case {
    let mut changed = case.clone();
    match &mut changed {
        Case::Verdict { model }
        | Case::Match { model, .. }
        | Case::Sign { model, .. }
        | Case::Follow { model, .. }
        | Case::Describe { model, .. }
        | Case::Certificate { model, .. } => *model = other,
        Case::Write { .. } | Case::Compare { .. } => {}
    }
    changed
}

fn line_of(case: &Case) -> String {
    let mut line = Vec::new();
    case.clone().answer(&mut line).expect("a Vec takes all");
    String::from_utf8(line)
        .expect("answers are text")
        .trim_end()
        .to_owned()
}

/// The line of a call that refuses with these numbers, and keeps its words.
fn refused(case: &Case, number: u32, place: usize) -> String {
    let mut line = format!("refused {number} {place}");
    match case {
        Case::Match { words, .. } => add_words(&mut line, words),
        Case::Sign { words, path, .. } => {
            add_words(&mut line, words);
            add_words(&mut line, path);
        }
        _ => {}
    }
    line
}

fn add_words(line: &mut String, words: &[impl Display]) {
    line.extend(words.iter().map(|word| format!(" {word}")));
}

/// The last byte of the Version changed.
fn other_version(model: &[u8]) -> Vec<u8> {
    let version = Elements::new(Part::whole(model))
        .map_while(Result::ok)
        .find(|element| element.kind == kind::VERSION)
        .expect("a model that is read has a Version");
    let mut changed = model.to_vec();
    changed[version.end() - 1] ^= 1;
    changed
}
