//! What the programs that write generated cases have in common.

use std::env;
use std::io::{self, BufWriter, Write};
use std::ops::Range;
use std::process::ExitCode;

use crate::cases::Case;

/// Writes generated cases to standard output. Arguments: seed, number of cases
/// and, if not 0, the index of the first.
pub fn write_generated(program: &str, case: impl Fn(u64, u64) -> Case) -> ExitCode {
    let arguments: Vec<String> = env::args().skip(1).collect();
    let Some((seed, indexes)) = parse_arguments(&arguments) else {
        eprintln!("usage: {program} SEED COUNT [FIRST]");
        return ExitCode::from(2);
    };
    match write_cases(indexes.map(|index| case(seed, index))) {
        Ok(()) => ExitCode::SUCCESS,
        Err(fault) if fault.kind() == io::ErrorKind::BrokenPipe => ExitCode::SUCCESS,
        Err(fault) => {
            eprintln!("{program}: {fault}");
            ExitCode::FAILURE
        }
    }
}

fn parse_arguments(arguments: &[String]) -> Option<(u64, Range<u64>)> {
    let numbers: Option<Vec<u64>> = arguments.iter().map(|text| text.parse().ok()).collect();
    match *numbers? {
        [seed, count] => Some((seed, 0..count)),
        [seed, count, first] => Some((seed, first..first.checked_add(count)?)),
        _ => None,
    }
}

fn write_cases(cases: impl Iterator<Item = Case>) -> io::Result<()> {
    let mut out = BufWriter::with_capacity(1 << 16, io::stdout().lock());
    for case in cases {
        case.write(&mut out)?;
    }
    out.flush()
}
