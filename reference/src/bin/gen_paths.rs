//! Writes generated cases with paths, most of which follow one, to standard
//! output.
//! Arguments: seed, number of cases and, if not 0, the index of the first.

use std::process::ExitCode;

use lvs_reference::gen;

fn main() -> ExitCode {
    gen::write_generated("gen_paths", gen::path_case)
}
