//! Writes generated cases with damaged models to standard output.
//! Arguments: seed, number of cases and, if not 0, the index of the first.

use std::process::ExitCode;

use lvs_reference::gen;

fn main() -> ExitCode {
    gen::write_generated("gen_damaged", gen::damaged_case)
}
