//! Writes generated cases that compare two components to standard output.
//! Arguments: seed, number of cases and, if not 0, the index of the first.

use std::process::ExitCode;

use lvs_reference::gen;

fn main() -> ExitCode {
    gen::write_generated("gen_components", gen::component_case)
}
