//! The command `ttd`: the repository's proved program, compiled from its sources.

use std::process::ExitCode;
use yovanelum_ttd::Ending;

#[global_allocator]
static ALLOCATOR: Ending = Ending;

fn main() -> ExitCode {
    ExitCode::from(yovanelum_ttd::run())
}
