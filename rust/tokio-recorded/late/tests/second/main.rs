//! Twenty-five more programs with a receiver that is late, each of which fails, with other
//! resources and in other shapes than those of `late.rs`, `blind.rs` and `further.rs`. They and
//! their reasons, in `reasons-second`, were written down before any was run. A comment `@NAME`
//! marks a line that a reason names.

mod resources;
mod tasks;
