//! Tests of the adapter, in one program, since each program is compiled and linked by itself.

mod capabilities;
mod console;
mod ended;
mod faults;
mod fuzz;
mod model;
mod native;
mod packages;
mod patched;
mod port;
mod session;
mod states;
mod stops;
mod support;
mod tasks;
mod vscode;
mod windows;
