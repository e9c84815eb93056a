//! The command `yovanelum`, with the page that the variable `PAGE` names. It is a part of this package so that the crate is built once.

use std::process::ExitCode;
use std::{env, fs, io};

fn main() -> ExitCode {
    let words = env::args_os().skip(1);
    let page = fs::read(env::var_os("PAGE").unwrap()).unwrap();
    ExitCode::from(yovanelum::command(
        words,
        &page,
        &mut io::stdout().lock(),
        &mut io::stderr(),
    ))
}
