//! A line without end.

use proved::Global;
use proved::rw_console::{Outcome, session};
use proved::rw_script::{ScriptFault, ScriptFaultKind};
use std::io;
use support::devices::FailingWriter;

#[test]
fn line_of_a_script_without_end() {
    let mut writer = FailingWriter::new(64, None);
    let ended = session(Global, &mut io::repeat(b'x'), &mut writer);
    let fault = ScriptFault {
        line: 1,
        kind: ScriptFaultKind::TooLong,
    };
    assert_eq!(ended, Ok(Outcome::Refused(fault)));
    assert_eq!(writer.written(), b"script fault 1 too-long\n");
}
