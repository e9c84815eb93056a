//! The frames of the protocol: a header with the length, an empty line, and JSON.

use std::io::{self, BufRead, Read, Write};

/// How many bytes a message has at most.
const MOST_BYTES: u64 = 16_777_216;

/// How many bytes a line of a header has at most.
const LONGEST_LINE: u64 = 1024;

/// Reads the bytes of the next message, or `None` at the end of the stream.
///
/// # Errors
///
/// Returns what is wrong with a header, after which no message can be found.
pub(crate) fn read(input: &mut impl BufRead) -> io::Result<Option<Vec<u8>>> {
    let mut length = None;
    loop {
        let mut line = vec![];
        input.take(LONGEST_LINE).read_until(b'\n', &mut line)?;
        if line.is_empty() {
            return match length {
                None => Ok(None),
                Some(_) => Err(wrong("the stream ends in a header")),
            };
        }
        let line = String::from_utf8_lossy(&line);
        match (line.trim_end(), length) {
            ("", Some(length)) => return body(input, length).map(Some),
            ("", None) => return Err(wrong("a header has no `Content-Length`")),
            (line, _) => length = length_in(line)?.or(length),
        }
    }
}

fn wrong(fault: &str) -> io::Error {
    io::Error::new(io::ErrorKind::InvalidData, fault)
}

/// Returns the length, if the line of a header has it.
fn length_in(line: &str) -> io::Result<Option<u64>> {
    let (name, value) = line
        .split_once(':')
        .ok_or_else(|| wrong("a line of a header has no colon"))?;
    if !name.eq_ignore_ascii_case("content-length") {
        return Ok(None);
    }
    match value.trim().parse() {
        Ok(length) if length <= MOST_BYTES => Ok(Some(length)),
        _ => Err(wrong("`Content-Length` is no number up to 16,777,216")),
    }
}

fn body(input: &mut impl BufRead, length: u64) -> io::Result<Vec<u8>> {
    let mut bytes = vec![];
    input.take(length).read_to_end(&mut bytes)?;
    if bytes.len() as u64 == length {
        Ok(bytes)
    } else {
        Err(wrong("the stream ends in a message"))
    }
}

/// Writes a message.
pub(crate) fn write(output: &mut impl Write, message: &serde_json::Value) -> io::Result<()> {
    let text = message.to_string();
    write!(output, "Content-Length: {}\r\n\r\n{text}", text.len())?;
    output.flush()
}

#[cfg(test)]
mod tests {
    use super::*;

    fn messages(bytes: &[u8]) -> Result<Vec<String>, String> {
        let mut input = bytes;
        let mut found = vec![];
        while let Some(message) = read(&mut input).map_err(|fault| fault.to_string())? {
            found.push(String::from_utf8(message).unwrap());
        }
        Ok(found)
    }

    #[test]
    fn frames_are_read_one_after_the_other() {
        let stream = b"Content-Length: 2\r\n\r\n{}content-length:3\r\nContent-Type: x\r\n\r\n[1]";
        assert_eq!(messages(stream).unwrap(), ["{}", "[1]"]);
        assert_eq!(messages(b"").unwrap(), [""; 0]);
    }

    #[test]
    fn what_is_no_frame_is_said() {
        for (stream, fault) in [
            ("\r\n", "a header has no `Content-Length`"),
            ("x\r\n\r\n", "a line of a header has no colon"),
            (
                "Content-Length: 5\r\n\r\n{}",
                "the stream ends in a message",
            ),
            ("Content-Length: 5\r\n", "the stream ends in a header"),
            (
                "Content-Length: -1\r\n\r\n",
                "`Content-Length` is no number up to 16,777,216",
            ),
            (
                "Content-Length: 99999999\r\n\r\n",
                "`Content-Length` is no number up to 16,777,216",
            ),
        ] {
            assert_eq!(
                messages(stream.as_bytes()).unwrap_err(),
                fault,
                "{stream:?}"
            );
        }
    }

    #[test]
    fn what_is_written_is_read() {
        let mut stream = vec![];
        let message = serde_json::json!({"é": "\n"});
        write(&mut stream, &message).unwrap();
        assert_eq!(messages(&stream).unwrap(), [message.to_string()]);
    }
}
