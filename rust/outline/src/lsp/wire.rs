//! Messages on the wire: a header with `Content-Length`, an empty line, and so many bytes of JSON.

use std::io::{BufRead, Read, Write};

/// No message is longer: texts above 16 MiB are not read anywhere.
const MOST_BYTES: u64 = 64 << 20;

/// A header is not longer than this.
const MOST_HEADER: u64 = 4096;

/// What comes next on the wire.
#[derive(Debug, PartialEq, Eq)]
pub enum Incoming {
    Message(String),
    /// What is no message, in words; what follows may be one.
    Garbage(String),
    End,
}

/// Reads the next message. A header without a length is passed over, up to the next one.
pub fn receive(input: &mut impl BufRead) -> Incoming {
    let mut length = None;
    loop {
        let mut line = Vec::new();
        match input.by_ref().take(MOST_HEADER).read_until(b'\n', &mut line) {
            Err(_) | Ok(0) => return Incoming::End,
            Ok(_) => {}
        }
        let text = String::from_utf8_lossy(&line);
        let text = text.trim_end();
        match (text.is_empty(), length) {
            (true, Some(length)) => return body(input, length),
            (true, None) => return Incoming::Garbage("a header without Content-Length".into()),
            _ => {}
        }
        let (name, value) = text.split_once(':').unwrap_or((text, ""));
        // Letters before the header, as of a message that was longer than it said, belong to what is garbage.
        if name.to_ascii_lowercase().ends_with("content-length") {
            length = value.trim().parse::<u64>().ok();
        }
    }
}

fn body(input: &mut impl BufRead, length: u64) -> Incoming {
    if length > MOST_BYTES {
        let _ = std::io::copy(&mut input.by_ref().take(length), &mut std::io::sink());
        return Incoming::Garbage(format!(
            "a message of {length} bytes; {MOST_BYTES} are the most"
        ));
    }
    let mut bytes = Vec::new();
    match input.by_ref().take(length).read_to_end(&mut bytes) {
        Ok(read) if read as u64 == length => {}
        _ => return Incoming::End,
    }
    match String::from_utf8(bytes) {
        Ok(text) => Incoming::Message(text),
        Err(_) => Incoming::Garbage("a message that is no UTF-8".into()),
    }
}

/// Writes a message. Where nobody reads any more, the server ends.
pub fn send(output: &mut impl Write, message: &str) -> Result<(), String> {
    let told = |e: std::io::Error| format!("standard output: {e}");
    write!(output, "Content-Length: {}\r\n\r\n{message}", message.len()).map_err(told)?;
    output.flush().map_err(told)
}

#[cfg(test)]
mod tests {
    use super::*;

    #[test]
    fn garbage_is_passed_over() {
        let wire = [
            &b"hello\r\n\r\nContent-Type: x\r\ncontent-length: 2\r\n\r\n{}"[..],
            b"Content-Length: x\r\n\r\nxxContent-Length: 1\r\n\r\n\xff",
            b"Content-Length: 9\r\n\r\n{",
        ];
        let wire = wire.concat();
        let mut input = &wire[..];
        assert!(matches!(receive(&mut input), Incoming::Garbage(_)));
        assert_eq!(receive(&mut input), Incoming::Message("{}".into()));
        assert!(matches!(receive(&mut input), Incoming::Garbage(_)));
        assert_eq!(receive(&mut input), Incoming::Garbage("a message that is no UTF-8".into()));
        assert_eq!(receive(&mut input), Incoming::End);
    }
}
