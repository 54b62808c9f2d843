//! The lines of a script, read one after another.

use super::LINE_BYTES;
use std::io::{self, BufRead};

/// The bytes of a line that are kept: one more than a line may have, and the carriage return of its end.
const KEPT: usize = LINE_BYTES + 2;

/// Reads the next line into the memory given, without its newline; `false` at the end of the input. Of a line that is too long
/// only as much is kept as shows that, so that no input takes more memory.
pub fn next_line(input: &mut impl BufRead, line: &mut Vec<u8>) -> io::Result<bool> {
    line.clear();
    let mut any = false;
    loop {
        let bytes = match input.fill_buf() {
            Err(error) if error.kind() == io::ErrorKind::Interrupted => continue,
            bytes => bytes?,
        };
        any |= !bytes.is_empty();
        let end = bytes.iter().position(|&byte| byte == b'\n');
        let said = &bytes[..end.unwrap_or(bytes.len())];
        line.extend(&said[..said.len().min(KEPT - line.len())]);
        let taken = said.len() + usize::from(end.is_some());
        let ended = end.is_some() || bytes.is_empty();
        input.consume(taken);
        if ended {
            return Ok(any);
        }
    }
}
