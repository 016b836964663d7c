//! Reads a script from standard input and writes one line for each line.

use second::script::{Pair, LONGEST};
use std::io::{self, BufRead, BufReader, Write};
use std::process::ExitCode;

fn main() -> ExitCode {
    match drive(io::stdin().lock(), io::stdout().lock()) {
        Ok(()) => ExitCode::SUCCESS,
        Err(_) => ExitCode::FAILURE,
    }
}

/// Obeys every line; what is written goes out before more input is awaited.
fn drive(input: impl io::Read, mut output: impl Write) -> io::Result<()> {
    let mut input = BufReader::with_capacity(1 << 16, input);
    let mut pair = Pair::new();
    let mut line = Vec::new();
    let mut out = Vec::new();
    while read_line(&mut input, &mut line)? {
        pair.obey(&line, &mut out);
        if input.buffer().is_empty() || out.len() > 1 << 16 {
            output.write_all(&out)?;
            output.flush()?;
            out.clear();
        }
    }
    output.write_all(&out)?;
    output.flush()
}

/// Reads a line without its line feed; of one that is too long no more than
/// shows that. False at the end of the input ("the last may lack it").
fn read_line(input: &mut impl BufRead, line: &mut Vec<u8>) -> io::Result<bool> {
    line.clear();
    let mut any = false;
    loop {
        let part = match input.fill_buf() {
            Err(error) if error.kind() == io::ErrorKind::Interrupted => continue,
            other => other?,
        };
        if part.is_empty() {
            return Ok(any);
        }
        any = true;
        let feed = part.iter().position(|byte| *byte == b'\n');
        let end = feed.unwrap_or(part.len());
        let room = LONGEST + 1 - line.len();
        line.extend_from_slice(&part[..end.min(room)]);
        input.consume(end + usize::from(feed.is_some()));
        if feed.is_some() {
            return Ok(true);
        }
    }
}
