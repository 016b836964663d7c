//! Runs two programs on one script and compares what they write.

use std::io::{Read, Write};
use std::path::{Path, PathBuf};
use std::process::{Child, Command, Stdio};
use std::sync::mpsc::{self, Receiver};
use std::sync::Arc;
use std::thread;
use std::time::{Duration, Instant};

/// How much goes through a pipe at once.
const CHUNK: usize = 1 << 16;

/// A program that takes longer than this for a whole script is ended.
pub const LONG: Duration = Duration::from_secs(120);

/// The same for a script that is being shrunk.
pub const SHORT: Duration = Duration::from_secs(10);

/// What a program did with a script.
pub struct Result {
    pub output: Vec<u8>,
    pub end: String,
}

/// The two programs.
pub struct Programs {
    pub paths: [PathBuf; 2],
}

/// A program at work.
struct Running {
    child: Child,
    output: Receiver<Vec<u8>>,
}

impl Programs {
    /// Runs both at the same time on the same bytes.
    pub fn run(&self, script: &Arc<Vec<u8>>, patience: Duration) -> std::io::Result<[Result; 2]> {
        let first = begin(&self.paths[0], script)?;
        let second = begin(&self.paths[1], script)?;
        let until = Instant::now() + patience;
        Ok([finish(first, until), finish(second, until)])
    }
}

/// Starts a program, a thread that feeds it and one that reads it, so that
/// no full pipe stops both sides.
fn begin(path: &Path, script: &Arc<Vec<u8>>) -> std::io::Result<Running> {
    let mut child = Command::new(path)
        .stdin(Stdio::piped())
        .stdout(Stdio::piped())
        .stderr(Stdio::null())
        .spawn()?;
    let mut input = child.stdin.take().expect("a pipe");
    let mut output = child.stdout.take().expect("a pipe");
    let script = Arc::clone(script);
    thread::spawn(move || {
        for part in script.chunks(CHUNK) {
            if input.write_all(part).is_err() {
                break;
            }
        }
    });
    let (give, take) = mpsc::channel();
    thread::spawn(move || {
        let mut bytes = Vec::new();
        let _ = output.read_to_end(&mut bytes);
        let _ = give.send(bytes);
    });
    Ok(Running {
        child,
        output: take,
    })
}

/// Awaits the end of a program.
fn finish(mut running: Running, until: Instant) -> Result {
    let left = until.saturating_duration_since(Instant::now());
    let (output, late) = match running.output.recv_timeout(left) {
        Ok(output) => (output, false),
        Err(_) => {
            let _ = running.child.kill();
            (running.output.recv().unwrap_or_default(), true)
        }
    };
    let end = match running.child.wait() {
        _ if late => "did not end in time".to_string(),
        Ok(status) => status.to_string(),
        Err(error) => error.to_string(),
    };
    Result { output, end }
}

/// The bytes of a script; the last line may lack its line feed.
pub fn bytes_of(lines: &[Vec<u8>], last_feed: bool) -> Arc<Vec<u8>> {
    let mut bytes = Vec::new();
    for line in lines {
        bytes.extend_from_slice(line);
        bytes.push(b'\n');
    }
    if !last_feed && lines.last().is_some_and(|line| !line.is_empty()) {
        bytes.pop();
    }
    Arc::new(bytes)
}

/// The lines of an output.
pub fn lines_of(output: &[u8]) -> Vec<&[u8]> {
    let mut lines: Vec<&[u8]> = output.split(|byte| *byte == b'\n').collect();
    if lines.last().is_some_and(|line| line.is_empty()) {
        lines.pop();
    }
    lines
}

/// The first line in which two results differ; a wrong number of lines or
/// another end than success is a difference too.
pub fn difference(results: &[Result; 2], count: usize) -> Option<usize> {
    let [a, b] = results;
    let (mine, theirs) = (lines_of(&a.output), lines_of(&b.output));
    let same = mine.len() == count && a.output == b.output;
    let well = a.end == b.end && a.end == "exit status: 0";
    if same && well {
        return None;
    }
    let shared = mine.iter().zip(&theirs).take_while(|(a, b)| a == b).count();
    Some(shared.min(count.saturating_sub(1)))
}
