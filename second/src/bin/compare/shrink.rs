//! Makes a script that shows a difference as short as can be.

use crate::programs::{self, Programs};
use std::time::{Duration, Instant};

/// Shrinking stops after this long, however far it is.
const PATIENCE: Duration = Duration::from_secs(120);

/// Parts of at most this many lines are tried at every place.
const WINDOW: usize = 6;

/// A script with its last line feed or without.
#[derive(Clone)]
pub struct Script {
    pub lines: Vec<Vec<u8>>,
    pub last_feed: bool,
}

impl Script {
    fn differs(&self, programs: &Programs) -> bool {
        let bytes = programs::bytes_of(&self.lines, self.last_feed);
        match programs.run(&bytes, programs::SHORT) {
            Ok(results) => programs::difference(&results, self.lines.len()).is_some(),
            Err(_) => false,
        }
    }

    fn without(&self, from: usize, count: usize) -> Script {
        let mut lines = self.lines.clone();
        lines.drain(from..(from + count).min(lines.len()));
        Script {
            lines,
            last_feed: self.last_feed,
        }
    }
}

/// Deletes lines while the difference remains. `at` is the line where it
/// showed first and `session` where nothing before should matter.
pub fn shrink(programs: &Programs, whole: Script, at: usize, session: usize) -> Script {
    let until = Instant::now() + PATIENCE;
    let mut best = whole;
    for (from, to) in [(session, at + 1), (0, at + 1)] {
        let part = cut(&best, from, to);
        if part.differs(programs) {
            best = part;
            break;
        }
    }
    let mut size = best.lines.len().div_ceil(2).max(1);
    while size > WINDOW {
        best = delete_parts(programs, best, size, size, until);
        size /= 2;
    }
    loop {
        let before = best.lines.len();
        for size in (1..=WINDOW).rev() {
            best = delete_parts(programs, best, size, 1, until);
        }
        if best.lines.len() == before || Instant::now() > until {
            return best;
        }
    }
}

/// The lines from one to another; a line feed ends the last one unless it
/// is the last of all.
fn cut(script: &Script, from: usize, to: usize) -> Script {
    Script {
        lines: script.lines[from..to].to_vec(),
        last_feed: script.last_feed || to < script.lines.len(),
    }
}

/// Tries to take out each part of some size, the last ones first.
fn delete_parts(
    programs: &Programs,
    script: Script,
    size: usize,
    step: usize,
    until: Instant,
) -> Script {
    let mut best = script;
    let mut at = best.lines.len();
    while at > 0 && Instant::now() < until {
        at = at.saturating_sub(step);
        let less = best.without(at, size);
        if !less.lines.is_empty() && less.differs(programs) {
            best = less;
            at = at.min(best.lines.len());
        }
    }
    best
}

/// Prints a script with what both programs wrote for each line.
pub fn print(programs: &Programs, script: &Script) {
    let bytes = programs::bytes_of(&script.lines, script.last_feed);
    let results = match programs.run(&bytes, programs::SHORT) {
        Ok(results) => results,
        Err(error) => {
            println!("cannot run: {error}");
            return;
        }
    };
    println!("--- the script, {} lines", script.lines.len());
    for line in &script.lines {
        println!("{}", shown(line));
    }
    if !script.last_feed {
        println!("(the last line has no line feed)");
    }
    let [a, b] = &results;
    for (name, result) in [("A", a), ("B", b)] {
        println!("--- output of {name} ({})", result.end);
        for line in programs::lines_of(&result.output) {
            println!("{}", shown(line));
        }
    }
    print_fields(
        &programs::lines_of(&a.output),
        &programs::lines_of(&b.output),
    );
}

/// The fields in which the first differing lines differ.
fn print_fields(mine: &[&[u8]], theirs: &[&[u8]]) {
    let Some(at) = mine.iter().zip(theirs).position(|(a, b)| a != b) else {
        return;
    };
    println!("--- the difference, line {}", at + 1);
    let fields =
        |line: &[u8]| -> Vec<String> { shown(line).split(' ').map(String::from).collect() };
    let (a, b) = (fields(mine[at]), fields(theirs[at]));
    for i in 0..a.len().max(b.len()) {
        let none = String::from("(nothing)");
        let (a, b) = (a.get(i).unwrap_or(&none), b.get(i).unwrap_or(&none));
        if a != b {
            println!("A {a}\nB {b}");
        }
    }
}

/// A line as text; one byte that is none shows as an escape.
fn shown(line: &[u8]) -> String {
    line.iter()
        .flat_map(|byte| match byte {
            b' '..=b'~' => vec![*byte],
            _ => std::ascii::escape_default(*byte).collect(),
        })
        .map(char::from)
        .collect()
}
