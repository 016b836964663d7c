//! Counts what was compared, from the lines that both programs wrote.

use crate::notes::{self, Note};
use second::state::CONDITIONS;
use std::collections::BTreeMap;

/// Asked for this many calls or more, each count must reach `ENOUGH`.
pub const MANY_CALLS: u64 = 300_000;
pub const ENOUGH: u64 = 100;

/// The refusals that each operation can give, 0 for none.
const REFUSALS: [(&str, &[u8]); 4] = [
    ("start", &[0, 1]),
    ("accept", &[0, 1, 2, 3, 5, 6, 7, 8]),
    ("send", &[0, 1, 2, 4, 5]),
    ("receive", &[0, 1, 2, 3, 5]),
];

/// The modes in which each operation can leave an end.
const MODES: [(&str, &[&str]); 4] = [
    ("start", &["run"]),
    ("accept", &["run", "wait", "down"]),
    ("send", &["run", "wait", "down"]),
    ("receive", &["run", "wait", "down"]),
];

const OTHERS: [&str; 6] = ["poke", "fill", "lend", "ticket", "count", "bad"];

const ANSWERS: [&str; 11] = [
    "held",
    "delivered",
    "duplicate",
    "idle",
    "replayed",
    "ahead",
    "skipped",
    "damaged",
    "discarded",
    "down",
    "refused",
];

/// The counts by their names.
#[derive(Default)]
pub struct Cover {
    pub lines: u64,
    pub calls: u64,
    counts: BTreeMap<String, u64>,
    notes: BTreeMap<Note, u64>,
}

impl Cover {
    /// Counts one line of output that both programs wrote.
    pub fn line(&mut self, line: &[u8]) {
        self.lines += 1;
        let text = String::from_utf8_lossy(line);
        let word = text.split(' ').next().unwrap_or("");
        self.add(format!("operation {word}"));
        if REFUSALS.iter().any(|(name, _)| *name == word) {
            self.calls += 1;
            self.call(word, &text);
        }
    }

    /// Refusal, answer, mode, cause and flits of a call.
    fn call(&mut self, word: &str, text: &str) {
        let value = |key: &str| {
            text.split(' ')
                .find_map(|token| token.strip_prefix(key))
                .unwrap_or("")
                .to_string()
        };
        self.add(format!("{word} refusal {}", value("refuse=")));
        self.add(format!("{word} mode {}", value("mode=")));
        if word == "send" {
            self.add(format!("send flits {}", value("flits=")));
        }
        if word == "receive" {
            let answer = value("answer=");
            if answer == "down" {
                self.add(format!("cause {}", value("cause=")));
            }
            self.add(format!("answer {answer}"));
        }
    }

    fn add(&mut self, name: String) {
        *self.counts.entry(name).or_insert(0) += 1;
    }

    pub fn note(&mut self, note: Note) {
        *self.notes.entry(note).or_insert(0) += 1;
    }

    /// The names of all that can occur but for the notes.
    fn required() -> Vec<String> {
        let mut names = Vec::new();
        for (word, _) in REFUSALS {
            names.push(format!("operation {word}"));
        }
        names.extend(OTHERS.iter().map(|word| format!("operation {word}")));
        for (word, numbers) in REFUSALS {
            names.extend(numbers.iter().map(|n| format!("{word} refusal {n}")));
        }
        for (word, modes) in MODES {
            names.extend(modes.iter().map(|mode| format!("{word} mode {mode}")));
        }
        names.extend((0..=10).map(|flits| format!("send flits {flits}")));
        names.extend(ANSWERS.iter().map(|word| format!("answer {word}")));
        names.extend((1..=4).map(|cause| format!("cause {cause}")));
        names
    }

    /// The tables, on standard output.
    pub fn print(&self) {
        println!("lines compared: {}", self.lines);
        println!("calls compared: {}", self.calls);
        for name in Cover::required() {
            println!("{:>9}  {name}", self.count(&name));
        }
        for (name, count) in &self.counts {
            if !Cover::required().contains(name) {
                println!("{count:>9}  {name} (not expected)");
            }
        }
        for note in notes::all() {
            println!("{:>9}  {}", self.noted(&note), note.text());
        }
    }

    fn count(&self, name: &str) -> u64 {
        self.counts.get(name).copied().unwrap_or(0)
    }

    fn noted(&self, note: &Note) -> u64 {
        self.notes.get(note).copied().unwrap_or(0)
    }

    /// What occurred less than `ENOUGH` times.
    pub fn short(&self) -> Vec<String> {
        let mut short: Vec<String> = Cover::required()
            .into_iter()
            .filter(|name| self.count(name) < ENOUGH)
            .collect();
        let notes = notes::all().into_iter();
        short.extend(
            notes
                .filter(|note| self.noted(note) < ENOUGH)
                .map(|note| note.text()),
        );
        short
    }

    /// STATE conditions that were never broken alone by one.
    pub fn unbroken(&self) -> Vec<&'static str> {
        let alone = |i: usize| -> u64 {
            let each = 0..notes::OPERATIONS.len();
            each.map(|op| self.noted(&Note::Alone(i, op))).sum()
        };
        let names = CONDITIONS.iter().enumerate();
        names
            .filter(|(i, _)| alone(*i) == 0)
            .map(|(_, name)| *name)
            .collect()
    }
}
