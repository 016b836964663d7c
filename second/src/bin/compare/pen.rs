//! Writes the lines of a script and keeps the model beside them, so that
//! what is written next can fit the state that the ends are in.

use crate::notes::{self, Note};
use crate::prng::Rng;
use second::script::{put_hex, Command, Outcome, Pair, Side};

const ENDS: [&str; 2] = ["a", "b"];

pub struct Pen {
    pub rng: Rng,
    pub model: Pair,
    /// The lines, without their line feeds.
    pub lines: Vec<Vec<u8>>,
    /// Where a session begins: nothing before it matters.
    pub sessions: Vec<usize>,
    /// Notes, each with the number of its line.
    pub notes: Vec<(usize, Note)>,
    /// The STATE condition that is aimed at, and whether from outside.
    pub aimed: Option<(usize, bool)>,
}

impl Pen {
    pub fn new(seed: u64) -> Pen {
        Pen {
            rng: Rng::new(seed),
            model: Pair::new(),
            lines: Vec::new(),
            sessions: vec![0],
            notes: Vec::new(),
            aimed: None,
        }
    }

    pub fn side(&self, end: usize) -> &Side {
        &self.model.sides[end]
    }

    /// A line as it is; the model obeys it too.
    pub fn raw(&mut self, line: Vec<u8>) -> Option<Outcome> {
        let command = self.model.parse(&line);
        self.lines.push(line);
        let command = command?;
        match command {
            Command::Accept(..) | Command::Send(..) | Command::Receive(..) => {
                Some(self.noted(&command))
            }
            _ => Some(self.model.run(&command)),
        }
    }

    /// Runs a command on the model and notes what it is an example of.
    fn noted(&mut self, command: &Command) -> Outcome {
        let line = self.lines.len() - 1;
        let end = command.end();
        let found = notes::before(self.side(end), command, self.aimed);
        self.notes
            .extend(found.into_iter().map(|note| (line, note)));
        let state = self.side(end).state.clone();
        let ticket = self.side(end).ticket;
        let outcome = self.model.run(command);
        let found = notes::after(&state, &ticket, self.side(end), &outcome);
        self.notes
            .extend(found.into_iter().map(|note| (line, note)));
        outcome
    }

    fn line(&mut self, text: String) -> Outcome {
        let shown = text.clone();
        let outcome = self.raw(text.into_bytes());
        outcome.unwrap_or_else(|| panic!("not a command: {shown}"))
    }

    /// A number in digits, now and then with leading zeros.
    fn digits(&mut self, value: u64) -> String {
        if self.rng.once_in(200) {
            format!("{value:0width$}", width = self.rng.within(1, 40))
        } else {
            value.to_string()
        }
    }

    pub fn session(&mut self) {
        self.sessions.push(self.lines.len());
        self.aimed = None;
    }

    pub fn start(&mut self, end: usize, length: usize) {
        let digits = self.digits(length as u64);
        self.line(format!("start {} {digits}", ENDS[end]));
    }

    pub fn accept(&mut self, end: usize, unit: &[u8]) -> Outcome {
        self.line(format!("accept {} {}", ENDS[end], hex(unit)))
    }

    pub fn receive(&mut self, end: usize, flit: &[u8]) -> Outcome {
        self.line(format!("receive {} {}", ENDS[end], hex(flit)))
    }

    /// Send with random link fields; gives the flits that were written.
    pub fn send(&mut self, end: usize, length: usize) -> Vec<u8> {
        let errors = self.rng.below(256);
        let information = self.rng.information();
        let errors = self.digits(errors as u64);
        let information = self.digits(information);
        let length = self.digits(length as u64);
        let line = format!("send {} {length} {errors} {information}", ENDS[end]);
        match self.line(line) {
            Outcome::Sent(0, flits, output) => output[..64 * flits].to_vec(),
            _ => Vec::new(),
        }
    }

    pub fn poke(&mut self, end: usize, field: &str, value: u64) {
        let digits = self.digits(value);
        self.line(format!("poke {} {field} {digits}", ENDS[end]));
    }

    pub fn fill(&mut self, end: usize, offset: usize, bytes: &[u8]) {
        let digits = self.digits(offset as u64);
        self.line(format!("fill {} {digits} {}", ENDS[end], hex(bytes)));
    }

    pub fn lend(&mut self, end: usize, store: usize, hold: usize) {
        self.line(format!("lend {} {store} {hold}", ENDS[end]));
    }

    pub fn ticket(&mut self, end: usize) {
        self.line(format!("ticket {}", ENDS[end]));
    }

    pub fn count(&mut self, end: usize, key: &str, value: u32) {
        self.line(format!("count {} {key} {value}", ENDS[end]));
    }
}

pub fn hex(bytes: &[u8]) -> String {
    let mut text = Vec::new();
    put_hex(bytes, &mut text);
    String::from_utf8(text).expect("hexadecimal digits")
}
