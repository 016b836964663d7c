//! The script format: two ends driven from lines of text.

use crate::end;
use crate::receive::{self, Answer};
use crate::send;
use crate::state::{Mode, State, HOLD};
use crate::ticket::Ticket;
use std::io::Write;

/// The longest line, without its line feed.
pub const LONGEST: usize = 4096;

/// The most bytes of a HEX, of an output and of a lent hold.
pub const MOST_BYTES: usize = 2000;

/// The most bytes of a store.
pub const MOST_STORE: usize = 70000;

/// What the output of send holds before the call.
const BEFORE: u8 = 165;

/// One command; `end` is 0 for a and 1 for b.
#[derive(Clone, Debug, PartialEq, Eq)]
pub enum Command {
    Start(usize, usize),
    Accept(usize, Vec<u8>),
    Send(usize, usize, u8, u64),
    Receive(usize, Vec<u8>),
    Poke(usize, Field, u64),
    Fill(usize, usize, Vec<u8>),
    Lend(usize, usize, usize),
    Ticket(usize),
    Count(usize, usize, u32),
}

impl Command {
    /// The first word of its output line.
    pub fn word(&self) -> &'static str {
        match self {
            Command::Start(..) => "start",
            Command::Accept(..) => "accept",
            Command::Send(..) => "send",
            Command::Receive(..) => "receive",
            Command::Poke(..) => "poke",
            Command::Fill(..) => "fill",
            Command::Lend(..) => "lend",
            Command::Ticket(..) => "ticket",
            Command::Count(..) => "count",
        }
    }

    /// The end it is for.
    pub fn end(&self) -> usize {
        match self {
            Command::Start(end, ..)
            | Command::Accept(end, ..)
            | Command::Send(end, ..)
            | Command::Receive(end, ..)
            | Command::Poke(end, ..)
            | Command::Fill(end, ..)
            | Command::Lend(end, ..)
            | Command::Ticket(end)
            | Command::Count(end, ..) => *end,
        }
    }
}

/// A field of the state that poke can set.
#[derive(Clone, Copy, Debug, PartialEq, Eq)]
pub enum Field {
    Named(&'static str),
    Info(usize),
}

/// The names of the output line with the greatest value of each.
pub const FIELDS: [(&str, u64); 18] = [
    ("capacity", 65535),
    ("first", 65535),
    ("held", 65535),
    ("kept", 65535),
    ("oldest", 65535),
    ("cursor", 65535),
    ("sent", 65535),
    ("acked", 65535),
    ("wanted", 65535),
    ("position", 65535),
    ("owed", 65535),
    ("stalled", 1),
    ("data", 65535),
    ("untold", 65535),
    ("mode", 2),
    ("cause", 255),
    ("discards", 65535),
    ("pending", 1),
];

/// The keys of the ticket, in its order.
pub const KEYS: [&str; 5] = ["accepted", "delivered", "damaged", "duplicate", "downs"];

/// What a command did.
#[derive(Clone, Debug, PartialEq, Eq)]
pub enum Outcome {
    /// A command that calls no operation, or start or accept with the number
    /// of its refusal.
    Plain(u8),
    /// Send: refusal, flits, the whole output.
    Sent(u8, usize, Vec<u8>),
    /// Receive.
    Received(Result<Answer, u8>),
}

impl Outcome {
    pub fn refusal(&self) -> u8 {
        match self {
            Outcome::Plain(number) | Outcome::Sent(number, ..) => *number,
            Outcome::Received(Ok(_)) => 0,
            Outcome::Received(Err(number)) => *number,
        }
    }
}

/// A kept buffer and the length in which calls get it.
#[derive(Clone, Debug)]
pub struct Buffer {
    pub kept: Vec<u8>,
    pub lent: usize,
    sum: Option<u32>,
}

impl Buffer {
    fn new(length: usize) -> Buffer {
        Buffer {
            kept: vec![0; length],
            lent: length,
            sum: None,
        }
    }

    /// "the first bytes of the kept ones, with fresh zeros after where these
    /// are shorter (what a call writes there is lost)"
    fn lend<R>(&mut self, call: impl FnOnce(&mut [u8]) -> R) -> R {
        if self.lent <= self.kept.len() {
            return call(&mut self.kept[..self.lent]);
        }
        let mut longer = self.kept.clone();
        longer.resize(self.lent, 0);
        let result = call(&mut longer);
        longer.truncate(self.kept.len());
        self.kept = longer;
        result
    }

    /// Adler-32 of the kept bytes, computed anew after a change.
    fn sum(&mut self) -> u32 {
        *self.sum.get_or_insert_with(|| adler(&self.kept))
    }
}

/// Adler-32.
pub fn adler(bytes: &[u8]) -> u32 {
    let mut low: u32 = 1;
    let mut high: u32 = 0;
    for part in bytes.chunks(5552) {
        for byte in part {
            low += u32::from(*byte);
            high += low;
        }
        low %= 65521;
        high %= 65521;
    }
    high << 16 | low
}

/// One end with what it was lent.
#[derive(Clone, Debug)]
pub struct Side {
    pub store: Buffer,
    pub hold: Buffer,
    pub state: State,
    pub ticket: Ticket,
}

impl Side {
    fn new(length: usize) -> (Result<(), u8>, Side) {
        let store = Buffer::new(length);
        let (refusal, state) = end::start(&store.kept);
        let side = Side {
            store,
            hold: Buffer::new(HOLD),
            state,
            ticket: Ticket::default(),
        };
        (refusal, side)
    }

    fn accept(&mut self, unit: &[u8]) -> Result<(), u8> {
        let (state, ticket) = (&mut self.state, &mut self.ticket);
        let result = self
            .store
            .lend(|store| end::accept(state, store, ticket, unit));
        if result.is_ok() {
            self.store.sum = None;
        }
        result
    }

    fn send(&mut self, length: usize, errors: u8, information: u64) -> Outcome {
        let mut output = vec![BEFORE; length];
        let state = &mut self.state;
        let result = self
            .store
            .lend(|store| send::send(state, store, &mut output, errors, information));
        match result {
            Ok(flits) => Outcome::Sent(0, flits, output),
            Err(number) => Outcome::Sent(number, 0, output),
        }
    }

    fn receive(&mut self, flit: &[u8]) -> Result<Answer, u8> {
        let (state, ticket) = (&mut self.state, &mut self.ticket);
        let hold = &mut self.hold;
        let result = self
            .store
            .lend(|store| hold.lend(|hold| receive::receive(state, store, hold, ticket, flit)));
        self.hold.sum = None;
        result
    }

    fn fill(&mut self, offset: usize, bytes: &[u8]) {
        self.store.kept[offset..offset + bytes.len()].copy_from_slice(bytes);
        self.store.sum = None;
    }

    fn poke(&mut self, field: Field, value: u64) {
        let name = match field {
            Field::Info(place) => {
                self.state.info[place] = value;
                return;
            }
            Field::Named(name) => name,
        };
        match name {
            "stalled" => self.state.stalled = value == 1,
            "pending" => self.state.pending = value == 1,
            "cause" => self.state.cause = value as u8,
            "mode" => self.state.mode = mode_of(value),
            _ => self.poke_number(name, value as u16),
        }
    }

    fn poke_number(&mut self, name: &str, value: u16) {
        let state = &mut self.state;
        match name {
            "capacity" => state.capacity = value,
            "first" => state.first = value,
            "held" => state.held = value,
            "kept" => state.kept = value,
            "oldest" => state.oldest = value,
            "cursor" => state.cursor = value,
            "sent" => state.sent = value,
            "acked" => state.acked = value,
            "wanted" => state.wanted = value,
            "position" => state.position = value,
            "owed" => state.owed = value,
            "data" => state.data = value,
            "untold" => state.untold = value,
            "discards" => state.discards = value,
            _ => {}
        }
    }

    fn count(&mut self, key: usize, value: u32) {
        let ticket = &mut self.ticket;
        match key {
            0 => ticket.accepted = value,
            1 => ticket.delivered = value,
            2 => ticket.damaged = value,
            3 => ticket.duplicate = value,
            _ => ticket.downs = value,
        }
    }
}

/// "mode 0 run, 1 wait, 2 down"
fn mode_of(value: u64) -> Mode {
    match value {
        0 => Mode::Run,
        1 => Mode::Wait,
        _ => Mode::Down,
    }
}

fn mode_word(mode: Mode) -> &'static str {
    match mode {
        Mode::Run => "run",
        Mode::Wait => "wait",
        Mode::Down => "down",
    }
}

/// The two ends of a script.
#[derive(Clone, Debug)]
pub struct Pair {
    pub sides: [Side; 2],
}

impl Default for Pair {
    fn default() -> Pair {
        Pair::new()
    }
}

impl Pair {
    /// "Before its first start an end is as after start E 0."
    pub fn new() -> Pair {
        Pair {
            sides: [Side::new(0).1, Side::new(0).1],
        }
    }

    /// Carries out one line and writes its output line.
    pub fn obey(&mut self, line: &[u8], out: &mut Vec<u8>) {
        match self.parse(line) {
            None => out.extend_from_slice(b"bad\n"),
            Some(command) => {
                let outcome = self.run(&command);
                self.print(&command, &outcome, out);
            }
        }
    }

    /// The command of a line, or none where the answer is `bad`.
    pub fn parse(&self, line: &[u8]) -> Option<Command> {
        let command = parse(line)?;
        if let Command::Fill(end, offset, bytes) = &command {
            if !self.inside(*end, *offset, bytes) {
                return None;
            }
        }
        Some(command)
    }

    /// "all of them inside it": where there are none, none is outside.
    fn inside(&self, end: usize, offset: usize, bytes: &[u8]) -> bool {
        let length = self.sides[end].store.kept.len();
        bytes.is_empty() || offset.saturating_add(bytes.len()) <= length
    }

    /// Carries out a command.
    pub fn run(&mut self, command: &Command) -> Outcome {
        let side = &mut self.sides[command.end()];
        match command {
            Command::Start(_, length) => {
                let (result, fresh) = Side::new(*length);
                *side = fresh;
                return plain(result);
            }
            Command::Accept(_, unit) => return plain(side.accept(unit)),
            Command::Send(_, length, errors, information) => {
                return side.send(*length, *errors, *information)
            }
            Command::Receive(_, flit) => return Outcome::Received(side.receive(flit)),
            Command::Poke(_, field, value) => side.poke(*field, *value),
            Command::Fill(_, _, bytes) if bytes.is_empty() => {}
            Command::Fill(_, offset, bytes) => side.fill(*offset, bytes),
            Command::Lend(_, store, hold) => {
                side.store.lent = *store;
                side.hold.lent = *hold;
            }
            Command::Ticket(_) => {}
            Command::Count(_, key, value) => side.count(*key, *value),
        }
        Outcome::Plain(0)
    }

    /// Writes the line of a command.
    pub fn print(&mut self, command: &Command, outcome: &Outcome, out: &mut Vec<u8>) {
        let side = &mut self.sides[command.end()];
        put(
            out,
            format_args!("{} refuse={}", command.word(), outcome.refusal()),
        );
        match outcome {
            Outcome::Plain(_) => {}
            Outcome::Sent(_, flits, output) => print_sent(*flits, output, out),
            Outcome::Received(result) => print_answer(result, out),
        }
        if let Command::Ticket(_) = command {
            print_ticket(&side.ticket, out);
        } else {
            print_state(side, out);
        }
        out.push(b'\n');
    }
}

fn plain(result: Result<(), u8>) -> Outcome {
    Outcome::Plain(result.err().unwrap_or(0))
}

/// Writing to memory does not fail.
fn put(out: &mut Vec<u8>, text: std::fmt::Arguments) {
    let _ = out.write_fmt(text);
}

fn print_sent(flits: usize, output: &[u8], out: &mut Vec<u8>) {
    let written = (64 * flits).min(output.len());
    put(out, format_args!(" flits={flits} out="));
    put_hex(&output[..written], out);
    if output[written..].iter().any(|byte| *byte != BEFORE) {
        out.extend_from_slice(b" spill");
    }
}

/// HEX: "two digits a byte, byte 0 first", "- for none".
pub fn put_hex(bytes: &[u8], out: &mut Vec<u8>) {
    const DIGITS: &[u8; 16] = b"0123456789abcdef";
    if bytes.is_empty() {
        out.push(b'-');
    }
    for byte in bytes {
        out.push(DIGITS[usize::from(byte >> 4)]);
        out.push(DIGITS[usize::from(byte & 15)]);
    }
}

fn print_answer(result: &Result<Answer, u8>, out: &mut Vec<u8>) {
    match result {
        Ok(answer) => put(
            out,
            format_args!(" answer={} data={}", answer.word(), answer.data()),
        ),
        Err(_) => out.extend_from_slice(b" answer=refused data=0"),
    }
}

fn print_ticket(ticket: &Ticket, out: &mut Vec<u8>) {
    for (key, count) in ticket.rows() {
        put(out, format_args!(" {key}={count}"));
    }
}

fn print_state(side: &mut Side, out: &mut Vec<u8>) {
    let s = &side.state;
    put(
        out,
        format_args!(
            " capacity={} first={} held={} kept={} oldest={} cursor={} sent={} acked={}",
            s.capacity, s.first, s.held, s.kept, s.oldest, s.cursor, s.sent, s.acked
        ),
    );
    put(
        out,
        format_args!(
            " wanted={} position={} owed={} stalled={} data={} untold={}",
            s.wanted,
            s.position,
            s.owed,
            u8::from(s.stalled),
            s.data,
            s.untold
        ),
    );
    put(
        out,
        format_args!(
            " mode={} cause={} discards={} pending={} info=",
            mode_word(s.mode),
            s.cause,
            s.discards,
            u8::from(s.pending)
        ),
    );
    for (i, value) in s.info.iter().enumerate() {
        let comma = if i == 0 { "" } else { "," };
        put(out, format_args!("{comma}{value}"));
    }
    let (store, hold) = (side.store.sum(), side.hold.sum());
    put(out, format_args!(" store={store} hold={hold}"));
}

/// The command of a line but for what depends on the length of a store.
fn parse(line: &[u8]) -> Option<Command> {
    if line.len() > LONGEST {
        return None;
    }
    let tokens: Vec<&[u8]> = line.split(|byte| *byte == b' ').collect();
    let end = end_of(tokens.get(1)?)?;
    match (tokens[0], &tokens[2..]) {
        (b"start", [length]) => Some(Command::Start(end, size(length, MOST_STORE)?)),
        (b"accept", [unit]) => Some(Command::Accept(end, hex(unit)?)),
        (b"send", [length, errors, information]) => Some(Command::Send(
            end,
            size(length, MOST_BYTES)?,
            up_to(errors, 255)? as u8,
            up_to(information, u64::MAX)?,
        )),
        (b"receive", [flit]) => Some(Command::Receive(end, hex(flit)?)),
        (b"poke", [field, value]) => parse_poke(end, field, value),
        (b"fill", [offset, bytes]) => Some(Command::Fill(end, offset_of(offset)?, hex(bytes)?)),
        (b"lend", [store, hold]) => Some(Command::Lend(
            end,
            size(store, MOST_STORE)?,
            size(hold, MOST_BYTES)?,
        )),
        (b"ticket", []) => Some(Command::Ticket(end)),
        (b"count", [key, value]) => {
            let key = KEYS.iter().position(|name| name.as_bytes() == *key)?;
            Some(Command::Count(end, key, up_to(value, 4294967295)? as u32))
        }
        _ => None,
    }
}

fn parse_poke(end: usize, field: &[u8], value: &[u8]) -> Option<Command> {
    let (field, most) = field_of(field)?;
    Some(Command::Poke(end, field, up_to(value, most)?))
}

/// A field by its name, and its greatest value.
fn field_of(token: &[u8]) -> Option<(Field, u64)> {
    if let [b'i', b'n', b'f', b'o', digit @ b'0'..=b'7'] = token {
        return Some((Field::Info(usize::from(digit - b'0')), u64::MAX));
    }
    let (name, most) = FIELDS.iter().find(|(name, _)| name.as_bytes() == token)?;
    Some((Field::Named(name), *most))
}

/// "E is a or b"
fn end_of(token: &[u8]) -> Option<usize> {
    match token {
        b"a" => Some(0),
        b"b" => Some(1),
        _ => None,
    }
}

/// "Numbers are decimal digits, leading zeros allowed, however many." Stops
/// at the greatest u128.
fn number(token: &[u8]) -> Option<u128> {
    if token.is_empty() {
        return None;
    }
    let mut value: u128 = 0;
    for byte in token {
        if !byte.is_ascii_digit() {
            return None;
        }
        value = value
            .saturating_mul(10)
            .saturating_add(u128::from(byte - b'0'));
    }
    Some(value)
}

fn up_to(token: &[u8], most: u64) -> Option<u64> {
    let value = number(token)?;
    (value <= u128::from(most)).then_some(value as u64)
}

fn size(token: &[u8], most: usize) -> Option<usize> {
    up_to(token, most as u64).map(|value| value as usize)
}

/// An offset has no range of its own; one past every store stays past.
fn offset_of(token: &[u8]) -> Option<usize> {
    number(token).map(|value| value.min(usize::MAX as u128) as usize)
}

/// "lower-case hexadecimal, two digits a byte, byte 0 first, at most 2,000
/// bytes, - for none"
fn hex(token: &[u8]) -> Option<Vec<u8>> {
    if token == b"-" {
        return Some(Vec::new());
    }
    if token.is_empty() || !token.len().is_multiple_of(2) || token.len() > 2 * MOST_BYTES {
        return None;
    }
    token
        .chunks(2)
        .map(|pair| Some(digit(pair[0])? << 4 | digit(pair[1])?))
        .collect()
}

fn digit(byte: u8) -> Option<u8> {
    match byte {
        b'0'..=b'9' => Some(byte - b'0'),
        b'a'..=b'f' => Some(byte - b'a' + 10),
        _ => None,
    }
}
