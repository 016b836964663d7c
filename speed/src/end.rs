//! An end in safe plain Rust, from document 01: the same checks in the same order, the check through the byte table, the state by value.

use crate::plain::{right_after, seal};

pub const FLIT: usize = 64;
pub const HOLD: usize = 576;
pub const OUTPUT: usize = 640;

#[derive(Clone, Copy, PartialEq, Debug)]
pub enum Mode {
    Run,
    Wait,
    Down,
}

#[derive(Clone, Copy, PartialEq, Debug)]
pub enum Refusal {
    Store = 1,
    State,
    Shape,
    Out,
    Down,
    Run,
    Field,
    Full,
}

#[derive(Clone, Copy, PartialEq, Debug)]
pub enum Answer {
    Held,
    Delivered(usize),
    Duplicate,
    Idle,
    Replayed,
    Ahead,
    Skipped,
    Damaged,
    Discarded,
    Down(u8),
}

#[derive(Clone, Copy, PartialEq, Debug)]
pub struct End {
    pub information: [u64; 8],
    pub capacity: usize,
    pub first: usize,
    pub held: usize,
    pub kept: usize,
    pub owed: usize,
    pub gathered: usize,
    pub untold: usize,
    pub discards: usize,
    pub oldest: u16,
    pub cursor: u16,
    pub sent: u16,
    pub acknowledged: u16,
    pub wanted: u16,
    pub position: u16,
    pub stalled: bool,
    pub pending: bool,
    pub cause: u8,
    pub mode: Mode,
}

fn content(flit: &[u8]) -> u64 {
    u64::from_le_bytes(flit[56..64].try_into().unwrap())
}

fn set_content(flit: &mut [u8], c: u64) {
    flit[56..64].copy_from_slice(&c.to_le_bytes());
}

fn acceptable(c: u64) -> bool {
    c & 15 <= 8 && c >> 18 == 0
}

fn is_store(bytes: usize) -> bool {
    bytes % FLIT == 0 && (9..=1024).contains(&(bytes / FLIT))
}

/// The run lengths of the control flit before the cursor and of the last one accepted.
struct Judged {
    previous: usize,
    last: usize,
}

impl End {
    pub fn start(store: &[u8]) -> Result<End, Refusal> {
        if !is_store(store.len()) {
            return Err(Refusal::Store);
        }
        Ok(End {
            information: [0; 8],
            capacity: store.len() / FLIT,
            first: 0,
            held: 0,
            kept: 0,
            owed: 0,
            gathered: 0,
            untold: 0,
            discards: 0,
            oldest: 0,
            cursor: 0,
            sent: 0,
            acknowledged: 0,
            wanted: 0,
            position: 0,
            stalled: false,
            pending: false,
            cause: 0,
            mode: Mode::Run,
        })
    }

    fn place(&self, n: usize) -> usize {
        let at = self.first + n;
        if at < self.capacity {
            at
        } else {
            at - self.capacity
        }
    }

    fn stored<'a>(&self, store: &'a [u8], n: usize) -> &'a [u8] {
        let at = self.place(n) * FLIT;
        &store[at..at + FLIT]
    }

    fn to_cursor(&self) -> usize {
        self.cursor.wrapping_sub(self.oldest) as usize
    }

    fn to_sent(&self) -> usize {
        self.sent.wrapping_sub(self.oldest) as usize
    }

    fn to_acknowledged(&self) -> usize {
        self.acknowledged.wrapping_sub(self.oldest) as usize
    }

    /// 1 STORE and 2 STATE, with the one walk over the stored units.
    fn judge(&self, store: &[u8]) -> Result<Judged, Refusal> {
        if !is_store(store.len()) || store.len() / FLIT != self.capacity {
            return Err(Refusal::Store);
        }
        let cursor = self.to_cursor();
        let sent = self.to_sent();
        let acknowledged = self.to_acknowledged();
        let most = if self.held > 0 { self.kept } else { 0 };
        let sound = self.first < self.capacity
            && self.held <= self.capacity
            && self.kept <= 8
            && self.owed <= 8
            && self.gathered <= self.owed
            && !(self.stalled && self.gathered > 0)
            && self.untold <= 1024
            && self.discards <= 63
            && cursor <= sent
            && sent <= self.held
            && acknowledged <= most
            && acknowledged <= sent;
        if !sound {
            return Err(Refusal::State);
        }
        let mut begins = 0;
        let mut run = self.kept;
        let mut previous = None;
        loop {
            if begins == cursor {
                previous = Some(run);
            }
            if begins == self.held {
                break;
            }
            // a branch, so that a processor need not wait for the run length of each unit without data
            if run > 0 {
                begins += run;
                if begins >= self.held {
                    return Err(Refusal::State);
                }
            }
            let c = content(self.stored(store, begins));
            if !acceptable(c) {
                return Err(Refusal::State);
            }
            run = (c & 15) as usize;
            begins += 1;
        }
        match previous {
            Some(previous) => Ok(Judged {
                previous,
                last: run,
            }),
            None => Err(Refusal::State),
        }
    }

    /// Accept.
    pub fn accept(self, store: &mut [u8], unit: &[u8]) -> (Result<(), Refusal>, End) {
        match self.admitted(store, unit) {
            Err(refusal) => (Err(refusal), self),
            Ok(()) => {
                for (n, flit) in unit.chunks_exact(FLIT).enumerate() {
                    let at = self.place(self.held + n) * FLIT;
                    store[at..at + FLIT].copy_from_slice(flit);
                }
                let held = self.held + unit.len() / FLIT;
                (Ok(()), End { held, ..self })
            }
        }
    }

    fn admitted(&self, store: &[u8], unit: &[u8]) -> Result<(), Refusal> {
        let judged = self.judge(store)?;
        if unit.is_empty() || unit.len() > HOLD || unit.len() % FLIT != 0 {
            return Err(Refusal::Shape);
        }
        if self.mode == Mode::Down {
            return Err(Refusal::Down);
        }
        let flits = unit.len() / FLIT;
        if flits - 1 != judged.last {
            return Err(Refusal::Run);
        }
        if !acceptable(content(&unit[unit.len() - FLIT..])) {
            return Err(Refusal::Field);
        }
        if self.held + flits > self.capacity {
            return Err(Refusal::Full);
        }
        Ok(())
    }

    /// Send.
    pub fn send(
        self,
        store: &[u8],
        output: &mut [u8],
        errors: u8,
        information: u64,
    ) -> (Result<usize, Refusal>, End) {
        let run = match self.judge(store) {
            Err(refusal) => return (Err(refusal), self),
            Ok(judged) => judged.previous,
        };
        if output.len() < OUTPUT {
            return (Err(Refusal::Out), self);
        }
        if self.mode == Mode::Down {
            return (Err(Refusal::Down), self);
        }
        let mut next = self;
        if self.pending {
            let flit = replay_flit(&Replay {
                information,
                last: self.wanted.wrapping_sub(1),
                start: self.cursor,
                previous: run,
                errors,
                stalled: run > 0,
                nack: self.mode == Mode::Wait,
            });
            output[..64].copy_from_slice(&flit);
            output[64..128].copy_from_slice(&flit);
            next.untold = 0;
            next.pending = false;
            return (Ok(2), next);
        }
        let cursor = self.to_cursor();
        if cursor == self.held {
            let acks = next.carried();
            output[..64].copy_from_slice(&idle_flit(acks, run > 0, run));
            return (Ok(1), next);
        }
        let mut at = 0;
        if run > 0 {
            let acks = next.carried();
            output[..64].copy_from_slice(&idle_flit(acks, false, run));
            at = FLIT;
        }
        let unit = &mut output[at..at + run * FLIT + FLIT];
        for (n, flit) in unit.chunks_exact_mut(FLIT).enumerate() {
            flit.copy_from_slice(self.stored(store, cursor + n));
        }
        let control = &mut unit[run * FLIT..];
        let c = content(control);
        let acks = next.carried();
        let stalled = u64::from(c & 15 > 0);
        set_content(control, c & 0x3_ffff | stalled << 19 | (acks as u64) << 23);
        seal(unit);
        next.cursor = self.cursor.wrapping_add(run as u16 + 1);
        if self.to_sent() < cursor + run + 1 {
            next.sent = next.cursor;
        }
        (Ok(at / FLIT + run + 1), next)
    }

    /// The smaller of 31 and untold, which falls by it.
    fn carried(&mut self) -> usize {
        let acks = self.untold.min(31);
        self.untold -= acks;
        acks
    }

    /// Receive.
    pub fn receive(
        self,
        store: &[u8],
        hold: &mut [u8],
        flit: &[u8],
    ) -> (Result<Answer, Refusal>, End) {
        if !is_store(store.len()) || store.len() / FLIT != self.capacity || hold.len() != HOLD {
            return (Err(Refusal::Store), self);
        }
        if let Err(refusal) = self.judge(store) {
            return (Err(refusal), self);
        }
        if flit.len() != FLIT {
            return (Err(Refusal::Shape), self);
        }
        let mut next = self;
        let answer = match self.mode {
            Mode::Down => return (Err(Refusal::Down), self),
            Mode::Run => next.run(store, hold, flit),
            Mode::Wait => next.wait(store, flit),
        };
        (Ok(answer), next)
    }

    fn run(&mut self, store: &[u8], hold: &mut [u8], flit: &[u8]) -> Answer {
        let part = self.gathered * FLIT;
        if !self.stalled && self.gathered < self.owed {
            hold[part..part + FLIT].copy_from_slice(flit);
            self.gathered += 1;
            return Answer::Held;
        }
        let closes = !self.stalled && self.owed > 0;
        let right = right_after(if closes { &hold[..part] } else { &[] }, flit);
        let c = content(flit);
        let run = (c & 15) as usize;
        let d = self.wanted.wrapping_sub(self.position) as usize;
        if !right
            || closes && run > 8
            || self.stalled && run < 9
            || run == 15 && (c >> 4 & 15) as usize != self.owed
            || run <= 8 && d > 0 && d < self.gathered + 1
        {
            self.waiting();
            return Answer::Damaged;
        }
        match run {
            9 | 11..=14 => Answer::Skipped,
            10 => self.replay(store, flit, c),
            _ => self.plain(store, hold, flit, c),
        }
    }

    fn wait(&mut self, store: &[u8], flit: &[u8]) -> Answer {
        let c = content(flit);
        if right_after(&[], flit) && c & 15 == 10 {
            return self.replay(store, flit, c);
        }
        self.discarded();
        Answer::Discarded
    }

    fn waiting(&mut self) {
        self.mode = Mode::Wait;
        self.gathered = 0;
        self.pending = true;
        self.discards = 0;
    }

    fn discarded(&mut self) {
        self.discards += 1;
        if self.discards == 64 {
            self.discards = 0;
            self.pending = true;
        }
    }

    fn down(&mut self, cause: u8) -> Answer {
        self.mode = Mode::Down;
        self.cause = cause;
        Answer::Down(cause)
    }

    fn past_sent(&self, covered: usize) -> bool {
        covered > self.sent.wrapping_sub(self.acknowledged) as usize
    }

    /// So many flits more are acknowledged: units all of whose flits are leave the store.
    fn acknowledge(&mut self, store: &[u8], covered: usize) {
        let open = self.to_acknowledged() + covered;
        let cursor = self.to_cursor();
        let mut freed = 0;
        let mut run = self.kept;
        while freed + run < open {
            freed += run + 1;
            run = (content(self.stored(store, freed - 1)) & 15) as usize;
        }
        self.first = self.place(freed);
        self.held -= freed;
        self.kept = run;
        self.oldest = self.oldest.wrapping_add(freed as u16);
        self.acknowledged = self.acknowledged.wrapping_add(covered as u16);
        if cursor < freed {
            self.cursor = self.oldest;
            self.pending = true;
        }
    }

    fn plain(&mut self, store: &[u8], hold: &mut [u8], flit: &[u8], c: u64) -> Answer {
        let acks = (c >> 23 & 31) as usize;
        let flits = self.gathered + 1;
        let run = (c & 15) as usize;
        let idle = run == 15;
        let delivers = !idle && self.position == self.wanted;
        if c >> 18 & 1 == 1 {
            return self.down(3);
        }
        if self.past_sent(acks) {
            return self.down(1);
        }
        if delivers && self.untold + flits > 1024 {
            return self.down(4);
        }
        self.acknowledge(store, acks);
        self.stalled = c >> 19 & 1 == 1;
        if idle {
            return Answer::Idle;
        }
        let data = self.gathered;
        self.position = self.position.wrapping_add(flits as u16);
        self.gathered = 0;
        self.owed = run;
        if !delivers {
            return Answer::Duplicate;
        }
        self.wanted = self.position;
        self.untold += flits;
        let part = &mut hold[data * FLIT..data * FLIT + FLIT];
        part.copy_from_slice(flit);
        set_content(part, c & 0x3_ffff);
        Answer::Delivered(data)
    }

    fn replay(&mut self, store: &[u8], flit: &[u8], c: u64) -> Answer {
        let previous = (c >> 4 & 15) as usize;
        let last = u16::from_le_bytes([flit[52], flit[53]]);
        let start = u16::from_le_bytes([flit[54], flit[55]]);
        let covered = last.wrapping_add(1).wrapping_sub(self.acknowledged) as usize;
        if c >> 18 & 1 == 1 {
            return self.down(3);
        }
        if previous > 8 {
            return self.down(2);
        }
        if self.past_sent(covered) {
            return self.down(1);
        }
        self.acknowledge(store, covered);
        self.information.copy_within(0..7, 1);
        self.information[0] = u64::from_le_bytes(flit[44..52].try_into().unwrap());
        if c >> 20 & 1 == 1 {
            self.cursor = self.oldest;
            self.pending = true;
        }
        self.position = start;
        self.gathered = 0;
        self.owed = previous;
        self.stalled = c >> 19 & 1 == 1;
        if self.wanted.wrapping_sub(start) < 32768 {
            self.mode = Mode::Run;
            self.discards = 0;
            return Answer::Replayed;
        }
        match self.mode {
            Mode::Wait => self.discarded(),
            _ => self.waiting(),
        }
        Answer::Ahead
    }
}

fn idle_flit(acks: usize, stalled: bool, owed: usize) -> [u8; FLIT] {
    let mut flit = [0; FLIT];
    let c = 15 | (owed as u64) << 4 | u64::from(stalled) << 19 | (acks as u64) << 23;
    set_content(&mut flit, c);
    seal(&mut flit);
    flit
}

/// What a replay flit says.
pub struct Replay {
    pub information: u64,
    pub last: u16,
    pub start: u16,
    pub previous: usize,
    pub errors: u8,
    pub stalled: bool,
    pub nack: bool,
}

pub fn replay_flit(r: &Replay) -> [u8; FLIT] {
    let mut flit = [0; FLIT];
    flit[44..52].copy_from_slice(&r.information.to_le_bytes());
    flit[52..54].copy_from_slice(&r.last.to_le_bytes());
    flit[54..56].copy_from_slice(&r.start.to_le_bytes());
    let marks = u64::from(r.stalled) << 19 | u64::from(r.nack) << 20;
    set_content(
        &mut flit,
        10 | (r.previous as u64) << 4 | (r.errors as u64) << 8 | marks,
    );
    seal(&mut flit);
    flit
}

/// A control flit of a run length, as accept takes it.
pub fn control(run: u64, fill: u8) -> [u8; FLIT] {
    let mut flit = [fill; FLIT];
    set_content(&mut flit, run);
    flit
}
