//! Notes on single calls, which the tables at the end count.

use second::flit::{self, FLIT};
use second::receive::{self, Answer};
use second::script::{Command, Outcome, Side};
use second::state::{self, Mode, State};
use second::ticket::Ticket;

/// The operations that refuse with STATE.
pub const OPERATIONS: [&str; 3] = ["accept", "send", "receive"];

/// The reasons of damage, in the order of document 01.
pub const REASONS: [&str; 5] = [
    "the check fails",
    "a closing flit's run length is over 8",
    "stalled and run length under 9",
    "an idle's stalled run length differs from owed",
    "a unit begins before wanted and ends after it",
];

/// Places where a count or number is at its edge.
pub const EDGES: [&str; 29] = [
    "acknowledgement of a control flit at its bound",
    "acknowledgement of a control flit one past its bound",
    "acknowledgement of an idle flit at its bound",
    "acknowledgement of an idle flit one past its bound",
    "acknowledgement of a replay flit at its bound",
    "acknowledgement of a replay flit one past its bound",
    "acknowledgement of a replay flit that covers nothing new",
    "acknowledgement of a replay flit one below what is acknowledged",
    "acknowledgement that is read in a duplicate",
    "freed units pass the cursor",
    "delivery that brings untold to 1,024",
    "delivery that brings untold to 1,025",
    "duplicate that would bring untold over 1,024",
    "closing unit with d one under its flits",
    "closing unit with d equal to its flits",
    "closing unit with d = 1",
    "closing unit past wanted",
    "replay with d = 0",
    "replay with d = 32,767",
    "replay with d = 32,768",
    "replay with d = 65,535",
    "discards 63 and a discarded flit",
    "discards 63 and a replay ahead",
    "discards 62 and a discarded flit",
    "accepted stays at 4,294,967,295",
    "delivered stays at 4,294,967,295",
    "damaged stays at 4,294,967,295",
    "duplicate stays at 4,294,967,295",
    "downs stays at 4,294,967,295",
];

/// One note.
#[derive(Clone, Copy, Debug, PartialEq, Eq, PartialOrd, Ord)]
pub enum Note {
    /// A STATE condition broken alone by one, met by an operation.
    Alone(usize, usize),
    /// The neighbour of that state just inside, met by an operation.
    Inside(usize, usize),
    /// Several STATE conditions broken at once.
    Several,
    /// Run length, mode, and whether the flit closes a unit with data, the
    /// check right.
    Right(u8, usize, bool),
    /// A damaged unit for one reason alone.
    Damage(usize),
    /// An edge.
    Edge(usize),
}

impl Note {
    pub fn text(&self) -> String {
        match self {
            Note::Alone(i, op) => format!(
                "{} broken alone by one, {}",
                state::CONDITIONS[*i],
                OPERATIONS[*op]
            ),
            Note::Inside(i, op) => format!(
                "{} just not broken, {}",
                state::CONDITIONS[*i],
                OPERATIONS[*op]
            ),
            Note::Several => "several conditions broken at once".to_string(),
            Note::Right(run, mode, closing) => format!(
                "run length {run} right in mode {}{}",
                ["run", "wait", "down"][*mode],
                if *closing {
                    ", closing a unit with data"
                } else {
                    ""
                }
            ),
            Note::Damage(i) => format!("damaged only because {}", REASONS[*i]),
            Note::Edge(i) => EDGES[*i].to_string(),
        }
    }
}

/// All notes that can occur.
pub fn all() -> Vec<Note> {
    let mut notes = vec![Note::Several];
    for op in 0..OPERATIONS.len() {
        for i in 0..state::CONDITIONS.len() {
            notes.push(Note::Alone(i, op));
            notes.push(Note::Inside(i, op));
        }
    }
    for run in 0..16 {
        for mode in 0..3 {
            notes.push(Note::Right(run, mode, false));
        }
        notes.push(Note::Right(run, 0, true));
    }
    notes.extend((0..REASONS.len()).map(Note::Damage));
    notes.extend((0..EDGES.len()).map(Note::Edge));
    notes
}

fn edge(text: &str) -> Note {
    let found = EDGES.iter().position(|name| *name == text);
    Note::Edge(found.expect("an edge of the list"))
}

/// The operation of a command, if STATE can refuse it and the lent lengths
/// let it come so far.
fn operation(side: &Side, command: &Command) -> Option<usize> {
    if side.store.lent != side.store.kept.len() {
        return None;
    }
    state::refuse_store(&side.state, &side.store.kept).ok()?;
    match command {
        Command::Accept(..) => Some(0),
        Command::Send(..) => Some(1),
        Command::Receive(..) if side.hold.lent == state::HOLD => Some(2),
        _ => None,
    }
}

/// What can be said before a call; `aimed` is the STATE condition that the
/// script aims at by one, and whether from outside.
pub fn before(side: &Side, command: &Command, aimed: Option<(usize, bool)>) -> Vec<Note> {
    let mut notes = Vec::new();
    let Some(op) = operation(side, command) else {
        return notes;
    };
    let mask = state::broken(&side.state, &side.store.kept);
    if let Some((i, outside)) = aimed {
        if outside && mask == 1 << i {
            notes.push(Note::Alone(i, op));
        }
        if !outside && mask == 0 {
            notes.push(Note::Inside(i, op));
        }
    }
    if mask.count_ones() > 1 {
        notes.push(Note::Several);
    }
    if let Command::Receive(_, flit) = command {
        if mask == 0 && flit.len() == FLIT {
            before_receive(side, flit, &mut notes);
        }
    }
    notes
}

fn before_receive(side: &Side, flit: &[u8], notes: &mut Vec<Note>) {
    let s = &side.state;
    let run = flit::run_length(flit);
    let awaits = s.mode == Mode::Run && !s.stalled && s.data < s.owed;
    let right = !receive::check_fails(s, &side.hold.kept, flit);
    if awaits {
        return;
    }
    if right {
        notes.push(Note::Right(run, s.mode as usize, receive::closes(s)));
    }
    match s.mode {
        Mode::Run => before_run(side, flit, notes),
        Mode::Wait => before_wait(side, flit, right, notes),
        Mode::Down => {}
    }
}

fn before_run(side: &Side, flit: &[u8], notes: &mut Vec<Note>) {
    let s = &side.state;
    let found = [
        receive::check_fails(s, &side.hold.kept, flit),
        receive::closing_run_over(s, flit),
        receive::control_while_stalled(s, flit),
        receive::idle_differs(s, flit),
        receive::straddles(s),
    ];
    let reasons: Vec<usize> = (0..5).filter(|i| found[*i]).collect();
    if let [reason] = reasons[..] {
        notes.push(Note::Damage(reason));
    }
    if !found[0] && !found[1] {
        closing_edges(side, notes);
    }
    if reasons.is_empty() && !flit::short_next(flit) {
        acknowledgement_edges(side, flit, notes);
        replay_edges(side, flit, notes);
        untold_edges(side, flit, notes);
    }
}

fn closing_edges(side: &Side, notes: &mut Vec<Note>) {
    let s = &side.state;
    if !receive::closes(s) {
        return;
    }
    let d = s.wanted.wrapping_sub(s.position);
    let flits = s.data + 1;
    if d.wrapping_add(1) == flits {
        notes.push(edge("closing unit with d one under its flits"));
    }
    if d == flits {
        notes.push(edge("closing unit with d equal to its flits"));
    }
    if d == 1 {
        notes.push(edge("closing unit with d = 1"));
    }
    if d >= 32768 {
        notes.push(edge("closing unit past wanted"));
    }
}

fn acknowledgement_edges(side: &Side, flit: &[u8], notes: &mut Vec<Note>) {
    let s = &side.state;
    let bound = s.sent.wrapping_sub(s.acked);
    let count = flit::ack_count(flit);
    let (kind, newly) = match flit::run_length(flit) {
        0..=8 => ("a control", count),
        15 => ("an idle", count),
        10 if flit::previous_run(flit) <= 8 => {
            let next = flit::acknowledge(flit).wrapping_add(1);
            ("a replay", next.wrapping_sub(s.acked))
        }
        _ => return,
    };
    let of = format!("acknowledgement of {kind} flit");
    if newly == bound && bound > 0 {
        notes.push(edge(&format!("{of} at its bound")));
    }
    if newly == bound + 1 {
        notes.push(edge(&format!("{of} one past its bound")));
    }
    if kind == "a replay" && newly == 0 {
        notes.push(edge(&format!("{of} that covers nothing new")));
    }
    if kind == "a replay" && newly == 65535 {
        notes.push(edge(&format!("{of} one below what is acknowledged")));
    }
}

fn replay_edges(side: &Side, flit: &[u8], notes: &mut Vec<Note>) {
    if flit::run_length(flit) != flit::REPLAY {
        return;
    }
    match side.state.wanted.wrapping_sub(flit::starting(flit)) {
        0 => notes.push(edge("replay with d = 0")),
        32767 => notes.push(edge("replay with d = 32,767")),
        32768 => notes.push(edge("replay with d = 32,768")),
        65535 => notes.push(edge("replay with d = 65,535")),
        _ => {}
    }
}

fn untold_edges(side: &Side, flit: &[u8], notes: &mut Vec<Note>) {
    let s = &side.state;
    if flit::run_length(flit) > 8 {
        return;
    }
    let total = s.untold + s.data + 1;
    if s.position != s.wanted && total > 1024 {
        notes.push(edge("duplicate that would bring untold over 1,024"));
    }
    match total {
        _ if s.position != s.wanted => {}
        1024 => notes.push(edge("delivery that brings untold to 1,024")),
        1025 => notes.push(edge("delivery that brings untold to 1,025")),
        _ => {}
    }
}

fn before_wait(side: &Side, flit: &[u8], right: bool, notes: &mut Vec<Note>) {
    let replay = right && flit::run_length(flit) == flit::REPLAY;
    match side.state.discards {
        63 if !replay => notes.push(edge("discards 63 and a discarded flit")),
        62 if !replay => notes.push(edge("discards 62 and a discarded flit")),
        _ => {}
    }
    if replay && !flit::short_next(flit) {
        acknowledgement_edges(side, flit, notes);
        replay_edges(side, flit, notes);
    }
}

/// What can be said after a call that was not refused.
pub fn after(old: &State, ticket: &Ticket, now: &Side, outcome: &Outcome) -> Vec<Note> {
    let mut notes = Vec::new();
    if outcome.refusal() != 0 {
        return notes;
    }
    let moved = now.state.oldest.wrapping_sub(old.oldest);
    if old.cursor.wrapping_sub(old.oldest) < moved {
        notes.push(edge("freed units pass the cursor"));
    }
    let top = ticket.rows().map(|(_, count)| count == u32::MAX);
    match outcome {
        Outcome::Plain(_) if top[0] => notes.push(edge("accepted stays at 4,294,967,295")),
        Outcome::Received(Ok(answer)) => after_answer(old, now, *answer, top, &mut notes),
        _ => {}
    }
    notes
}

fn after_answer(old: &State, now: &Side, answer: Answer, top: [bool; 5], notes: &mut Vec<Note>) {
    match answer {
        Answer::Delivered(_) if top[1] => notes.push(edge("delivered stays at 4,294,967,295")),
        Answer::Damaged if top[2] => notes.push(edge("damaged stays at 4,294,967,295")),
        Answer::Duplicate if top[3] => notes.push(edge("duplicate stays at 4,294,967,295")),
        Answer::Down if top[4] => notes.push(edge("downs stays at 4,294,967,295")),
        _ => {}
    }
    if answer == Answer::Duplicate && old.acked != now.state.acked {
        notes.push(edge("acknowledgement that is read in a duplicate"));
    }
    if answer == Answer::Ahead && old.mode == Mode::Wait && old.discards == 63 {
        notes.push(edge("discards 63 and a replay ahead"));
    }
}
