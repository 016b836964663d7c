//! The operation receive.

use crate::check;
use crate::flit::{self, FLIT};
use crate::state::{self, Mode, State};
use crate::ticket::Ticket;

/// The answers of receive. Delivered says how many data flits.
#[derive(Clone, Copy, Debug, PartialEq, Eq)]
pub enum Answer {
    Held,
    Delivered(usize),
    Duplicate,
    Idle,
    Replayed,
    Ahead,
    Skipped,
    Damaged,
    Discarded,
    Down,
}

impl Answer {
    /// "the italic word under Receive (small letters) or down"
    pub fn word(self) -> &'static str {
        match self {
            Answer::Held => "held",
            Answer::Delivered(_) => "delivered",
            Answer::Duplicate => "duplicate",
            Answer::Idle => "idle",
            Answer::Replayed => "replayed",
            Answer::Ahead => "ahead",
            Answer::Skipped => "skipped",
            Answer::Damaged => "damaged",
            Answer::Discarded => "discarded",
            Answer::Down => "down",
        }
    }

    /// "data is the data flits that this answer delivered"
    pub fn data(self) -> usize {
        match self {
            Answer::Delivered(data) => data,
            _ => 0,
        }
    }
}

/// *Receive* takes one arriving flit.
pub fn receive(
    state: &mut State,
    store: &[u8],
    hold: &mut [u8],
    ticket: &mut Ticket,
    flit: &[u8],
) -> Result<Answer, u8> {
    state::refuse_store(state, store)?;
    state::refuse_hold(hold)?;
    state::refuse_state(state, store)?;
    refuse_flit_shape(flit)?;
    state::refuse_down(state)?;
    if state.mode == Mode::Wait {
        Ok(receive_in_wait(state, store, hold, ticket, flit))
    } else {
        Ok(receive_in_run(state, store, hold, ticket, flit))
    }
}

/// SHAPE: "flit length not 64".
fn refuse_flit_shape(flit: &[u8]) -> Result<(), u8> {
    if flit.len() == FLIT {
        Ok(())
    } else {
        Err(state::SHAPE)
    }
}

/// Mode run: hold, or damaged, or skipped, or steps 3 to 6.
fn receive_in_run(
    state: &mut State,
    store: &[u8],
    hold: &mut [u8],
    ticket: &mut Ticket,
    flit: &[u8],
) -> Answer {
    if awaits_data(state) {
        return hold_flit(state, hold, flit);
    }
    if is_damaged(state, hold, flit) {
        ticket.count_damaged();
        go_waiting(state);
        return Answer::Damaged;
    }
    if is_skipped(flit) {
        return Answer::Skipped;
    }
    take(state, store, hold, ticket, flit)
}

/// "In mode wait a flit that is not a right replay flit alone is discarded".
fn receive_in_wait(
    state: &mut State,
    store: &[u8],
    hold: &mut [u8],
    ticket: &mut Ticket,
    flit: &[u8],
) -> Answer {
    if flit::run_length(flit) != flit::REPLAY || !check::right(&[flit]) {
        add_discard(state);
        return Answer::Discarded;
    }
    take(state, store, hold, ticket, flit)
}

/// "not stalled and data owed"
fn awaits_data(state: &State) -> bool {
    !state.stalled && state.data < state.owed
}

/// "A data flit goes to the part that starts at 64 times the number already
/// held."
fn hold_flit(state: &mut State, hold: &mut [u8], flit: &[u8]) -> Answer {
    let at = FLIT * usize::from(state.data);
    hold[at..at + FLIT].copy_from_slice(flit);
    state.data += 1;
    Answer::Held
}

/// "When all owed data is held, the next flit closes the unit"; where
/// nothing is owed there is no data to hold and a flit is checked alone.
pub fn closes(state: &State) -> bool {
    state.mode == Mode::Run && !state.stalled && state.owed > 0 && state.data == state.owed
}

/// Step 1: damaged for any one of five reasons.
fn is_damaged(state: &State, hold: &[u8], flit: &[u8]) -> bool {
    check_fails(state, hold, flit)
        || closing_run_over(state, flit)
        || control_while_stalled(state, flit)
        || idle_differs(state, flit)
        || straddles(state)
}

/// "if the check fails": a closing flit with its data, others alone.
pub fn check_fails(state: &State, hold: &[u8], flit: &[u8]) -> bool {
    if closes(state) {
        let data = FLIT * usize::from(state.data);
        !check::right(&[&hold[..data], flit])
    } else {
        !check::right(&[flit])
    }
}

/// "if a closing flit's run length is over 8"
pub fn closing_run_over(state: &State, flit: &[u8]) -> bool {
    closes(state) && flit::run_length(flit) > 8
}

/// "if stalled and run length under 9"
pub fn control_while_stalled(state: &State, flit: &[u8]) -> bool {
    state.stalled && flit::run_length(flit) < 9
}

/// "if an idle's stalled run length differs from owed"; a closing flit is
/// no idle.
pub fn idle_differs(state: &State, flit: &[u8]) -> bool {
    !closes(state)
        && flit::run_length(flit) == flit::IDLE
        && u16::from(flit::stalled_run(flit)) != state.owed
}

/// "if a unit would begin before wanted and end after it (0 < d < its
/// flits, d as in 6)"; a unit of one flit never does.
pub fn straddles(state: &State) -> bool {
    let d = state.wanted.wrapping_sub(state.position);
    closes(state) && 0 < d && d < state.owed + 1
}

/// Step 2: "Run length 9 or 11 to 14: skipped, nothing changes."
fn is_skipped(flit: &[u8]) -> bool {
    matches!(flit::run_length(flit), 9 | 11..=14)
}

/// Steps 3 to 6 for a control, idle or replay flit that is right.
fn take(
    state: &mut State,
    store: &[u8],
    hold: &mut [u8],
    ticket: &mut Ticket,
    flit: &[u8],
) -> Answer {
    if let Some(cause) = cause_of_down(state, flit) {
        return go_down(state, ticket, cause);
    }
    acknowledge(state, store, newly_covered(state, flit));
    match flit::run_length(flit) {
        flit::REPLAY => take_replay(state, flit),
        flit::IDLE => take_idle(state, flit),
        _ => take_control(state, hold, ticket, flit),
    }
}

/// Step 3, in the order of its sentences.
fn cause_of_down(state: &State, flit: &[u8]) -> Option<u8> {
    if flit::short_next(flit) {
        Some(3)
    } else if previous_over(flit) {
        Some(2)
    } else if acknowledges_wrongly(state, flit) {
        Some(1)
    } else if untold_over(state, flit) {
        Some(4)
    } else {
        None
    }
}

/// "Previous run length over 8: cause 2"
fn previous_over(flit: &[u8]) -> bool {
    flit::run_length(flit) == flit::REPLAY && flit::previous_run(flit) > 8
}

/// "(the flits it newly covers, modulo 65536, are more than those sent and
/// not yet acknowledged)"
fn acknowledges_wrongly(state: &State, flit: &[u8]) -> bool {
    newly_covered(state, flit) > state.sent.wrapping_sub(state.acked)
}

/// "A delivery that brings untold over 1,024: cause 4."
fn untold_over(state: &State, flit: &[u8]) -> bool {
    flit::run_length(flit) <= 8 && delivers(state) && state.untold + unit_flits(state) > 1024
}

/// "Going down changes only mode, cause and the ticket."
fn go_down(state: &mut State, ticket: &mut Ticket, cause: u8) -> Answer {
    state.mode = Mode::Down;
    state.cause = cause;
    ticket.count_down();
    Answer::Down
}

/// The flits that an acknowledgement newly covers: the ACK count, or those
/// up to the acknowledge number, which is the last number received.
fn newly_covered(state: &State, flit: &[u8]) -> u16 {
    if flit::run_length(flit) == flit::REPLAY {
        let next = flit::acknowledge(flit).wrapping_add(1);
        next.wrapping_sub(state.acked)
    } else {
        flit::ack_count(flit)
    }
}

/// Step 4: "The acknowledgement counts, also in duplicates. If freed units
/// pass the cursor, it moves to the oldest unit left and replay becomes
/// pending."
fn acknowledge(state: &mut State, store: &[u8], newly: u16) {
    state.acked = state.acked.wrapping_add(newly);
    while state.held > 0 && state.offset(state.acked) > i32::from(state.kept) {
        free_oldest(state, store);
    }
    if state.offset(state.cursor) < 0 {
        state.cursor = state.oldest;
        state.pending = true;
    }
}

/// "until every flit of a unit is acknowledged; then the first place moves
/// past it and its room is used again"
fn free_oldest(state: &mut State, store: &[u8]) {
    let flits = state.kept + 1;
    let owed = state.run_at(store, usize::from(flits));
    state.first = (state.first + flits) % state.capacity;
    state.held -= flits;
    state.oldest = state.oldest.wrapping_add(flits);
    state.kept = owed;
}

/// "position = wanted: delivered"
fn delivers(state: &State) -> bool {
    state.position == state.wanted
}

/// A unit is its data flits, then one control flit.
fn unit_flits(state: &State) -> u16 {
    state.data + 1
}

/// Step 5, a control flit.
fn take_control(state: &mut State, hold: &mut [u8], ticket: &mut Ticket, flit: &[u8]) -> Answer {
    let answer = if delivers(state) {
        deliver(state, hold, ticket, flit)
    } else {
        ticket.count_duplicate();
        Answer::Duplicate
    };
    state.position = state.position.wrapping_add(unit_flits(state));
    state.data = 0;
    state.owed = u16::from(flit::run_length(flit));
    state.stalled = flit::data_stalled(flit);
    answer
}

/// "data in the first part of hold, the control flit after it with bits
/// 63:18 zero"; "at a delivery so does wanted, and untold grows by its
/// flits".
fn deliver(state: &mut State, hold: &mut [u8], ticket: &mut Ticket, flit: &[u8]) -> Answer {
    let data = usize::from(state.data);
    let part = &mut hold[FLIT * data..FLIT * (data + 1)];
    part.copy_from_slice(flit);
    flit::set_content(part, flit::content(flit) & flit::BELOW_LINK);
    state.wanted = state.wanted.wrapping_add(unit_flits(state));
    state.untold += unit_flits(state);
    ticket.count_delivered(data + 1);
    Answer::Delivered(data)
}

/// Step 5, an idle flit: "Stalled takes the flit's bit."
fn take_idle(state: &mut State, flit: &[u8]) -> Answer {
    state.stalled = flit::data_stalled(flit);
    Answer::Idle
}

/// Step 6, a replay flit.
fn take_replay(state: &mut State, flit: &[u8]) -> Answer {
    keep_information(state, flit::information(flit));
    if flit::nack(flit) {
        state.cursor = state.oldest;
        state.pending = true;
    }
    state.position = flit::starting(flit);
    state.data = 0;
    state.owed = u16::from(flit::previous_run(flit));
    state.stalled = flit::data_stalled(flit);
    let d = state.wanted.wrapping_sub(state.position);
    if d < 32768 {
        state.mode = Mode::Run;
        state.discards = 0;
        Answer::Replayed
    } else {
        meet_ahead(state);
        Answer::Ahead
    }
}

/// "the eight newest link information values, newest first"
fn keep_information(state: &mut State, newest: u64) {
    state.info.rotate_right(1);
    state.info[0] = newest;
}

/// "ahead in mode run" as damage; "ahead met in mode wait" as a discard.
fn meet_ahead(state: &mut State) {
    if state.mode == Mode::Run {
        go_waiting(state);
    } else {
        add_discard(state);
    }
}

/// "mode wait, held 0, pending, discards 0"
fn go_waiting(state: &mut State) {
    state.mode = Mode::Wait;
    state.data = 0;
    state.pending = true;
    state.discards = 0;
}

/// "add 1 to discards, and at 64 it becomes 0 and replay pending"
fn add_discard(state: &mut State) {
    state.discards += 1;
    if state.discards == 64 {
        state.discards = 0;
        state.pending = true;
    }
}
