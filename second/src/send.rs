//! The operation send.

use crate::check;
use crate::flit::{self, Replay, FLIT};
use crate::state::{self, Mode, State};

/// "Send's output is at least 640 bytes."
pub const LEAST_OUT: usize = 640;

/// *Send* writes what goes on the wire next and gives the flits written.
pub fn send(
    state: &mut State,
    store: &[u8],
    output: &mut [u8],
    errors: u8,
    information: u64,
) -> Result<usize, u8> {
    state::refuse_store(state, store)?;
    state::refuse_state(state, store)?;
    refuse_out(output)?;
    state::refuse_down(state)?;
    if state.pending {
        Ok(send_replay(state, store, output, errors, information))
    } else if state.cursor_offset() < usize::from(state.held) {
        Ok(send_unit(state, store, output))
    } else {
        Ok(send_idle(state, store, output))
    }
}

/// OUT: "output under 640".
fn refuse_out(output: &[u8]) -> Result<(), u8> {
    if output.len() < LEAST_OUT {
        Err(state::OUT)
    } else {
        Ok(())
    }
}

/// The run length of the control flit before the cursor.
fn owed_at_cursor(state: &State, store: &[u8]) -> u8 {
    state.run_at(store, state.cursor_offset()) as u8
}

/// Step 1: "two replay flits, alike".
fn send_replay(
    state: &mut State,
    store: &[u8],
    output: &mut [u8],
    errors: u8,
    information: u64,
) -> usize {
    let previous = owed_at_cursor(state, store);
    let says = Replay {
        nack: state.mode == Mode::Wait,
        stalled: previous > 0,
        errors,
        previous,
        starting: state.cursor,
        acknowledge: state.wanted.wrapping_sub(1),
        information,
    };
    for part in output[..2 * FLIT].chunks_mut(FLIT) {
        flit::write_replay(part, &says);
        check::seal(part);
    }
    state.untold = 0;
    state.pending = false;
    2
}

/// Step 2: "if it has data, an idle flit with data stalled 0 and the run
/// length as stalled run length, then the data, then the control flit;
/// without data, the control flit alone. Cursor moves past it."
fn send_unit(state: &mut State, store: &[u8], output: &mut [u8]) -> usize {
    let run = owed_at_cursor(state, store);
    let mut written = 0;
    if run > 0 {
        write_idle(state, &mut output[..FLIT], false, run);
        written = 1;
    }
    let flits = usize::from(run) + 1;
    let end = (written + flits) * FLIT;
    write_unit(state, store, &mut output[written * FLIT..end]);
    move_cursor(state, flits as u16);
    written + flits
}

/// The data flits and the control flit of the unit at the cursor.
fn write_unit(state: &mut State, store: &[u8], unit: &mut [u8]) {
    let from = state.cursor_offset();
    for (i, part) in unit.chunks_mut(FLIT).enumerate() {
        part.copy_from_slice(state.stored(store, from + i));
    }
    let last = unit.len() - FLIT;
    let ack = take_untold(state);
    let follows = flit::run_length(&unit[last..]) > 0;
    flit::dress_control(&mut unit[last..], ack, follows);
    check::seal(unit);
}

/// The cursor moves past the unit; sent is "the highest number ever sent,
/// plus one".
fn move_cursor(state: &mut State, flits: u16) {
    state.cursor = state.cursor.wrapping_add(flits);
    if state.offset(state.sent) < state.offset(state.cursor) {
        state.sent = state.cursor;
    }
}

/// Step 3: "Else one idle flit." Data stalled "exactly when data is owed
/// after it; that idle's stalled run length is the number owed".
fn send_idle(state: &mut State, store: &[u8], output: &mut [u8]) -> usize {
    let owed = owed_at_cursor(state, store);
    write_idle(state, &mut output[..FLIT], owed > 0, owed);
    1
}

fn write_idle(state: &mut State, part: &mut [u8], stalled: bool, run: u8) {
    let ack = take_untold(state);
    flit::write_idle(part, ack, stalled, run);
    check::seal(part);
}

/// "Each idle or control flit carries the smaller of 31 and untold, which
/// falls by it."
fn take_untold(state: &mut State) -> u16 {
    let ack = state.untold.min(31);
    state.untold -= ack;
    ack
}
