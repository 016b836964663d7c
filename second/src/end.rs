//! The operations start and accept.

use crate::flit::{self, FLIT};
use crate::state::{self, State};
use crate::ticket::Ticket;

/// *Start* makes a fresh end. Refused, it gives "a state of capacity 0,
/// which all others refuse with 1".
pub fn start(store: &[u8]) -> (Result<(), u8>, State) {
    match state::capacity_of(store.len()) {
        Some(capacity) => (Ok(()), State::fresh(capacity)),
        None => (Err(state::STORE), State::fresh(0)),
    }
}

/// *Accept* takes one unit from the transaction layer.
pub fn accept(
    state: &mut State,
    store: &mut [u8],
    ticket: &mut Ticket,
    unit: &[u8],
) -> Result<(), u8> {
    state::refuse_store(state, store)?;
    state::refuse_state(state, store)?;
    refuse_unit_shape(unit)?;
    state::refuse_down(state)?;
    refuse_run(state, store, unit)?;
    refuse_field(unit)?;
    refuse_full(state, unit)?;
    write_unit(state, store, unit);
    ticket.count_accepted(unit.len() / FLIT);
    Ok(())
}

/// SHAPE: "unit length 0, over 576 or not a multiple of 64".
fn refuse_unit_shape(unit: &[u8]) -> Result<(), u8> {
    if unit.is_empty() || unit.len() > 576 || !unit.len().is_multiple_of(FLIT) {
        Err(state::SHAPE)
    } else {
        Ok(())
    }
}

/// RUN: "data flits differ from the run length of the last control flit
/// accepted (0 at first)".
fn refuse_run(state: &State, store: &[u8], unit: &[u8]) -> Result<(), u8> {
    let data = unit.len() / FLIT - 1;
    let last = state.run_at(store, usize::from(state.held));
    if data == usize::from(last) {
        Ok(())
    } else {
        Err(state::RUN)
    }
}

/// FIELD: the unit's control flit is its last flit.
fn refuse_field(unit: &[u8]) -> Result<(), u8> {
    if flit::breaks_field(&unit[unit.len() - FLIT..]) {
        Err(state::FIELD)
    } else {
        Ok(())
    }
}

/// FULL: "held flits plus this unit exceed C".
fn refuse_full(state: &State, unit: &[u8]) -> Result<(), u8> {
    let flits = usize::from(state.held) + unit.len() / FLIT;
    if flits > usize::from(state.capacity) {
        Err(state::FULL)
    } else {
        Ok(())
    }
}

/// "Only accept writes the store, and only the new unit's places."
fn write_unit(state: &mut State, store: &mut [u8], unit: &[u8]) {
    for flit in unit.chunks(FLIT) {
        let place = state.place(usize::from(state.held));
        store[place..place + FLIT].copy_from_slice(flit);
        state.held += 1;
    }
}
