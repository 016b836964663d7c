//! What an end keeps, and the refusals STORE and STATE.

use crate::flit::{self, FLIT};

/// Capacity bounds: "Capacity C is 9 to 1,024 flits".
pub const LEAST: usize = 9;
pub const MOST: usize = 1024;

/// "The lent hold buffer is exactly 576 bytes."
pub const HOLD: usize = 576;

/// The refusals by number.
pub const STORE: u8 = 1;
pub const STATE: u8 = 2;
pub const SHAPE: u8 = 3;
pub const OUT: u8 = 4;
pub const DOWN: u8 = 5;
pub const RUN: u8 = 6;
pub const FIELD: u8 = 7;
pub const FULL: u8 = 8;

/// "mode run, wait or down"
#[derive(Clone, Copy, Debug, PartialEq, Eq)]
pub enum Mode {
    Run,
    Wait,
    Down,
}

/// "What an end keeps". Wide enough for every value a script may set.
#[derive(Clone, Debug, PartialEq, Eq)]
pub struct State {
    pub capacity: u16,
    pub first: u16,
    pub held: u16,
    pub kept: u16,
    pub oldest: u16,
    pub cursor: u16,
    pub sent: u16,
    pub acked: u16,
    pub wanted: u16,
    pub position: u16,
    pub owed: u16,
    pub stalled: bool,
    pub data: u16,
    pub untold: u16,
    pub mode: Mode,
    pub cause: u8,
    pub discards: u16,
    pub pending: bool,
    pub info: [u64; 8],
}

impl State {
    /// "Fresh, every number, count and place is 0, no mark is set and the
    /// mode is run."
    pub fn fresh(capacity: u16) -> State {
        State {
            capacity,
            first: 0,
            held: 0,
            kept: 0,
            oldest: 0,
            cursor: 0,
            sent: 0,
            acked: 0,
            wanted: 0,
            position: 0,
            owed: 0,
            stalled: false,
            data: 0,
            untold: 0,
            mode: Mode::Run,
            cause: 0,
            discards: 0,
            pending: false,
            info: [0; 8],
        }
    }

    /// How far a number lies after the oldest held flit; before it, less
    /// than 0. Never compared "by size across the wrap".
    pub fn offset(&self, number: u16) -> i32 {
        i32::from(number.wrapping_sub(self.oldest) as i16)
    }

    /// The held flit at an offset: "a ring of C places of 64 bytes from a
    /// first place".
    pub fn stored<'a>(&self, store: &'a [u8], offset: usize) -> &'a [u8] {
        let place = self.place(offset);
        &store[place..place + FLIT]
    }

    /// Where the flit at an offset starts in the store.
    pub fn place(&self, offset: usize) -> usize {
        (usize::from(self.first) + offset) % usize::from(self.capacity) * FLIT
    }

    /// The run length owed at an offset on a unit border: that of the
    /// control flit before it, which for the oldest unit is kept.
    pub fn run_at(&self, store: &[u8], offset: usize) -> u16 {
        if offset == 0 {
            self.kept
        } else {
            u16::from(flit::run_length(self.stored(store, offset - 1)))
        }
    }

    /// "The cursor marks the next unit to send": its place in the held flits.
    pub fn cursor_offset(&self) -> usize {
        usize::from(self.cursor.wrapping_sub(self.oldest))
    }
}

/// STORE for start: "store not 64 C bytes with C in 9..1024".
pub fn capacity_of(store: usize) -> Option<u16> {
    let flits = store / FLIT;
    let fits = store == flits * FLIT && (LEAST..=MOST).contains(&flits);
    fits.then_some(flits as u16)
}

/// STORE but for start: "and (but for start) equal to the state's".
pub fn refuse_store(state: &State, store: &[u8]) -> Result<(), u8> {
    if capacity_of(store.len()) == Some(state.capacity) {
        Ok(())
    } else {
        Err(STORE)
    }
}

/// STORE where hold is lent: "or hold not 576".
pub fn refuse_hold(hold: &[u8]) -> Result<(), u8> {
    if hold.len() == HOLD {
        Ok(())
    } else {
        Err(STORE)
    }
}

/// STATE: given when any condition of the table is broken.
pub fn refuse_state(state: &State, store: &[u8]) -> Result<(), u8> {
    if broken(state, store) == 0 {
        Ok(())
    } else {
        Err(STATE)
    }
}

/// DOWN: "mode is down".
pub fn refuse_down(state: &State) -> Result<(), u8> {
    if state.mode == Mode::Down {
        Err(DOWN)
    } else {
        Ok(())
    }
}

/// The conditions of STATE, each by a name, in the order of the table.
pub const CONDITIONS: [&str; 18] = [
    "first place not under C",
    "held flits over C",
    "kept run length over 8",
    "owed over 8",
    "data held over owed",
    "data held while stalled",
    "untold over 1,024",
    "discards over 63",
    "cursor outside the held flits",
    "cursor off a unit border",
    "sent before the cursor",
    "sent past the held flits",
    "acknowledged outside the oldest unit",
    "acknowledged not the next to accept, none held",
    "acknowledged past sent",
    "held flits not cut into whole units",
    "stored run length over 8",
    "stored bit of 63:18 set",
];

/// The broken conditions: bit i for CONDITIONS[i]. The store has 64 C bytes.
pub fn broken(state: &State, store: &[u8]) -> u32 {
    let cut = cut_up(state, store);
    let conditions = [
        state.first >= state.capacity,
        state.held > state.capacity,
        state.kept > 8,
        state.owed > 8,
        state.data > state.owed,
        state.data > 0 && state.stalled,
        state.untold > 1024,
        state.discards > 63,
        cursor_outside(state),
        !cursor_outside(state) && cut.whole && !cut.cursor_met,
        state.offset(state.sent) < state.offset(state.cursor),
        state.offset(state.sent) > i32::from(state.held),
        state.held > 0 && !acked_in_oldest(state),
        state.held == 0 && state.acked != state.oldest,
        state.offset(state.acked) > state.offset(state.sent),
        !cut.whole,
        cut.run_over,
        cut.bit_set,
    ];
    let mut mask = 0;
    for (i, found) in conditions.iter().enumerate() {
        mask |= u32::from(*found) << i;
    }
    mask
}

/// "cursor outside the held flits (the end after the last is inside)"
fn cursor_outside(state: &State) -> bool {
    let at = state.offset(state.cursor);
    at < 0 || at > i32::from(state.held)
}

/// "the acknowledged number outside the oldest unit": the data flits that
/// the kept run length says, then one control flit.
fn acked_in_oldest(state: &State) -> bool {
    let at = state.offset(state.acked);
    at >= 0 && at <= i32::from(state.kept)
}

/// What cutting the held flits into units shows.
struct Cut {
    whole: bool,
    cursor_met: bool,
    run_over: bool,
    bit_set: bool,
}

/// Goes from control flit to control flit: each unit has the data flits that
/// the control flit before it owes, the oldest those kept.
fn cut_up(state: &State, store: &[u8]) -> Cut {
    let held = usize::from(state.held);
    let cursor = state.cursor_offset();
    let mut cut = Cut {
        whole: true,
        cursor_met: cursor == 0,
        run_over: false,
        bit_set: false,
    };
    let mut border = 0;
    let mut run = usize::from(state.kept);
    while border < held {
        if border + run >= held {
            cut.whole = false;
            break;
        }
        let control = state.stored(store, border + run);
        cut.run_over |= flit::field_run(control);
        cut.bit_set |= flit::field_bits(control);
        border += run + 1;
        run = usize::from(flit::run_length(control));
        cut.cursor_met |= border == cursor;
    }
    cut
}
