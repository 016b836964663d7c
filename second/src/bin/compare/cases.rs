//! Scripts for one rule each: run lengths, numbers, acknowledgements,
//! limits, lengths, and refusals in their order.

use crate::base;
use crate::pen::Pen;
use crate::wire::{self, Again, Link};
use second::flit::{self, FLIT};
use second::state::State;

/// Seals a flit for the end, sometimes spoils it, and receives it.
fn give(pen: &mut Pen, end: usize, mut flit: Vec<u8>, spoil: bool) {
    wire::seal_for(pen.side(end), &mut flit);
    if spoil {
        wire::flip(&mut pen.rng, &mut flit);
    }
    pen.receive(end, &flit);
}

/// A flit of a run length whose other fields do no harm.
fn harmless(pen: &mut Pen, end: usize, run: u8) -> Vec<u8> {
    let s = pen.side(end).state.clone();
    let link = Link {
        stalled: pen.rng.once_in(4),
        ..Link::default()
    };
    match run {
        0..=8 => wire::control(&mut pen.rng, run, link),
        flit::IDLE => wire::idle(&mut pen.rng, (s.owed & 15) as u8, link),
        flit::REPLAY => {
            let mut says = base::fitting_replay(pen, &s);
            says.short = false;
            wire::replay(&mut pen.rng, says)
        }
        _ => wire::any(&mut pen.rng, run),
    }
}

/// Every run length in one mode and one way of taking flits, with right
/// checks.
pub fn run_lengths(pen: &mut Pen, end: usize) {
    base::sender(pen, end);
    let number = pen.rng.sequence();
    base::set_receiving(pen, end, number);
    let mode = pen.rng.pick(&[0, 0, 0, 0, 1, 2, 2]);
    let (owed, stalled, data) = taking(pen);
    for run in 0..16 {
        base::set_taking(pen, end, owed, stalled, data);
        pen.poke(end, "mode", mode);
        if pen.rng.coin() {
            let flit = harmless(pen, end, run);
            give(pen, end, flit, false);
        } else {
            let flit = wire::any(&mut pen.rng, run);
            give(pen, end, flit, false);
        }
    }
    base::call_each(pen, end);
}

/// Nothing owed, data stalled, all data held, or some of it.
fn taking(pen: &mut Pen) -> (usize, bool, usize) {
    let owed = pen.rng.within(1, 8);
    match pen.rng.below(6) {
        0 => (0, false, 0),
        1 => (0, true, 0),
        2 => (owed, true, 0),
        3 => (owed, false, pen.rng.below(owed)),
        _ => (owed, false, owed),
    }
}

/// A unit with data that arrives flit by flit and closes right, wrong, or
/// with something that is no control flit.
pub fn units(pen: &mut Pen, end: usize) {
    base::sender(pen, end);
    let number = pen.rng.sequence();
    base::set_receiving(pen, end, number);
    for _ in 0..pen.rng.within(1, 5) {
        let data = pen.rng.within(0, 8);
        base::set_taking(pen, end, data, false, 0);
        pen.poke(end, "mode", 0);
        for _ in 0..data {
            let flit = if pen.rng.once_in(4) {
                base::fitting_flit(pen, end)
            } else {
                pen.rng.bytes(FLIT)
            };
            pen.receive(end, &flit);
        }
        let flit = base::fitting_flit(pen, end);
        let spoil = pen.rng.once_in(4);
        give(pen, end, flit, spoil);
    }
}

/// Distances of position and wanted, for closing flits and replay flits.
pub fn numbers(pen: &mut Pen, end: usize) {
    base::sender(pen, end);
    for _ in 0..pen.rng.within(3, 9) {
        let wanted = pen.rng.sequence();
        let owed = pen.rng.below(9);
        let flits = owed as u16 + 1;
        let d = match pen.rng.below(8) {
            0 => 0,
            1 => 1,
            2 => flits - 1,
            3 => flits,
            4 => flits + 1,
            5 => pen.rng.below(12) as u16,
            6 => 65535 - pen.rng.below(12) as u16,
            _ => pen.rng.pick(&[32766, 32767, 32767, 32768, 32769]),
        };
        pen.poke(end, "wanted", u64::from(wanted));
        pen.poke(end, "mode", 0);
        if pen.rng.coin() {
            let position = wanted.wrapping_sub(d);
            pen.poke(end, "position", u64::from(position));
            base::set_taking(pen, end, owed, false, owed);
            let run = pen.rng.run();
            let flit = harmless(pen, end, run);
            give(pen, end, flit, false);
        } else {
            replay_at(pen, end, d);
        }
    }
}

/// A replay flit whose starting number is d before wanted, in mode run or
/// wait.
fn replay_at(pen: &mut Pen, end: usize, d: u16) {
    base::set_taking(pen, end, 0, false, 0);
    let mode = pen.rng.below(2);
    pen.poke(end, "mode", mode as u64);
    let s = pen.side(end).state.clone();
    let mut says = base::fitting_replay(pen, &s);
    says.short = false;
    says.starting = s.wanted.wrapping_sub(d);
    let flit = wire::replay(&mut pen.rng, says);
    give(pen, end, flit, false);
}

/// Acknowledgements at and past each bound, in every kind of flit.
pub fn acknowledgements(pen: &mut Pen, end: usize) {
    base::sender(pen, end);
    let number = pen.rng.sequence();
    base::set_receiving(pen, end, number);
    let saved = pen.side(end).state.clone();
    for _ in 0..pen.rng.within(3, 10) {
        let flit = acknowledging(pen, end);
        give(pen, end, flit, false);
        if pen.rng.coin() {
            pen.send(end, 640);
        }
        if pen.rng.coin() {
            base::restore(pen, end, &saved);
        }
        if pen.side(end).state.mode == second::state::Mode::Down {
            pen.poke(end, "mode", 0);
        }
    }
}

/// A flit with an acknowledgement near a bound.
fn acknowledging(pen: &mut Pen, end: usize) -> Vec<u8> {
    let s = pen.side(end).state.clone();
    let newly = near_bound(pen, &s);
    let link = Link {
        ack: newly.min(31),
        ..Link::default()
    };
    match pen.rng.below(6) {
        0 => {
            base::set_taking(pen, end, 0, false, 0);
            wire::idle(&mut pen.rng, 0, link)
        }
        1 => {
            let data = pen.rng.below(9);
            base::set_taking(pen, end, data, false, data);
            pen.poke(end, "position", u64::from(s.wanted));
            wire::control(&mut pen.rng, 0, link)
        }
        2 => {
            base::set_taking(pen, end, 0, false, 0);
            let back = pen.rng.within(1, 20) as u16;
            let position = s.wanted.wrapping_sub(back);
            pen.poke(end, "position", u64::from(position));
            wire::control(&mut pen.rng, 0, link)
        }
        _ => {
            base::set_taking(pen, end, 0, true, 0);
            let says = Again {
                nack: pen.rng.once_in(4),
                starting: s.wanted,
                acknowledge: s.acked.wrapping_add(newly).wrapping_sub(1),
                ..Again::default()
            };
            wire::replay(&mut pen.rng, says)
        }
    }
}

/// Flits newly covered, near the bounds of what may be covered.
fn near_bound(pen: &mut Pen, s: &State) -> u16 {
    let bound = s.sent.wrapping_sub(s.acked);
    match pen.rng.below(10) {
        0 => 0,
        1..=2 => bound,
        3..=4 => bound.wrapping_add(1),
        5 => bound.saturating_sub(1),
        6..=7 => pen.rng.pick(&[65535, 65535, 65535, 65534, 32768, 32767]),
        8 => pen.rng.within(0, usize::from(bound)) as u16,
        _ => pen.rng.below(32) as u16,
    }
}

/// Untold at its limit, by deliveries and by what send tells.
pub fn untold(pen: &mut Pen, end: usize) {
    base::sender(pen, end);
    let number = pen.rng.sequence();
    base::set_receiving(pen, end, number);
    for _ in 0..pen.rng.within(2, 6) {
        let data = pen.rng.below(9);
        let room = pen.rng.pick(&[0, 1, 1, 2, 3]);
        base::set_taking(pen, end, data, false, data);
        pen.poke(end, "untold", 1024 - data as u64 - room);
        pen.poke(end, "mode", 0);
        let wanted = pen.side(end).state.wanted;
        let back = if pen.rng.once_in(3) { 20 } else { 0 };
        pen.poke(end, "position", u64::from(wanted.wrapping_sub(back)));
        let flit = harmless(pen, end, 0);
        give(pen, end, flit, false);
    }
    let start = pen.rng.pick(&[0, 1, 30, 31, 32, 40, 61, 62, 63, 93, 1024]);
    pen.poke(end, "untold", start);
    pen.poke(end, "mode", 0);
    for _ in 0..pen.rng.within(1, 6) {
        pen.send(end, 640);
    }
}

/// Each count of the ticket at its top, and the call that would raise it.
pub fn tickets(pen: &mut Pen, end: usize) {
    base::sender(pen, end);
    let number = pen.rng.sequence();
    base::set_receiving(pen, end, number);
    for key in second::script::KEYS {
        let value = u32::MAX - pen.rng.pick(&[0, 0, 0, 1, 2, 8, 9]);
        pen.count(end, key, value);
    }
    pen.poke(end, "kept", 0);
    for _ in 0..2 {
        base::accept_some(pen, end, 2);
        pen.count(end, "accepted", u32::MAX);
    }
    pen.ticket(end);
    for _ in 0..2 {
        let s = pen.side(end).state.clone();
        delivered_then_duplicate(pen, end, &s);
        base::set_taking(pen, end, 0, false, 0);
        let flit = harmless(pen, end, 0);
        give(pen, end, flit, true);
        pen.poke(end, "mode", 0);
        let link = Link {
            short: true,
            ..Link::default()
        };
        base::set_taking(pen, end, 0, false, 0);
        let flit = wire::idle(&mut pen.rng, 0, link);
        give(pen, end, flit, false);
        pen.ticket(end);
        pen.poke(end, "mode", 0);
    }
}

fn delivered_then_duplicate(pen: &mut Pen, end: usize, s: &State) {
    let data = pen.rng.below(9);
    base::set_taking(pen, end, data, false, data);
    pen.poke(end, "position", u64::from(s.wanted));
    pen.poke(end, "untold", 0);
    let flit = harmless(pen, end, 0);
    give(pen, end, flit, false);
    pen.poke(end, "position", u64::from(s.wanted));
    base::set_taking(pen, end, data, false, data);
    let flit = harmless(pen, end, 0);
    give(pen, end, flit, false);
}

/// Units that go round the ring many times, each acknowledged at once or
/// much later.
pub fn ring(pen: &mut Pen, end: usize) {
    let capacity = pen.rng.within(9, 20);
    pen.start(end, FLIT * capacity);
    let number = pen.rng.sequence();
    base::set_sending(pen, end, number);
    for _ in 0..pen.rng.within(5, 25) {
        base::accept_some(pen, end, 2);
        for _ in 0..pen.rng.below(4) {
            pen.send(end, 640);
        }
        let s = pen.side(end).state.clone();
        let bound = usize::from(s.sent.wrapping_sub(s.acked));
        let newly = pen.rng.within(0, bound).min(31) as u16;
        let flit = if pen.rng.once_in(5) {
            let says = Again {
                nack: pen.rng.coin(),
                acknowledge: s.acked.wrapping_add(newly).wrapping_sub(1),
                ..Again::default()
            };
            wire::replay(&mut pen.rng, says)
        } else {
            let link = Link {
                ack: newly,
                ..Link::default()
            };
            wire::idle(&mut pen.rng, 0, link)
        };
        give(pen, end, flit, false);
    }
}

/// A store with very many units, which zeros are: large counts of flits
/// are acknowledged at once, and the ring is nearly or quite full.
pub fn large(pen: &mut Pen, end: usize) {
    let capacity = pen.rng.pick(&[64, 100, 500, 1000, 1023, 1024]);
    pen.start(end, FLIT * capacity);
    let first = pen.rng.below(capacity);
    pen.poke(end, "first", first as u64);
    let number = pen.rng.sequence();
    base::set_sending(pen, end, number);
    base::set_receiving(pen, end, number);
    let less = pen.rng.pick(&[0, 1, 9, 10, 60]);
    let held = capacity - less;
    let sent = pen.rng.within(0, held);
    let cursor = pen.rng.within(0, sent);
    for (field, at) in [("sent", sent), ("cursor", cursor)] {
        pen.poke(end, field, u64::from(number.wrapping_add(at as u16)));
    }
    pen.poke(end, "held", held as u64);
    for _ in 0..pen.rng.within(2, 8) {
        match pen.rng.below(4) {
            0 => base::accept_some(pen, end, 2),
            1 => {
                pen.send(end, 640);
            }
            _ => {
                let flit = acknowledging(pen, end);
                give(pen, end, flit, false);
            }
        }
    }
}

/// Start with every length that is near a bound.
pub fn starts(pen: &mut Pen, end: usize) {
    let lengths = [
        0, 1, 63, 64, 511, 512, 513, 575, 576, 577, 639, 640, 641, 65472, 65535, 65536, 65537,
        65600, 69999, 70000,
    ];
    for _ in 0..4 {
        let length = if pen.rng.once_in(3) {
            pen.rng.below(70001)
        } else {
            pen.rng.pick(&lengths)
        };
        pen.start(end, length);
        base::call_each(pen, end);
        if pen.rng.coin() {
            let capacity = pen.rng.pick(&[0, 1, 8, 9, 10, 1023, 1024, 1025, 65535]);
            pen.poke(end, "capacity", capacity);
            base::call_each(pen, end);
        }
    }
}

/// Wrong lengths of everything that is lent or given.
pub fn lengths(pen: &mut Pen, end: usize) {
    base::sender(pen, end);
    base::receiver(pen, end);
    for _ in 0..pen.rng.within(2, 6) {
        lend_lengths(pen, end);
        let operation = pen.rng.below(3);
        let again = pen.rng.below(3);
        base::call(pen, end, operation);
        base::call(pen, end, again);
        given_lengths(pen, end);
    }
}

/// Lends store and hold in some lengths, the state's capacity fitting or
/// not.
fn lend_lengths(pen: &mut Pen, end: usize) {
    let capacity = usize::from(pen.side(end).state.capacity);
    let right = FLIT * capacity;
    let store = match pen.rng.below(10) {
        0 => right.saturating_sub(1),
        1 => right + 1,
        2 => right.saturating_sub(FLIT),
        3 => right + FLIT,
        4 => pen.rng.pick(&[0, 63, 64, 512, 576, 65536, 65600, 70000]),
        _ => right,
    };
    let store = store.min(70000);
    let hold = match pen.rng.below(10) {
        0 => 575,
        1 => 577,
        2 => pen.rng.pick(&[0, 1, 64, 512, 640, 2000]),
        _ => 576,
    };
    pen.lend(end, store, hold);
    if store % FLIT == 0 && pen.rng.coin() {
        pen.poke(end, "capacity", (store / FLIT) as u64);
    }
}

/// Units, flits and outputs of wrong lengths.
fn given_lengths(pen: &mut Pen, end: usize) {
    let around = [
        0, 1, 63, 64, 65, 127, 128, 512, 575, 576, 577, 639, 640, 2000,
    ];
    let length = pen.rng.pick(&around);
    match pen.rng.below(3) {
        0 => {
            let unit = if pen.rng.coin() {
                vec![0; length]
            } else {
                pen.rng.bytes(length)
            };
            pen.accept(end, &unit);
        }
        1 => {
            pen.send(end, length);
        }
        _ => {
            let flit = pen.rng.bytes(length);
            pen.receive(end, &flit);
        }
    }
}

/// Units that are refused as RUN, FIELD or FULL, or just not.
pub fn accepts(pen: &mut Pen, end: usize) {
    base::sender(pen, end);
    for _ in 0..pen.rng.within(3, 12) {
        let run = pen.rng.pick(&[0, 1, 2, 3, 4, 5, 6, 7, 8, 8, 9, 10, 15]);
        let mut unit = base::unit(pen, end, run);
        if pen.rng.once_in(5) {
            let data = pen.rng.within(0, 8);
            unit = base::unit_of(pen, data, run);
        }
        if pen.rng.once_in(8) {
            let last = unit.len() - FLIT;
            let bit = pen.rng.pick(&[17, 18, 19, 20, 22, 23, 27, 28, 40, 63]);
            let value = flit::content(&unit[last..]) | 1 << bit;
            flit::set_content(&mut unit[last..], value);
        }
        pen.accept(end, &unit);
        if pen.rng.once_in(6) {
            pen.send(end, 640);
        }
    }
    fill_up(pen, end);
}

/// Accepts until the store is full to the last flit or nearly.
fn fill_up(pen: &mut Pen, end: usize) {
    for _ in 0..12 {
        let s = pen.side(end).state.clone();
        let room = usize::from(s.capacity - s.held);
        if room > 60 {
            return;
        }
        let data = usize::from(s.run_at(&pen.side(end).store.kept, usize::from(s.held)));
        let left = room.saturating_sub(data + 1);
        let run = left.saturating_sub(1).min(8) as u8;
        let run = if left == 0 { 0 } else { run };
        let unit = base::unit(pen, end, run);
        pen.accept(end, &unit);
    }
}

/// Several reasons to refuse one call: the first in order is the answer.
pub fn orders(pen: &mut Pen, end: usize) {
    base::sender(pen, end);
    base::receiver(pen, end);
    let saved = pen.side(end).state.clone();
    let length = pen.side(end).store.kept.len();
    for _ in 0..4 {
        if pen.rng.once_in(4) {
            let hold = pen.rng.pick(&[575, 576, 577]);
            let store = length - pen.rng.below(2);
            pen.lend(end, store, hold);
        }
        if pen.rng.once_in(3) {
            let (field, value) = pen.rng.pick(&[
                ("untold", 1025),
                ("discards", 64),
                ("owed", 9),
                ("held", 65535),
                ("first", 65535),
                ("kept", 65535),
            ]);
            pen.poke(end, field, value);
        }
        if pen.rng.once_in(3) {
            pen.poke(end, "mode", 2);
        }
        ordered_calls(pen, end);
        pen.lend(end, length, 576);
        base::restore(pen, end, &saved);
    }
}

fn ordered_calls(pen: &mut Pen, end: usize) {
    let length = pen.rng.pick(&[64, 128, 192, 576, 64, 65, 0, 640]);
    let mut unit = pen.rng.bytes(length);
    if length >= FLIT && pen.rng.coin() {
        unit[length - 8..].fill(0);
        unit[length - 8] = pen.rng.pick(&[0, 8, 9]);
    }
    pen.accept(end, &unit);
    let output = pen.rng.pick(&[639, 640, 0, 2000]);
    pen.send(end, output);
    let length = pen.rng.pick(&[64, 64, 63, 65, 0]);
    let flit = pen.rng.bytes(length);
    pen.receive(end, &flit);
}

/// Random values in random fields, then calls.
pub fn soup(pen: &mut Pen, end: usize) {
    base::sender(pen, end);
    base::receiver(pen, end);
    for _ in 0..pen.rng.within(3, 15) {
        match pen.rng.below(8) {
            0 => random_poke(pen, end),
            1 => random_fill(pen, end),
            2 => {
                let place = pen.rng.below(8);
                let value = pen.rng.information();
                pen.poke(end, &format!("info{place}"), value);
            }
            3 => {
                let cause = pen.rng.below(256);
                pen.poke(end, "cause", cause as u64);
            }
            _ => {
                let operation = pen.rng.below(3);
                base::call(pen, end, operation);
            }
        }
    }
}

/// A field set to its own value plus or minus a little, or to anything.
fn random_poke(pen: &mut Pen, end: usize) {
    let (field, most) = pen.rng.pick(&second::script::FIELDS);
    if field == "capacity" {
        return;
    }
    let value = match pen.rng.below(3) {
        0 => pen.rng.next() % (most + 1),
        1 => pen
            .rng
            .pick(&[0, 1, 2, 8, 9, 10, 63, 64, 1023, 1024, 1025, 65535]),
        _ => u64::from(pen.rng.sequence()),
    };
    pen.poke(end, field, value.min(most));
}

/// Bytes anywhere in the store.
fn random_fill(pen: &mut Pen, end: usize) {
    let length = pen.side(end).store.kept.len();
    let count = pen.rng.within(0, 64).min(length);
    let offset = pen.rng.within(0, length - count);
    let bytes = if pen.rng.coin() {
        vec![0; count]
    } else {
        pen.rng.bytes(count)
    };
    pen.fill(end, offset, &bytes);
}
