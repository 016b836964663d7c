//! Ends in a state of every kind, reached by start, accept and poke.

use crate::pen::Pen;
use crate::wire;
use second::flit::{self, FLIT};
use second::script::Outcome;
use second::state::{Mode, State};

/// The borders of the units held by the model, as offsets, the end too.
pub fn borders(pen: &Pen, end: usize) -> Vec<usize> {
    let side = pen.side(end);
    let s = &side.state;
    let mut all = vec![0];
    let mut at = 0;
    while at < usize::from(s.held) {
        at += usize::from(s.run_at(&side.store.kept, at)) + 1;
        all.push(at);
    }
    all
}

/// A unit that fits the end, its control flit with the given run length.
pub fn unit(pen: &mut Pen, end: usize, run: u8) -> Vec<u8> {
    let side = pen.side(end);
    let owed = if side.state.capacity > 0 && side.store.kept.len() >= FLIT {
        safe_run(&side.state, &side.store.kept)
    } else {
        0
    };
    unit_of(pen, owed, run)
}

/// The data flits that the next unit must have, for any poked state.
fn safe_run(s: &State, store: &[u8]) -> usize {
    let held = usize::from(s.held);
    if held == 0 {
        return usize::from(s.kept).min(8);
    }
    let place = s.place(held - 1);
    if place + FLIT > store.len() {
        return 0;
    }
    usize::from(flit::run_length(&store[place..place + FLIT]))
}

/// A unit of some data flits and a control flit of the transaction layer.
pub fn unit_of(pen: &mut Pen, data: usize, run: u8) -> Vec<u8> {
    let mut unit = pen.rng.bytes(FLIT * data);
    let mut control = wire::control(&mut pen.rng, run, wire::Link::default());
    let plain = flit::content(&control) & flit::BELOW_LINK;
    flit::set_content(&mut control, plain);
    unit.extend_from_slice(&control);
    unit
}

/// Accepts units until `most` were taken or one is refused.
pub fn accept_some(pen: &mut Pen, end: usize, most: usize) {
    for _ in 0..most {
        let run = pen.rng.run();
        let next = unit(pen, end, run);
        if pen.accept(end, &next) != Outcome::Plain(0) {
            break;
        }
    }
}

/// Sets the numbers of what this end sends.
pub fn set_sending(pen: &mut Pen, end: usize, number: u16) {
    for field in ["oldest", "cursor", "sent", "acked"] {
        pen.poke(end, field, u64::from(number));
    }
}

/// Sets the numbers of what this end receives.
pub fn set_receiving(pen: &mut Pen, end: usize, number: u16) {
    for field in ["wanted", "position"] {
        pen.poke(end, field, u64::from(number));
    }
}

/// A started end with some units, cursor, sent and acknowledged number
/// anywhere they may be.
pub fn sender(pen: &mut Pen, end: usize) {
    let capacity = pen.rng.capacity();
    pen.start(end, FLIT * capacity);
    let first = match pen.rng.below(3) {
        0 => 0,
        1 => capacity - 1,
        _ => pen.rng.below(capacity),
    };
    pen.poke(end, "first", first as u64);
    let number = pen.rng.sequence();
    set_sending(pen, end, number);
    if pen.rng.coin() {
        let kept = pen.rng.below(9);
        pen.poke(end, "kept", kept as u64);
    }
    let most = if pen.rng.once_in(5) {
        0
    } else {
        pen.rng.below(7)
    };
    accept_some(pen, end, most);
    place_marks(pen, end);
}

/// Cursor on a border, sent from there on, acknowledged in the oldest unit.
fn place_marks(pen: &mut Pen, end: usize) {
    let all = borders(pen, end);
    let s = pen.side(end).state.clone();
    let cursor = pen.rng.pick(&all);
    let later: Vec<usize> = all.iter().copied().filter(|at| *at >= cursor).collect();
    let sent = if pen.rng.once_in(6) {
        pen.rng.within(cursor, usize::from(s.held))
    } else {
        pen.rng.pick(&later)
    };
    let most = if s.held == 0 { 0 } else { usize::from(s.kept) };
    let acked = if pen.rng.coin() {
        0
    } else {
        pen.rng.within(0, most.min(sent))
    };
    for (field, at) in [("cursor", cursor), ("sent", sent), ("acked", acked)] {
        pen.poke(end, field, u64::from(s.oldest.wrapping_add(at as u16)));
    }
}

/// Any right receiving side, mode run or wait.
pub fn receiver(pen: &mut Pen, end: usize) {
    let number = pen.rng.sequence();
    set_receiving(pen, end, number);
    let owed = pen.rng.below(9);
    let stalled = pen.rng.once_in(3);
    let data = if stalled || pen.rng.coin() {
        0
    } else {
        pen.rng.within(0, owed)
    };
    pen.poke(end, "owed", owed as u64);
    pen.poke(end, "stalled", u64::from(stalled));
    pen.poke(end, "data", data as u64);
    if pen.rng.coin() {
        let untold = pen
            .rng
            .pick(&[0, 1, 30, 31, 32, 61, 62, 63, 1000, 1023, 1024]);
        pen.poke(end, "untold", untold);
    }
    if pen.rng.once_in(3) {
        pen.poke(end, "mode", 1);
        let discards = pen.rng.below(64);
        pen.poke(end, "discards", discards as u64);
    }
    if pen.rng.once_in(3) {
        pen.poke(end, "pending", 1);
    }
}

/// Sets the receiving side that decides how a flit is taken.
pub fn set_taking(pen: &mut Pen, end: usize, owed: usize, stalled: bool, data: usize) {
    pen.poke(end, "owed", owed as u64);
    pen.poke(end, "stalled", u64::from(stalled));
    pen.poke(end, "data", data as u64);
}

/// Pokes back every field that differs from a state kept before.
pub fn restore(pen: &mut Pen, end: usize, to: &State) {
    let now = pen.side(end).state.clone();
    for (i, (field, value)) in fields(to).iter().enumerate() {
        if fields(&now)[i].1 != *value {
            pen.poke(end, field, *value);
        }
    }
}

/// The fields of a state by their names.
fn fields(s: &State) -> [(&'static str, u64); 18] {
    [
        ("capacity", u64::from(s.capacity)),
        ("first", u64::from(s.first)),
        ("held", u64::from(s.held)),
        ("kept", u64::from(s.kept)),
        ("oldest", u64::from(s.oldest)),
        ("cursor", u64::from(s.cursor)),
        ("sent", u64::from(s.sent)),
        ("acked", u64::from(s.acked)),
        ("wanted", u64::from(s.wanted)),
        ("position", u64::from(s.position)),
        ("owed", u64::from(s.owed)),
        ("stalled", u64::from(s.stalled)),
        ("data", u64::from(s.data)),
        ("untold", u64::from(s.untold)),
        ("mode", mode_number(s.mode)),
        ("cause", u64::from(s.cause)),
        ("discards", u64::from(s.discards)),
        ("pending", u64::from(s.pending)),
    ]
}

fn mode_number(mode: Mode) -> u64 {
    match mode {
        Mode::Run => 0,
        Mode::Wait => 1,
        Mode::Down => 2,
    }
}

/// A flit of some kind that fits the state more often than not, sealed.
pub fn fitting_flit(pen: &mut Pen, end: usize) -> Vec<u8> {
    let s = pen.side(end).state.clone();
    let outstanding = s.sent.wrapping_sub(s.acked);
    let ack = match pen.rng.below(8) {
        0..=2 => 0,
        3..=5 => pen.rng.within(0, usize::from(outstanding.min(31))) as u16,
        6 => outstanding.min(31),
        _ => outstanding.saturating_add(1).min(31),
    };
    let short = pen.rng.once_in(40);
    let run = pen.rng.run();
    let link = wire::Link {
        ack,
        stalled: pen.rng.once_in(3),
        short,
    };
    let mut flit = match pen.rng.below(10) {
        0..=4 => {
            let fair = wire::Link {
                stalled: link.stalled && run > 0,
                ..link
            };
            wire::control(&mut pen.rng, run, fair)
        }
        5..=6 => {
            let owed = if pen.rng.once_in(8) {
                pen.rng.below(16) as u16
            } else {
                s.owed
            };
            wire::idle(&mut pen.rng, owed as u8 & 15, link)
        }
        7..=8 => {
            let says = fitting_replay(pen, &s);
            wire::replay(&mut pen.rng, says)
        }
        _ => {
            let run = pen.rng.below(16) as u8;
            wire::any(&mut pen.rng, run)
        }
    };
    wire::seal_for(pen.side(end), &mut flit);
    flit
}

/// A replay flit that mostly acknowledges what may be acknowledged.
pub fn fitting_replay(pen: &mut Pen, s: &State) -> wire::Again {
    let outstanding = usize::from(s.sent.wrapping_sub(s.acked));
    let newly = pen.rng.within(0, outstanding) as u16;
    let previous = if pen.rng.once_in(12) {
        pen.rng.within(9, 15)
    } else {
        pen.rng.below(9)
    };
    let d: u16 = match pen.rng.below(6) {
        0..=2 => pen.rng.below(12) as u16,
        3 => pen.rng.pick(&[32766, 32767, 32768, 32769, 65534, 65535]),
        4 => 0,
        _ => pen.rng.next() as u16,
    };
    wire::Again {
        nack: pen.rng.coin(),
        stalled: pen.rng.coin(),
        short: pen.rng.once_in(30),
        previous: previous as u8,
        starting: s.wanted.wrapping_sub(d),
        acknowledge: s.acked.wrapping_add(newly).wrapping_sub(1),
    }
}

/// One call of each operation that STATE can refuse, in any order.
pub fn call_each(pen: &mut Pen, end: usize) {
    let turn = pen.rng.below(3);
    for i in 0..3 {
        call(pen, end, (turn + i) % 3);
    }
}

/// A call that nothing but the state gives a reason to refuse; now and then
/// one with a wrong length too.
pub fn call(pen: &mut Pen, end: usize, operation: usize) {
    let wrong = pen.rng.once_in(12);
    match operation {
        0 => {
            let run = pen.rng.run();
            let mut next = unit(pen, end, run);
            if wrong {
                next.pop();
            }
            pen.accept(end, &next);
        }
        1 => {
            let length = if wrong { 639 } else { 640 };
            pen.send(end, length);
        }
        _ => {
            let mut flit = fitting_flit(pen, end);
            if wrong {
                flit.pop();
            }
            pen.receive(end, &flit);
        }
    }
}
