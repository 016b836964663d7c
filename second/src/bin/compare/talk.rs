//! Legal conversations of two ends, with damage on the wires.

use crate::base;
use crate::pen::Pen;
use crate::wire;
use second::flit::FLIT;
use second::script::Outcome;
use second::state::Mode;
use std::collections::VecDeque;

/// The flits on their way to each end.
type Wires = [VecDeque<Vec<u8>>; 2];

/// A conversation of a and b.
pub fn talk(pen: &mut Pen) {
    for end in 0..2 {
        let capacity = pen.rng.capacity();
        pen.start(end, FLIT * capacity);
    }
    for end in 0..2 {
        if pen.rng.coin() {
            let number = pen.rng.sequence();
            base::set_sending(pen, end, number);
            base::set_receiving(pen, 1 - end, number);
        }
    }
    let damage = pen.rng.pick(&[0, 0, 2, 5, 20, 100]);
    let mut wires = Wires::default();
    for _ in 0..pen.rng.within(10, 90) {
        let end = pen.rng.below(2);
        turn(pen, end, &mut wires, damage);
        if pen.side(end).state.mode == Mode::Down {
            base::call_each(pen, end);
            break;
        }
    }
    pen.ticket(0);
    pen.ticket(1);
}

/// One turn of an end: accept, send or receive.
fn turn(pen: &mut Pen, end: usize, wires: &mut Wires, damage: usize) {
    match pen.rng.below(8) {
        0..=1 => {
            let most = pen.rng.within(1, 3);
            base::accept_some(pen, end, most);
        }
        2..=4 => {
            let length = pen.rng.pick(&[640, 640, 641, 2000]);
            let sent = pen.send(end, length);
            for flit in sent.chunks(FLIT) {
                put_on_wire(pen, flit.to_vec(), &mut wires[1 - end], damage);
            }
        }
        _ => {
            for _ in 0..pen.rng.within(1, 14) {
                let Some(flit) = wires[end].pop_front() else {
                    break;
                };
                take_from_wire(pen, end, &flit);
            }
        }
    }
}

/// Damage of a wire: `often` in a thousand flits.
fn put_on_wire(pen: &mut Pen, mut flit: Vec<u8>, wire: &mut VecDeque<Vec<u8>>, often: usize) {
    if pen.rng.below(1000) >= often {
        wire.push_back(flit);
        return;
    }
    match pen.rng.below(6) {
        0 => {}
        1 => {
            wire.push_back(flit.clone());
            wire.push_back(flit);
        }
        2 => {
            let before = wire.pop_back();
            wire.push_back(flit);
            wire.extend(before);
        }
        3 => wire.push_back(pen.rng.bytes(FLIT)),
        _ => {
            for _ in 0..pen.rng.within(1, 4) {
                wire::flip(&mut pen.rng, &mut flit);
            }
            wire.push_back(flit);
        }
    }
}

/// Receives a flit, now and then first in a wrong length, which is refused
/// and so has not arrived.
fn take_from_wire(pen: &mut Pen, end: usize, flit: &[u8]) {
    if pen.rng.once_in(300) {
        let length = pen.rng.pick(&[0, 1, 63]);
        let outcome = pen.receive(end, &flit[..length]);
        debug_assert_ne!(outcome, Outcome::Plain(0));
    }
    pen.receive(end, flit);
}

/// A long stay in mode wait: discards up to 64 and over, then a way out.
pub fn waiting(pen: &mut Pen, end: usize) {
    base::sender(pen, end);
    base::receiver(pen, end);
    pen.poke(end, "mode", 1);
    let discards = pen.rng.pick(&[0, 50, 61, 62, 62, 63, 63, 63]);
    pen.poke(end, "discards", discards);
    for _ in 0..pen.rng.within(3, 20) {
        let ahead = pen.rng.coin();
        let flit = waiting_flit(pen, end, ahead);
        pen.receive(end, &flit);
        if pen.rng.once_in(5) {
            pen.send(end, 640);
        }
    }
}

/// A flit met in mode wait: a replay ahead, or anything that fits.
fn waiting_flit(pen: &mut Pen, end: usize, ahead: bool) -> Vec<u8> {
    if !ahead {
        return if pen.rng.once_in(4) {
            base::fitting_flit(pen, end)
        } else {
            pen.rng.bytes(FLIT)
        };
    }
    let s = pen.side(end).state.clone();
    let mut says = base::fitting_replay(pen, &s);
    let by = pen.rng.pick(&[1, 2, 9, 32767, 32768]);
    says.starting = s.wanted.wrapping_add(by);
    says.short = false;
    let mut flit = wire::replay(&mut pen.rng, says);
    wire::seal_for(pen.side(end), &mut flit);
    flit
}
