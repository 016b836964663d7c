//! States just inside and just outside each condition of STATE.

use crate::base;
use crate::pen::Pen;
use second::flit::{self, FLIT};
use second::state::CONDITIONS;

/// Pokes that lead to a state, by field and value.
type Pokes = Vec<(&'static str, u64)>;

/// Every condition in turn, from a state of any kind: outside by one with
/// all operations, inside with one.
pub fn edges(pen: &mut Pen, end: usize) {
    base::sender(pen, end);
    base::receiver(pen, end);
    let from = pen.rng.below(CONDITIONS.len());
    for i in 0..CONDITIONS.len() {
        let condition = (from + i) % CONDITIONS.len();
        stored_edge(pen, end, condition);
        let outside = pokes(pen, end, condition, true);
        try_pokes(pen, end, condition, true, outside);
        let inside = pokes(pen, end, condition, false);
        try_pokes(pen, end, condition, false, inside);
    }
}

/// Pokes, calls, and pokes back.
fn try_pokes(pen: &mut Pen, end: usize, condition: usize, outside: bool, pokes: Option<Pokes>) {
    let Some(pokes) = pokes else {
        return;
    };
    let saved = pen.side(end).state.clone();
    for (field, value) in pokes {
        pen.poke(end, field, value);
    }
    call_at_edge(pen, end, condition, outside);
    base::restore(pen, end, &saved);
}

/// Every operation on a state at the edge, each from that very state.
fn call_at_edge(pen: &mut Pen, end: usize, condition: usize, outside: bool) {
    let here = pen.side(end).state.clone();
    let turn = pen.rng.below(3);
    for i in 0..3 {
        pen.aimed = Some((condition, outside));
        base::call(pen, end, (turn + i) % 3);
        pen.aimed = None;
        base::restore(pen, end, &here);
    }
}

/// The pokes that bring the present state to the edge of a condition, or
/// none where the state does not allow it.
fn pokes(pen: &mut Pen, end: usize, condition: usize, outside: bool) -> Option<Pokes> {
    let out = u64::from(outside);
    match condition {
        3 => Some(vec![("owed", 8 + out)]),
        4 => data_pokes(pen, end, outside),
        5 => Some(stalled_pokes(outside)),
        6 => Some(vec![("untold", 1024 + out)]),
        7 => Some(vec![("discards", 63 + out)]),
        0..=2 => place_pokes(pen, end, condition, outside),
        8..=11 => mark_pokes(pen, end, condition, outside),
        12..=14 => acked_pokes(pen, end, condition, outside),
        15 => cut_pokes(pen, end, outside),
        _ => None,
    }
}

fn data_pokes(pen: &mut Pen, end: usize, outside: bool) -> Option<Pokes> {
    let owed = u64::from(pen.side(end).state.owed);
    Some(vec![("stalled", 0), ("data", owed + u64::from(outside))])
}

fn stalled_pokes(outside: bool) -> Pokes {
    let data = u64::from(outside);
    vec![("stalled", 1), ("owed", 8), ("data", data)]
}

/// First place, held flits and kept run length.
fn place_pokes(pen: &mut Pen, end: usize, condition: usize, outside: bool) -> Option<Pokes> {
    let s = pen.side(end).state.clone();
    let out = u64::from(outside);
    let capacity = u64::from(s.capacity);
    match condition {
        0 if s.held == 0 || (outside && s.first == 0) => Some(vec![("first", capacity - 1 + out)]),
        0 if !outside && s.first + 1 == s.capacity => Some(vec![]),
        1 if !outside && s.held == s.capacity => Some(vec![]),
        2 if s.held == 0 => Some(vec![("kept", 8 + out)]),
        _ => None,
    }
}

/// Cursor and sent.
fn mark_pokes(pen: &mut Pen, end: usize, condition: usize, outside: bool) -> Option<Pokes> {
    let s = pen.side(end).state.clone();
    let all = base::borders(pen, end);
    let number = |at: usize| u64::from(s.oldest.wrapping_add(at as u16));
    let before_oldest = u64::from(s.oldest.wrapping_sub(1));
    let held = usize::from(s.held);
    let last = number(held);
    match (condition, outside) {
        (8, true) => Some(vec![("cursor", before_oldest)]),
        (8, false) if pen.rng.coin() => Some(vec![("cursor", last), ("sent", last)]),
        (8, false) => Some(vec![("cursor", number(0))]),
        (9, true) => {
            let off: Vec<usize> = (1..held).filter(|at| !all.contains(at)).collect();
            if off.is_empty() {
                return None;
            }
            let at = pen.rng.pick(&off);
            let near = all.contains(&(at - 1)) || all.contains(&(at + 1));
            near.then(|| vec![("cursor", number(at)), ("sent", last)])
        }
        (9, false) => {
            let at = pen.rng.pick(&all);
            Some(vec![("cursor", number(at)), ("sent", last)])
        }
        (10, _) if held > 0 => {
            let at = all[pen.rng.within(1, all.len() - 1)];
            let sent = at - usize::from(outside);
            Some(vec![
                ("cursor", number(at)),
                ("sent", number(sent)),
                ("acked", number(0)),
            ])
        }
        (11, _) => Some(vec![("sent", number(held + usize::from(outside)))]),
        _ => None,
    }
}

/// The acknowledged number.
fn acked_pokes(pen: &mut Pen, end: usize, condition: usize, outside: bool) -> Option<Pokes> {
    let s = pen.side(end).state.clone();
    let number = |at: u16| u64::from(s.oldest.wrapping_add(at));
    let before_oldest = number(65535);
    match (condition, outside) {
        (12, true) if s.held > 0 && pen.rng.coin() => Some(vec![("acked", before_oldest)]),
        (12, true) if s.held > s.kept + 1 => Some(vec![
            ("sent", number(s.held)),
            ("acked", number(s.kept + 1)),
        ]),
        (12, false) if s.held > 0 => {
            let at = pen.rng.pick(&[0, s.kept]);
            Some(vec![("sent", number(s.held)), ("acked", number(at))])
        }
        (13, true) if s.held == 0 => Some(vec![("acked", before_oldest)]),
        (13, false) if s.held == 0 => Some(vec![("acked", number(0))]),
        (14, _) if s.held > 0 && s.kept > 0 => {
            let at = pen.rng.below(usize::from(s.kept)) as u16;
            Some(vec![
                ("cursor", number(0)),
                ("sent", number(at)),
                ("acked", number(at + u16::from(outside))),
            ])
        }
        _ => None,
    }
}

/// Held flits one more or one less than whole units.
fn cut_pokes(pen: &mut Pen, end: usize, outside: bool) -> Option<Pokes> {
    let side = pen.side(end);
    let s = side.state.clone();
    if !outside {
        return Some(vec![]);
    }
    let all = base::borders(pen, end);
    let owed = s.run_at(&pen.side(end).store.kept, usize::from(s.held));
    let number = u64::from(s.oldest);
    let back = vec![("cursor", number), ("sent", number), ("acked", number)];
    let more = owed > 0 && s.held < s.capacity;
    let less = all.len() > 1 && all[all.len() - 1] - all[all.len() - 2] > 1;
    let held = match (more, less) {
        (true, false) => s.held + 1,
        (true, true) if pen.rng.coin() => s.held + 1,
        (_, true) => s.held - 1,
        _ => return None,
    };
    let mut pokes = vec![("held", u64::from(held))];
    pokes.extend(back);
    Some(pokes)
}

/// The conditions on the stored control flits, by fill: the run length of
/// the last one 8 and 9, one bit of 63:18 in any one.
fn stored_edge(pen: &mut Pen, end: usize, condition: usize) {
    let held = usize::from(pen.side(end).state.held);
    if !(16..=17).contains(&condition) || held == 0 {
        return;
    }
    let all = base::borders(pen, end);
    let at = if condition == 16 {
        held
    } else {
        all[pen.rng.within(1, all.len() - 1)]
    };
    let place = pen.side(end).state.place(at - 1);
    let old = pen.side(end).store.kept[place..place + FLIT].to_vec();
    for outside in [true, false] {
        let new = stored_at_edge(pen, &old, condition, outside);
        pen.fill(end, place + 56, &new);
        call_at_edge(pen, end, condition, outside);
    }
    pen.fill(end, place, &old);
}

/// The DL content of a stored control flit at the edge of a condition.
fn stored_at_edge(pen: &mut Pen, old: &[u8], condition: usize, outside: bool) -> Vec<u8> {
    let plain = flit::content(old);
    let value = match (condition, outside) {
        (16, true) => plain & !0xF | 9,
        (16, false) => plain & !0xF | 8,
        (_, true) => plain | 1 << pen.rng.pick(&[18, 18, 19, 22, 23, 27, 28, 31, 32, 62, 63]),
        (_, false) => plain | 1 << 17,
    };
    value.to_le_bytes().to_vec()
}

/// A store of zeros, which is control flits of run length 0 throughout: the
/// held flits may be C or one more, and the kept run length 8 or 9.
pub fn zeros(pen: &mut Pen, end: usize) {
    let capacity = pen.rng.capacity().max(10);
    pen.start(end, FLIT * capacity);
    let number = pen.rng.sequence();
    base::set_sending(pen, end, number);
    let first = pen.rng.below(capacity);
    pen.poke(end, "first", first as u64);
    let fresh = pen.side(end).state.clone();
    for outside in [true, false] {
        let held = (capacity + usize::from(outside)) as u64;
        try_pokes(pen, end, 1, outside, Some(vec![("held", held)]));
        base::restore(pen, end, &fresh);
        let kept = 8 + u64::from(outside);
        let held = pen
            .rng
            .within(kept as usize + 1, capacity.max(kept as usize + 1));
        let kept_pokes = vec![("held", held as u64), ("kept", kept)];
        try_pokes(pen, end, 2, outside, Some(kept_pokes));
        base::restore(pen, end, &fresh);
    }
    let held = pen.rng.within(0, capacity);
    pen.poke(end, "held", held as u64);
    edges_here(pen, end);
}

/// The edges of the present state but for those that need fitting flits.
fn edges_here(pen: &mut Pen, end: usize) {
    for _ in 0..4 {
        let condition = pen.rng.below(15);
        let outside = pen.rng.coin();
        let pokes = pokes(pen, end, condition, outside);
        try_pokes(pen, end, condition, outside, pokes);
    }
}

/// Several conditions broken at once.
pub fn several(pen: &mut Pen, end: usize) {
    base::sender(pen, end);
    base::receiver(pen, end);
    let saved = pen.side(end).state.clone();
    for _ in 0..4 {
        for _ in 0..pen.rng.within(2, 5) {
            let condition = pen.rng.below(16);
            let s = pen.side(end).state.clone();
            if s.held <= s.capacity && s.first < s.capacity {
                if let Some(pokes) = pokes(pen, end, condition, true) {
                    for (field, value) in pokes {
                        pen.poke(end, field, value);
                    }
                }
            }
        }
        base::call_each(pen, end);
        base::restore(pen, end, &saved);
    }
}
