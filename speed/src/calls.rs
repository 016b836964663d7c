//! Time of an end's operations, in ns for each call: the proved ones and plain Rust's, with the same store, state and bytes lent.

use crate::end::{self, Answer, End, Mode, Refusal, FLIT, OUTPUT};
use crate::plain;
use std::hint::black_box;
use std::time::Instant;

extern "C" {
    fn crc_lay(table: *mut u64);
    fn end_accepts(
        turns: u64,
        state: *const u64,
        store: *mut u8,
        store_len: usize,
        unit: *const u8,
        unit_len: usize,
    ) -> u64;
    fn end_sends(
        turns: u64,
        state: *const u64,
        store: *const u8,
        store_len: usize,
        output: *mut u8,
        output_len: usize,
    ) -> u64;
    fn end_sends_with(
        table: *const u64,
        turns: u64,
        state: *const u64,
        store: *const u8,
        store_len: usize,
        output: *mut u8,
        output_len: usize,
    ) -> u64;
    fn end_receives(
        turns: u64,
        state: *const u64,
        store: *const u8,
        store_len: usize,
        hold: *mut u8,
        hold_len: usize,
        flit: *const u8,
        flit_len: usize,
    ) -> u64;
    fn end_receives_with(
        table: *const u64,
        turns: u64,
        state: *const u64,
        store: *const u8,
        store_len: usize,
        hold: *mut u8,
        hold_len: usize,
        flit: *const u8,
        flit_len: usize,
    ) -> u64;
}

const ROUNDS: usize = 1000;
const NS_A_ROUND: f64 = 100_000.0;

/// The numbers of a state, as crates/c_speed reads them.
fn numbers(e: &End) -> [u64; 16] {
    [
        e.capacity as u64,
        e.first as u64,
        e.held as u64,
        e.kept as u64,
        e.owed as u64,
        e.gathered as u64,
        e.untold as u64,
        e.discards as u64,
        e.oldest.into(),
        e.cursor.into(),
        e.sent.into(),
        e.acknowledged.into(),
        e.wanted.into(),
        e.position.into(),
        e.stalled.into(),
        e.pending.into(),
    ]
}

fn at_turn(e: &End, turn: u64) -> End {
    let by = turn as u16;
    End {
        oldest: e.oldest.wrapping_add(by),
        cursor: e.cursor.wrapping_add(by),
        sent: e.sent.wrapping_add(by),
        acknowledged: e.acknowledged.wrapping_add(by),
        wanted: e.wanted.wrapping_add(by),
        position: e.position.wrapping_add(by),
        ..*e
    }
}

fn mixed(digest: u64, x: u64) -> u64 {
    digest.rotate_left(7) ^ x
}

fn state_digest(digest: u64, e: &End) -> u64 {
    let numbers = e.wanted as u64 ^ (e.cursor as u64) << 16;
    mixed(
        digest,
        numbers ^ (e.held as u64) << 32 ^ (e.untold as u64) << 48,
    )
}

fn whole_digest(digest: u64, e: &End) -> u64 {
    let counts = [
        e.capacity, e.first, e.held, e.kept, e.owed, e.gathered, e.untold, e.discards,
    ];
    let numbers = [
        e.oldest,
        e.cursor,
        e.sent,
        e.acknowledged,
        e.wanted,
        e.position,
    ];
    let mode = match e.mode {
        Mode::Run => 0,
        Mode::Wait => 1,
        Mode::Down => 2,
    };
    let marks = [e.stalled.into(), e.pending.into(), e.cause.into(), mode];
    e.information
        .into_iter()
        .chain(counts.map(|x| x as u64))
        .chain(numbers.map(u64::from))
        .chain(marks)
        .fold(digest, mixed)
}

fn answer_number(answer: Result<Answer, Refusal>) -> u64 {
    match answer {
        Err(refusal) => refusal as u64,
        Ok(Answer::Held) => 16,
        Ok(Answer::Delivered(data)) => 32 ^ data as u64,
        Ok(Answer::Duplicate) => 48,
        Ok(Answer::Idle) => 64,
        Ok(Answer::Replayed) => 80,
        Ok(Answer::Ahead) => 96,
        Ok(Answer::Skipped) => 112,
        Ok(Answer::Damaged) => 128,
        Ok(Answer::Discarded) => 144,
        Ok(Answer::Down(cause)) => 160 ^ cause as u64,
    }
}

#[inline(never)]
fn accepts(turns: u64, start: &End, store: &mut [u8], unit: &[u8]) -> u64 {
    let mut last = *start;
    let mut digest = 0;
    for turn in (1..=turns).rev() {
        let (verdict, end) = at_turn(start, turn).accept(store, unit);
        last = end;
        let number = verdict.map_or_else(|refusal| refusal as u64, |()| 16);
        digest = state_digest(mixed(digest, number), &last);
    }
    whole_digest(digest, &last)
}

#[inline(never)]
fn sends(turns: u64, start: &End, store: &[u8], output: &mut [u8]) -> u64 {
    let mut last = *start;
    let mut digest = 0;
    for turn in (1..=turns).rev() {
        let (answer, end) = at_turn(start, turn).send(store, output, 0, digest);
        last = end;
        let number = answer.map_or_else(|refusal| refusal as u64, |flits| 16 ^ flits as u64);
        digest = state_digest(mixed(digest, number), &last);
    }
    whole_digest(digest, &last)
}

#[inline(never)]
fn receives(turns: u64, start: &End, store: &[u8], hold: &mut [u8], flit: &[u8]) -> u64 {
    let mut last = *start;
    let mut digest = 0;
    for turn in (1..=turns).rev() {
        let (answer, end) = at_turn(start, turn).receive(store, hold, flit);
        last = end;
        digest = state_digest(mixed(digest, answer_number(answer)), &last);
    }
    whole_digest(digest, &last)
}

#[derive(Clone, Copy)]
enum Call {
    Accept,
    Send,
    Receive,
}

#[derive(Clone, Copy)]
enum Side {
    Plain,
    Laid,
    Public,
}

/// A call from a state: the bytes lent are the store, one that is written (hold or the output) and one that is read (a unit or a
/// flit).
#[derive(Clone)]
struct Case {
    name: &'static str,
    units: &'static str,
    call: Call,
    state: End,
    store: Vec<u8>,
    written: Vec<u8>,
    read: Vec<u8>,
}

impl Case {
    fn calls(&mut self, side: Side, table: &[u64; 256], turns: u64) -> u64 {
        let state = numbers(&self.state);
        let state = black_box(&state).as_ptr();
        let start = black_box(&self.state);
        let table = table.as_ptr();
        let (store, written, read) = (&mut self.store, &mut self.written, &self.read);
        let (s, w, r) = (store.len(), written.len(), read.len());
        match (self.call, side) {
            (Call::Accept, Side::Plain) => accepts(turns, start, store, read),
            (Call::Send, Side::Plain) => sends(turns, start, store, written),
            (Call::Receive, Side::Plain) => receives(turns, start, store, written, read),
            (Call::Accept, _) => unsafe {
                end_accepts(turns, state, store.as_mut_ptr(), s, read.as_ptr(), r)
            },
            (Call::Send, Side::Laid) => unsafe {
                end_sends_with(
                    table,
                    turns,
                    state,
                    store.as_ptr(),
                    s,
                    written.as_mut_ptr(),
                    w,
                )
            },
            (Call::Send, Side::Public) => unsafe {
                end_sends(turns, state, store.as_ptr(), s, written.as_mut_ptr(), w)
            },
            (Call::Receive, Side::Laid) => unsafe {
                let written = written.as_mut_ptr();
                end_receives_with(
                    table,
                    turns,
                    state,
                    store.as_ptr(),
                    s,
                    written,
                    w,
                    read.as_ptr(),
                    r,
                )
            },
            (Call::Receive, Side::Public) => unsafe {
                let written = written.as_mut_ptr();
                end_receives(
                    turns,
                    state,
                    store.as_ptr(),
                    s,
                    written,
                    w,
                    read.as_ptr(),
                    r,
                )
            },
        }
    }

    /// Each side's digest and the bytes that it wrote are those of plain Rust.
    fn compare(&self, table: &[u64; 256]) {
        let mut plain = self.clone();
        let wanted = plain.calls(Side::Plain, table, 3);
        let altered = plain.written != self.written || plain.store != self.store;
        assert!(altered, "{}: nothing is written", self.name);
        for side in [Side::Laid, Side::Public] {
            let mut proved = self.clone();
            let digest = proved.calls(side, table, 3);
            assert_eq!(digest, wanted, "{}: the answers differ", self.name);
            assert!(
                proved.store == plain.store && proved.written == plain.written,
                "{}: the bytes written differ",
                self.name
            );
        }
    }

    /// How many calls fill a round.
    fn turns(&mut self, table: &[u64; 256]) -> u64 {
        let begin = Instant::now();
        black_box(self.calls(Side::Plain, table, 100));
        let once = begin.elapsed().as_nanos() as f64 / 100.0;
        (NS_A_ROUND / once).ceil() as u64
    }

    /// One round of each side, with the least times so far.
    fn measure(&mut self, table: &[u64; 256], turns: u64, least: &mut [f64; 3]) {
        let sides = [Side::Plain, Side::Laid, Side::Public];
        let digests = [0, 1, 2].map(|i| {
            let begin = Instant::now();
            let digest = black_box(self.calls(sides[i], table, turns));
            least[i] = least[i].min(begin.elapsed().as_nanos() as f64 / turns as f64);
            digest
        });
        assert!(
            digests.iter().all(|d| *d == digests[0]),
            "{}: the answers differ",
            self.name
        );
    }
}

/// The data of a unit and its control flit.
fn unit(data: usize, run: u64) -> Vec<u8> {
    let mut unit: Vec<u8> = (0..data * FLIT).map(|i| (i * 151 + 7) as u8).collect();
    unit.extend(end::control(run, 0x5a));
    unit
}

/// An end whose store holds units of these data flits; the last control flit is followed by `last`. The first place is past the
/// middle of the ring, so that the held flits go round it.
fn holding(data: &[usize], last: u64) -> (End, Vec<u8>) {
    let mut store = vec![0; 1024 * FLIT];
    let mut e = End::start(&store).unwrap();
    e.first = 600;
    e.kept = data.first().copied().unwrap_or(last as usize);
    for (n, &flits) in data.iter().enumerate() {
        let run = data.get(n + 1).map_or(last, |&next| next as u64);
        let (verdict, next) = e.accept(&mut store, &unit(flits, run));
        verdict.unwrap();
        e = next;
    }
    (e, store)
}

/// So many flits held: as one-flit units, or as nine-flit units with one-flit units before them.
fn layout(flits: usize, nine: bool) -> Vec<usize> {
    let nines = if nine { flits / 9 } else { 0 };
    let mut data = vec![0; flits - nines * 9];
    data.extend(vec![8; nines]);
    data
}

fn all_sent(mut e: End) -> End {
    e.cursor = e.oldest.wrapping_add(e.held as u16);
    e.sent = e.cursor;
    e
}

fn cases() -> Vec<Case> {
    let mut cases = Vec::new();
    let stores = [
        (0, false),
        (64, false),
        (64, true),
        (1024, false),
        (1024, true),
    ];
    let words = |flits, nine| match (flits, nine) {
        (0, _) => "none",
        (_, false) => "one-flit",
        (_, true) => "nine-flit",
    };
    let hold: Vec<u8> = unit(8, 0);

    let mut alone = unit(0, 0);
    plain::seal(&mut alone);
    let mut telling = unit(0, 31 << 23);
    plain::seal(&mut telling);
    let mut nine = unit(8, 0);
    plain::seal(&mut nine);
    let closing = nine.split_off(8 * FLIT);

    for (name, owed, gathered, flit) in [
        ("receive, a control flit", 0, 0, &alone),
        ("receive, a held data flit", 8, 3, &closing),
        ("receive, the flit that closes nine", 8, 8, &closing),
        (
            "receive, a control flit that acknowledges 31",
            0,
            0,
            &telling,
        ),
    ] {
        for (flits, nine_flit) in stores {
            if flits == 0 && name.contains("acknowledges") {
                continue;
            }
            let (e, store) = holding(&layout(flits, nine_flit), 0);
            let mut written = hold.clone();
            written[8 * FLIT..].fill(0);
            cases.push(Case {
                name,
                units: words(flits, nine_flit),
                call: Call::Receive,
                state: End {
                    owed,
                    gathered,
                    ..all_sent(e)
                },
                store,
                written,
                read: flit.clone(),
            });
        }
    }

    for (flits, nine_flit) in stores {
        let mut data = layout(flits.max(9) - 9, nine_flit);
        data.push(8);
        let (e, store) = holding(&data, 0);
        let sent = all_sent(e).sent.wrapping_sub(9);
        cases.push(Case {
            name: "send, a nine-flit unit",
            units: if flits == 0 {
                "that one"
            } else {
                words(flits, nine_flit)
            },
            call: Call::Send,
            state: End {
                cursor: sent,
                sent,
                untold: 40,
                ..e
            },
            store,
            written: vec![0; OUTPUT],
            read: Vec::new(),
        });
    }

    for (name, data) in [
        ("accept, a one-flit unit", 0),
        ("accept, a nine-flit unit", 8),
    ] {
        for (flits, nine_flit) in stores {
            let held = if flits == 1024 {
                flits - 1 - data
            } else {
                flits
            };
            let (e, store) = holding(&layout(held, nine_flit), data as u64);
            cases.push(Case {
                name,
                units: words(flits, nine_flit),
                call: Call::Accept,
                state: all_sent(e),
                store,
                written: Vec::new(),
                read: unit(data, 0),
            });
        }
    }
    cases
}

fn ns_to_lay() -> f64 {
    let mut table = [0u64; 256];
    let turns = 1000;
    let begin = Instant::now();
    for _ in 0..turns {
        unsafe { crc_lay(black_box(&mut table).as_mut_ptr()) };
    }
    begin.elapsed().as_nanos() as f64 / turns as f64
}

pub fn print() {
    let mut table = [0u64; 256];
    unsafe { crc_lay(table.as_mut_ptr()) };
    let mut cases = cases();
    let turns: Vec<u64> = cases
        .iter_mut()
        .map(|case| {
            case.compare(&table);
            case.turns(&table)
        })
        .collect();
    let mut least = vec![[f64::INFINITY; 3]; cases.len()];
    let mut laying = f64::INFINITY;
    for _ in 0..ROUNDS {
        for ((case, turns), least) in cases.iter_mut().zip(&turns).zip(&mut least) {
            case.measure(&table, *turns, least);
        }
        laying = laying.min(ns_to_lay());
    }

    println!("Writing a copy of the table: {laying:.0} ns.\n");
    println!("| Call | flits held | in units | plain Rust, ns | proved, handed a table, ns | ratio | proved, ns | more, ns |");
    println!("|---|---|---|---|---|---|---|---|");
    for (case, [plain, laid, public]) in cases.iter().zip(least) {
        // accept checks no unit, and has no table
        let more = match case.call {
            Call::Accept => " | ".to_string(),
            _ => format!("{public:.0} | {:.0}", public - laid),
        };
        println!(
            "| {} | {} | {} | {plain:.0} | {laid:.0} | {:.2} | {more} |",
            case.name,
            case.state.held,
            case.units,
            laid / plain,
        );
    }
}
