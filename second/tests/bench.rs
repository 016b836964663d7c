//! The bench cases of document 01, the check, the ticket and the sample of
//! the bench program.

use second::end::{accept, start};
use second::flit::{self, Replay, FLIT};
use second::receive::{receive, Answer};
use second::send::send;
use second::state::{Mode, State};
use second::ticket::Ticket;
use second::{check, script};

/// A fresh end with its lent buffers.
struct Bench {
    state: State,
    store: Vec<u8>,
    hold: Vec<u8>,
    ticket: Ticket,
}

fn bench(capacity: usize) -> Bench {
    let store = vec![0; FLIT * capacity];
    let (result, state) = start(&store);
    assert_eq!(result, Ok(()));
    Bench {
        state,
        store,
        hold: vec![0; 576],
        ticket: Ticket::default(),
    }
}

impl Bench {
    fn take(&mut self, flit: &[u8]) -> Result<Answer, u8> {
        receive(
            &mut self.state,
            &self.store,
            &mut self.hold,
            &mut self.ticket,
            flit,
        )
    }

    fn give(&mut self, unit: &[u8]) -> Result<(), u8> {
        accept(&mut self.state, &mut self.store, &mut self.ticket, unit)
    }

    fn burst(&mut self) -> Vec<u8> {
        let mut output = vec![0; 640];
        let flits = send(&mut self.state, &self.store, &mut output, 0, 0).unwrap();
        output.truncate(FLIT * flits);
        output
    }
}

fn control(ack: u16, run: u8) -> Vec<u8> {
    let mut flit = vec![0; FLIT];
    flit[56] = run;
    flit::dress_control(&mut flit, ack, false);
    check::seal(&mut flit);
    flit
}

fn replay(starting: u16) -> Vec<u8> {
    let mut flit = vec![0; FLIT];
    let says = Replay {
        nack: false,
        stalled: false,
        errors: 0,
        previous: 0,
        starting,
        acknowledge: 65535,
        information: 0,
    };
    flit::write_replay(&mut flit, &says);
    check::seal(&mut flit);
    flit
}

fn last_bytes(ack: u16) -> [u8; 8] {
    control(ack, 0)[56..].try_into().unwrap()
}

#[test]
fn case_01_zero_control_flit_is_right() {
    assert!(check::right(&[&[0; FLIT]]));
    assert!(!check::right(&[&replay(0)[1..], &[1]]));
}

#[test]
fn case_02_ack_16() {
    let bytes = [0x00, 0x00, 0x00, 0x28, 0x93, 0x70, 0x0B, 0xE4];
    assert_eq!(last_bytes(16), bytes);
}

#[test]
fn case_03_ack_8() {
    let bytes = [0x00, 0x00, 0x00, 0x94, 0x49, 0xB8, 0x05, 0x72];
    assert_eq!(last_bytes(8), bytes);
}

#[test]
fn case_04_ack_24() {
    let bytes = [0x00, 0x00, 0x00, 0xBC, 0xDA, 0xC8, 0x0E, 0x96];
    assert_eq!(last_bytes(24), bytes);
}

#[test]
fn case_05_start_65535_of_wanted_0_runs() {
    let mut b = bench(9);
    assert_eq!(b.take(&replay(65535)), Ok(Answer::Replayed));
    assert_eq!(b.state.mode, Mode::Run);
    assert_eq!(b.state.position, 65535);
}

#[test]
fn case_06_start_6_of_wanted_5_is_ahead() {
    let mut b = bench(9);
    for _ in 0..5 {
        assert_eq!(b.take(&[0; FLIT]), Ok(Answer::Delivered(0)));
    }
    assert_eq!(b.take(&replay(6)), Ok(Answer::Ahead));
    assert_eq!(b.state.mode, Mode::Wait);
    assert!(b.state.pending);
}

#[test]
fn case_07_capacity_8_and_9() {
    let (result, state) = start(&[0; 8 * FLIT]);
    assert_eq!((result, state.capacity), (Err(1), 0));
    let (result, state) = start(&[0; 9 * FLIT]);
    assert_eq!((result, state.capacity), (Ok(()), 9));
}

#[test]
fn case_08_capacity_1024_and_1025() {
    let (result, state) = start(&[0; 1024 * FLIT]);
    assert_eq!((result, state.capacity), (Ok(()), 1024));
    let (result, state) = start(&[0; 1025 * FLIT]);
    assert_eq!((result, state.capacity), (Err(1), 0));
}

#[test]
fn case_09_run_length_8_and_9() {
    let mut b = bench(9);
    let mut unit = vec![0; FLIT];
    unit[56] = 9;
    assert_eq!(b.give(&unit), Err(7));
    unit[56] = 8;
    assert_eq!(b.give(&unit), Ok(()));
}

#[test]
fn case_10_untold_40() {
    let mut b = bench(9);
    b.state.untold = 40;
    assert_eq!(flit::ack_count(&b.burst()), 31);
    assert_eq!(flit::ack_count(&b.burst()), 9);
    assert_eq!(b.state.untold, 0);
}

#[test]
fn case_11_discards_63_to_64() {
    let mut b = bench(9);
    b.state.mode = Mode::Wait;
    b.state.discards = 62;
    assert_eq!(b.take(&[0; FLIT]), Ok(Answer::Discarded));
    assert_eq!((b.state.discards, b.state.pending), (63, false));
    assert_eq!(b.take(&[0; FLIT]), Ok(Answer::Discarded));
    assert_eq!((b.state.discards, b.state.pending), (0, true));
}

#[test]
fn case_12_fresh_replay_acknowledges_65535() {
    let mut b = bench(9);
    b.state.pending = true;
    let sent = b.burst();
    assert_eq!(sent.len(), 2 * FLIT);
    assert_eq!(sent[..FLIT], sent[FLIT..]);
    assert_eq!(flit::acknowledge(&sent), 65535);
    assert!(check::right(&[&sent[..FLIT]]));
}

#[test]
fn a_unit_with_data_goes_over() {
    let (mut a, mut b) = (bench(9), bench(9));
    let mut first = vec![0; FLIT];
    first[56] = 2;
    assert_eq!(a.give(&first), Ok(()));
    let second: Vec<u8> = (0..192)
        .map(|i| if i < 184 { i as u8 } else { 0 })
        .collect();
    assert_eq!(a.give(&second), Ok(()));
    let mut answers = Vec::new();
    for _ in 0..2 {
        for flit in a.burst().chunks(FLIT) {
            answers.push(b.take(flit).unwrap().word());
        }
    }
    assert_eq!(answers, ["delivered", "idle", "held", "held", "delivered"]);
    assert_eq!(b.hold[..192], second[..]);
    assert_eq!(a.take(&b.burst()), Ok(Answer::Idle));
    assert_eq!((a.state.held, a.state.acked, a.state.first), (0, 4, 4));
}

#[test]
fn ticket_lines() {
    let mut ticket = Ticket::default();
    ticket.count_accepted(9);
    ticket.delivered = 4294967290;
    ticket.count_delivered(5);
    ticket.count_damaged();
    ticket.count_duplicate();
    ticket.count_duplicate();
    let text = "accepted=9\ndelivered=4294967295\ndamaged=1\nduplicate=2\ndowns=0\n";
    assert_eq!(ticket.lines(), text);
    ticket.count_delivered(9);
    assert_eq!(ticket.delivered, 4294967295);
}

/// What the bench program of document 01 would print.
fn bench_program(input: &[u8]) -> String {
    let mut b = bench(9);
    let mut text = String::new();
    let flits = input.chunks_exact(FLIT);
    let rest = flits.remainder().len();
    for (i, flit) in flits.enumerate() {
        let (word, data) = match b.take(flit) {
            Ok(answer) => (answer.word(), answer.data()),
            Err(_) => ("refused", 0),
        };
        let mode = match b.state.mode {
            Mode::Run => "run",
            Mode::Wait => "wait",
            Mode::Down => "down",
        };
        text.push_str(&format!(
            "flit={i} answer={word} data={data} wanted={} mode={mode}\n",
            b.state.wanted
        ));
    }
    text.push_str(&format!("rest={rest}\n"));
    text
}

#[test]
fn bench_program_sample() {
    let mut input = [0; 192];
    input[191] = 0x80;
    let text = "flit=0 answer=delivered data=0 wanted=1 mode=run\n\
                flit=1 answer=delivered data=0 wanted=2 mode=run\n\
                flit=2 answer=damaged data=0 wanted=2 mode=wait\n\
                rest=0\n";
    assert_eq!(bench_program(&input), text);
}

fn obey(lines: &[&str]) -> Vec<String> {
    let mut pair = script::Pair::new();
    let mut out = Vec::new();
    for line in lines {
        pair.obey(line.as_bytes(), &mut out);
    }
    let text = String::from_utf8(out).unwrap();
    text.lines().map(String::from).collect()
}

#[test]
fn script_lines() {
    let zeros = "0".repeat(128);
    let lines = obey(&[
        "ticket b",
        &format!("receive a {zeros}"),
        "start a 0576",
        "start a 70001",
        "poke a mode 3",
        "count a downs 4294967295",
        "ticket a",
        "lend a 640 576",
        "send a 640 0 0",
    ]);
    assert!(lines[0].starts_with("ticket refuse=0 accepted=0 delivered=0"));
    assert!(lines[1].starts_with("receive refuse=1 answer=refused data=0 capacity=0"));
    assert!(lines[2].starts_with("start refuse=0 capacity=9"));
    assert_eq!(lines[3], "bad");
    assert_eq!(lines[4], "bad");
    assert!(lines[6].ends_with("downs=4294967295"));
    assert!(lines[8].starts_with("send refuse=1 flits=0 out=- capacity=9"));
}

#[test]
fn adler_of_known_text() {
    assert_eq!(script::adler(b""), 1);
    assert_eq!(script::adler(b"Wikipedia"), 0x11E60398);
}
