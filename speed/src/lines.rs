//! Time of the program `bench` over a capture of a million flits, beside the same loop in safe plain Rust.

use crate::end::{control, replay_flit, Answer, End, Mode, Replay, FLIT, HOLD, OUTPUT};
use std::fs::{self, File};
use std::io::{self, BufReader, BufWriter, Read, Write};
use std::path::Path;
use std::process::{Command, Stdio};
use std::time::Instant;

const FLITS: usize = 1_000_000;
const RUNS: usize = 9;

fn word(answer: Answer) -> &'static str {
    match answer {
        Answer::Held => "held",
        Answer::Delivered(_) => "delivered",
        Answer::Duplicate => "duplicate",
        Answer::Idle => "idle",
        Answer::Replayed => "replayed",
        Answer::Ahead => "ahead",
        Answer::Skipped => "skipped",
        Answer::Damaged => "damaged",
        Answer::Discarded => "discarded",
        Answer::Down(_) => "down",
    }
}

/// Fills the buffer as far as there is input, and says how far.
fn read_flit(input: &mut impl Read, flit: &mut [u8; FLIT]) -> io::Result<usize> {
    let mut filled = 0;
    while filled < FLIT {
        match input.read(&mut flit[filled..])? {
            0 => break,
            more => filled += more,
        }
    }
    Ok(filled)
}

/// What `bench` prints, in plain Rust.
pub fn print_lines() {
    let mut input = BufReader::new(io::stdin().lock());
    let mut output = BufWriter::new(io::stdout().lock());
    let store = [0; 9 * FLIT];
    let mut hold = [0; HOLD];
    let mut end = End::start(&store).unwrap();
    let mut flit = [0; FLIT];
    let mut flits = 0u64;
    let rest = loop {
        let bytes = read_flit(&mut input, &mut flit).unwrap();
        if bytes < FLIT {
            break bytes;
        }
        let (answer, next) = end.receive(&store, &mut hold, &flit);
        end = next;
        let name = answer.map_or("refused", word);
        let data = match answer {
            Ok(Answer::Delivered(data)) => data,
            _ => 0,
        };
        let mode = match end.mode {
            Mode::Run => "run",
            Mode::Wait => "wait",
            Mode::Down => "down",
        };
        let wanted = end.wanted;
        writeln!(
            output,
            "flit={flits} answer={name} data={data} wanted={wanted} mode={mode}"
        )
        .unwrap();
        flits += 1;
    };
    writeln!(output, "rest={rest}").unwrap();
    output.flush().unwrap();
}

/// What a sender writes that holds 1,024 flits, units of one to nine, and is told again and again to send them anew. One flit of
/// 5,000 is damaged. A receiver that sends nothing takes no more than 1,024 flits; what comes again is checked as before.
fn capture() -> Vec<u8> {
    let mut store = vec![0; 1024 * FLIT];
    let mut hold = vec![0; HOLD];
    let mut output = vec![0; OUTPUT];
    let mut sender = End::start(&store).unwrap();
    let mut data = 0;
    for n in 0.. {
        let run = [0, 8, 0, 2, 8, 1, 0, 5][n % 8];
        let mut unit: Vec<u8> = (0..data * FLIT).map(|i| (i * 37 + n) as u8).collect();
        unit.extend(control(run, n as u8));
        let (verdict, next) = sender.accept(&mut store, &unit);
        if verdict.is_err() {
            break;
        }
        sender = next;
        data = run as usize;
    }
    let nack = replay_flit(&Replay {
        information: 0,
        last: 65535,
        start: 0,
        previous: 0,
        errors: 0,
        stalled: false,
        nack: true,
    });
    let mut flits = Vec::with_capacity((FLITS + 16) * FLIT);
    while flits.len() < FLITS * FLIT {
        let (answer, next) = sender.send(&store, &mut output, 0, flits.len() as u64);
        flits.extend(&output[..answer.unwrap() * FLIT]);
        sender = next;
        if sender.cursor == sender.oldest.wrapping_add(sender.held as u16) && !sender.pending {
            sender = sender.receive(&store, &mut hold, &nack).1;
        }
    }
    flits.truncate(FLITS * FLIT);
    for n in (4_999..FLITS).step_by(5_000) {
        flits[n * FLIT + n / 5_000 % FLIT] ^= 4;
    }
    flits
}

/// Runs a program from the capture to a file, and says in how many seconds.
fn seconds(command: &mut Command, from: &Path, to: &Path) -> f64 {
    command
        .stdin(File::open(from).unwrap())
        .stdout(File::create(to).unwrap())
        .stderr(Stdio::inherit());
    let begin = Instant::now();
    assert!(command.status().unwrap().success());
    begin.elapsed().as_secs_f64()
}

fn median(mut times: Vec<f64>) -> f64 {
    times.sort_by(f64::total_cmp);
    times[times.len() / 2]
}

pub fn print() {
    let top = Path::new(concat!(env!("CARGO_MANIFEST_DIR"), "/.."));
    let bench = top.join("crates/bench/out/bench");
    let work = top.join("target/speed");
    fs::create_dir_all(&work).unwrap();
    let [flits, plain, proved] = ["flits", "plain", "proved"].map(|name| work.join(name));
    fs::write(&flits, capture()).unwrap();

    let own = std::env::current_exe().unwrap();
    let mut plain_times = Vec::new();
    let mut proved_times = Vec::new();
    for _ in 0..RUNS {
        plain_times.push(seconds(Command::new(&own).arg("lines"), &flits, &plain));
        proved_times.push(seconds(&mut Command::new(&bench), &flits, &proved));
        assert!(
            fs::read(&plain).unwrap() == fs::read(&proved).unwrap(),
            "what is printed differs"
        );
    }
    fs::remove_dir_all(&work).unwrap();

    let (plain, proved) = (median(plain_times), median(proved_times));
    println!("| A million flits | seconds | ns a flit | ratio |");
    println!("|---|---|---|---|");
    for (name, time) in [
        ("plain Rust, BufReader, BufWriter, writeln!", plain),
        ("`bench`", proved),
    ] {
        println!(
            "| {name} | {time:.3} | {:.0} | {:.2} |",
            time * 1e9 / FLITS as f64,
            time / plain
        );
    }
}
