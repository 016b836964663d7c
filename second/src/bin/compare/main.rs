//! Compares two programs that speak the script format, call by call.
//!
//! compare PROGRAM_A PROGRAM_B --seed N (--calls N | --seconds N)

mod base;
mod cases;
mod cover;
mod garbage;
mod notes;
mod pen;
mod prng;
mod programs;
mod shrink;
mod states;
mod talk;
mod wire;

use cover::Cover;
use pen::Pen;
use prng::Rng;
use programs::Programs;
use shrink::Script;
use std::path::PathBuf;
use std::process::ExitCode;
use std::time::{Duration, Instant};

/// Lines of a script that one run of the programs gets.
const BATCH: usize = 5000;

const USAGE: &str = "usage: compare PROGRAM_A PROGRAM_B --seed N (--calls N | --seconds N)";

/// What was asked for.
struct Wish {
    programs: Programs,
    seed: u64,
    calls: Option<u64>,
    seconds: Option<u64>,
}

fn main() -> ExitCode {
    let arguments: Vec<String> = std::env::args().skip(1).collect();
    let Some(wish) = wish_of(&arguments) else {
        eprintln!("{USAGE}");
        return ExitCode::from(2);
    };
    match compare(&wish) {
        Ok(code) => code,
        Err(error) => {
            eprintln!("compare: {error}");
            ExitCode::from(2)
        }
    }
}

fn wish_of(arguments: &[String]) -> Option<Wish> {
    let (paths, options) = arguments.split_at_checked(2)?;
    let mut wish = Wish {
        programs: Programs {
            paths: [PathBuf::from(&paths[0]), PathBuf::from(&paths[1])],
        },
        seed: 1,
        calls: None,
        seconds: None,
    };
    for option in options.chunks(2) {
        let value: u64 = option.get(1)?.parse().ok()?;
        match option[0].as_str() {
            "--seed" => wish.seed = value,
            "--calls" => wish.calls = Some(value),
            "--seconds" => wish.seconds = Some(value),
            _ => return None,
        }
    }
    (wish.calls.is_some() || wish.seconds.is_some()).then_some(wish)
}

/// Batch after batch until enough was compared or a difference is found.
fn compare(wish: &Wish) -> std::io::Result<ExitCode> {
    let began = Instant::now();
    let mut rng = Rng::new(wish.seed);
    let mut cover = Cover::default();
    let mut told = began;
    while !enough(wish, &cover, began) {
        let (pen, last_feed) = write_batch(rng.next());
        let bytes = programs::bytes_of(&pen.lines, last_feed);
        let results = wish.programs.run(&bytes, programs::LONG)?;
        if let Some(at) = programs::difference(&results, pen.lines.len()) {
            show_difference(wish, pen, last_feed, at, &cover);
            return Ok(ExitCode::from(1));
        }
        for line in programs::lines_of(&results[0].output) {
            cover.line(line);
        }
        for (_, note) in &pen.notes {
            cover.note(*note);
        }
        if told.elapsed() > Duration::from_secs(5) {
            told = Instant::now();
            let seconds = began.elapsed().as_secs();
            eprintln!(
                "{seconds} s: {} calls in {} lines",
                cover.calls, cover.lines
            );
        }
    }
    Ok(judge(wish, &cover, began))
}

fn enough(wish: &Wish, cover: &Cover, began: Instant) -> bool {
    let calls = wish.calls.is_some_and(|calls| cover.calls >= calls);
    let limit = wish.seconds.map(Duration::from_secs);
    calls || limit.is_some_and(|limit| began.elapsed() >= limit)
}

/// Prints the counts and fails where one is too small.
fn judge(wish: &Wish, cover: &Cover, began: Instant) -> ExitCode {
    cover.print();
    println!("seed {}, {:.1} s", wish.seed, began.elapsed().as_secs_f32());
    let mut failed = false;
    let asked = wish.calls.unwrap_or(0).max(cover.calls);
    if asked >= cover::MANY_CALLS {
        for name in cover.short() {
            println!("fewer than {}: {name}", cover::ENOUGH);
            failed = true;
        }
    }
    for name in cover.unbroken() {
        println!("never broken alone by one: {name}");
        failed = true;
    }
    if failed {
        return ExitCode::from(1);
    }
    println!("no difference");
    ExitCode::SUCCESS
}

/// Shrinks the script that differs and prints it.
fn show_difference(wish: &Wish, pen: Pen, last_feed: bool, at: usize, cover: &Cover) {
    println!(
        "a difference after {} calls in {} lines (seed {})",
        cover.calls, cover.lines, wish.seed
    );
    let session = pen.sessions.iter().copied().filter(|from| *from <= at);
    let session = session.max().unwrap_or(0);
    let whole = Script {
        lines: pen.lines,
        last_feed,
    };
    let small = shrink::shrink(&wish.programs, whole, at, session);
    shrink::print(&wish.programs, &small);
}

/// A script of many sessions; some lack the last line feed.
fn write_batch(seed: u64) -> (Pen, bool) {
    let mut pen = Pen::new(seed);
    before_start(&mut pen);
    while pen.lines.len() < BATCH {
        pen.session();
        write_session(&mut pen);
        if pen.rng.once_in(3) {
            garbage::bad_line(&mut pen);
        }
    }
    let last_feed = !pen.rng.once_in(3);
    (pen, last_feed)
}

/// "Before its first start an end is as after start E 0."
fn before_start(pen: &mut Pen) {
    for _ in 0..pen.rng.below(4) {
        let end = pen.rng.below(2);
        if pen.rng.coin() {
            base::call_each(pen, end);
        } else {
            pen.ticket(end);
        }
    }
}

/// One session of some kind.
fn write_session(pen: &mut Pen) {
    let end = pen.rng.below(2);
    match pen.rng.below(56) {
        0..=4 => talk::talk(pen),
        5..=8 => talk::waiting(pen, end),
        9..=14 => states::edges(pen, end),
        15..=17 => states::zeros(pen, end),
        18 => states::several(pen, end),
        19..=25 => cases::run_lengths(pen, end),
        26..=27 => cases::units(pen, end),
        28..=31 => cases::numbers(pen, end),
        32..=36 => cases::acknowledgements(pen, end),
        37..=40 => cases::untold(pen, end),
        41..=42 => cases::tickets(pen, end),
        43 => cases::ring(pen, end),
        44 => cases::starts(pen, end),
        45..=46 => cases::lengths(pen, end),
        47..=48 => cases::accepts(pen, end),
        49 => cases::orders(pen, end),
        50..=52 => cases::soup(pen, end),
        53..=54 => cases::large(pen, end),
        _ => garbage::good_edges(pen, end),
    }
}
