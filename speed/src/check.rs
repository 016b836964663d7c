//! Time of the check, in ns for each byte, at 64 and 576 bytes: the proved one and plain Rust.

use crate::plain;
use std::hint::black_box;
use std::time::Instant;

extern "C" {
    fn crc_right(unit: *const u8, len: usize) -> bool;
    fn crc_seal(unit: *mut u8, len: usize);
    fn crc_lay(table: *mut u64);
    fn crc_right_with(table: *const u64, unit: *const u8, len: usize) -> bool;
}

const ROUNDS: usize = 400;
const BYTES_A_ROUND: usize = 256 * 1024;
const SIZES: [usize; 2] = [64, 576];

type Check<'a> = (&'static str, Box<dyn Fn(&[u8]) -> bool + 'a>);

fn ns_a_byte(check: &dyn Fn(&[u8]) -> bool, unit: &[u8]) -> f64 {
    let turns = BYTES_A_ROUND / unit.len();
    let begin = Instant::now();
    for _ in 0..turns {
        black_box(check(black_box(unit)));
    }
    begin.elapsed().as_nanos() as f64 / (turns * unit.len()) as f64
}

pub fn print() {
    let mut table = [0u64; 256];
    unsafe { crc_lay(table.as_mut_ptr()) };

    let units = SIZES.map(|size| {
        let mut unit: Vec<u8> = (0..size).map(|i| (i * 151 + 7) as u8).collect();
        unsafe { crc_seal(unit.as_mut_ptr(), unit.len()) };
        unit
    });

    let checks: [Check; 5] = [
        ("plain Rust, byte table", Box::new(plain::right_by_bytes)),
        (
            "proved",
            Box::new(|unit| unsafe { crc_right(unit.as_ptr(), unit.len()) }),
        ),
        (
            "proved, by the name that is handed a table",
            Box::new(|unit| unsafe { crc_right_with(table.as_ptr(), unit.as_ptr(), unit.len()) }),
        ),
        ("plain Rust, bit by bit", Box::new(plain::right_by_bits)),
        ("plain Rust, slicing by 8", Box::new(plain::right_by_eights)),
    ];

    for (name, check) in &checks {
        for unit in &units {
            let mut altered = unit.clone();
            altered[unit.len() / 2] ^= 1;
            assert!(check(unit) && !check(&altered), "{name}: a wrong answer");
        }
    }

    let mut least = [[f64::INFINITY; SIZES.len()]; 5];
    for _ in 0..ROUNDS {
        for (row, (_, check)) in least.iter_mut().zip(&checks) {
            for (cell, unit) in row.iter_mut().zip(&units) {
                *cell = cell.min(ns_a_byte(check, unit));
            }
        }
    }

    println!("| Check | 64 bytes, ns/byte | ratio | 576 bytes, ns/byte | ratio |");
    println!("|---|---|---|---|---|");
    let base = least[0];
    for ((name, _), [short, long]) in checks.iter().zip(least) {
        println!(
            "| {name} | {short:.3} | {:.2} | {long:.3} | {:.2} |",
            short / base[0],
            long / base[1]
        );
    }
}
