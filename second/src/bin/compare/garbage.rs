//! Lines that are no command, or just one.

use crate::base;
use crate::pen::{hex, Pen};

/// Lines that are `bad` wherever they stand.
const BAD: [&str; 64] = [
    "",
    " ",
    "  ",
    "-",
    "a",
    "start",
    "start a",
    "start a ",
    "start  a 640",
    " start a 640",
    "start a 640 ",
    "start a  640",
    "start a 640 0",
    "start c 640",
    "start A 640",
    "start ab 640",
    "start a -1",
    "start a +640",
    "start a 0x40",
    "start a 640.",
    "start a 70001",
    "start a 18446744073709551616",
    "start a 340282366920938463463374607431768211456",
    "START a 640",
    "stop a 640",
    "start\ta 640",
    "start a\t640",
    "start a 640\r",
    "accept",
    "accept a",
    "accept a ",
    "accept a 0",
    "accept a 0g",
    "accept a 0A",
    "accept a --",
    "accept a 00 00",
    "send a",
    "send a 640",
    "send a 640 0",
    "send a 640 0 0 0",
    "send a 2001 0 0",
    "send a 640 256 0",
    "send a 640 0 18446744073709551616",
    "send a 640 -0 0",
    "receive a",
    "receive a x",
    "receive a 000",
    "poke a",
    "poke a mode",
    "poke a mode 3",
    "poke a mode run",
    "poke a stalled 2",
    "poke a pending 2",
    "poke a cause 256",
    "poke a first 65536",
    "poke a info 0",
    "poke a info8 0",
    "poke a info0 18446744073709551616",
    "poke a store 0",
    "poke a hold 0",
    "lend a 70001 576",
    "lend a 640 2001",
    "count a downs 4294967296",
    "ticket",
];

/// More of them.
const MORE: [&str; 24] = [
    "ticket a ",
    "ticket a a",
    "ticket  a",
    "ticket c",
    "Ticket a",
    "count a",
    "count a downs",
    "count a down 1",
    "count a accepted -1",
    "count a accepted 1 1",
    "lend a 640",
    "lend a 640 576 0",
    "lend a - -",
    "fill a 0",
    "fill a - 00",
    "fill a 0 0",
    "fill a 70000 00",
    "fill a 18446744073709551615 00",
    "fill a 18446744073709551616 00",
    "poke b Mode 0",
    "poke b mode 00000000000000000003",
    "poke b wanted 65536",
    "poke b refuse 0",
    "receive b \u{e9}",
];

/// One such line.
pub fn bad_line(pen: &mut Pen) {
    let line = match pen.rng.below(10) {
        0..=4 => pen.rng.pick(&BAD).as_bytes().to_vec(),
        5..=6 => pen.rng.pick(&MORE).as_bytes().to_vec(),
        7 => long_line(pen),
        8 => noise(pen),
        _ => spoiled(pen),
    };
    if pen.model.parse(&line).is_none() {
        pen.raw(line);
    }
}

/// Random bytes without a line feed.
fn noise(pen: &mut Pen) -> Vec<u8> {
    let count = pen.rng.below(40);
    let mut line = pen.rng.bytes(count);
    line.retain(|byte| *byte != b'\n');
    line
}

/// A command with one byte changed, taken away or put in.
fn spoiled(pen: &mut Pen) -> Vec<u8> {
    let good = pen.rng.pick(&[
        "start a 640",
        "send a 640 17 12345",
        "poke a cursor 65535",
        "fill a 0 00ff",
        "lend b 640 576",
        "count b damaged 7",
        "accept a 00",
    ]);
    let mut line = good.as_bytes().to_vec();
    let at = pen.rng.below(line.len());
    let byte = pen.rng.pick(b" \t\0-+aZ9_\r\x7f\xff");
    match pen.rng.below(3) {
        0 => line[at] = byte,
        1 => line.insert(at, byte),
        _ => {
            line.remove(at);
        }
    }
    line
}

/// Lines of about 4,096 bytes, and HEX of about 2,000.
fn long_line(pen: &mut Pen) -> Vec<u8> {
    match pen.rng.below(5) {
        0 => format!("accept a {}", "00".repeat(2001)).into_bytes(),
        1 => format!("receive b {}", "00".repeat(pen.rng.within(2001, 2040))).into_bytes(),
        2 => padded("poke a mode ", 4097, '0'),
        3 => {
            let length = pen.rng.pick(&[4095, 4096, 4097, 4098, 8192, 70000]);
            vec![b'x'; length]
        }
        _ => {
            let length = pen.rng.pick(&[4097, 4098, 5000, 65536, 200000]);
            padded("start a ", length, '0')
        }
    }
}

/// A line of some length that ends in many of one sign.
fn padded(head: &str, length: usize, with: char) -> Vec<u8> {
    let mut line = head.to_string();
    while line.len() < length {
        line.push(with);
    }
    line.into_bytes()
}

/// Lines at the edge that are commands: 4,096 bytes, 2,000 bytes of HEX,
/// the greatest values.
pub fn good_edges(pen: &mut Pen, end: usize) {
    base::sender(pen, end);
    let name = ["a", "b"][end];
    let length = pen.side(end).store.kept.len();
    let lines = [
        padded(&format!("poke {name} mode "), 4096, '0'),
        padded(&format!("poke {name} untold "), 4095, '0'),
        format!("accept {name} {}", "0".repeat(4000)).into_bytes(),
        format!("receive {name} {}", hex(&pen.rng.bytes(2000))).into_bytes(),
        format!("send {name} 2000 255 18446744073709551615").into_bytes(),
        format!("send {name} 00000640 000 00000000000000000000000000").into_bytes(),
        format!("poke {name} info7 18446744073709551615").into_bytes(),
        format!("poke {name} cause 255").into_bytes(),
        format!("poke {name} wanted 65535").into_bytes(),
        format!("count {name} duplicate 4294967295").into_bytes(),
        format!("fill {name} {length} -").into_bytes(),
        format!("fill {name} {} -", length + 1).into_bytes(),
        format!("fill {name} {} 00", length - 1).into_bytes(),
        format!("fill {name} {length} 00").into_bytes(),
        format!("fill {name} {} 0000", length - 1).into_bytes(),
        format!("fill {name} 00 -").into_bytes(),
        format!("fill {name} 18446744073709551615 -").into_bytes(),
        format!("fill {name} 18446744073709551616 -").into_bytes(),
        format!("fill {name} {} -", "9".repeat(50)).into_bytes(),
        format!("fill {name} {} 00", "9".repeat(50)).into_bytes(),
        format!("accept {name} -").into_bytes(),
        format!("receive {name} -").into_bytes(),
        format!("send {name} 0 0 0").into_bytes(),
        format!("lend {name} 70000 2000").into_bytes(),
        format!("lend {name} 0 0").into_bytes(),
        format!("ticket {name}").into_bytes(),
    ];
    for _ in 0..6 {
        let at = pen.rng.below(lines.len());
        pen.raw(lines[at].clone());
        if pen.rng.once_in(3) {
            bad_line(pen);
        }
    }
    let operation = pen.rng.below(3);
    base::call(pen, end, operation);
}
