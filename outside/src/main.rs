//! Compares the proved check and seal with a division written apart from them. Stops at the first
//! difference; says how many were compared.

mod division;

use std::process::exit;

extern "C" {
    fn crc_right(unit: *const u8, len: usize) -> bool;
    fn crc_flit_right(bytes: *const u8, len: usize, at: usize) -> bool;
    fn crc_seal(unit: *mut u8, len: usize);
    fn crc_lay(table: *mut u64);
    fn crc_right_with(table: *const u64, unit: *const u8, len: usize) -> bool;
    fn crc_right_after(
        table: *const u64,
        held: *const u8,
        held_len: usize,
        flit: *const u8,
        flit_len: usize,
    ) -> bool;
}

/// The crate's functions, with the table that `crc_lay` wrote.
struct Proved {
    table: [u64; 256],
}

impl Proved {
    fn new() -> Self {
        let mut table = [0; 256];
        unsafe { crc_lay(table.as_mut_ptr()) };
        Proved { table }
    }

    fn right(&self, unit: &[u8]) -> bool {
        unsafe { crc_right(unit.as_ptr(), unit.len()) }
    }

    fn right_with(&self, unit: &[u8]) -> bool {
        unsafe { crc_right_with(self.table.as_ptr(), unit.as_ptr(), unit.len()) }
    }

    /// Through the table itself: no function of the crate that is handed one looks at it.
    fn right_by_table(&self, unit: &[u8]) -> bool {
        let step =
            |r: u64, &b: &u8| (r >> 8) ^ self.table[(r & 255) as usize] ^ (u64::from(b) << 28);
        unit.iter().fold(0, step) == 0
    }

    fn right_after(&self, held: &[u8], flit: &[u8]) -> bool {
        let table = self.table.as_ptr();
        unsafe { crc_right_after(table, held.as_ptr(), held.len(), flit.as_ptr(), flit.len()) }
    }

    fn flit_right(&self, bytes: &[u8], at: usize) -> bool {
        unsafe { crc_flit_right(bytes.as_ptr(), bytes.len(), at) }
    }

    fn seal(&self, unit: &mut [u8]) {
        unsafe { crc_seal(unit.as_mut_ptr(), unit.len()) }
    }
}

/// Xorshift, from a fixed seed: each run compares the same units.
struct Random(u64);

impl Random {
    fn next(&mut self) -> u64 {
        self.0 ^= self.0 << 13;
        self.0 ^= self.0 >> 7;
        self.0 ^= self.0 << 17;
        self.0
    }

    fn below(&mut self, end: usize) -> usize {
        (self.next() % end as u64) as usize
    }

    fn bytes(&mut self, len: usize) -> Vec<u8> {
        (0..len).map(|_| self.next() as u8).collect()
    }
}

fn same<T: PartialEq + std::fmt::Debug>(what: &str, unit: &[u8], proved: T, apart: T) {
    if proved != apart {
        println!("outside: {what} differs: proved {proved:?}, apart {apart:?}, unit {unit:02x?}");
        exit(1);
    }
}

/// Every way to ask whether a unit is right, the second part from `cut` on.
fn compare_right(proved: &Proved, unit: &[u8], cut: usize) -> bool {
    let apart = division::right(unit);
    same("right", unit, proved.right(unit), apart);
    same("right_with", unit, proved.right_with(unit), apart);
    same("the table", unit, proved.right_by_table(unit), apart);
    let (held, flit) = unit.split_at(cut);
    same("right_after", unit, proved.right_after(held, flit), apart);
    apart
}

fn compare_seal(proved: &Proved, unit: &[u8]) -> Vec<u8> {
    let mut sealed = unit.to_vec();
    proved.seal(&mut sealed);
    let mut apart = unit.to_vec();
    division::seal(&mut apart);
    same("seal", unit, &sealed, &apart);
    sealed
}

/// Random units of each size, as they come and sealed.
fn compare_units(proved: &Proved, random: &mut Random) -> usize {
    let mut compared = 0;
    for _ in 0..1_200 {
        for flits in 1..=9 {
            let unit = random.bytes(64 * flits);
            let closing = 64 * (flits - 1);
            compare_right(proved, &unit, closing);
            let sealed = compare_seal(proved, &unit);
            let right = compare_right(proved, &sealed, closing);
            same("a sealed unit", &sealed, right, true);
            compared += 1;
        }
    }
    compared
}

/// A sealed unit of each size with each of its bits altered in turn.
fn compare_altered(proved: &Proved, random: &mut Random) -> usize {
    let mut compared = 0;
    for flits in 1..=9 {
        let mut unit = compare_seal(proved, &random.bytes(64 * flits));
        for bit in 0..unit.len() * 8 {
            unit[bit / 8] ^= 1 << (bit % 8);
            let cut = random.below(unit.len() + 1);
            let right = compare_right(proved, &unit, cut);
            same("an altered unit", &unit, right, false);
            unit[bit / 8] ^= 1 << (bit % 8);
            compared += 1;
        }
    }
    compared
}

/// A sealed flit somewhere in a slice, looked for where it is, elsewhere and outside.
fn compare_flits(proved: &Proved, random: &mut Random) -> usize {
    let mut compared = 0;
    for _ in 0..1_000 {
        let mut slice = random.bytes(640);
        let at = random.below(577);
        slice[at..at + 64].copy_from_slice(&compare_seal(proved, &random.bytes(64)));
        for place in [at, random.below(640), usize::MAX] {
            let apart = division::flit_right(&slice, place);
            same(
                "flit_right",
                &slice,
                proved.flit_right(&slice, place),
                apart,
            );
            compared += 1;
        }
    }
    compared
}

/// Slices of every length from none to a flit and a little more.
fn compare_slices(proved: &Proved, random: &mut Random) -> usize {
    let mut compared = 0;
    for len in 0..=70 {
        for slice in [vec![0; len], random.bytes(len)] {
            compare_right(proved, &slice, len / 2);
            let sealed = compare_seal(proved, &slice);
            compare_right(proved, &sealed, len / 2);
            compared += 1;
        }
    }
    compared
}

fn main() {
    let proved = Proved::new();
    let mut random = Random(0x9e37_79b9_7f4a_7c15);
    let units = compare_units(&proved, &mut random);
    let altered = compare_altered(&proved, &mut random);
    let flits = compare_flits(&proved, &mut random);
    let slices = compare_slices(&proved, &mut random);
    println!(
        "outside: no difference in {units} units of 1 to 9 flits, {altered} single-bit \
         alterations, {flits} places of a flit, {slices} slices of 0 to 70 bytes"
    );
}
