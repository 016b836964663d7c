//! The check in safe plain Rust: the same algorithm, a loop over bits, and slicing by 8.

const GENERATOR: u64 = 0xe_40b7_0932;

const fn places(mut left: u64, n: usize) -> u64 {
    let mut i = 0;
    while i < n {
        left = (left >> 1) ^ if left & 1 == 1 { GENERATOR } else { 0 };
        i += 1;
    }
    left
}

const fn table(n: usize) -> [u64; 256] {
    let mut entries = [0; 256];
    let mut i = 0;
    while i < 256 {
        entries[i] = places(i as u64, n);
        i += 1;
    }
    entries
}

static TABLE: [u64; 256] = table(8);

static SLICES: [[u64; 256]; 8] = [
    table(64),
    table(56),
    table(48),
    table(40),
    table(32),
    table(24),
    table(16),
    table(8),
];

/// What is left of the division after more bytes.
pub fn continued(mut left: u64, part: &[u8]) -> u64 {
    for &byte in part {
        left = (left >> 8) ^ TABLE[(left & 255) as usize] ^ ((byte as u64) << 28);
    }
    left
}

#[inline(never)]
pub fn right_by_bytes(unit: &[u8]) -> bool {
    continued(0, unit) == 0
}

/// Whether a unit is right whose data lies in one place and its closing flit in another.
pub fn right_after(held: &[u8], flit: &[u8]) -> bool {
    continued(continued(0, held), flit) == 0
}

/// Makes a unit right: its last 36 bits become its check.
pub fn seal(unit: &mut [u8]) {
    let at = unit.len() - 8;
    let low = u64::from_le_bytes(unit[at..].try_into().unwrap()) & 0xfff_ffff;
    unit[at..].copy_from_slice(&low.to_le_bytes());
    let check = continued(0, unit);
    unit[at..].copy_from_slice(&(low | check << 28).to_le_bytes());
}

#[inline(never)]
pub fn right_by_bits(unit: &[u8]) -> bool {
    let mut left = 0u64;
    for &byte in unit {
        for bit in 0..8 {
            left = places(left, 1) ^ (((byte as u64 >> bit) & 1) << 35);
        }
    }
    left == 0
}

/// Eight bytes at a time go in at the highest powers, so what is left is that of the unit times
/// x^36: zero for the same units.
#[inline(never)]
pub fn right_by_eights(unit: &[u8]) -> bool {
    let mut left = 0u64;
    let mut eights = unit.chunks_exact(8);
    for eight in &mut eights {
        let taken = left ^ u64::from_le_bytes(eight.try_into().unwrap());
        left = 0;
        for (slice, byte) in SLICES.iter().zip(taken.to_le_bytes()) {
            left ^= slice[byte as usize];
        }
    }
    for &byte in eights.remainder() {
        left = (left >> 8) ^ TABLE[((left ^ byte as u64) & 255) as usize];
    }
    left == 0
}
