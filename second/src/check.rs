//! The check of a unit: division by the polynomial, one bit at a time.

use crate::flit;

/// The powers of the polynomial, as document 01 lists them under "Check".
const POWERS: [u32; 16] = [36, 34, 31, 30, 27, 24, 19, 18, 17, 15, 14, 12, 5, 2, 1, 0];

/// The polynomial as a number: bit c is the coefficient of x^c.
const POLYNOMIAL: u64 = polynomial();

const fn polynomial() -> u64 {
    let mut sum = 0;
    let mut i = 0;
    while i < POWERS.len() {
        sum |= 1u64 << POWERS[i];
        i += 1;
    }
    sum
}

/// One more coefficient: times x, plus the bit, less the polynomial where
/// x^36 appears ("sums without carry").
fn step(rest: u64, bit: u64) -> u64 {
    let grown = (rest << 1) | bit;
    if (grown >> 36) & 1 == 1 {
        grown ^ POLYNOMIAL
    } else {
        grown
    }
}

/// The remainder of the bits in order, the first bit the highest power.
/// "Byte 0 of a flit comes first; bit 0 of a byte comes first."
pub fn remainder(parts: &[&[u8]]) -> u64 {
    let mut rest = 0;
    for part in parts {
        for byte in *part {
            for bit in 0..8 {
                rest = step(rest, u64::from((byte >> bit) & 1));
            }
        }
    }
    rest
}

/// "The unit is right exactly when the polynomial divides it."
pub fn right(parts: &[&[u8]]) -> bool {
    remainder(parts) == 0
}

/// Writes the check bits 63:28 of the last flit of a unit.
/// "So the coefficient of x^c stands at DL content bit 63 - c."
pub fn seal(unit: &mut [u8]) {
    let last = unit.len() - flit::FLIT;
    let plain = flit::content(&unit[last..]) & flit::BELOW_CHECK;
    flit::set_content(&mut unit[last..], plain);
    let rest = remainder(&[unit]);
    let mut sealed = plain;
    for c in 0..36 {
        sealed |= ((rest >> c) & 1) << (63 - c);
    }
    flit::set_content(&mut unit[last..], sealed);
}
