//! Division written apart from the crate: a unit is a row of coefficients, one to an element, and
//! the polynomial is the list of its powers. No table, no register.

const POWERS: [usize; 16] = [36, 34, 31, 30, 27, 24, 19, 18, 17, 15, 14, 12, 5, 2, 1, 0];

fn coefficients(unit: &[u8]) -> Vec<bool> {
    let mut row = Vec::with_capacity(unit.len() * 8);
    for byte in unit {
        for bit in 0..8 {
            row.push(byte & (1 << bit) != 0);
        }
    }
    row
}

/// Takes the polynomial away wherever it fits; the last 36 coefficients are what is left.
fn divide(row: &mut [bool]) {
    for first in 0..row.len().saturating_sub(36) {
        if row[first] {
            for power in POWERS {
                row[first + 36 - power] ^= true;
            }
        }
    }
}

pub fn right(unit: &[u8]) -> bool {
    let mut row = coefficients(unit);
    divide(&mut row);
    !row.contains(&true)
}

pub fn flit_right(bytes: &[u8], at: usize) -> bool {
    match at.checked_add(64) {
        Some(end) if end <= bytes.len() => right(&bytes[at..end]),
        _ => false,
    }
}

/// Clears the last 36 bits, divides, and writes what is left there.
pub fn seal(unit: &mut [u8]) {
    if unit.len() < 5 {
        return;
    }
    let begin = unit.len() * 8 - 36;
    for bit in begin..unit.len() * 8 {
        unit[bit / 8] &= !(1 << (bit % 8));
    }
    let mut row = coefficients(unit);
    divide(&mut row);
    for bit in begin..unit.len() * 8 {
        if row[bit] {
            unit[bit / 8] |= 1 << (bit % 8);
        }
    }
}
