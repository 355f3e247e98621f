//! Packed decimals: their parameters, every half-byte of a value, nulls, lengths, and
//! other items beside them.

use super::{asked_around, behind_a_byte, case};
use crate::descriptor::RLO;
use crate::generate::fitting::{bytes_of, half_bytes};
use crate::generate::structured::{plain_parameters, sda_of, with_groups};
use crate::generate::Case;

/// Counts of digits at both ends of their range, odd and even.
const COUNTS: [usize; 4] = [1, 2, 17, 18];

const PLUS: u8 = 0xC;
const MINUS: u8 = 0xD;
const NO_SIGN: u8 = 9;

/// Digits and fraction digits around their limits, and type codes one bit away.
pub(super) fn descriptors() -> Vec<Vec<u8>> {
    let mut descriptors = Vec::new();
    for digits in (0..=20_u8).chain([31, 127, 128, 255]) {
        for fraction_digits in [0, digits, digits.wrapping_add(1)] {
            descriptors.push(sda(1, 0x30, digits, fraction_digits));
        }
    }
    for digits in [1, 2, 17, 18] {
        for fraction_digits in [17, 19, 31, 32, 127, 128, 255] {
            descriptors.push(sda(1, 0x30, digits, fraction_digits));
        }
    }
    for digits in [0, 1, 2, 17, 18, 19] {
        for fraction_digits in [0, digits, digits + 1] {
            descriptors.push(sda(1, 0xB0, digits, fraction_digits));
        }
    }
    for bit in 0..7 {
        for code in [0x30, 0xB0] {
            descriptors.push(sda(1, code ^ 1 << bit, 7, 2));
        }
    }
    descriptors
}

pub(super) fn blocks() -> Vec<Case> {
    [
        signs(),
        digits(),
        unused_half_bytes(),
        zeros_and_nines(),
        nulls(),
        nullable_values(),
        lengths(),
        neighbours(),
    ]
    .concat()
}

fn sda(id: u8, type_code: u8, digits: u8, fraction_digits: u8) -> Vec<u8> {
    let digits = u16::from_be_bytes([digits, fraction_digits]);
    sda_of(id, type_code, plain_parameters(0, digits), &[])
}

/// A packed decimal behind a byte; half of its digits are fraction digits.
fn decimal(type_code: u8, digits: usize, item: &[u8]) -> Case {
    let digits = digits as u8;
    let descriptor = behind_a_byte(sda(2, type_code, digits, digits / 2));
    case(&descriptor, &[&[5], item].concat(), 6, 1)
}

fn value(digits: &[u8], sign: u8) -> Case {
    let item = bytes_of(&half_bytes(digits, sign));
    decimal(0x30, digits.len(), &item)
}

/// Every sign half-byte, behind an odd and an even number of digits.
fn signs() -> Vec<Case> {
    let numbers: [&[u8]; 2] = [&[1, 2, 3], &[1, 2, 3, 4]];
    numbers
        .iter()
        .flat_map(|digits| (0..=0xF).map(|sign| value(digits, sign)))
        .collect()
}

/// Each digit at 9 and above it.
fn digits() -> Vec<Case> {
    let mut cases = Vec::new();
    for count in COUNTS {
        for place in 0..count {
            for digit in [9, 0xA, 0xF] {
                let mut digits: Vec<u8> = (1..=8).cycle().take(count).collect();
                digits[place] = digit;
                cases.push(value(&digits, PLUS));
            }
        }
    }
    cases
}

fn unused_half_bytes() -> Vec<Case> {
    let mut cases = Vec::new();
    for count in [2, 18] {
        for unused in [0, 1, 2, 4, 8, 9, 0xA, 0xF] {
            let mut half_bytes = half_bytes(&vec![7; count], PLUS);
            half_bytes[0] = unused;
            cases.push(decimal(0x30, count, &bytes_of(&half_bytes)));
        }
    }
    cases
}

/// Zero with every sign, and the largest and smallest number of each count.
fn zeros_and_nines() -> Vec<Case> {
    let zeros = COUNTS
        .iter()
        .flat_map(|&count| (0xA..=0xF).map(move |sign| value(&vec![0; count], sign)));
    let nines = (1..=18).flat_map(|count| [PLUS, MINUS].map(|sign| value(&vec![9; count], sign)));
    zeros.chain(nines).collect()
}

/// A null tells the fraction digits of its field.
fn nulls() -> Vec<Case> {
    let mut cases = Vec::new();
    for (digits, fraction_digits) in [(1, 0), (1, 1), (2, 1), (17, 9), (18, 0), (18, 18)] {
        let descriptor = behind_a_byte(sda(2, 0xB0, digits, fraction_digits));
        for indicator in [0x80, 0xFF] {
            cases.push(case(&descriptor, &[5, indicator], 6, 1));
        }
    }
    cases
}

/// Values behind an indicator and behind a bad one, with a sign and without.
fn nullable_values() -> Vec<Case> {
    let mut cases = Vec::new();
    for count in COUNTS {
        for indicator in [0, 0x7F] {
            for sign in [MINUS, NO_SIGN] {
                let value = bytes_of(&half_bytes(&vec![3; count], sign));
                cases.push(decimal(0xB0, count, &[&[indicator], &value[..]].concat()));
            }
        }
    }
    cases
}

/// A byte less than an item has, and a byte more, with a sign and without.
fn lengths() -> Vec<Case> {
    let mut cases = Vec::new();
    for (code, indicator) in [(0x30, &[][..]), (0xB0, &[0])] {
        for count in COUNTS {
            for sign in [PLUS, NO_SIGN] {
                let value = bytes_of(&half_bytes(&vec![6; count], sign));
                let item = [indicator, &value, &[0x0C]].concat();
                cases.push(decimal(code, count, &item[..item.len() - 2]));
                cases.push(decimal(code, count, &item));
            }
        }
    }
    cases
}

/// Four items of three SDAs, of which the second has a bad digit.
fn neighbours() -> Vec<Case> {
    let descriptor = [
        sda(1, 0x30, 3, 1),
        sda(2, 0xB0, 4, 4),
        sda_of(3, 0x23, plain_parameters(0, 2), &[]),
        with_groups(RLO, 4, &[[1, 0, 2], [2, 0, 1], [3, 0, 1]]),
    ]
    .concat();
    let data = [0x12, 0x3F, 0x4A, 0x6C, 0x00, 0x01, 0x23, 0x4B, 0xFF, 0xFE];
    asked_around(&descriptor, &data, 4)
}
