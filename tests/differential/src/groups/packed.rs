//! Packed decimals of all parameters, and of all half-bytes.

use differential::triplets::sda;

use crate::compare::Comparison;

pub fn every_parameter(comparison: &mut Comparison) {
    for length in 0..=u16::MAX {
        let [digits, _] = length.to_be_bytes();
        let descriptor = sda(1, 0x30, 0, length, &[]);
        comparison.compare(&descriptor, &ones(digits));
    }
}

pub fn every_half_byte(comparison: &mut Comparison) {
    for digits in [2, 3] {
        for bytes in 0..=u16::MAX {
            comparison.compare(&decimal(0x30, digits), &bytes.to_be_bytes());
        }
    }
    for digits in 1..=18 {
        let value = ones(digits);
        for place in 0..value.len() {
            for byte in 0..=255 {
                let mut changed = value.clone();
                changed[place] = byte;
                comparison.compare(&decimal(0x30, digits), &changed);
                changed.insert(0, 0);
                comparison.compare(&decimal(0xB0, digits), &changed);
            }
        }
    }
}

/// An SDA of a packed decimal with one fraction digit.
fn decimal(type_code: u8, digits: u8) -> Vec<u8> {
    sda(1, type_code, 0, u16::from_be_bytes([digits, 1]), &[])
}

/// The packed decimal of so many ones.
fn ones(digits: u8) -> Vec<u8> {
    let mut value = vec![0x11; (digits / 2).into()];
    value.push(0x1C);
    if digits.is_multiple_of(2) {
        value[0] &= 0x0F;
    }
    value
}
