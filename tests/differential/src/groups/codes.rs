//! Every type code, plain and nullable, with parameters and data of each carried type.

use differential::triplets::sda;

use crate::compare::Comparison;

/// Field lengths, and digits with fraction digits: each carried type has one of them.
const SIZES: [u16; 6] = [0, 2, 4, 8, 16, 0x0302];

/// A packed decimal of three digits, a string of two bytes behind a two-byte length, and one
/// behind a one-byte length and before a zero byte, each with more bytes behind: no number is the
/// same in both byte orders.
pub(super) const VALUES: [[u8; 17]; 3] = [
    [
        0x12, 0x3C, 3, 4, 5, 6, 7, 8, 9, 10, 11, 12, 13, 14, 15, 16, 17,
    ],
    [0, 2, 3, 4, 0, 6, 7, 8, 9, 10, 11, 12, 13, 14, 15, 16, 17],
    [2, 3, 4, 0, 5, 6, 7, 8, 9, 10, 11, 12, 13, 14, 15, 16, 17],
];

pub fn every_code(comparison: &mut Comparison) {
    for type_code in 0..=255 {
        for size in SIZES {
            for mode in [0, 1] {
                let descriptor = sda(1, type_code, mode, size, &[]);
                for value in VALUES {
                    compare_parts(comparison, &descriptor, &value);
                    compare_parts(comparison, &descriptor, &[&[0], &value[..]].concat());
                    compare_parts(comparison, &descriptor, &[&[0x80], &value[..]].concat());
                }
            }
        }
    }
}

/// The descriptor with each beginning of the data.
pub(super) fn compare_parts(comparison: &mut Comparison, descriptor: &[u8], data: &[u8]) {
    for length in 0..=data.len() {
        comparison.compare(descriptor, &data[..length]);
    }
}
