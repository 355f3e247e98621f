//! Floats of all field lengths, and data of all sizes around the lengths that hold.

use differential::triplets::{row, sda};

use crate::compare::Comparison;

/// Plain type, default field length.
const DEFAULTS: [(u8, usize); 3] = [(0x40, 8), (0x47, 4), (0x48, 4)];

pub fn every_field_length(comparison: &mut Comparison) {
    for (plain, default) in DEFAULTS {
        let nullable_item = vec![0; 1 + default];
        for length in 0..=u16::MAX {
            let descriptor = |type_code| sda(1, type_code, 0, length, &[]);
            comparison.compare(&descriptor(plain), &nullable_item[1..]);
            comparison.compare(&descriptor(plain + 0x80), &nullable_item);
        }
    }
}

const LENGTHS: [u16; 16] = [
    0, 1, 3, 4, 5, 7, 8, 9, 15, 16, 17, 32, 0x0110, 0x7FFF, 0x8000, 0xFFFF,
];

pub fn every_size_of_data(comparison: &mut Comparison) {
    for type_code in [0x40, 0x47, 0x48, 0xC0, 0xC7, 0xC8] {
        for length in LENGTHS {
            let sda = |extents: &[u16]| sda(1, type_code, 0, length, extents);
            for descriptor in [
                sda(&[]),
                sda(&[2]),
                [sda(&[]), row(2, &[[1, 0, 2]])].concat(),
                [sda(&[1, 1]), row(2, &[[1, 3, 1], [1, 0, 1]])].concat(),
            ] {
                for size in 0..=37 {
                    comparison.compare(&descriptor, &vec![0; size]);
                    comparison.compare(&descriptor, &vec![0x80; size]);
                }
            }
        }
    }
}
