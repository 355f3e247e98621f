//! Deep, wide and long descriptors, and sizes at and over their limits.

use differential::triplets::{column, layout, nest, row, sda, Group};
use reader::generate::{full_descriptor, full_group};
use reader::{
    check, unfold, walk, Refusal, Unfolding, MAX_DATA, MAX_DESCRIPTOR, MAX_ITEMS, SURPLUS,
};

use crate::compare::Comparison;

/// SDAs of id 1 without extents.
fn sdas() -> [Vec<u8>; 6] {
    [
        sda(1, 0x01, 0, 0, &[]),
        sda(1, 0x23, 0, 2, &[]),
        sda(1, 0x82, 1, 4, &[]),
        sda(1, 0x03, 0, 7, &[]),
        sda(1, 0x87, 0, 5, &[]),
        sda(1, 0xB0, 0, 0x0402, &[]),
    ]
}

/// A descriptor with data that fits, is cut or goes on, and with some of its
/// bytes changed.
pub(super) fn compare_around(comparison: &mut Comparison, descriptor: &[u8]) {
    for byte in [0, 0x80] {
        let data = fitting(descriptor, byte);
        comparison.compare(descriptor, &data);
        comparison.compare(descriptor, &[&data[..], &[byte]].concat());
        if let Some(longest) = data.len().checked_sub(1) {
            let any = comparison.random.below(longest + 1);
            comparison.compare(descriptor, &data[..longest]);
            comparison.compare(descriptor, &data[..any]);
        }
    }
    let data = fitting(descriptor, 0);
    for _ in 0..10 {
        let mut changed = descriptor.to_vec();
        let offset = comparison.random.below(changed.len());
        changed[offset] = comparison.random.byte();
        comparison.compare(&changed, &data);
    }
}

/// As many equal bytes as the descriptor's items take, of rows to the end with two passes; few if
/// it is refused.
pub(super) fn fitting(descriptor: &[u8], byte: u8) -> Vec<u8> {
    let two_passes = |unfolding: Unfolding| Unfolding {
        fields: unfolding.first(unfolding.count(2).min(MAX_ITEMS)),
        rows: None,
    };
    let items = unfold(descriptor).map(two_passes);
    let length = match items.and_then(|items| walk(&items, &[byte; MAX_DATA])) {
        Ok(_) => MAX_DATA,
        Err(Refusal {
            number: SURPLUS,
            place,
        }) => place as usize,
        Err(_) => 9,
    };
    vec![byte; length]
}

pub fn nests(comparison: &mut Comparison) {
    for sda in sdas() {
        for rows in [1, 2, 17, 127, 249, 253, 254] {
            let plain = [&sda[..], &nest((0..rows).map(|_| 1))].concat();
            compare_around(comparison, &plain);
            compare_around(comparison, &over_columns(&sda, rows));
            for doubled in [0..12, 0..13, rows.max(12) - 12..rows, rows / 2..rows] {
                let factors = (0..rows).map(|row| 1 + u8::from(doubled.contains(&row)));
                let doubling = [&sda[..], &nest(factors)].concat();
                compare_around(comparison, &doubling);
            }
        }
    }
}

/// An SDA, a GDA of two columns in place of the first row, and the other rows over it.
fn over_columns(sda: &[u8], rows: u8) -> Vec<u8> {
    let columns = layout(2, &[column(1, 0), column(1, 0)]);
    let nest = nest((0..rows).map(|_| 1));
    let first_row = 6;
    [sda, &columns, &nest[first_row..]].concat()
}

const EXTENTS: [&[u16]; 12] = [
    &[4095],
    &[4096],
    &[4097],
    &[64, 64],
    &[64, 65],
    &[16, 16, 16],
    &[16, 16, 17],
    &[1, 1, 4096],
    &[2, 3, 683],
    &[0x8000],
    &[0xFFFF, 0xFFFF],
    &[0xFFFF, 0xFFFF, 0xFFFF],
];

pub fn counts(comparison: &mut Comparison) {
    for extents in EXTENTS {
        for (type_code, field_length) in [
            (0x01, 1),
            (0x81, 1),
            (0x23, 2),
            (0xA4, 2),
            (0x87, 1),
            (0x30, 0x0100),
            (0x40, 0),
            (0xC8, 0),
        ] {
            let sda = sda(1, type_code, 0, field_length, extents);
            compare_around(comparison, &sda);
            for group in [[1, 0, 1], [1, 1, 1], [1, 64, 1], [1, 255, 1], [1, 16, 4]] {
                compare_around(comparison, &[&sda[..], &row(2, &[group])].concat());
            }
        }
    }
    for sda in sdas() {
        for factors in [[64, 64], [64, 65], [65, 64], [255, 16], [255, 17]] {
            compare_around(comparison, &[&sda[..], &nest(factors.into_iter())].concat());
        }
    }
}

pub fn long_rows(comparison: &mut Comparison) {
    for sda in [sda(1, 0x01, 0, 1, &[3]), sda(1, 0x87, 1, 2, &[1, 1])] {
        let last: [Group; 6] = [
            [1, 0, 1],
            [1, 1, 1],
            [2, 0, 1],
            [1, 0, 0],
            [1, 255, 1],
            [1, 255, 9],
        ];
        for count in [83, 84, 85, 168, 1_300, 1_343] {
            for last in last {
                let mut groups = vec![[1, 1, 1]; count];
                groups.push(last);
                compare_around(comparison, &[&sda[..], &row(2, &groups)].concat());
            }
        }
    }
}

pub fn sizes(comparison: &mut Comparison) {
    compare_around(comparison, &full_descriptor());
    compare_around(comparison, &full_group());
    for length in [
        MAX_DESCRIPTOR - 1,
        MAX_DESCRIPTOR,
        MAX_DESCRIPTOR + 1,
        70_000,
    ] {
        for fill in [0, 2, 6, 0xFF] {
            let mut descriptor = full_descriptor();
            descriptor.resize(length, fill);
            comparison.compare(&descriptor, &[]);
            comparison.compare(&descriptor, &[0; MAX_DATA + 1]);
        }
    }
    for (type_code, mode, field_length) in [
        (0x01, 0, 32_767),
        (0x81, 0, 32_767),
        (0x02, 0, 32_766),
        (0x82, 0, 32_765),
        (0x02, 1, 0),
        (0x03, 0, 32_767),
        (0x83, 0, 32_766),
        (0x03, 1, 32_767),
    ] {
        let descriptor = sda(1, type_code, mode, field_length, &[]);
        assert!(check(&descriptor).is_ok());
        for length in MAX_DATA - 2..=MAX_DATA + 2 {
            for byte in [0, 0x41, 0x7F, 0x80, 0xFF] {
                let mut data = vec![byte; length];
                comparison.compare(&descriptor, &data);
                data[length - 1] = 0;
                comparison.compare(&descriptor, &data);
            }
        }
    }
}
