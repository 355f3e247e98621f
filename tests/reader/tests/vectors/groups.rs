//! Group triplets: what they may refer to, the lengths that they put in, and the items that
//! they describe.

use std::ops::RangeInclusive;

use reader::generate::full_group;
use reader::*;

use crate::cuts::assert_cuts;
use crate::limits::DIGITS;
use crate::support::{
    assert_behind_indicator, assert_blocks, assert_both_forms, assert_check, hex, refused, rows,
    sda,
};

const DESCRIPTORS: &str = include_str!("group_descriptors.txt");
const BLOCKS: &str = include_str!("group_blocks.txt");
const ROWS: &str = include_str!("group_rows.txt");

#[test]
fn descriptors_are_judged_as_listed() {
    for [name, descriptor, answer] in rows(DESCRIPTORS) {
        assert_check(name, &hex(descriptor), answer);
    }
}

#[test]
fn the_first_sda_may_be_nullable() {
    let begins_with_sda = |[_, descriptor, _]: &[&str; 3]| hex(descriptor)[1] == 0x70;
    assert_both_forms(
        rows(DESCRIPTORS)
            .into_iter()
            .filter(begins_with_sda)
            .collect(),
    );
}

#[test]
fn columns_are_read_as_listed() {
    assert_blocks(rows(BLOCKS));
}

#[test]
fn nullable_columns_are_read_behind_their_indicator() {
    assert_behind_indicator(rows(BLOCKS));
}

#[test]
fn rows_are_cut_as_listed() {
    assert_cuts(ROWS);
}

/// Plain type, mode, a length of the SDA's own, the other lengths that suit.
const SUITING: &[(u8, u8, u16, &[RangeInclusive<u16>])] = &[
    (0x01, 0, 3, &[1..=32_767]),
    (0x02, 0, 3, &[1..=32_767]),
    (0x02, 1, 0, &[1..=32_767]),
    (0x03, 1, 3, &[1..=32_767]),
    (0x07, 0, 3, &[1..=255]),
    (0x23, 0, 4, &[2..=2, 4..=4, 8..=8]),
    (0x24, 0, 2, &[2..=2, 4..=4, 8..=8]),
    (0x30, 0, 0x0301, &DIGITS),
    (0x40, 0, 0, &[4..=4, 8..=8, 16..=16]),
    (0x47, 0, 0, &[4..=4, 8..=8]),
    (0x48, 0, 8, &[4..=4, 8..=8]),
];

#[test]
fn every_length_over_every_type() {
    for &(plain, mode, own, lengths) in SUITING {
        for type_code in [plain, plain + 0x80] {
            let mut descriptor = [sda(1, type_code, mode, own), vec![6, 0x75, 2, 1, 0, 0]].concat();
            for length in 0..=u16::MAX {
                descriptor[16..].copy_from_slice(&length.to_be_bytes());
                let suits = length == 0 || lengths.iter().any(|range| range.contains(&length));
                let expected = match suits {
                    true => Ok(1),
                    false => refused(COLUMN_MISFIT, 12),
                };
                assert_eq!(check(&descriptor), expected, "X'{type_code:X}' {length}");
            }
        }
    }
}

/// An SDA of one byte, and a group triplet with so many columns of one byte.
fn columns(count: u8) -> Vec<u8> {
    let mut descriptor = sda(1, 0x01, 0, 0);
    descriptor.extend([3 + 3 * count, 0x75, 2]);
    descriptor.extend([1, 0, 1].repeat(count.into()));
    descriptor
}

#[test]
fn the_longest_triplets() {
    let group = columns(84);
    assert_eq!(group[12], 255);
    assert_check("84 columns", &group, "items 84");
    let row = |factor| [&group[..], &[6, 0x71, 3, 2, 0, factor]].concat();
    assert_check("48 rows of 84", &row(48), "items 4032");
    assert_check("49 rows of 84", &row(49), "refused 10 267");
    for length in [253, 254] {
        let mut cut = group.clone();
        cut[12] = length;
        assert_eq!(check(&cut), refused(BAD_LENGTH, 12), "{length}");
    }
    let mut last = group;
    last[12 + 253] = 0x80;
    assert_check("the last of 84", &last, "refused 21 12");
}

#[test]
fn the_longest_descriptor() {
    let full = full_group();
    assert_eq!(full.len(), MAX_DESCRIPTOR);
    assert_check("full", &full, "items 1340");
    let data: Vec<u8> = (0..1340).map(|item| item as u8).collect();
    let mut entries = vec![9; 2 + 2 * 1340 + 1];
    assert_eq!(list(&full, &data, &mut entries), Ok(()));
    assert!((0..1340).all(|item| entries[2 + item as usize] == item));
    assert!(entries[2 + 1340..2 + 2 * 1340].iter().all(|&id| id == 1));
    assert_eq!(entries[2 + 2 * 1340], 9);
    assert_eq!(lend(&full, &data, 1339), [data[1339]]);
    let mut last = full;
    last[MAX_DESCRIPTOR - 2] = 0x80;
    assert_check("the last column", &last, "refused 21 3853");
}

#[test]
fn nesting_255_deep() {
    let rows = (3..=255).flat_map(|id| [6, 0x71, id, id - 1, 0, 1]);
    let descriptor: Vec<u8> = columns(2).into_iter().chain(rows).collect();
    assert_check("255 deep", &descriptor, "items 2");
    assert_eq!(lend(&descriptor, &[7, 8], 1), [8]);
    let one_more = [&descriptor[..], &[6, 0x75, 255, 1, 0, 1]].concat();
    assert_check("no id left", &one_more, "refused 7 1539");
}
