//! Null indicators: each of the 256 with every nullable type, alone and among other items, with
//! bytes behind it and without; and bad ones in items that are not asked for.

use differential::answers;
use differential::triplets::{column, layout, row, sda, Group};
use reader::{BAD_INDICATOR, MAX_ITEMS};

use super::codes::compare_parts;
use crate::compare::Comparison;

/// Type code, mode, field length or digits, and the bytes of a value behind the indicator.
const ITEMS: [(u8, u8, u16, &[u8]); 20] = [
    (0x81, 0, 0, &[]),
    (0x81, 0, 3, &[0x41, 0x01, 0x80]),
    (0x82, 0, 0, &[0, 2, 0x41, 0x42]),
    (0x82, 0, 3, &[0, 1, 0x41, 0, 0]),
    (0x82, 1, 3, &[0, 3, 0x41, 0x42, 0x43]),
    (0x83, 0, 0, &[0x41, 0x42, 0]),
    (0x83, 0, 3, &[0x41, 0, 0x42, 0x43]),
    (0x83, 1, 3, &[0x41, 0x42, 0x43, 0]),
    (0x87, 0, 0, &[2, 0x41, 0x42]),
    (0x87, 0, 3, &[1, 0x41, 0, 0]),
    (0x87, 1, 3, &[3, 0x41, 0x42, 0x43]),
    (0xA3, 0, 2, &[0xFF, 0xFE]),
    (0xA3, 0, 8, &[0x80, 0, 0, 0, 0, 0, 0, 1]),
    (0xA4, 0, 4, &[0xFE, 0xFF, 0xFF, 0xFF]),
    (0xB0, 0, 0x0301, &[0x12, 0x3D]),
    (0xC0, 0, 0, &[0x41, 0x10, 0, 0, 0, 0, 0, 0]),
    (0xC0, 0, 16, &[0x41; 16]),
    (0xC7, 0, 0, &[0, 0, 0x80, 0x3F]),
    (0xC8, 0, 4, &[0x3F, 0x80, 0, 0]),
    (0xC8, 0, 8, &[0x7F, 0xF0, 0, 0, 0, 0, 0, 0]),
];

const BAD: [u8; 4] = [0x01, 0x02, 0x40, 0x7F];

/// One item, cut at every byte, whole and continued. What must be refused is told here too.
pub fn every_indicator(comparison: &mut Comparison) {
    for (type_code, mode, size, value) in ITEMS {
        let descriptor = sda(1, type_code, mode, size, &[]);
        for indicator in 0..=255 {
            let item = [&[indicator], value, &[0]].concat();
            compare_parts(comparison, &descriptor, &item);
            if matches!(indicator, 0x01..=0x7F) {
                for length in 1..=item.len() {
                    expect_bad(comparison, &descriptor, &item[..length], 0);
                }
            }
        }
    }
}

/// Counts a block that is not refused for its indicator at a place.
fn expect_bad(comparison: &mut Comparison, descriptor: &[u8], data: &[u8], place: u32) {
    let state = answers::state(descriptor, data, 0);
    if (state.number, state.place) != (BAD_INDICATOR, place) {
        comparison.fail(&format!("{descriptor:02X?} {data:02X?}: {state:?}"));
    }
}

/// An item between others and behind its like: of rows, of columns, and of rows to the end.
pub fn every_place(comparison: &mut Comparison) {
    for (type_code, mode, size, value) in ITEMS {
        let fields = [sda(1, type_code, mode, size, &[]), sda(2, 0x01, 0, 2, &[])].concat();
        let good = [&[0], value].concat();
        for indicator in 0..=255 {
            let item = [&[indicator], value].concat();
            let columns = [[2, 0, 0], [1, 0, 0], [2, 0, 0]];
            for triplet in [row(3, &columns.map(once)), layout(3, &columns)] {
                let descriptor = [&fields[..], &triplet].concat();
                compare_behind(comparison, &descriptor, &[1, 0x7F], &item, &[1, 0x7F]);
            }
            for groups in [&[[1, 0, 3]][..], &[[1, 0, 0]], &[[1, 0, 1], [1, 0, 0]]] {
                let descriptor = [&fields[..], &row(3, groups)].concat();
                compare_behind(comparison, &descriptor, &[], &item, &good);
                compare_behind(comparison, &descriptor, &good, &item, &[0x80]);
                compare_behind(comparison, &descriptor, &[0xFF, 0x80], &item, &[]);
            }
        }
    }
}

fn once([id, _, _]: Group) -> Group {
    [id, 0, 1]
}

/// Compares an item behind others and before others: whole, and cut behind its indicator.
fn compare_behind(
    comparison: &mut Comparison,
    descriptor: &[u8],
    before: &[u8],
    item: &[u8],
    behind: &[u8],
) {
    let whole = [before, item, behind].concat();
    comparison.compare(descriptor, &whole);
    comparison.compare(descriptor, &whole[..=before.len()]);
}

pub fn every_item(comparison: &mut Comparison) {
    rows_of_all(comparison);
    many_rows(comparison);
}

/// A row of all items, a GDA of them, and two passes of rows to the end.
fn rows_of_all(comparison: &mut Comparison) {
    let (mut fields, mut columns, mut items) = (Vec::new(), Vec::new(), Vec::new());
    for (id, (type_code, mode, size, value)) in (1..).zip(ITEMS) {
        fields.extend(sda(id, type_code, mode, size, &[]));
        columns.push(column(id, 0));
        items.push([&[0], value].concat());
    }
    let groups: Vec<Group> = columns.iter().copied().map(once).collect();
    for triplet in [row(31, &groups), layout(31, &columns)] {
        let descriptor = [&fields[..], &triplet].concat();
        compare_each(comparison, &descriptor, &items);
        let rows = [&descriptor[..], &row(32, &[[31, 0, 0]])].concat();
        compare_each(comparison, &rows, &[&items[..], &items].concat());
    }
}

/// Compares a block with a bad indicator in each item in turn, on all item numbers and some past
/// the last.
fn compare_each(comparison: &mut Comparison, descriptor: &[u8], items: &[Vec<u8>]) {
    for bad in 0..items.len() {
        let start = items[..bad].concat().len();
        for indicator in BAD {
            let mut data = items.concat();
            data[start] = indicator;
            comparison.compare(descriptor, &data);
            expect_bad(comparison, descriptor, &data, start as u32);
            for item in 0..=items.len() as u32 + 1 {
                comparison.compare_item(descriptor, &data, item);
            }
        }
    }
}

/// Rows to the end of up to 4,096 nulls and more, with a bad indicator among them.
fn many_rows(comparison: &mut Comparison) {
    for (type_code, size) in [(0x81, 1), (0x82, 0), (0xA3, 2)] {
        let descriptor = [sda(1, type_code, 0, size, &[]), row(2, &[[1, 0, 0]])].concat();
        for before in [0, 1, 255, 4094, 4095, 4096, 4097] {
            for indicator in BAD {
                let mut data = vec![0x80; MAX_ITEMS + 9];
                data[before] = indicator;
                comparison.compare(&descriptor, &data);
                comparison.compare(&descriptor, &data[..=before]);
                comparison.compare(&descriptor, &data[..before]);
            }
        }
    }
}
