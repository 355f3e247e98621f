//! Descriptors with one byte changed, to every other value at every position.

use differential::triplets::{column, of_parts, row, sda, GDA, RLO};

use crate::compare::Comparison;

pub fn every_change(comparison: &mut Comparison) {
    for (descriptor, data) in blocks() {
        assert!(reader::state(&descriptor, &data, 0).is_ok());
        for offset in 0..descriptor.len() {
            let mut changed = descriptor.clone();
            for change in 1..=255 {
                changed[offset] = descriptor[offset] ^ change;
                comparison.compare(&changed, &data);
            }
        }
    }
}

fn blocks() -> [(Vec<u8>, Vec<u8>); 9] {
    [
        nullable_strings(),
        overrides(),
        mixed_row(),
        nested_rows(),
        packed_decimals(),
        floats(),
        columns(),
        rows(),
        rows_of_columns(),
    ]
}

fn nullable_strings() -> (Vec<u8>, Vec<u8>) {
    let descriptor = [sda(0xB1, 0x81, 0, 3, &[]), row(0xA1, &[[0xB1, 0, 2]])];
    (descriptor.concat(), b"\0abc\x80".to_vec())
}

/// Figure 3-6 of the standard.
fn overrides() -> (Vec<u8>, Vec<u8>) {
    let descriptor = [
        sda(0xB1, 0x01, 0, 3, &[]),
        sda(0xB2, 0x01, 0, 1, &[9]),
        row(0xA1, &[[0xB1, 0, 4], [0xB2, 4, 1], [0xB2, 10, 2]]),
        row(0xA2, &[[0xA1, 0, 2]]),
    ];
    (descriptor.concat(), vec![b'X'; 72])
}

/// An ISD, every kind of length field, an RLO and its CPTs.
fn mixed_row() -> (Vec<u8>, Vec<u8>) {
    let groups = [[1, 0, 1], [2, 0, 1], [3, 2, 1], [4, 0, 1], [5, 0, 2]];
    let descriptor = [
        vec![6, 0x7E, 0, 1, 0, 1],
        sda(1, 0x82, 1, 4, &[]),
        sda(2, 0x03, 0, 3, &[]),
        sda(3, 0x07, 0, 0, &[1, 2]),
        sda(4, 0xA4, 0, 4, &[1]),
        sda(5, 0x48, 0, 4, &[]),
        of_parts(RLO, 9, groups.chunks(2)),
    ];
    let data = [
        &[0, 0, 2, b'a', b'b'][..],
        b"x\0yz",
        &[1, b'a', 0, 2, b'b', b'c', 0],
        &[0, 0xFE, 0xFF, 0xFF, 0xFF],
        &[0; 8],
    ];
    (descriptor.concat(), data.concat())
}

/// Figure 3-8 of the standard.
fn nested_rows() -> (Vec<u8>, Vec<u8>) {
    let descriptor = [
        sda(0xB1, 0x01, 0, 1, &[3]),
        row(0xA1, &[[0xB1, 1, 1], [0xB1, 0, 1]]),
        row(0xA2, &[[0xB1, 0, 1], [0xB1, 4, 1]]),
        row(0xA3, &[[0xB1, 2, 1], [0xB1, 0, 1]]),
        row(0xA4, &[[0xB1, 0, 2]]),
        row(0xA5, &[[0xA1, 0, 1], [0xA2, 0, 1], [0xA3, 0, 1]]),
        row(0xA6, &[[0xA4, 0, 3]]),
        row(0xA7, &[[0xA5, 0, 1], [0xA6, 0, 1]]),
    ];
    (descriptor.concat(), vec![b'a'; 34])
}

/// Odd and even numbers of digits, a null, and a bad digit.
fn packed_decimals() -> (Vec<u8>, Vec<u8>) {
    let descriptor = [
        sda(1, 0x30, 0, 0x0301, &[2]),
        sda(2, 0xB0, 0, 0x1212, &[]),
        row(3, &[[1, 0, 1], [2, 0, 2]]),
    ];
    let data = [
        &[0x12, 0x3C, 0x1A, 0x3D][..],
        &[
            0, 0x09, 0x87, 0x65, 0x43, 0x21, 0x01, 0x23, 0x45, 0x67, 0x8D,
        ],
        &[0x80],
    ];
    (descriptor.concat(), data.concat())
}

/// Field lengths that give way to the type's default: of zero parameters, of a null, and
/// with the highest bit.
fn floats() -> (Vec<u8>, Vec<u8>) {
    let descriptor = [
        sda(1, 0x40, 0, 0, &[2]),
        sda(2, 0xC7, 0, 3, &[]),
        sda(3, 0x48, 0, 0x8000, &[]),
        row(4, &[[1, 0, 1], [2, 0, 2], [3, 0, 1]]),
    ];
    let data = [&[0x41; 16][..], &[0, 1, 2, 3, 4], &[0x80], &[0x3F; 4]];
    (descriptor.concat(), data.concat())
}

/// Lengths put in and kept, a CPT, and rows over them.
fn columns() -> (Vec<u8>, Vec<u8>) {
    let columns = [
        column(1, 2),
        column(2, 0x0402),
        column(3, 0),
        column(1, 0),
        column(4, 3),
    ];
    let descriptor = [
        sda(1, 0x23, 0, 4, &[]),
        sda(2, 0xB0, 0, 0x0301, &[]),
        sda(3, 0x47, 0, 0, &[]),
        sda(4, 0x02, 1, 9, &[]),
        of_parts(GDA, 5, columns.chunks(3)),
        row(6, &[[5, 0, 2], [1, 0, 1]]),
    ];
    let first = [
        &[0xFF, 0xFE][..],
        &[0, 0x01, 0x23, 0x4D],
        &[0x3F; 4],
        &[0, 0, 0, 7],
        &[0, 3, b'a', b'b', b'c'],
    ];
    let second = [&[1, 2][..], &[0x80], &[0x3F; 4], &[8; 4], &[0, 0]];
    let data = [&first.concat()[..], &second.concat(), &[9; 4]];
    (descriptor.concat(), data.concat())
}

/// Two passes of rows behind a field, with elements taken and an item without bytes.
fn rows() -> (Vec<u8>, Vec<u8>) {
    let descriptor = [
        sda(1, 0x81, 0, 1, &[2]),
        sda(2, 0x01, 0, 0, &[]),
        row(3, &[[1, 2, 1], [2, 0, 1]]),
        of_parts(RLO, 4, [[2, 0, 1], [3, 0, 0]].chunks(1)),
    ];
    let data = [0, 7, 0x80, 0x80, 0, 8];
    (descriptor.concat(), data.to_vec())
}

/// Three passes of a column with a length put in, and one without bytes.
fn rows_of_columns() -> (Vec<u8>, Vec<u8>) {
    let descriptor = [
        sda(1, 0x01, 0, 0, &[]),
        of_parts(GDA, 2, [&[column(1, 2), column(1, 0)][..]].into_iter()),
        row(3, &[[2, 0, 0]]),
    ];
    (descriptor.concat(), b"abcdef".to_vec())
}
