//! Rows to the end: of every type, over and behind triplets of every kind, and around as many
//! items as a block may have.

use differential::triplets::{column, layout, of_parts, row, sda, Group, CPT, GDA, RLO};
use reader::generate::{Case, Generator};
use reader::{unfold, ENDLESS, MAX_DATA, MAX_ITEMS, NOT_CARRIED};

use super::codes::{compare_parts, VALUES};
use super::layouts::compare_runs;
use crate::compare::Comparison;

/// The carried types, and two codes that have no rule.
const PLAIN_CODES: [u8; 12] = [
    0x00, 0x01, 0x02, 0x03, 0x07, 0x10, 0x23, 0x24, 0x30, 0x40, 0x47, 0x48,
];

/// Field lengths, and digits with fraction digits: each carried type has one of them.
const SIZES: [u16; 7] = [0, 1, 2, 3, 4, 8, 0x0302];

/// Rows of one field, and rows of it with one without bytes behind.
pub fn every_code(comparison: &mut Comparison) {
    let nothing = sda(2, 0x01, 0, 0, &[]);
    let pair = row(3, &[[1, 0, 1], [2, 0, 1]]);
    for code in PLAIN_CODES.iter().flat_map(|plain| [*plain, plain + 0x80]) {
        for (size, mode) in SIZES.iter().flat_map(|&size| [(size, 0), (size, 1)]) {
            let field = sda(1, code, mode, size, &[]);
            for descriptor in [
                [&field[..], &row(4, &[[1, 0, 0]])].concat(),
                [&field[..], &nothing, &pair, &row(4, &[[3, 0, 0]])].concat(),
            ] {
                for value in VALUES {
                    compare_parts(comparison, &descriptor, &value);
                    compare_parts(comparison, &descriptor, &[&[0], &value[..]].concat());
                }
                compare_parts(comparison, &descriptor, &[0x80; 9]);
            }
        }
    }
}

pub fn varied_data(comparison: &mut Comparison) {
    for (descriptor, data) in blocks() {
        assert!(reader::state(&descriptor, &data, 0).is_ok());
        compare_parts(comparison, &descriptor, &data);
        for behind in [&[0][..], &[0x80], &[0xFF; 2], &[0; 17]] {
            comparison.compare(&descriptor, &[&data, behind].concat());
        }
        for offset in 0..data.len() {
            let mut changed = data.clone();
            for byte in 0..=255 {
                changed[offset] = byte;
                comparison.compare(&descriptor, &changed);
            }
        }
    }
}

/// Rows to the end of each kind.
fn blocks() -> [(Vec<u8>, Vec<u8>); 7] {
    let fields = [[5, 0, 1], [4, 0, 1], [4, 0, 0]];
    let before = [&[5, 6, 0x80, 0, 0][..], &PAIRS].concat();
    [
        (over(&[], &[[4, 0, 0]]), PAIRS.to_vec()),
        (over(&[], &fields), before.clone()),
        (
            [fields_of(), of_parts(RLO, 7, fields.chunks(2))].concat(),
            before,
        ),
        (
            over(&row(6, &[[4, 0, 1], [3, 0, 2]]), &[[6, 0, 0]]),
            PAIRS.to_vec(),
        ),
        (
            over(&row(6, &[[3, 0, 2], [4, 0, 1]]), &[[6, 0, 0]]),
            PAIRS.to_vec(),
        ),
        columns(),
        elements(),
    ]
}

/// Three passes of a whole number and a string, the first number and the last being no null.
const PAIRS: [u8; 16] = [0, 1, 2, 0, 2, 7, 8, 0x80, 0, 0, 0, 3, 4, 0, 1, 9];

/// A whole number, a string, a field without bytes, an RLO of id 4 over the first two, and a field
/// of two bytes.
fn fields_of() -> Vec<u8> {
    [
        sda(1, 0xA4, 0, 2, &[]),
        sda(2, 0x02, 1, 3, &[]),
        sda(3, 0x01, 0, 0, &[]),
        row(4, &[[1, 0, 1], [2, 0, 1]]),
        sda(5, 0x01, 0, 2, &[]),
    ]
    .concat()
}

/// Those fields, another triplet and an RLO.
fn over(lower: &[u8], groups: &[Group]) -> Vec<u8> {
    [&fields_of()[..], lower, &row(7, groups)].concat()
}

/// Rows of columns with lengths put in and kept.
fn columns() -> (Vec<u8>, Vec<u8>) {
    let columns = layout(6, &[column(1, 4), column(3, 0), column(2, 2)]);
    let data = [
        &[0, 1, 2, 3, 4, 0, 1, 9][..],
        &[0x80, 0, 2, 7, 8],
        &[0x80, 0, 0],
    ];
    (over(&columns, &[[6, 0, 0]]), data.concat())
}

/// Rows of two elements of two items each, behind one element.
fn elements() -> (Vec<u8>, Vec<u8>) {
    let descriptor = [sda(1, 0x81, 0, 1, &[2, 2]), row(2, &[[1, 1, 1], [1, 2, 0]])];
    let data = [&[0x80, 0x80][..], &[0, 7, 0x80, 0x80, 0, 8], &[0x80; 8]];
    (descriptor.concat(), data.concat())
}

/// Triplets and a byte around factor 0.
pub fn every_run(comparison: &mut Comparison) {
    let one = |construct, id, group: Group| of_parts(construct, id, [&[group][..]].into_iter());
    let parts = [
        sda(1, 0x01, 0, 0, &[]),
        sda(2, 0x87, 0, 0, &[1]),
        one(RLO, 3, [1, 0, 2]),
        one(RLO, 3, [2, 2, 0]),
        one(RLO, 4, [1, 0, 0]),
        one(RLO, 4, [3, 0, 0]),
        one(RLO, 4, [5, 0, 0]),
        one(GDA, 5, column(1, 0)),
        one(GDA, 5, column(1, 1)),
        one(CPT, 0, [1, 0, 0]),
        one(CPT, 0, [2, 0, 0]),
        one(CPT, 0, [5, 1, 0]),
        vec![6],
    ];
    compare_runs(comparison, &parts[..2].concat(), &parts);
}

pub fn counts(comparison: &mut Comparison) {
    most_items(comparison);
    most_bytes(comparison);
    long_passes(comparison);
}

/// Around 4,096 items, by fields before the rows and by passes of any length.
fn most_items(comparison: &mut Comparison) {
    for (type_code, byte) in [(0x01, 7), (0x81, 0x80)] {
        for before in [0, 1, 2, 64, 4095, 4096] {
            for pass in [1, 2, 3, 7, 64, 255, 4096] {
                for first in [0, pass / 2, pass - 1] {
                    let descriptor = rows_of(type_code, before, pass, first);
                    let whole = (MAX_ITEMS - before) / pass;
                    for passes in whole.saturating_sub(1)..=whole + 2 {
                        comparison.compare(&descriptor, &vec![byte; passes]);
                    }
                }
            }
        }
    }
}

/// Rows of `pass` items behind `before` fields. In a pass one item has bytes, which stands behind
/// `first` others.
fn rows_of(type_code: u8, before: usize, pass: usize, first: usize) -> Vec<u8> {
    let rest = pass - 1 - first;
    let nothing = |id, count: usize| sda(id, 0x01, 0, 0, &[count.max(1) as u16]);
    let group = |id, count: usize| (count > 0).then_some([id, 0, 1]);
    let item = Some([1, 0, 1]);
    let pass: Vec<Group> = [group(3, first), item, group(4, rest)]
        .into_iter()
        .flatten()
        .collect();
    let rows: Vec<Group> = group(2, before).into_iter().chain([[5, 0, 0]]).collect();
    [
        sda(1, type_code, 0, 1, &[]),
        nothing(2, before),
        nothing(3, first),
        nothing(4, rest),
        row(5, &pass),
        row(6, &rows),
    ]
    .concat()
}

/// Rows of one field, with data around 4,096 of it and around the longest.
fn most_bytes(comparison: &mut Comparison) {
    for length in [1, 2, 7, 8, 9, 32_767] {
        let descriptor = [sda(1, 0x01, 0, length, &[]), row(2, &[[1, 0, 0]])].concat();
        let items = MAX_ITEMS * usize::from(length);
        for size in (items - 2..=items + 2).chain(MAX_DATA - 2..=MAX_DATA + 1) {
            comparison.compare(&descriptor, &vec![7; size.min(MAX_DATA + 1)]);
        }
    }
}

/// Passes of up to 1,044,480 items, also behind others.
fn long_passes(comparison: &mut Comparison) {
    let sizes = [
        0, 1, 2, 254, 255, 256, 509, 510, 511, 4095, 4096, 4097, 8192, MAX_DATA,
    ];
    for (extents, taken) in [
        (&[1, 4096][..], 255),
        (&[1, 4096], 0),
        (&[1, 241], 17),
        (&[3, 64], 64),
        (&[4096], 0),
        (&[1], 255),
        (&[2, 2], 255),
    ] {
        for type_code in [0x01, 0x81, 0x82] {
            let sda = sda(1, type_code, 0, 1, extents);
            for groups in [&[[1, taken, 0]][..], &[[1, 1, 1], [1, taken, 0]]] {
                let descriptor = [&sda[..], &row(2, groups)].concat();
                for size in sizes {
                    comparison.compare(&descriptor, &vec![0x80; size]);
                }
            }
        }
    }
}

pub fn generated(comparison: &mut Comparison) {
    for case in Generator::new(6).filter(may_have_rows).take(30_000) {
        comparison.compare(&case.descriptor, &case.data);
    }
}

/// Whether there are rows to the end, or a refusal that is told of them.
fn may_have_rows(case: &Case) -> bool {
    match unfold(&case.descriptor) {
        Ok(unfolding) => unfolding.rows.is_some(),
        Err(refusal) => matches!(refusal.number, NOT_CARRIED | ENDLESS),
    }
}
